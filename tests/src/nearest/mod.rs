//! The nearest rectangles to a box: the rule written a second time, wrong versions of it, and a comparison.

pub mod compare;
pub mod slips;

use crate::overlay::Shape;
use crate::reference::{layers_of, plan_fault, Layers, Rect, REACH};
pub use compare::compare_nearest;
pub use slips::WRONG_NEAREST;

/// What lies nearest in one layer.
#[derive(Clone, Copy, Debug, Default, PartialEq, Eq)]
pub struct Near {
    pub found: bool,
    pub place: u32,
    pub gap: u64,
}

/// What the call returns: the number of a cause, and six entries.
#[derive(Clone, Copy, Debug, PartialEq, Eq)]
pub struct NearestTold {
    pub number: u32,
    pub layers: [Near; 6],
}

/// The call as a function of a plan and a box (left, bottom, right, top).
pub type Nearest<'a> = &'a dyn Fn(&Shape, &[i32], [i32; 4]) -> NearestTold;

/// "The gap along an axis is 0 where the extents meet, else the distance between facing edges".
pub fn axis_gap(a: (i32, i32), b: (i32, i32)) -> i128 {
    let meet = a.0.max(b.0) <= a.1.min(b.1);
    let facing = if a.1 < b.0 { (a.1, b.0) } else { (b.1, a.0) };
    if meet {
        0
    } else {
        i128::from(facing.1) - i128::from(facing.0)
    }
}

/// "the squared gap is the sum of both squares".
pub fn squared_gap(around: [i32; 4], r: &Rect) -> i128 {
    let across = axis_gap((around[0], around[2]), (r.left, r.right));
    let upward = axis_gap((around[1], around[3]), (r.bottom, r.top));
    across * across + upward * upward
}

/// "left > right, bottom > top or a coordinate out of range".
pub fn bad_box(around: [i32; 4]) -> bool {
    let out = around.iter().any(|&c| !(-REACH..=REACH).contains(&c));
    out || around[0] > around[2] || around[1] > around[3]
}

/// Checks 1, 2, 17, 3, 4, and 14 after them.
pub fn fault(shape: &Shape, cells: &[i32], around: [i32; 4]) -> u32 {
    match plan_fault(shape, cells) {
        0 if bad_box(around) => 14,
        number => number,
    }
}

/// A refusal: its number, and nothing found.
pub fn refused(number: u32) -> NearestTold {
    NearestTold { number, layers: [Near::default(); 6] }
}

/// Layers judged by any gap; `least` picks the entry among place and gap.
pub fn nearest_by(
    layers: Layers,
    gap: &dyn Fn(&Rect) -> i128,
    least: &dyn Fn(&[(i128, usize)]) -> Option<(i128, usize)>,
) -> NearestTold {
    let mut told = refused(0);
    for (entry, rects) in told.layers.iter_mut().zip(layers) {
        let gaps: Vec<(i128, usize)> = rects.iter().map(gap).zip(0..).collect();
        if let Some((gap, place)) = least(&gaps) {
            *entry = Near { found: true, place: place as u32, gap: gap as u64 };
        }
    }
    told
}

/// The smallest gap, and "Among equals the lowest place wins".
pub fn lowest(gaps: &[(i128, usize)]) -> Option<(i128, usize)> {
    gaps.iter().min().copied()
}

/// The rule.
pub fn nearest(shape: &Shape, cells: &[i32], around: [i32; 4]) -> NearestTold {
    match fault(shape, cells, around) {
        0 => nearest_by(layers_of(shape, cells), &|r| squared_gap(around, r), &lowest),
        number => refused(number),
    }
}
