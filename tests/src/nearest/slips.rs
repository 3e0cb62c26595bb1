//! Wrong searches for what is nearest.

use crate::nearest::{
    axis_gap, bad_box, fault, lowest, nearest, nearest_by, refused, squared_gap, NearestTold,
};
use crate::overlay::Shape;
use crate::reference::{grow, layers_of, ungrown, Layers, Rect};

/// A wrong version.
pub type WrongNearest = fn(&Shape, &[i32], [i32; 4]) -> NearestTold;

/// The rule with another gap between a box and a rectangle.
pub fn by_gap(
    shape: &Shape,
    cells: &[i32],
    around: [i32; 4],
    gap: fn([i32; 4], &Rect) -> i128,
) -> NearestTold {
    match fault(shape, cells, around) {
        0 => nearest_by(layers_of(shape, cells), &|r| gap(around, r), &lowest),
        number => refused(number),
    }
}

/// The sum of both gaps in the place of their squares.
pub fn not_squared(shape: &Shape, cells: &[i32], around: [i32; 4]) -> NearestTold {
    by_gap(shape, cells, around, |b, r| {
        axis_gap((b[0], b[2]), (r.left, r.right)) + axis_gap((b[1], b[3]), (r.bottom, r.top))
    })
}

/// The larger of both gaps, squared.
pub fn larger_gap(shape: &Shape, cells: &[i32], around: [i32; 4]) -> NearestTold {
    by_gap(shape, cells, around, |b, r| {
        axis_gap((b[0], b[2]), (r.left, r.right)).max(axis_gap((b[1], b[3]), (r.bottom, r.top))).pow(2)
    })
}

/// Edges that touch told as a millimetre apart.
pub fn open_edges(shape: &Shape, cells: &[i32], around: [i32; 4]) -> NearestTold {
    by_gap(shape, cells, around, |b, r| {
        let touches = b[2] == r.left || r.right == b[0] || b[3] == r.bottom || r.top == b[1];
        squared_gap(b, r) + i128::from(touches && squared_gap(b, r) == 0)
    })
}

/// The distance of the left lower corners.
pub fn of_corners(shape: &Shape, cells: &[i32], around: [i32; 4]) -> NearestTold {
    by_gap(shape, cells, around, |b, r| {
        (i128::from(b[0]) - i128::from(r.left)).pow(2) + (i128::from(b[1]) - i128::from(r.bottom)).pow(2)
    })
}

/// The gap kept in 32 bits.
pub fn narrow(shape: &Shape, cells: &[i32], around: [i32; 4]) -> NearestTold {
    let mut told = nearest(shape, cells, around);
    told.layers.iter_mut().for_each(|entry| entry.gap &= 0xFFFF_FFFF);
    told
}

/// The highest place among equals.
pub fn highest(shape: &Shape, cells: &[i32], around: [i32; 4]) -> NearestTold {
    let last =
        |gaps: &[(i128, usize)]| gaps.iter().copied().min_by_key(|&(gap, place)| (gap, usize::MAX - place));
    match fault(shape, cells, around) {
        0 => nearest_by(layers_of(shape, cells), &|r| squared_gap(around, r), &last),
        number => refused(number),
    }
}

/// The bottom of the box taken for its right.
pub fn sides_exchanged(shape: &Shape, cells: &[i32], around: [i32; 4]) -> NearestTold {
    let [left, bottom, right, top] = around;
    nearest(shape, cells, [left, right, bottom, top])
}

/// An empty layer told as found.
pub fn empty_found(shape: &Shape, cells: &[i32], around: [i32; 4]) -> NearestTold {
    let mut told = nearest(shape, cells, around);
    if told.number == 0 {
        told.layers.iter_mut().take(shape.k as usize).for_each(|entry| entry.found = true);
    }
    told
}

/// 14 asked before the causes of the plan.
pub fn box_first(shape: &Shape, cells: &[i32], around: [i32; 4]) -> NearestTold {
    if bad_box(around) {
        refused(14)
    } else {
        nearest(shape, cells, around)
    }
}

/// A box with its sides the wrong way round let through.
pub fn box_turned(shape: &Shape, cells: &[i32], around: [i32; 4]) -> NearestTold {
    let [left, bottom, right, top] = around;
    nearest(shape, cells, [left.min(right), bottom.min(top), left.max(right), bottom.max(top)])
}

/// A box out of range let through.
pub fn box_anywhere(shape: &Shape, cells: &[i32], around: [i32; 4]) -> NearestTold {
    match fault(shape, cells, around) {
        14 if around[0] <= around[2] && around[1] <= around[3] => {
            nearest_by(layers_of(shape, cells), &|r| squared_gap(around, r), &lowest)
        }
        _ => nearest(shape, cells, around),
    }
}

/// A box beyond the range of before refused.
pub fn box_near(shape: &Shape, cells: &[i32], around: [i32; 4]) -> NearestTold {
    match nearest(shape, cells, around) {
        NearestTold { number: 0, .. } if around.iter().any(|side| side.abs() > 1_000_000) => refused(14),
        told => told,
    }
}

/// A refusal with an entry left in it.
pub fn refusal_filled(shape: &Shape, cells: &[i32], around: [i32; 4]) -> NearestTold {
    let mut told = nearest(shape, cells, around);
    if told.number == 14 {
        told.layers[0].gap = 1;
    }
    told
}

/// Layers other than the grown ones.
pub fn by_layers(
    shape: &Shape,
    cells: &[i32],
    around: [i32; 4],
    layers: fn(&Shape, &[i32]) -> Layers,
) -> NearestTold {
    match fault(shape, cells, around) {
        0 => nearest_by(layers(shape, cells), &|r| squared_gap(around, r), &lowest),
        number => refused(number),
    }
}

/// Rectangles as they are drawn.
pub fn not_grown(shape: &Shape, cells: &[i32], around: [i32; 4]) -> NearestTold {
    by_layers(shape, cells, around, ungrown)
}

/// The box grown by each layer's margin as well, which leaves the gaps that rectangles grown twice have.
pub fn box_grown(shape: &Shape, cells: &[i32], around: [i32; 4]) -> NearestTold {
    by_layers(shape, cells, around, |shape, cells| {
        let layers = layers_of(shape, cells).into_iter().zip(shape.margins);
        layers.map(|(rects, margin)| rects.into_iter().map(|r| grow(r, margin)).collect()).collect()
    })
}

/// Every wrong version with its description.
pub const WRONG_NEAREST: [(WrongNearest, &str); 15] = [
    (not_squared, "gaps not squared"),
    (larger_gap, "the larger gap alone"),
    (open_edges, "touching told as a gap"),
    (of_corners, "corners in the place of edges"),
    (narrow, "gaps in 32 bits"),
    (highest, "the highest place among equals"),
    (sides_exchanged, "the box read as left, right, bottom, top"),
    (empty_found, "an empty layer told as found"),
    (box_first, "14 before the causes of the plan"),
    (box_turned, "a box with its sides the wrong way round accepted"),
    (box_anywhere, "a box out of range accepted"),
    (box_near, "a box of the old range alone accepted"),
    (refusal_filled, "a refusal with an entry"),
    (not_grown, "rectangles not grown"),
    (box_grown, "the box grown too"),
];
