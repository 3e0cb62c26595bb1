//! Judging a plan and growing it.

pub mod compare;
pub mod slips;

use crate::overlay::Shape;

/// "10,000,000 either way of 0".
pub const REACH: i32 = 10_000_000;

/// A closed rectangle, or an intersection, which is empty where two sides are reversed.
#[derive(Clone, Copy, Debug, PartialEq, Eq, PartialOrd, Ord)]
pub struct Rect {
    pub left: i32,
    pub bottom: i32,
    pub right: i32,
    pub top: i32,
}

/// The rectangles of each layer by place.
pub type Layers = Vec<Vec<Rect>>;

/// The common part of two rectangles.
pub fn intersection(a: Rect, b: Rect) -> Rect {
    Rect {
        left: a.left.max(b.left),
        bottom: a.bottom.max(b.bottom),
        right: a.right.min(b.right),
        top: a.top.min(b.top),
    }
}

/// "Edges belong to the rectangles, so touching counts": empty only where sides are reversed.
pub fn is_empty(r: Rect) -> bool {
    r.left > r.right || r.bottom > r.top
}

/// "B's width times its height in square millimetres".
pub fn area(r: Rect) -> u64 {
    let width = i64::from(r.right) - i64::from(r.left);
    let height = i64::from(r.top) - i64::from(r.bottom);
    (width * height) as u64
}

/// The sum of all six sizes.
pub fn total(shape: &Shape) -> u64 {
    shape.sizes.iter().map(|&size| u64::from(size)).sum()
}

/// "k outside 2 to 6".
pub fn bad_k(shape: &Shape) -> bool {
    shape.k < 2 || shape.k > 6
}

/// "a size above 512, or not 0 past k".
pub fn bad_size(shape: &Shape) -> bool {
    (0..6).any(|j| shape.sizes[j] > 512 || (j >= shape.k as usize && shape.sizes[j] != 0))
}

/// "a margin out of range, or not 0 past k".
pub fn bad_margin(shape: &Shape) -> bool {
    (0..6).any(|j| shape.margins[j] > 50_000 || (j >= shape.k as usize && shape.margins[j] != 0))
}

/// "a coordinate out of range, left > right or bottom > top"; "check 4 and the text take it ungrown".
pub fn bad_rect(rect: &[i32]) -> bool {
    let out = rect.iter().any(|&c| !(-REACH..=REACH).contains(&c));
    out || rect[0] > rect[2] || rect[1] > rect[3]
}

/// The first of these causes of a plan that applies; 0 where none does. 3 stands before 4.
pub fn first_of(causes: &[u32], shape: &Shape, cells: &[i32]) -> u32 {
    let applies = |cause: &u32| match cause {
        1 => bad_k(shape),
        2 => bad_size(shape),
        17 => bad_margin(shape),
        3 => cells.len() as u64 != 4 * total(shape),
        4 => cells.chunks(4).any(bad_rect),
        _ => unreachable!("{cause} is no cause of a plan"),
    };
    causes.iter().copied().find(applies).unwrap_or(0)
}

/// Checks 1 to 4 in the order of the lines, and "17, after 2"; 0 where the plan is sound.
pub fn plan_fault(shape: &Shape, cells: &[i32]) -> u32 {
    first_of(&[1, 2, 17, 3, 4], shape, cells)
}

/// The rectangles of a sound plan as they are handed over, "Layer 1 comes first".
pub fn ungrown(shape: &Shape, cells: &[i32]) -> Layers {
    let mut rects = cells.chunks(4).map(|c| Rect { left: c[0], bottom: c[1], right: c[2], top: c[3] });
    let sizes = &shape.sizes[..shape.k as usize];
    sizes.iter().map(|&size| rects.by_ref().take(size as usize).collect()).collect()
}

/// "the one grown by its margin on all four sides".
pub fn grow(r: Rect, margin: u32) -> Rect {
    let margin = margin as i32;
    Rect { left: r.left - margin, bottom: r.bottom - margin, right: r.right + margin, top: r.top + margin }
}

/// The rectangles of a sound plan as they are "compared, guarded, sorted or measured".
pub fn layers_of(shape: &Shape, cells: &[i32]) -> Layers {
    let layers = ungrown(shape, cells).into_iter().zip(shape.margins);
    layers.map(|(rects, margin)| rects.into_iter().map(|r| grow(r, margin)).collect()).collect()
}
