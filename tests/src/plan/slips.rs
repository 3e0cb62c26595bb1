//! Slips of judging a plan and of growing it: other rules, so of every call.

use crate::overlay::Shape;
use crate::reference::{
    first_of, grow, layers_of, plan_fault, ungrown, Layers, Rect, Rules, REACH, REFERENCE,
};
use crate::slips::{Calls, Slip, RIGHT};

/// The layers with each rectangle made of its layer and itself as it is drawn.
fn layers_by(shape: &Shape, cells: &[i32], made: impl Fn(usize, Rect) -> Rect) -> Layers {
    let layers = ungrown(shape, cells).into_iter().enumerate();
    layers.map(|(j, rects)| rects.into_iter().map(|r| made(j, r)).collect()).collect()
}

/// Layers grown by the margin of the next layer, the last by that of the first.
fn by_neighbour(shape: &Shape, cells: &[i32]) -> Layers {
    layers_by(shape, cells, |j, r| grow(r, shape.margins[(j + 1) % shape.k as usize]))
}

/// Layers grown on three sides: the grown rectangle and the drawn one make one.
fn by_three(shape: &Shape, cells: &[i32], made: fn(Rect, Rect) -> Rect) -> Layers {
    layers_by(shape, cells, |j, r| made(grow(r, shape.margins[j]), r))
}

/// The cells of the grown rectangles.
pub fn grown_cells(shape: &Shape, cells: &[i32]) -> Vec<i32> {
    layers_of(shape, cells).concat().iter().flat_map(|r| [r.left, r.bottom, r.right, r.top]).collect()
}

/// The causes of a plan with check 4 on the grown rectangles.
fn four_grown(shape: &Shape, cells: &[i32]) -> u32 {
    match first_of(&[1, 2, 17, 3], shape, cells) {
        0 if cells.iter().any(|cell| cell.unsigned_abs() > 20_000_000) => 4,
        0 => first_of(&[4], shape, &grown_cells(shape, cells)),
        fault => fault,
    }
}

/// Whether a coordinate lies outside the range that was.
pub fn beyond_old(cells: &[i32]) -> bool {
    cells.iter().any(|cell| cell.unsigned_abs() > 1_000_000)
}

/// Cells of which each size is another one; the least number, which has none, stays.
fn moved(cells: &[i32], size: fn(i32) -> i32) -> Vec<i32> {
    cells.iter().map(|&cell| cell.checked_abs().map_or(cell, |of| cell.signum() * size(of))).collect()
}

/// The causes of a plan whose margins are taken for others.
fn fault_taken(shape: &Shape, cells: &[i32], taken: fn(&Shape) -> [u32; 6]) -> u32 {
    plan_fault(&Shape { margins: taken(shape), ..*shape }, cells)
}

/// The margins without those past k.
fn margins_within(shape: &Shape) -> [u32; 6] {
    let mut margins = shape.margins;
    margins[shape.k.min(6) as usize..].fill(0);
    margins
}

/// The causes with the old range in check 4.
fn range_old(shape: &Shape, cells: &[i32]) -> u32 {
    match plan_fault(shape, cells) {
        0 if beyond_old(cells) => 4,
        fault => fault,
    }
}

/// An overlay that judges plans otherwise.
const fn judged(fault: fn(&Shape, &[i32]) -> u32) -> Calls {
    Calls { rules: Rules { fault, ..REFERENCE }, ..RIGHT }
}

/// An overlay that grows plans otherwise.
const fn grown(layers: fn(&Shape, &[i32]) -> Layers) -> Calls {
    Calls { rules: Rules { layers, sorted: layers, ..REFERENCE }, ..RIGHT }
}

pub const SLIPS: &[Slip] = &[
    (judged(|s, c| first_of(&[1, 3, 2, 17, 4], s, c)), "check 3 before 2"),
    (judged(|s, c| first_of(&[1, 17, 2, 3, 4], s, c)), "17 before 2"),
    (judged(|s, c| first_of(&[1, 2, 3, 17, 4], s, c)), "17 after 3"),
    (judged(|s, c| first_of(&[1, 2, 3, 4, 17], s, c)), "17 after 4"),
    (judged(four_grown), "check 4 on the grown sides"),
    (judged(range_old), "coordinates of the old range alone"),
    (
        judged(|s, c| plan_fault(s, &moved(c, |size| size - i32::from(size == REACH + 1)))),
        "a coordinate of 10,000,001 taken",
    ),
    (
        judged(|s, c| plan_fault(s, &moved(c, |size| size + i32::from(size == REACH)))),
        "a coordinate of 10,000,000 refused",
    ),
    (judged(|s, c| fault_taken(s, c, margins_within)), "a margin past k taken"),
    (
        judged(|s, c| fault_taken(s, c, |s| s.margins.map(|m| m + u32::from(m == 50_000)))),
        "a margin of 50,000 refused",
    ),
    (
        judged(|s, c| fault_taken(s, c, |s| s.margins.map(|m| m - u32::from(m == 50_001)))),
        "a margin of 50,001 taken",
    ),
    (grown(ungrown), "margins passed over"),
    (grown(by_neighbour), "the margin of the neighbour layer"),
    (
        grown(|s, c| by_three(s, c, |g, r| Rect { left: r.left, ..g })),
        "grown on three sides, all but the left",
    ),
    (
        grown(|s, c| by_three(s, c, |g, r| Rect { bottom: r.bottom, ..g })),
        "grown on three sides, all but the bottom",
    ),
    (
        grown(|s, c| by_three(s, c, |g, r| Rect { right: r.right, ..g })),
        "grown on three sides, all but the right",
    ),
    (grown(|s, c| by_three(s, c, |g, r| Rect { top: r.top, ..g })), "grown on three sides, all but the top"),
];
