//! The whole run, and ground counted once.

pub mod compare;
pub mod slips;

use crate::overlay::{Run, Total};
use crate::plan::Rect;

/// Where no more unit squares than these lie about the rows, they are counted one by one.
pub const MOST_SQUARES: i64 = 4_000;

/// The smallest rectangle about some, or nothing where there are none.
pub fn about(rects: &[Rect]) -> Option<Rect> {
    let around = |a: Rect, b: Rect| Rect {
        left: a.left.min(b.left),
        bottom: a.bottom.min(b.bottom),
        right: a.right.max(b.right),
        top: a.top.max(b.top),
    };
    rects.iter().copied().reduce(around)
}

/// "the number of unit squares between neighbouring whole millimetre lines that lie in at least one of them": each square is looked at.
pub fn union_by_squares(rects: &[Rect]) -> u64 {
    let Some(all) = about(rects) else { return 0 };
    let holds = |r: &Rect, x: i32, y: i32| r.left <= x && x < r.right && r.bottom <= y && y < r.top;
    let squares = (all.left..all.right).flat_map(|x| (all.bottom..all.top).map(move |y| (x, y)));
    squares.filter(|&(x, y)| rects.iter().any(|r| holds(r, x, y))).count() as u64
}

/// The lines among some numbers: each once, ascending.
pub fn lines(numbers: impl Iterator<Item = i32>) -> Vec<i32> {
    let mut lines: Vec<i32> = numbers.collect();
    lines.sort_unstable();
    lines.dedup();
    lines
}

/// The same by the lines on which sides lie. Between two neighbours of them all squares lie in the same rectangles: in as many as begin there or before,
/// less those that end.
pub fn union_by_lines(rects: &[Rect]) -> u64 {
    let xs = lines(rects.iter().flat_map(|r| [r.left, r.right]));
    let ys = lines(rects.iter().flat_map(|r| [r.bottom, r.top]));
    let at = |lines: &[i32], line: i32| lines.binary_search(&line).expect("a line");
    let mut sides: Vec<Vec<(usize, i32)>> = vec![Vec::new(); xs.len()];
    for r in rects {
        let (bottom, top) = (at(&ys, r.bottom), at(&ys, r.top));
        sides[at(&xs, r.left)].extend([(bottom, 1), (top, -1)]);
        sides[at(&xs, r.right)].extend([(bottom, -1), (top, 1)]);
    }
    let (mut begun, mut sum) = (vec![0; ys.len()], 0);
    for (x, pair) in xs.windows(2).enumerate() {
        sides[x].iter().for_each(|&(y, more)| begun[y] += more);
        let (mut over, mut height) = (0, 0);
        for (y, pair) in ys.windows(2).enumerate() {
            over += begun[y];
            height += if over > 0 { i64::from(pair[1]) - i64::from(pair[0]) } else { 0 };
        }
        sum += (i64::from(pair[1]) - i64::from(pair[0])) * height;
    }
    sum as u64
}

/// The union of some ground, by squares where there are few.
pub fn union_of(rects: &[Rect]) -> u64 {
    let mut each = rects.to_vec();
    each.sort_unstable();
    each.dedup();
    let squares =
        |r: Rect| (i64::from(r.right) - i64::from(r.left)) * (i64::from(r.top) - i64::from(r.bottom));
    if about(&each).is_none_or(|all| squares(all) <= MOST_SQUARES) {
        union_by_squares(&each)
    } else {
        union_by_lines(&each)
    }
}

/// "two cells a row".
pub fn two_cells_a_row(rows: usize, _: usize, _: usize) -> usize {
    2 * rows
}

/// A refused whole run.
pub fn refused_run(number: u32) -> Run {
    Run { number, rows: 0, trials: 0, area: Total::NONE, ground: Total::NONE }
}
