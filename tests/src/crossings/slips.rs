//! Slips of the class call and of the crossing report.

use super::{Slip, RIGHT};
use crate::overlay::{Overlay, Shape};
use crate::reference::{join, layers_of, refused_run, ungrown, Rules, REFERENCE};

/// Whether a layer, by its place, has a margin.
fn has_margin(shape: &Shape, j: usize) -> bool {
    shape.margins[j] > 0
}

/// Every slip with its name.
pub const SLIPS: [(Slip, &str); 20] = [
    (
        Slip { covers: |r, (x, y)| r.left < x && x < r.right && r.bottom < y && y < r.top, ..RIGHT },
        "an end on an edge is not covered",
    ),
    (
        Slip {
            ends: |h, v| {
                let [left, right, bottom, top] = (RIGHT.ends)(h, v);
                [right, left, bottom, top]
            },
            ..RIGHT
        },
        "the left and the right end are exchanged",
    ),
    (Slip { pick: |numbers| numbers.iter().max().copied(), ..RIGHT }, "the class is the largest number"),
    (Slip { crossed: |level, _| level, ..RIGHT }, "class 0 where the horizontal segment alone crosses"),
    (Slip { before: |i| 4 * i, ..RIGHT }, "a layer's numbers begin at 4i"),
    (Slip { no_row: 0, ..RIGHT }, "no row is told as class 0"),
    (Slip { upright: |_| true, ..RIGHT }, "layer k may hold any rectangle"),
    (
        Slip { fault: |words, shape, cells| words.first_fault(shape, cells, 2), ..RIGHT },
        "two layers are taken",
    ),
    (
        Slip {
            report_fault: |words, shape, cells, order| match REFERENCE.order_fault(shape, cells, order) {
                5 => 5,
                _ => (words.fault)(words, shape, cells),
            },
            ..RIGHT
        },
        "5 is told before 15 and 16",
    ),
    (Slip { counted: |_| true, ..RIGHT }, "a report that 7 refuses has counts"),
    (
        Slip {
            rows: |layers| {
                let mut rows = join(layers);
                rows.pop();
                rows
            },
            ..RIGHT
        },
        "the last row is not counted",
    ),
    (Slip { layers: ungrown, ..RIGHT }, "an end is covered by rectangles as they are drawn"),
    (Slip { margins: |_| false, ..RIGHT }, "a margin on a segment layer is taken"),
    (
        Slip {
            margins: |shape| {
                let k = shape.k as usize;
                (k - 2..k).any(|j| has_margin(shape, j) && shape.sizes[j] > 0)
            },
            ..RIGHT
        },
        "a margin on an empty segment layer is taken",
    ),
    (
        Slip { margins: |shape| (0..shape.k as usize).any(|j| has_margin(shape, j)), ..RIGHT },
        "16 for a margin on any layer",
    ),
    (
        Slip {
            fault: |words, shape, cells| match words.first_fault(shape, cells, 3) {
                15 if (words.margins)(shape) => 16,
                fault => fault,
            },
            ..RIGHT
        },
        "16 for a margin before 15",
    ),
    (
        Slip {
            run: |shape, cells, order, table, work| {
                Rules { work: |_, _, _| 0, ..REFERENCE }.run(shape, cells, order, table, work)
            },
            ..RIGHT
        },
        "19 is not told",
    ),
    (
        Slip {
            run: |shape, cells, order, table, work| match REFERENCE.run(shape, cells, order, table, work) {
                run if run.number == 7 && work.len() < 2 * join(&layers_of(shape, cells)).len() => {
                    refused_run(19)
                }
                run => run,
            },
            ..RIGHT
        },
        "19 is told before 7",
    ),
    (
        Slip {
            run: |shape, cells, order, table, work| {
                let run = REFERENCE.run(shape, cells, order, table, work);
                if run.number == 7 {
                    work.fill(0);
                }
                run
            },
            ..RIGHT
        },
        "a report that 7 refuses writes to the work buffer",
    ),
    (Slip { counted: |number| matches!(number, 0 | 19), ..RIGHT }, "a report that 19 refuses has counts"),
];
