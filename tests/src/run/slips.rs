//! Slips of the whole run: of 7 and 19, of its sums and of the ground counted once.

use crate::overlay::{Overlay, Run, Shape, Total};
use crate::page::slips::{areas_of, grounds, summed_by};
use crate::reference::{
    about, area, count_rows, intersection, is_empty, join, layers_of, page_from, plan_fault, rects_at,
    refused_run, takes, trials_by, ungrown, union_of, Layers, Passes, Rect, Row, Rules, REFERENCE,
};
use crate::slips::{Calls, Slip, RIGHT};

/// A plan, and what a run writes to.
type Plan<'a> = (&'a Shape, &'a [i32]);
type Lent<'a> = (&'a mut [u32], &'a mut [i32]);

/// A sum for the rows at the start of a table.
pub type Sum = fn(&Shape, &[i32], &[u32], u32) -> Total;

/// The sum of areas.
pub fn summed(rects: &[Rect]) -> u64 {
    rects.iter().map(|&r| area(r)).sum()
}

/// Rectangles with ground that reach further to the right, and up.
fn widened(rects: &[Rect], right: i32, top: i32) -> Vec<Rect> {
    let wider = |r: &Rect| Rect { right: r.right + right, top: r.top + top, ..*r };
    rects.iter().filter(|&&r| area(r) > 0).map(wider).collect()
}

/// Ground row by row, in the order of the lefts: on each strip between two lines what a row adds is from where the ground so far lets it begin to its right.
fn by_reaches(rects: &[Rect], reached: fn(i32, i32) -> i32, begun: fn(i32, i32) -> i32) -> u64 {
    let mut lines: Vec<i32> = rects.iter().flat_map(|r| [r.bottom, r.top]).collect();
    lines.sort_unstable();
    lines.dedup();
    let mut reach = vec![i32::MIN; lines.len()];
    let mut sum = 0;
    for r in rects {
        for (at, strip) in lines.windows(2).enumerate().filter(|(_, s)| r.bottom <= s[0] && s[1] <= r.top) {
            let from = begun(reach[at], r.left).min(r.right);
            sum += area(Rect { left: from, bottom: strip[0], right: r.right, top: strip[1] });
            reach[at] = reached(reach[at], r.right);
        }
    }
    sum
}

/// What each row adds beyond the farthest right of all before it, on whatever line.
fn one_line(rects: &[Rect]) -> u64 {
    let mut farthest = i32::MIN;
    let part = |r: &Rect| {
        let from = farthest.max(r.left).min(r.right);
        farthest = farthest.max(r.right);
        area(Rect { left: from, ..*r })
    };
    rects.iter().map(part).sum()
}

/// The areas less what each row has in common with the one before.
fn neighbours(rects: &[Rect]) -> u64 {
    let common = |pair: &[Rect]| intersection(pair[0], pair[1]);
    let over = rects.windows(2).map(common).filter(|&r| !is_empty(r)).map(area);
    summed(rects) - over.sum::<u64>()
}

/// The areas of rectangles that are not the same.
fn distinct(rects: &[Rect]) -> u64 {
    let mut each = rects.to_vec();
    each.sort_unstable();
    each.dedup();
    summed(&each)
}

/// The union of some ground as it is kept.
fn total_of(rects: &[Rect]) -> Total {
    Total::of(union_of(rects).into())
}

/// The area of what a row's rectangles have in common as they are drawn; 0 where that is nothing.
pub fn ungrown_area(layers: &Layers, row: &[u32]) -> u64 {
    let common = rects_at(layers, row).into_iter().reduce(intersection).filter(|&b| !is_empty(b));
    common.map_or(0, |b| (i64::from(b.right - b.left) * i64::from(b.top - b.bottom)) as u64)
}

/// These areas of the first rows of a table, summed.
pub fn ungrown_areas(shape: &Shape, cells: &[i32], table: &[u32], rows: u32) -> Total {
    let layers = ungrown(shape, cells);
    let rows = table.chunks(layers.len()).take(rows as usize);
    Total::of(rows.map(|row| u128::from(ungrown_area(&layers, row))).sum())
}

/// The width of a row's common part, squared.
pub fn width_squared(layers: &Layers, row: &[u32]) -> u64 {
    let rects = || layers.iter().zip(row).map(|(rects, &place)| rects[place as usize]);
    let left = rects().map(|rect| rect.left).max().unwrap_or(0);
    let right = rects().map(|rect| rect.right).min().unwrap_or(0);
    (i64::from(right) - i64::from(left)).pow(2) as u64
}

/// The widths squared of the first rows of a table, summed.
pub fn widths_squared(shape: &Shape, cells: &[i32], table: &[u32], rows: u32) -> Total {
    let layers = layers_of(shape, cells);
    let rows = table.chunks(layers.len()).take(rows as usize);
    Total::of(rows.map(|row| u128::from(width_squared(&layers, row))).sum())
}

/// A whole run by way of one page under a rule for passing, which wants no work buffer.
pub fn run_by(rule: Passes, plan: Plan, order: &[u32], table: &mut [u32]) -> Run {
    let fault = REFERENCE.order_fault(plan.0, plan.1, order);
    if fault != 0 {
        return refused_run(fault);
    }
    let layers = layers_of(plan.0, plan.1);
    let list = trials_by(&layers, rule);
    let rows = list.iter().filter(|trial| trial.yields).count();
    if rows > takes(table, layers.len()) {
        return refused_run(7);
    }
    let page = page_from(&layers, &list, 0, u32::MAX, table);
    let (trials, ground) = (list.len() as u64, total_of(&grounds(&layers, table, page.rows)));
    Run { number: 0, rows: page.rows, trials, area: page.area, ground }
}

/// A run that tells another area sum.
pub fn run_area(rules: &Rules, (s, c): Plan, order: &[u32], (table, work): Lent, sum: Sum) -> Run {
    let run = rules.run(s, c, order, table, work);
    if run.number != 0 {
        return run;
    }
    Run { area: sum(s, c, table, run.rows), ..run }
}

/// A run that is refused with 7 or 19 writes all rows that fit, or does otherwise.
fn rows_written((s, c): Plan, table: &mut [u32]) {
    let k = s.k as usize;
    for (cells, row) in table.chunks_exact_mut(k).zip(join(&layers_of(s, c))) {
        cells.copy_from_slice(&row.places[..k]);
    }
}

/// A run that asks for the work buffer early, where `asks` says so.
fn early(rules: &Rules, (s, c): Plan, order: &[u32], (table, work): Lent, asks: bool) -> Run {
    if asks && (work.len() as u64) < 2 * count_rows(&layers_of(s, c)) {
        return refused_run(19);
    }
    rules.run(s, c, order, table, work)
}

/// The ground of the guards of a plan's rows.
fn guards((s, c): Plan) -> Total {
    let layers = layers_of(s, c);
    let guard = |row: Row| layers[row.guard as usize - 1][row.places[row.guard as usize - 1] as usize];
    total_of(&join(&layers).into_iter().map(guard).collect::<Vec<_>>())
}

/// The ground that rows have in common as they are drawn.
fn drawn((s, c): Plan, table: &[u32], rows: u32) -> Total {
    let mut drawn = grounds(&ungrown(s, c), table, rows);
    drawn.retain(|&r| !is_empty(r));
    total_of(&drawn)
}

/// An overlay that counts ground otherwise, or asks for another work buffer by rows, k and room.
const fn counted(union: fn(&[Rect]) -> u64) -> Calls {
    Calls { rules: Rules { union, ..REFERENCE }, ..RIGHT }
}
const fn asked(work: fn(usize, usize, usize) -> usize) -> Calls {
    Calls { rules: Rules { work, ..REFERENCE }, ..RIGHT }
}

/// An overlay whose run does something else behind the right one, by its number.
macro_rules! behind {
    (|$run:ident, $s:ident, $c:ident, $table:ident, $work:ident| $body:expr) => {
        Calls {
            run: |rules, $s, $c, order, $table, $work| {
                #[allow(unused_mut)]
                let mut $run = rules.run($s, $c, order, $table, $work);
                $body
            },
            ..RIGHT
        }
    };
}

/// An overlay whose page and run sum areas otherwise.
macro_rules! sums {
    ($sum:expr) => {
        Calls {
            page: |rules, f| {
                crate::page::slips::page_area(rules, f, |s, c, t, rows| {
                    summed_by($sum, &areas_of(s, c, t, rows))
                })
            },
            run: |rules, s, c, order, table, work| {
                run_area(rules, (s, c), order, (table, work), |s, c, t, rows| {
                    summed_by($sum, &areas_of(s, c, t, rows))
                })
            },
            ..RIGHT
        }
    };
}

pub const SLIPS: &[Slip] = &[
    (counted(summed), "ground under two rows counted twice"),
    (counted(distinct), "ground counted once only where two rows have all of it in common"),
    (counted(|rects| union_of(&widened(rects, 1, 0))), "ground a millimetre too wide"),
    (counted(|rects| union_of(&widened(rects, 1, 1))), "points counted and not squares"),
    (counted(|rects| about(rects).map_or(0, area)), "all ground about the rows"),
    (counted(neighbours), "ground taken off only where it lies under the row before"),
    (
        counted(|rects| by_reaches(rects, |_, right| right, |reach, left| reach.max(left))),
        "the reach of the last row on a line and not the farthest",
    ),
    (
        counted(|rects| {
            by_reaches(rects, i32::max, |reach, left| if reach == i32::MIN { left } else { reach })
        }),
        "ground between two rows on a line counted",
    ),
    (counted(one_line), "the farthest reach of any line taken for that of every one"),
    (counted(|rects| u64::from(union_of(rects) as u32)), "the union kept in 32 bits"),
    (
        behind!(|run, s, c, _table, _work| if run.number == 0 {
            Run { ground: guards((s, c)), ..run }
        } else {
            run
        }),
        "the ground of the guards",
    ),
    (
        behind!(|run, s, c, table, _work| if run.number == 0 {
            Run { ground: drawn((s, c), table, run.rows), ..run }
        } else {
            run
        }),
        "the union of what the rectangles have in common as they are drawn",
    ),
    (asked(|_, _, _| 0), "19 never told"),
    (asked(|rows, _, _| rows), "19 by one cell a row"),
    (asked(|rows, k, _| k * rows), "19 by k cells a row"),
    (asked(|_, _, room| 2 * room), "19 by the rows that the table takes"),
    (asked(|rows, _, _| if rows > 0 { 2 * rows + 1 } else { 0 }), "a work buffer that just fits refused"),
    (asked(|rows, _, _| (2 * rows).max(1)), "19 for an empty work buffer where there are no rows"),
    (
        Calls {
            run: |rules, s, c, order, table, work| {
                let asks = rules.order_fault(s, c, order) == 0;
                early(rules, (s, c), order, (table, work), asks)
            },
            ..RIGHT
        },
        "19 before 7",
    ),
    (
        Calls {
            run: |rules, s, c, order, table, work| {
                early(rules, (s, c), order, (table, work), plan_fault(s, c) == 0)
            },
            ..RIGHT
        },
        "19 before 5",
    ),
    (
        behind!(|run, s, c, table, _work| {
            if run.number == 19 {
                rows_written((s, c), table);
            }
            run
        }),
        "rows written before refusal 19",
    ),
    (
        behind!(|run, _s, _c, _table, work| {
            work.iter_mut().take(usize::from(run.number == 19)).for_each(|cell| *cell = 0);
            run
        }),
        "the work buffer written before refusal 19",
    ),
    (
        behind!(|run, _s, _c, _table, work| {
            work.iter_mut().take(usize::from(run.number == 7)).for_each(|cell| *cell = 0);
            run
        }),
        "the work buffer written before 7 is decided",
    ),
    (
        behind!(|run, s, c, _table, _work| {
            if run.number == 19 {
                run.rows = count_rows(&layers_of(s, c)) as u32;
            }
            run
        }),
        "a run that 19 refuses telling its rows",
    ),
    (
        behind!(|run, s, c, _table, _work| {
            if run.number == 19 {
                run.ground =
                    total_of(&join(&layers_of(s, c)).iter().map(|row| row.common).collect::<Vec<_>>());
            }
            run
        }),
        "a run that 19 refuses telling its ground",
    ),
    (
        behind!(|run, s, c, table, _work| {
            if run.number == 7 {
                rows_written((s, c), table);
            }
            run
        }),
        "rows written before refusal 7",
    ),
    (
        behind!(|run, s, c, table, _work| {
            if run.number == 7 && count_rows(&layers_of(s, c)) <= (table.len() / s.k as usize) as u64 {
                return Run { number: 0, rows: count_rows(&layers_of(s, c)) as u32, ..refused_run(0) };
            }
            run
        }),
        "whole run without the cap of 1,000,000 rows",
    ),
    (
        behind!(|run, s, c, _table, _work| {
            if run.number == 7 {
                run.rows = count_rows(&layers_of(s, c)) as u32;
            }
            run
        }),
        "a refused whole run telling the rows it counted",
    ),
    (
        behind!(|run, _s, _c, _table, _work| if run.rows == 0 { Run { trials: 0, ..run } } else { run }),
        "whole run telling no trials where there are no rows",
    ),
    (sums!(|_, _, all| Total::of(u128::from(all as u64))), "area sums kept in 64 bits of square millimetres"),
    (
        sums!(|metres, rest, _| Total { metres, rest: rest % 1_000_000 }),
        "a full rest not carried into the metres of an area sum",
    ),
    (sums!(|metres, rest, _| Total { metres, rest }), "a rest of 1,000,000 square millimetres or more"),
    (sums!(|_, _, all| Total { rest: 0, ..Total::of(all) }), "area sums in whole square metres alone"),
    (
        behind!(|run, _s, _c, _table, _work| Run {
            ground: Total { metres: 0, rest: run.ground.value() as u64 },
            ..run
        }),
        "the union as a rest alone",
    ),
    (
        behind!(|run, _s, _c, _table, _work| Run { ground: Total { rest: 0, ..run.ground }, ..run }),
        "the union in whole square metres alone",
    ),
];
