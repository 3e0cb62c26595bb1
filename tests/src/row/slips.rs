//! Slips of the row call and of the call on a row's common ground.

use crate::overlay::{CommonTold, Overlay, RowTold, Shape};
use crate::page::slips::{open_edges, page_area, page_passing, ties_twice};
use crate::reference::{
    bad_places, intersection, is_empty, kind_of, layers_of, pairs, rects_at, ungrown, Layers, Rect, Rules,
    REFERENCE,
};
use crate::run::slips::{run_area, run_by, ungrown_area, ungrown_areas, width_squared, widths_squared};
use crate::slips::{Calls, Slip, RIGHT};

/// The sides of a rectangle as they are told.
fn sides(r: Rect) -> [i32; 4] {
    [r.left, r.bottom, r.right, r.top]
}

/// Ground where one side is above 0, else what it is.
fn by_side(rects: &[Rect], above: fn(Rect) -> bool) -> u8 {
    let common = rects.iter().copied().reduce(intersection);
    common.map_or(0, |common| if above(common) { b'G' } else { kind_of(common) })
}

/// The kind with E for P, and P for E.
pub fn exchanged(rects: &[Rect]) -> u8 {
    match (REFERENCE.kind)(rects) {
        b'E' => b'P',
        b'P' => b'E',
        other => other,
    }
}

/// The least kind of what any two rectangles have in common.
fn worst_pair(rects: &[Rect]) -> u8 {
    let all = pairs(rects.len());
    let kinds: Vec<u8> = all.iter().map(|&(i, j)| kind_of(intersection(rects[i], rects[j]))).collect();
    [b'P', b'E'].into_iter().find(|kind| kinds.contains(kind)).unwrap_or(b'G')
}

/// The guard of a row by lefts as they are drawn: the greatest, in the lowest layer.
fn ungrown_guard(layers: &Layers, row: &[u32]) -> u32 {
    let rects = rects_at(layers, row);
    let most = rects.iter().map(|r| r.left).max();
    rects.iter().position(|r| Some(r.left) == most).map_or(0, |j| j as u32 + 1)
}

/// The highest layer whose rectangle has the common left.
fn guard_highest(layers: &Layers, row: &[u32]) -> u32 {
    let left = |j: usize| layers[j][row[j] as usize].left;
    (0..layers.len()).max_by_key(|&j| (left(j), j)).map_or(0, |j| j as u32 + 1)
}

/// A row call that tells another thing of rows.
fn of_rows(shape: &Shape, cells: &[i32], row: &[u32], other: impl Fn(RowTold) -> RowTold) -> RowTold {
    let told = REFERENCE.row(shape, cells, row);
    if told.layer == 0 {
        told
    } else {
        other(told)
    }
}

/// A call that tells another thing of rows' common ground, by what their rectangles have in common as they are drawn.
fn of_ground(
    shape: &Shape,
    cells: &[i32],
    row: &[u32],
    other: impl Fn(CommonTold, Rect) -> CommonTold,
) -> CommonTold {
    let told = REFERENCE.common(shape, cells, row);
    if told.number != 0 || told.kind == 0 {
        return told;
    }
    let drawn = rects_at(&ungrown(shape, cells), row).into_iter().reduce(intersection);
    other(told, drawn.expect("a row"))
}

/// A call that tells another thing where there is no row.
fn of_no_row(
    shape: &Shape,
    cells: &[i32],
    row: &[u32],
    other: impl Fn(CommonTold) -> CommonTold,
) -> CommonTold {
    let told = REFERENCE.common(shape, cells, row);
    if told.number == 0 && told.kind == 0 {
        other(told)
    } else {
        told
    }
}

/// No row for what has no ground.
fn open_common(told: CommonTold) -> CommonTold {
    if told.kind == b'G' {
        told
    } else {
        CommonTold { number: 0, sides: [0; 4], kind: 0 }
    }
}

/// An overlay that tells kinds otherwise.
const fn kinds(kind: fn(&[Rect]) -> u8) -> Calls {
    Calls { rules: Rules { kind, ..REFERENCE }, ..RIGHT }
}

pub const SLIPS: &[Slip] = &[
    (
        Calls {
            page: |rules, f| page_passing(rules, f, ties_twice),
            run: |_, s, c, order, table, _| run_by(ties_twice, (s, c), order, table),
            ..RIGHT
        },
        "guards chosen with <= on both sides, so ties list a row twice",
    ),
    (
        Calls {
            row: |_, s, c, row| {
                of_rows(s, c, row, |told| if told.area == 0 { RowTold { layer: 0, ..told } } else { told })
            },
            common: |_, s, c, row| of_ground(s, c, row, |told, _| open_common(told)),
            page: |rules, f| page_passing(rules, f, open_edges),
            run: |_, s, c, order, table, _| run_by(open_edges, (s, c), order, table),
            ..RIGHT
        },
        "open edges",
    ),
    (
        Calls {
            row: |_, s, c, row| {
                of_rows(s, c, row, |told| RowTold { area: width_squared(&layers_of(s, c), row), ..told })
            },
            page: |rules, f| page_area(rules, f, widths_squared),
            run: |rules, s, c, order, table, work| {
                run_area(rules, (s, c), order, (table, work), widths_squared)
            },
            ..RIGHT
        },
        "area of width times width",
    ),
    (
        Calls {
            row: |_, s, c, row| {
                of_rows(s, c, row, |told| RowTold { area: ungrown_area(&ungrown(s, c), row), ..told })
            },
            page: |rules, f| page_area(rules, f, ungrown_areas),
            run: |rules, s, c, order, table, work| {
                run_area(rules, (s, c), order, (table, work), ungrown_areas)
            },
            ..RIGHT
        },
        "areas of what the rectangles have in common as they are drawn",
    ),
    (
        Calls {
            row: |_, s, c, row| {
                of_rows(s, c, row, |told| RowTold { layer: guard_highest(&layers_of(s, c), row), ..told })
            },
            ..RIGHT
        },
        "the guard taken in the highest of several layers",
    ),
    (
        Calls {
            row: |_, s, c, row| {
                of_rows(s, c, row, |told| RowTold { layer: ungrown_guard(&ungrown(s, c), row), ..told })
            },
            ..RIGHT
        },
        "the guard by lefts that are not grown",
    ),
    (
        Calls {
            row: |rules, s, c, row| {
                let told = rules.row(s, c, row);
                let k = s.k as usize;
                if told.number == 0 && row.len() > k {
                    rules.row(s, c, &row[..k])
                } else {
                    told
                }
            },
            ..RIGHT
        },
        "a row of more than k cells read as its first k",
    ),
    (
        Calls {
            row: |rules, s, c, row| {
                let told = rules.row(s, c, row);
                RowTold { area: if told.number != 0 { 3 } else { told.area }, ..told }
            },
            ..RIGHT
        },
        "a refused row call telling an area",
    ),
    (kinds(exchanged), "E and P exchanged"),
    (
        kinds(|rects| kind_of(intersection(rects[0], rects[1]))),
        "the kind of what the first two rectangles have in common",
    ),
    (
        kinds(|rects| kind_of(intersection(rects[rects.len() - 2], rects[rects.len() - 1]))),
        "the kind of what the last two rectangles have in common",
    ),
    (kinds(worst_pair), "the least kind of any two rectangles"),
    (
        kinds(|rects| if (REFERENCE.kind)(rects) == b'G' { b'G' } else { b'E' }),
        "E for all common ground of area 0",
    ),
    (kinds(|rects| by_side(rects, |r| r.left < r.right)), "G where the width is above 0"),
    (kinds(|rects| by_side(rects, |r| r.bottom < r.top)), "G where the height is above 0"),
    (
        kinds(|rects| match (REFERENCE.kind)(rects) {
            b'G' => 1,
            b'E' => 2,
            _ => 3,
        }),
        "kinds told as 1, 2 and 3",
    ),
    (
        Calls { common: |_, s, c, row| of_ground(s, c, row, |told, _| open_common(told)), ..RIGHT },
        "an edge or a point told as no row",
    ),
    (
        Calls {
            common: |_, s, c, row| {
                let kind = |told: CommonTold, drawn| if is_empty(drawn) { told.kind } else { kind_of(drawn) };
                of_ground(s, c, row, |told, drawn| CommonTold { kind: kind(told, drawn), ..told })
            },
            ..RIGHT
        },
        "the kind of what the rectangles have in common as they are drawn",
    ),
    (
        Calls {
            common: |_, s, c, row| {
                of_ground(s, c, row, |told, drawn| CommonTold { sides: sides(drawn), ..told })
            },
            ..RIGHT
        },
        "the sides of what the rectangles have in common as they are drawn",
    ),
    (
        Calls {
            common: |rules, s, c, row| {
                of_ground(s, c, row, |told, _| {
                    let guard = rules.row(s, c, row).layer as usize - 1;
                    CommonTold { sides: sides(layers_of(s, c)[guard][row[guard] as usize]), ..told }
                })
            },
            ..RIGHT
        },
        "the sides of the guard",
    ),
    (
        Calls {
            common: |_, s, c, row| {
                of_ground(s, c, row, |told, _| {
                    let [left, bottom, right, top] = told.sides;
                    CommonTold { sides: [left, right, bottom, top], ..told }
                })
            },
            ..RIGHT
        },
        "the sides told as left, right, bottom, top",
    ),
    (
        Calls {
            common: |_, s, c, row| {
                of_no_row(s, c, row, |told| {
                    let layers = layers_of(s, c);
                    if bad_places(&layers, row) {
                        return told;
                    }
                    let common = rects_at(&layers, row).into_iter().reduce(intersection);
                    CommonTold { sides: common.map_or([0; 4], sides), ..told }
                })
            },
            ..RIGHT
        },
        "sides told where there is no row",
    ),
    (
        Calls {
            common: |_, s, c, row| of_no_row(s, c, row, |told| CommonTold { kind: b'P', ..told }),
            ..RIGHT
        },
        "no row told as a point",
    ),
    (
        Calls {
            common: |rules, s, c, row| {
                let told = rules.common(s, c, row);
                CommonTold { kind: if told.number != 0 { b'G' } else { told.kind }, ..told }
            },
            ..RIGHT
        },
        "a refused call telling a kind",
    ),
    (
        Calls {
            common: |rules, s, c, row| {
                let k = s.k.min(6) as usize;
                of_no_row(s, c, row, |told| if row.len() > k { rules.common(s, c, &row[..k]) } else { told })
            },
            ..RIGHT
        },
        "more than k cells read as the first k for the common ground",
    ),
];
