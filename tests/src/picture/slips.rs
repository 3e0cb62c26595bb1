//! Wrong pictures; the comparison must catch every one.

use super::{longest_bar, mark_of, path_of, Pen, PEN};
use crate::plan::{grow, intersection, ungrown, Layers, Rect};
use crate::row::Row;

/// Every wrong picture with its description.
pub const SLIPS: [(Pen, &str); 24] = [
    (
        Pen { ground: |f| format!("translate({} {})", -f.left, -f.top), ..PEN },
        "y not turned over: south is up",
    ),
    (
        Pen { ground: |f| format!("scale(1 -1) translate({} {})", -f.left, f.height - f.top), ..PEN },
        "the bottom of the ground at 0 and not its top",
    ),
    (
        Pen { ground: |f| format!("scale(1 -1) translate({} {})", f.left, f.top), ..PEN },
        "the ground moved the other way",
    ),
    (
        Pen { shown: |plan| ungrown(&plan.shape, &plan.cells), ..PEN },
        "the frame of the rectangles as they are drawn",
    ),
    (Pen { unit: |width, height| (width + height) / 200, ..PEN }, "a unit that may be 0"),
    (Pen { unit: |width, height| width.max(height) / 100 + 1, ..PEN }, "a unit of the longer side"),
    (Pen { bar: |unit| longest_bar(unit + 1), ..PEN }, "a scale bar longer than 40 units"),
    (Pen { bar: |unit| longest_bar(unit).min(100_000), ..PEN }, "no scale bar of a kilometre"),
    (Pen { path: by_sides, ..PEN }, "a path of left, right, bottom, top"),
    (Pen { path: |r| path_of(r).replace('Z', ""), ..PEN }, "a path that is not closed"),
    (Pen { margin: |_, _| None, ..PEN }, "no margin drawn"),
    (
        Pen { margin: |r, margin| Some(grow(r, margin)), ..PEN },
        "a dashed rectangle around one without a margin",
    ),
    (Pen { margin: |r, margin| (margin > 0).then_some(r), ..PEN }, "the margin drawn where the rectangle is"),
    (Pen { place: |place| place + 1, ..PEN }, "places from 1 in titles"),
    (Pen { hatching: |layer| [1, 0, 2, 3, 4, 5][layer], ..PEN }, "the hatchings of layers 1 and 2 exchanged"),
    (Pen { hatching: |layer| layer % 3, ..PEN }, "three hatchings for six layers"),
    (Pen { beyond: |_, _| 0, ..PEN }, "nothing drawn around a rectangle that is a point"),
    (Pen { line: |tenths| tenths, ..PEN }, "lines wider than some viewers draw"),
    (Pen { common: |row, _| grow(row.common, 1), ..PEN }, "a row's ground a millimetre off"),
    (Pen { common: as_drawn, ..PEN }, "a row's ground of the rectangles as they are drawn"),
    (
        Pen {
            mark: |kind, r, unit, path| mark_of(if kind == b'P' { b'E' } else { kind }, r, unit, path),
            ..PEN
        },
        "a point drawn as a line",
    ),
    (Pen { mark: |kind, r, _, path| mark_of(kind, r, 1, path), ..PEN }, "a cross of a millimetre"),
    (
        Pen {
            title: |row, k, kind| {
                format!("row {:?}, {} mm2, {}\n", &row.places[..k], row.area, char::from(kind))
            },
            ..PEN
        },
        "a title that is not the report's line",
    ),
    (
        Pen { legend: |layer, size, margin| (PEN.legend)(layer, margin as usize, size as u32), ..PEN },
        "number and margin of a layer exchanged in the legend",
    ),
];

/// A path by the sides in another order.
fn by_sides(r: Rect) -> String {
    path_of(Rect { left: r.left, bottom: r.right, right: r.bottom, top: r.top })
}

/// What the rectangles of a row share as they are drawn, or its ground where they share nothing.
fn as_drawn(row: &Row, drawn: &Layers) -> Rect {
    let rects = drawn.iter().zip(row.places).map(|(layer, place)| layer[place as usize]);
    rects.reduce(intersection).unwrap_or(row.common)
}
