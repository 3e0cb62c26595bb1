//! Pipes against ducts (02, Q-2): the class call and the crossing report, written a second time from 02's words, and a comparison.

pub mod compare;
pub mod slips;

use crate::overlay::{Overlay, Run, Shape};
use crate::reference::{
    intersection, is_empty, join, layers_of, plan_fault, refused_run, row_of, ungrown, Layers, Rect, Row,
    REFERENCE,
};
pub use compare::compare_crossings;
pub use slips::SLIPS;

/// What the class call returns: "17 where they name no row" is no refusal.
#[derive(Clone, Copy, Debug, PartialEq, Eq)]
pub struct ClassTold {
    pub number: u32,
    pub class: u32,
}

/// What the crossing report returns.
#[derive(Clone, Copy, Debug, PartialEq, Eq)]
pub struct Report {
    pub run: Run,
    pub counts: [u32; 17],
}

/// The two calls that are compared.
pub trait Crossings {
    /// The class of the row in the cells.
    fn class(&self, shape: &Shape, cells: &[i32], places: &[u32]) -> ClassTold;
    /// The whole run, and how many rows fall in each class.
    fn report(
        &self,
        shape: &Shape,
        cells: &[i32],
        order: &[u32],
        table: &mut [u32],
        work: &mut [i32],
    ) -> Report;
}

/// 02's words as functions; a slip puts another in the place of one.
#[derive(Clone, Copy)]
pub struct Slip {
    /// Whether a rectangle covers a point.
    pub covers: fn(Rect, (i32, i32)) -> bool,
    /// Whether a class is 0, by whether the horizontal and the vertical segment cross a rectangle.
    pub crossed: fn(bool, bool) -> bool,
    /// The ends of both segments, in the order of their numbers.
    pub ends: fn(Rect, Rect) -> [(i32, i32); 4],
    /// What the numbers of a layer, from 1, count on from.
    pub before: fn(u32) -> u32,
    /// The class among the numbers of covered ends.
    pub pick: fn(&[u32]) -> Option<u32>,
    /// The rectangles whose ends are looked for.
    pub layers: fn(&Shape, &[i32]) -> Layers,
    /// Whether the margins of a plan are refused by 16.
    pub margins: fn(&Shape) -> bool,
    /// Whether the last layer holds vertical segments.
    pub upright: fn(&[Rect]) -> bool,
    /// The causes.
    pub fault: fn(&Slip, &Shape, &[i32]) -> u32,
    /// The class where there is no row.
    pub no_row: u32,
    /// The causes of the report, before the run.
    pub report_fault: fn(&Slip, &Shape, &[i32], &[u32]) -> u32,
    /// The run of the report.
    pub run: fn(&Shape, &[i32], &[u32], &mut [u32], &mut [i32]) -> Run,
    /// Whether rows are counted, by the number of the run.
    pub counted: fn(u32) -> bool,
    /// The rows that are counted.
    pub rows: fn(&Layers) -> Vec<Row>,
}

/// No slip.
pub const RIGHT: Slip = Slip {
    // edges belong to the rectangle
    covers: |r, (x, y)| r.left <= x && x <= r.right && r.bottom <= y && y <= r.top,
    crossed: |level, upright| level && upright,
    ends: |h, v| [(h.left, h.bottom), (h.right, h.bottom), (v.left, v.bottom), (v.left, v.top)],
    before: |i| 4 * (i - 1),
    pick: |numbers| numbers.iter().min().copied(),
    layers: layers_of,
    // "a margin above 0 on a segment layer is 16"
    margins: |shape| shape.margins[shape.k as usize - 2..shape.k as usize].iter().any(|&margin| margin > 0),
    upright: |layer| layer.iter().all(|r| r.left == r.right),
    fault: |words, shape, cells| words.first_fault(shape, cells, 3),
    no_row: 17,
    report_fault: |words, shape, cells, _| (words.fault)(words, shape, cells),
    run: |shape, cells, order, table, work| REFERENCE.run(shape, cells, order, table, work),
    counted: |number| number == 0,
    rows: join,
};

impl Slip {
    /// "they meet and the rectangle covers neither endpoint".
    fn crosses(&self, segment: Rect, r: Rect) -> bool {
        let ends = [(segment.left, segment.bottom), (segment.right, segment.top)];
        !is_empty(intersection(segment, r)) && ends.iter().all(|&end| !(self.covers)(r, end))
    }

    /// The class of the rectangles of a row.
    fn class_of(&self, rects: &[Rect]) -> u32 {
        let (others, segments) = rects.split_at(rects.len() - 2);
        let (h, v) = (segments[0], segments[1]);
        if others.iter().all(|&r| (self.crossed)(self.crosses(h, r), self.crosses(v, r))) {
            return 0;
        }
        let mut numbers = Vec::new();
        for (i, &r) in (1..).zip(others) {
            let covered = (1..).zip((self.ends)(h, v)).filter(|&(_, end)| (self.covers)(r, end));
            numbers.extend(covered.map(|(n, _)| (self.before)(i) + n));
        }
        (self.pick)(&numbers).unwrap_or(0)
    }

    /// The class of the rectangles that places name.
    fn class_at(&self, shape: &Shape, cells: &[i32], places: &[u32]) -> u32 {
        let layers = (self.layers)(shape, cells);
        let rects: Vec<Rect> =
            layers.iter().zip(places).map(|(layer, &place)| layer[place as usize]).collect();
        self.class_of(&rects)
    }

    /// "fewer than three layers, 15; bottom and top differing in layer k − 1, or left and right in layer k, 16; both after 4, in that order", and
    /// "a margin above 0 on a segment layer is 16". A layer's rectangles are all grown alike.
    pub fn first_fault(&self, shape: &Shape, cells: &[i32], least: u32) -> u32 {
        let fault = plan_fault(shape, cells);
        if fault != 0 || shape.k < least {
            return if fault != 0 { fault } else { 15 };
        }
        let (layers, k) = (ungrown(shape, cells), shape.k as usize);
        let level = layers[k - 2].iter().all(|r| r.bottom == r.top);
        if level && (self.upright)(&layers[k - 1]) && !(self.margins)(shape) {
            0
        } else {
            16
        }
    }
}

/// The calls from 02's words, or a wrong version of them.
pub struct ByWords(pub Option<Slip>);

impl Crossings for ByWords {
    fn class(&self, shape: &Shape, cells: &[i32], places: &[u32]) -> ClassTold {
        let words = self.0.unwrap_or(RIGHT);
        let number = (words.fault)(&words, shape, cells);
        if number != 0 {
            return ClassTold { number, class: 0 };
        }
        let class = match row_of(&layers_of(shape, cells), places) {
            Some(_) => words.class_at(shape, cells, places),
            None => words.no_row,
        };
        ClassTold { number: 0, class }
    }

    fn report(
        &self,
        shape: &Shape,
        cells: &[i32],
        order: &[u32],
        table: &mut [u32],
        work: &mut [i32],
    ) -> Report {
        let words = self.0.unwrap_or(RIGHT);
        let number = (words.report_fault)(&words, shape, cells, order);
        if number != 0 {
            return Report { run: refused_run(number), counts: [0; 17] };
        }
        let run = (words.run)(shape, cells, order, table, work);
        let mut counts = [0; 17];
        if (words.counted)(run.number) {
            for row in (words.rows)(&layers_of(shape, cells)) {
                counts[words.class_at(shape, cells, &row.places[..shape.k as usize]) as usize] += 1;
            }
        }
        Report { run, counts }
    }
}
