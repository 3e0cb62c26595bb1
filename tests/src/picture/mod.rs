//! The picture of a plan, as `docs/MANUAL.md` and the definitions say it: an SVG document whose lengths are millimetres.

pub mod compare;
pub mod slips;

use crate::call::Plan;
use crate::pair::rects_at;
use crate::plan::{grow, layers_of, ungrown, Layers, Rect};
use crate::reference::REFERENCE;
use crate::report::row_line;
use crate::row::{join, Row};

pub use compare::compare_pictures;
pub use slips::SLIPS;

/// A picture as a function of a sound plan.
pub type Picture<'a> = &'a dyn Fn(&Plan) -> Vec<u8>;

/// What is shown: the left and the top of all grown rectangles, how wide and high they reach, and the unit of all that is no ground.
#[derive(Clone, Copy)]
pub struct Frame {
    pub left: i64,
    pub top: i64,
    pub width: i64,
    pub height: i64,
    pub unit: i64,
}

/// How a picture is drawn: which layers are shown, how wide a unit is by width and height, the scale bar of a unit, where the ground is put, a rectangle's
/// path, the grown one around it, the number of a place, which hatching a layer has and how far it goes beyond a rectangle, how wide a line of so many tenths
/// of a millimetre is, the ground of a row by the layers as they are drawn and grown, the mark of a kind, the title of a row, and what stands in a layer's
/// line of the legend.
#[derive(Clone, Copy)]
pub struct Pen {
    pub shown: fn(&Plan) -> Layers,
    pub unit: fn(i64, i64) -> i64,
    pub bar: fn(i64) -> i64,
    pub ground: fn(&Frame) -> String,
    pub path: fn(Rect) -> String,
    pub margin: fn(Rect, u32) -> Option<Rect>,
    pub place: fn(usize) -> usize,
    pub hatching: fn(usize) -> usize,
    pub beyond: fn(Rect, i64) -> i64,
    pub line: fn(i64) -> i64,
    pub common: fn(&Row, &Layers) -> Rect,
    pub mark: fn(u8, Rect, i64, fn(Rect) -> String) -> String,
    pub title: fn(&Row, usize, u8) -> String,
    pub legend: fn(usize, usize, u32) -> String,
}

/// The picture as it is defined.
pub const PEN: Pen = Pen {
    shown: |plan| layers_of(&plan.shape, &plan.cells),
    unit: |width, height| (width + height) / 200 + 1,
    bar: longest_bar,
    ground: north_up,
    path: path_of,
    margin: |rect, margin| (margin > 0).then(|| grow(rect, margin)),
    place: |place| place,
    hatching: |layer| layer,
    beyond: |r, unit| if r.left == r.right && r.bottom == r.top { unit } else { 0 },
    line: |tenths| tenths.min(327_670),
    common: |row, _| row.common,
    mark: mark_of,
    title: row_line,
    legend: |layer, size, margin| format!("layer {layer}, rectangles: {size}, margin: {margin} mm"),
};

/// "the longest of 10 millimetres to 1,000 metres, each ten times the one before, that is at most 40 units; 10 where none is".
pub fn longest_bar(unit: i64) -> i64 {
    let bars = (1..=6).map(|digits| 10_i64.pow(digits));
    bars.filter(|&bar| bar <= 40 * unit).last().unwrap_or(10)
}

/// North is up, and left and top of what is shown are at 0.
pub fn north_up(frame: &Frame) -> String {
    format!("scale(1 -1) translate({} {})", -frame.left, -frame.top)
}

/// Around a rectangle, from its left bottom corner by its right, its top and its left.
pub fn path_of(r: Rect) -> String {
    format!("M{} {}H{}V{}H{}Z", r.left, r.bottom, r.right, r.top, r.left)
}

/// Ground, a line or a cross.
pub fn mark_of(kind: u8, r: Rect, unit: i64, path: fn(Rect) -> String) -> String {
    match kind {
        b'G' => format!("<path class='g' d='{}'/>", path(r)),
        b'E' => format!("<path class='e' d='{}'/>", path(r)),
        _ => {
            let at = format!("translate({} {}) scale({unit})", r.left, r.bottom);
            format!("<path class='p' transform='{at}' d='M-1 -1L1 1M-1 1L1 -1'/>")
        }
    }
}

/// The colours of the layers, and their hatchings: the points of a line, each by its fourths of the width and of the height.
const COLOURS: [&str; 6] = ["#0072b2", "#d55e00", "#009e73", "#cc79a7", "#56b4e9", "#e69f00"];
const HATCHINGS: [[(i64, i64); 6]; 6] = [
    [(0, 1), (4, 1), (4, 2), (0, 2), (0, 3), (4, 3)],
    [(1, 0), (1, 4), (2, 4), (2, 0), (3, 0), (3, 4)],
    [(0, 2), (2, 4), (4, 4), (0, 0), (2, 0), (4, 2)],
    [(0, 2), (2, 0), (4, 0), (0, 4), (2, 4), (4, 2)],
    [(0, 0), (4, 4), (4, 0), (0, 4), (0, 2), (0, 0)],
    [(2, 0), (2, 4), (4, 4), (4, 2), (0, 2), (0, 0)],
];

/// What is shown of layers; where they have no rectangle, the point 0, 0.
fn frame_of(layers: &Layers, unit: fn(i64, i64) -> i64) -> Frame {
    let all = || layers.iter().flatten();
    let least = |side: fn(&Rect) -> i32| all().map(side).min().map_or(0, i64::from);
    let most = |side: fn(&Rect) -> i32| all().map(side).max().map_or(0, i64::from);
    let (left, top) = (least(|r| r.left), most(|r| r.top));
    let (width, height) = (most(|r| r.right) - left, top - least(|r| r.bottom));
    Frame { left, top, width, height, unit: unit(width, height) }
}

/// A length of so many tenths, with one decimal.
fn decimal(tenths: i64) -> String {
    format!("{}.{}", tenths / 10, tenths % 10)
}

impl Pen {
    /// The head: what is seen, 5 units around the ground and 55 more at its right; how each layer is drawn; white ground.
    fn head(&self, f: &Frame) -> String {
        let (u, edge) = (f.unit, 5 * f.unit);
        let (width, height) = (f.width + 65 * u, f.height.max(30 * u) + 10 * u);
        let mut out = format!(
            "<svg xmlns='http://www.w3.org/2000/svg' viewBox='-{edge} -{edge} {width} {height}'>\n<style>\n\
             path{{stroke-width:{}px;stroke-linecap:round;stroke-linejoin:round;fill-opacity:.1}}\n\
             text{{font-family:sans-serif;font-size:2px;fill:#000;stroke:none}}\n",
            decimal((self.line)(3 * u))
        );
        for (at, colour) in COLOURS.iter().enumerate() {
            out += &format!(".l{}{{stroke:{colour};fill:{colour}}}\n", at + 1);
        }
        out += &format!(".h{{stroke-width:{}px;fill:none}}\n", decimal((self.line)(2 * u)));
        out += &format!(".m{{fill:none;stroke-dasharray:{} {}}}\n", decimal(8 * u), decimal(6 * u));
        out += ".g{stroke:#000;fill:#000;fill-opacity:.5}\n";
        out += &format!(".e{{stroke:#000;stroke-width:{}px;fill:none}}\n", decimal((self.line)(6 * u)));
        out += ".p{stroke:#000;stroke-width:.6px;fill:none}\n.k{stroke-width:.3px}\n</style>\n";
        let white = format!("x='-{edge}' y='-{edge}' width='{width}' height='{height}'");
        out + &format!("<rect {white} fill='#fff'/>\n")
    }

    /// A rectangle of a layer: its outline, and the layer's hatching in it.
    fn outlined(&self, layer: usize, r: Rect, unit: i64) -> String {
        let beyond = (self.beyond)(r, unit);
        let along = |from: i32, to: i32, fourths: i64| {
            let (from, to) = (i64::from(from) - beyond, i64::from(to) + beyond);
            from + (to - from) * fourths / 4
        };
        let points = HATCHINGS[(self.hatching)(layer)]
            .map(|(x, y)| format!("{} {}", along(r.left, r.right, x), along(r.bottom, r.top, y)));
        let line = format!("M{}L{}", points[0], points[1..].join(" "));
        format!("<path d='{}'/><path class='h' d='{line}'/>", (self.path)(r))
    }

    /// A layer, numbered from 0 here and from 1 in the picture: its rectangles in their order, and its line of the legend.
    fn layer(&self, f: &Frame, at: usize, rects: &[Rect], margin: u32) -> String {
        let (u, number) = (f.unit, at + 1);
        let mut out = format!("<g class='l{number}'><g transform='{}'>\n", (self.ground)(f));
        for (place, &rect) in rects.iter().enumerate() {
            let title = format!("layer {number}, place {}", (self.place)(place));
            out += &format!("<g><title>{title}</title>{}", self.outlined(at, rect, u));
            if let Some(grown) = (self.margin)(rect, margin) {
                out += &format!("<path class='m' d='{}'/>", (self.path)(grown));
            }
            out += "</g>\n";
        }
        let sample = Rect { left: 0, bottom: 0, right: 4 * u as i32, top: 2 * u as i32 };
        let sample = format!("<g transform='scale(1 -1)'>{}</g>", self.outlined(at, sample, u));
        let at = format!("translate({} {})", f.width + 5 * u, 3 * u * number as i64 + 2 * u);
        let says = (self.legend)(number, rects.len(), margin);
        let says = format!("<g transform='scale({u})'><text x='5' y='-.3'>{says}</text></g>");
        out + &format!("</g><g transform='{at}'>{sample}{says}</g></g>\n")
    }

    /// Rows in the table's order.
    fn rows(&self, f: &Frame, rows: &[Row], grown: &Layers, drawn: &Layers) -> String {
        let k = grown.len();
        let mut out = format!("<g transform='{}'>\n", (self.ground)(f));
        for row in rows {
            let kind = (REFERENCE.kind)(&rects_at(grown, &row.places[..k]));
            let mark = (self.mark)(kind, (self.common)(row, drawn), f.unit, self.path);
            out += &format!("<g><title>{}</title>{mark}</g>\n", (self.title)(row, k, kind));
        }
        out + "</g>"
    }

    /// The rows' lines of the legend, and the scale bar.
    fn tail(&self, f: &Frame, rows: usize) -> String {
        let (u, right, bar) = (f.unit, f.width + 5 * f.unit, (self.bar)(f.unit));
        let lines = [
            format!(
                "<path class='g k' d='M0 -3h4v2H0Z'/><text x='5' y='-1.3'>all layers meet: {rows}</text>"
            ),
            "<path class='p' d='M0 1h4'/><text x='5' y='1.7'>all meet in a line</text>".into(),
            "<path class='p' d='M27 0l2 2m0 -2l-2 2'/><text x='30' y='1.7'>all meet in a point</text>".into(),
        ];
        let metres = format!("{}.{:03} m", bar / 1_000, bar % 1_000);
        let drawn = format!("<path class='e' d='M0 0h{bar}'/>");
        let says = format!("<g transform='scale({u})'><text y='3'>{metres}</text></g>");
        format!("<g transform='translate({right} 0) scale({u})'>{}</g>\n", lines.concat())
            + &format!("<g transform='translate({right} {})'>{drawn}{says}</g>\n</svg>\n", 24 * u)
    }

    /// The picture of a sound plan.
    pub fn picture(&self, plan: &Plan) -> Vec<u8> {
        let frame = frame_of(&(self.shown)(plan), self.unit);
        let (drawn, grown) = (ungrown(&plan.shape, &plan.cells), layers_of(&plan.shape, &plan.cells));
        let rows = join(&grown);
        let mut out = self.head(&frame);
        for (at, rects) in drawn.iter().enumerate() {
            out += &self.layer(&frame, at, rects, plan.shape.margins[at]);
        }
        out += &self.rows(&frame, &rows, &grown, &drawn);
        out += &self.tail(&frame, rows.len());
        out.into_bytes()
    }
}

/// The picture of a sound plan.
pub fn picture(plan: &Plan) -> Vec<u8> {
    PEN.picture(plan)
}
