//! Plans, and the calls on them.

use crate::calls::{self, Lent};
use crate::walk::{fresh, page_by, run_by};
use crate::{
    Cause, Class, Clients, Common, Kind, Near, Page, Pages, Record, Rect, Row, Run, Ticket, Timed, Window,
    MOST_LAYERS, MOST_TEXT,
};

/// A layer: its rectangles, up to 512, and the distance that is kept around each of them.
#[derive(Clone, Debug, Default, PartialEq, Eq)]
pub struct Layer {
    /// Its rectangles as they are drawn. The place of each counts from 0.
    pub rects: Vec<Rect>,
    /// Its margin in millimetres, up to 50,000.
    pub margin: u32,
}

impl Layer {
    /// The layer of these rectangles, with margin 0.
    pub fn new(rects: impl Into<Vec<Rect>>) -> Layer {
        Layer { rects: rects.into(), margin: 0 }
    }

    /// The same with this margin.
    pub fn with_margin(self, margin: u32) -> Layer {
        Layer { margin, ..self }
    }
}

/// A plan that is accepted, with its sweep order.
#[derive(Clone, Debug, PartialEq, Eq)]
pub struct Plan {
    k: u32,
    sizes: [u32; 6],
    margins: [u32; 6],
    cells: Vec<i32>,
    order: Vec<u32>,
}

impl Plan {
    /// The plan of two to six layers.
    pub fn new(layers: &[Layer]) -> Result<Plan, Cause> {
        let (mut sizes, mut margins) = ([0; 6], [0; 6]);
        if layers.len() > MOST_LAYERS {
            return Err(Cause::Layers);
        }
        for (i, layer) in layers.iter().enumerate() {
            (sizes[i], margins[i]) = (u32::try_from(layer.rects.len()).unwrap_or(u32::MAX), layer.margin);
        }
        let cells = layers.iter().flat_map(|layer| layer.rects.iter().flat_map(|rect| rect.cells()));
        Plan::from_cells(layers.len() as u32, sizes, margins, cells.collect())
    }

    /// The plan of k layers with these sizes and margins, those past k 0, and its cells: left, bottom, right and top of each rectangle, layer 1 first.
    pub fn from_cells(k: u32, sizes: [u32; 6], margins: [u32; 6], cells: Vec<i32>) -> Result<Plan, Cause> {
        let lent = Lent { k, sizes: &sizes, margins: &margins, cells: &cells };
        Cause::check(calls::plan_cause(lent))?;
        let mut order = vec![0; cells.len() / 4];
        Cause::check(calls::make_order(lent, &mut order))?;
        Ok(Plan { k, sizes, margins, cells, order })
    }

    /// The plan of a plan text.
    ///
    /// ```
    /// let plan = overlay::Plan::from_text(b"PLAN\t2\nLAYER\t1\t0\nRECT\t0\t0\t9\t9\nLAYER\t0\t0\n")?;
    /// assert_eq!(plan.layers()[0].rects[0].right, 9);
    /// assert_eq!(overlay::Plan::from_text(b"PLAN 2\n"), Err(overlay::Cause::Form));
    /// # Ok::<(), overlay::Cause>(())
    /// ```
    pub fn from_text(text: &[u8]) -> Result<Plan, Cause> {
        let mut cells = vec![0; 4 * 512 * MOST_LAYERS];
        let (mut k, mut sizes, mut margins) = (0, [0; 6], [0; 6]);
        Cause::check(calls::read_text(text, &mut cells, &mut k, &mut sizes, &mut margins))?;
        cells.truncate(4 * sizes.iter().sum::<u32>() as usize);
        Plan::from_cells(k, sizes, margins, cells)
    }

    /// Its text.
    pub fn to_text(&self) -> Vec<u8> {
        let (mut text, mut size) = (vec![0; MOST_TEXT], 0);
        accepted(calls::write_text(self.lent(), &mut text, &mut size));
        text.truncate(size);
        text
    }

    /// How many layers it has.
    pub fn layer_count(&self) -> usize {
        self.k as usize
    }

    /// Its layers.
    pub fn layers(&self) -> Vec<Layer> {
        let mut rects = self.cells.chunks_exact(4).map(|r| Rect::new(r[0], r[1], r[2], r[3]));
        let layer = |i: usize| Layer {
            rects: rects.by_ref().take(self.sizes[i] as usize).collect(),
            margin: self.margins[i],
        };
        (0..self.layer_count()).map(layer).collect()
    }

    /// The plan as it is lent to a call.
    pub fn lent(&self) -> Lent<'_> {
        Lent { k: self.k, sizes: &self.sizes, margins: &self.margins, cells: &self.cells }
    }

    /// Its sweep order: the numbers of the rectangles, from 0 through all layers, by left, then layer, then place.
    pub fn order(&self) -> &[u32] {
        &self.order
    }

    /// What places name in the table: none where they are no row.
    pub fn row(&self, places: &[u32]) -> Option<Row> {
        let mut answer = [0; 2];
        accepted(calls::row(self.lent(), places, &mut answer));
        (answer[0] != 0).then_some(Row { layer: answer[0] as u32, area: answer[1] })
    }

    /// The common ground of the row that places name: none where they are no row.
    pub fn common(&self, places: &[u32]) -> Option<Common> {
        let mut answer = [0; 5];
        accepted(calls::row_common(self.lent(), places, &mut answer));
        let [left, bottom, right, top, kind] = answer;
        Kind::of(kind).map(|kind| Common { rect: Rect::new(left, bottom, right, top), kind })
    }

    /// What lies nearest to a box in each layer: none in a layer without rectangles. The box is taken as it is, rectangles with their margins.
    ///
    /// ```
    /// use overlay::{Cause, Layer, Near, Plan, Rect};
    ///
    /// let plan = Plan::new(&[Layer::new([Rect::new(0, 0, 10, 10)]), Layer::default()])?;
    /// let near = plan.nearest(Rect::new(13, 14, 20, 20))?;
    /// assert_eq!(near, [Some(Near { place: 0, squared_gap: 25 }), None]);
    /// assert_eq!(plan.nearest(Rect::new(1, 0, 0, 0)), Err(Cause::Box));
    /// # Ok::<(), Cause>(())
    /// ```
    pub fn nearest(&self, around: Rect) -> Result<Vec<Option<Near>>, Cause> {
        let mut answer = [0; 18];
        Cause::check(calls::nearest(self.lent(), &around.cells(), &mut answer))?;
        let near =
            |cells: &[u64]| (cells[0] == 1).then_some(Near { place: cells[1] as u32, squared_gap: cells[2] });
        Ok(answer.chunks_exact(3).take(self.layer_count()).map(near).collect())
    }

    /// The first pair of layers, from 1, whose rectangles at these places do not meet: none where all of them share a point.
    pub fn apart_pair(&self, places: &[u32]) -> Result<Option<(u32, u32)>, Cause> {
        let mut answer = [0; 2];
        Cause::check(calls::apart_pair(self.lent(), places, &mut answer))?;
        Ok((answer[0] != 0).then_some((answer[0] as u32, answer[1] as u32)))
    }

    /// The fresh ticket, and the record of a run that begins with it.
    pub fn begin(&self) -> (Ticket, Record) {
        fresh(self.lent(), &self.order)
    }

    /// A page from a ticket on, of at most so many trials and so many rows. Ticket and record are left with what is due next, and as they were after a refusal.
    pub fn page(
        &self,
        ticket: &mut Ticket,
        record: &mut Record,
        budget: u32,
        rows: usize,
    ) -> Result<Page, Cause> {
        page_by(self.layer_count(), rows, (ticket, record), |ticket, record, table, answer| {
            calls::fetch_page(self.lent(), &self.order, ticket, record, budget, table, answer)
        })
    }

    /// All pages of a run, each of at most so many trials and so many rows, at least 1. Budgets of thousands are faster than small ones.
    pub fn pages(&self, budget: u32, rows: usize) -> Pages<'_> {
        Pages::of(self, None, budget, rows)
    }

    /// All rows, if there are no more than so many, and their ground counted once.
    pub fn run(&self, rows: usize) -> Result<Run, Cause> {
        run_by(self.layer_count(), rows, |table, work, answer| {
            calls::run_all(self.lent(), &self.order, table, work, answer)
        })
    }

    /// The plan with a window of the week for each rectangle, in the order of the layers and of the places in them.
    pub fn timed(&self, windows: &[Window]) -> Result<Timed<'_>, Cause> {
        Timed::of(self, windows)
    }

    /// So many clients, 1 to 16, that page through the plan in rounds, each in a run of its own.
    pub fn clients(&self, count: usize) -> Result<Clients<'_>, Cause> {
        Clients::of(self, count)
    }

    /// The class of the row that places name, for a plan whose last two layers are segments: none where they are no row.
    pub fn class(&self, places: &[u32]) -> Result<Option<Class>, Cause> {
        let mut told = 0;
        Cause::check(calls::row_class(self.lent(), places, &mut told))?;
        Ok(Class::of(told))
    }

    /// All rows, if there are no more than so many, and how many of them have each class.
    pub fn crossing_report(&self, rows: usize) -> Result<CrossingReport, Cause> {
        let mut counts = [0; 17];
        let run = run_by(self.layer_count(), rows, |table, work, answer| {
            calls::crossing_report(self.lent(), &self.order, table, work, answer, &mut counts)
        })?;
        Ok(CrossingReport { run, counts })
    }
}

/// All rows of a plan whose last two layers are segments, by their classes.
#[derive(Clone, Debug, PartialEq, Eq)]
pub struct CrossingReport {
    /// The whole run.
    pub run: Run,
    /// How many rows have each class, by [`Class::number`].
    pub counts: [u32; 17],
}

/// The number of a call that is given nothing but what was accepted before.
fn accepted(number: u32) {
    assert_eq!(number, 0, "an accepted plan is accepted");
}
