//! Plans whose rectangles are there at some hours of the week.

use crate::calls;
use crate::walk::{page_by, run_by};
use crate::{Cause, Page, Pages, Plan, Record, Run, Ticket};

/// The minutes of a week, where the last window ends.
pub const WEEK: u32 = 10_080;

/// Minutes of the week: the first that is in it, and the first after it.
#[derive(Clone, Copy, Debug, PartialEq, Eq, Hash)]
pub struct Window {
    /// The first minute that is in it.
    pub from: u32,
    /// The first minute after it, at most 10,080.
    pub to: u32,
}

impl Window {
    /// The whole week.
    pub const ALWAYS: Window = Window { from: 0, to: WEEK };

    /// The window of these minutes.
    pub const fn new(from: u32, to: u32) -> Window {
        Window { from, to }
    }
}

/// A plan with windows that are accepted. Its rows are those of the plan whose windows share a minute.
///
/// ```
/// use overlay::{Layer, Plan, Rect, Window};
///
/// let zone = Layer::new([Rect::new(0, 0, 9, 9)]);
/// let plan = Plan::new(&[zone.clone(), zone])?;
/// let timed = plan.timed(&[Window::new(480, 600), Window::new(540, 660)])?;
/// assert_eq!(timed.run(10)?.rows.len(), 1);
/// assert_eq!(timed.hours(&[0, 0]), Some(Window::new(540, 600)));
/// # Ok::<(), overlay::Cause>(())
/// ```
#[derive(Clone, Debug)]
pub struct Timed<'a> {
    plan: &'a Plan,
    hours: Vec<u32>,
}

impl<'a> Timed<'a> {
    /// The plan with these windows.
    pub(crate) fn of(plan: &'a Plan, windows: &[Window]) -> Result<Timed<'a>, Cause> {
        let hours: Vec<u32> = windows.iter().flat_map(|window| [window.from, window.to]).collect();
        Cause::check(calls::row_hours(plan.lent(), &hours, &[], &mut [0; 2]))?;
        Ok(Timed { plan, hours })
    }

    /// The minutes that the windows of the row share which places name: none where they are no row, or share no minute.
    pub fn hours(&self, places: &[u32]) -> Option<Window> {
        let mut answer = [0; 2];
        let number = calls::row_hours(self.plan.lent(), &self.hours, places, &mut answer);
        assert_eq!(number, 0, "accepted windows are accepted");
        (answer[1] != 0).then_some(Window { from: answer[0], to: answer[1] })
    }

    /// A page of the timed walk, as [`Plan::page`]. The fresh ticket is that of [`Plan::begin`].
    pub fn page(
        &self,
        ticket: &mut Ticket,
        record: &mut Record,
        budget: u32,
        rows: usize,
    ) -> Result<Page, Cause> {
        let order = self.plan.order();
        page_by(self.plan.layer_count(), rows, (ticket, record), |ticket, record, table, answer| {
            calls::timed_page(self.plan.lent(), &self.hours, order, ticket, record, budget, table, answer)
        })
    }

    /// All pages of a timed run, as [`Plan::pages`].
    pub fn pages(&'a self, budget: u32, rows: usize) -> Pages<'a> {
        Pages::of(self.plan, Some(self), budget, rows)
    }

    /// All timed rows, as [`Plan::run`].
    pub fn run(&self, rows: usize) -> Result<Run, Cause> {
        run_by(self.plan.layer_count(), rows, |table, work, answer| {
            calls::timed_run(self.plan.lent(), &self.hours, self.plan.order(), table, work, answer)
        })
    }
}
