//! Tickets, pages and whole runs.

use crate::calls;
use crate::{Cause, Plan, Timed, Total};

/// What names the trial that is due next in a run, and how many it has done. It may be stored and used later, with the same plan and the run's record.
#[derive(Clone, Copy, Debug, PartialEq, Eq, Hash)]
pub struct Ticket(pub(crate) [u32; 12]);

impl Ticket {
    /// The ticket in twelve cells, as [`cells`](Ticket::cells) gives them. Whether it is one of a plan is checked when it is used.
    pub fn from_cells(cells: [u32; 12]) -> Ticket {
        Ticket(cells)
    }

    /// Its twelve cells.
    pub fn cells(&self) -> [u32; 12] {
        self.0
    }

    /// Whether all rows have been handed out.
    pub fn ended(&self) -> bool {
        self.0[0] == 1
    }

    /// How many trials its run has done.
    pub fn count(&self) -> u64 {
        u64::from(self.0[11]) << 32 | u64::from(self.0[10])
    }
}

/// The record of a run: the count of its newest ticket. A page with an earlier one is refused by [`Cause::Stale`].
#[derive(Clone, Copy, Debug, PartialEq, Eq, Hash)]
pub struct Record(pub(crate) u64);

impl Record {
    /// The record with this count, where it was stored.
    pub fn from_count(count: u64) -> Record {
        Record(count)
    }

    /// The count that it holds.
    pub fn count(self) -> u64 {
        self.0
    }
}

/// Why a page stopped.
#[derive(Clone, Copy, Debug, PartialEq, Eq, Hash)]
pub enum Stop {
    /// All rows have been handed out.
    Ended,
    /// It has as many rows as were asked for.
    Full,
    /// The budget is used up.
    Spent,
}

impl Stop {
    /// The stop of a cell of an accepted page.
    pub(crate) fn of(cell: u64) -> Stop {
        match cell {
            1 => Stop::Ended,
            2 => Stop::Full,
            3 => Stop::Spent,
            _ => panic!("{cell} is no stop of an accepted page"),
        }
    }
}

/// Rows in the order of the table: of each the place of its rectangle in each layer, from 0, layer 1 first.
#[derive(Clone, Debug, PartialEq, Eq)]
pub struct Rows {
    layers: usize,
    cells: Vec<u32>,
}

impl Rows {
    /// The first so many rows of a table.
    pub(crate) fn of(layers: usize, mut table: Vec<u32>, rows: u64) -> Rows {
        table.truncate(layers * rows as usize);
        Rows { layers, cells: table }
    }

    /// How many there are.
    pub fn len(&self) -> usize {
        self.cells.len() / self.layers
    }

    /// Whether there is none.
    pub fn is_empty(&self) -> bool {
        self.cells.is_empty()
    }

    /// The places of each.
    pub fn iter(&self) -> std::slice::ChunksExact<'_, u32> {
        self.cells.chunks_exact(self.layers)
    }

    /// The places of all, one row after the other.
    pub fn cells(&self) -> &[u32] {
        &self.cells
    }
}

impl<'a> IntoIterator for &'a Rows {
    type Item = &'a [u32];
    type IntoIter = std::slice::ChunksExact<'a, u32>;

    fn into_iter(self) -> Self::IntoIter {
        self.iter()
    }
}

/// What a page brought.
#[derive(Clone, Debug, PartialEq, Eq)]
pub struct Page {
    /// Why it stopped.
    pub stop: Stop,
    /// Its rows.
    pub rows: Rows,
    /// How many trials it did.
    pub trials: u64,
    /// The sum of its rows' areas; ground under two rows counts twice.
    pub area: Total,
}

impl Page {
    /// The page of an answer's cells and a table.
    pub(crate) fn of(layers: usize, table: Vec<u32>, answer: &[u64]) -> Page {
        let area = Total { metres: answer[3], rest: answer[4] };
        Page { stop: Stop::of(answer[0]), rows: Rows::of(layers, table, answer[1]), trials: answer[2], area }
    }
}

/// What a whole run brought.
#[derive(Clone, Debug, PartialEq, Eq)]
pub struct Run {
    /// All rows.
    pub rows: Rows,
    /// How many trials the walk has.
    pub trials: u64,
    /// The sum of the rows' areas; ground under two rows counts twice.
    pub area: Total,
    /// The ground of all rows, counted once.
    pub ground: Total,
}

/// The cells of a table for so many rows; more than the most are never taken.
pub(crate) fn table_for(layers: usize, rows: usize) -> Vec<u32> {
    vec![0; layers * rows.min(crate::MOST_ROWS)]
}

/// A whole run by a call that takes a table, a work buffer and an answer.
pub(crate) fn run_by(
    layers: usize,
    rows: usize,
    call: impl FnOnce(&mut [u32], &mut [i32], &mut [u64; 6]) -> u32,
) -> Result<Run, Cause> {
    let mut table = table_for(layers, rows);
    let (mut work, mut answer) = (vec![0; table.len()], [0; 6]);
    Cause::check(call(&mut table, &mut work, &mut answer))?;
    let [count, trials, metres, rest, ground, beside] = answer;
    let (area, ground) = (Total { metres, rest }, Total { metres: ground, rest: beside });
    Ok(Run { rows: Rows::of(layers, table, count), trials, area, ground })
}

/// The pages of a run, from its fresh ticket to its end.
#[derive(Clone, Debug)]
pub struct Pages<'a> {
    plan: &'a Plan,
    timed: Option<&'a Timed<'a>>,
    ticket: Ticket,
    record: Record,
    budget: u32,
    rows: usize,
    ended: bool,
}

impl<'a> Pages<'a> {
    /// The pages of a plan, timed or not; a budget or a table of 0 is taken as 1, so that each page does something.
    pub(crate) fn of(plan: &'a Plan, timed: Option<&'a Timed<'a>>, budget: u32, rows: usize) -> Pages<'a> {
        let (ticket, record) = plan.begin();
        Pages { plan, timed, ticket, record, budget: budget.max(1), rows: rows.max(1), ended: false }
    }

    /// The ticket of the page that comes next: with [`record`](Pages::record) enough to go on later, by [`Plan::page`] or [`Timed::page`].
    pub fn ticket(&self) -> Ticket {
        self.ticket
    }

    /// The record of this run.
    pub fn record(&self) -> Record {
        self.record
    }
}

impl Iterator for Pages<'_> {
    type Item = Page;

    fn next(&mut self) -> Option<Page> {
        if self.ended {
            return None;
        }
        let (ticket, record) = (&mut self.ticket, &mut self.record);
        let page = match self.timed {
            Some(timed) => timed.page(ticket, record, self.budget, self.rows),
            None => self.plan.page(ticket, record, self.budget, self.rows),
        };
        let page = page.expect("a run's own ticket and record are accepted");
        self.ended = page.stop == Stop::Ended;
        Some(page)
    }
}

/// A page by a call that takes a ticket's cells, a record, a table and an answer.
pub(crate) fn page_by(
    layers: usize,
    rows: usize,
    (ticket, record): (&mut Ticket, &mut Record),
    call: impl FnOnce(&mut [u32; 12], &mut [u64], &mut [u32], &mut [u64; 5]) -> u32,
) -> Result<Page, Cause> {
    let (mut table, mut answer, mut kept) = (table_for(layers, rows), [0; 5], [record.0]);
    Cause::check(call(&mut ticket.0, &mut kept, &mut table, &mut answer))?;
    record.0 = kept[0];
    Ok(Page::of(layers, table, &answer))
}

/// The fresh ticket of a plan and its order, and the record of a run that begins.
pub(crate) fn fresh(plan: calls::Lent, order: &[u32]) -> (Ticket, Record) {
    let (mut ticket, mut record) = ([0; 12], [0]);
    let number = calls::fresh_ticket(plan, order, &mut ticket, &mut record);
    assert_eq!(number, 0, "a plan and its own order are accepted");
    (Ticket(ticket), Record(record[0]))
}
