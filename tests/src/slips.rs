//! Overlays with one slip each; the comparison must catch every one. An overlay is a function for each call over the rules that they share; a slip puts another
//! rule or another function in the place of one or a few, and the tables of slips stand with the calls.

use crate::overlay::{CommonTold, Overlay, Page, PairTold, Reading, RowTold, Run, Shape, Ticket, Writing};
use crate::reference::{Rules, REFERENCE};

/// What a page call is lent.
pub struct Fetch<'a> {
    pub shape: &'a Shape,
    pub cells: &'a [i32],
    pub order: &'a [u32],
    pub ticket: &'a Ticket,
    pub record: &'a mut [u64],
    pub budget: u32,
    pub table: &'a mut [u32],
}

/// An overlay by its calls.
#[derive(Clone, Copy)]
pub struct Calls {
    pub rules: Rules,
    pub order: fn(&Rules, &Shape, &[i32], &mut [u32]) -> u32,
    pub row: fn(&Rules, &Shape, &[i32], &[u32]) -> RowTold,
    pub common: fn(&Rules, &Shape, &[i32], &[u32]) -> CommonTold,
    pub pair: fn(&Rules, &Shape, &[i32], &[u32]) -> PairTold,
    pub fresh: fn(&Rules, &Shape, &[i32], &[u32], &mut [u64]) -> (u32, Ticket),
    pub page: fn(&Rules, &mut Fetch) -> Page,
    pub run: fn(&Rules, &Shape, &[i32], &[u32], &mut [u32], &mut [i32]) -> Run,
    pub read: fn(&Rules, &[u8], &mut [i32]) -> Reading,
    pub write: fn(&Rules, &Shape, &[i32], &mut [u8]) -> Writing,
}

/// A wrong overlay and what is wrong with it.
pub type Slip = (Calls, &'static str);

/// The page call of some rules.
pub fn fetch(rules: &Rules, f: &mut Fetch) -> Page {
    rules.page(f.shape, f.cells, f.order, f.ticket, f.record, f.budget, f.table)
}

/// The overlay without a slip.
pub const RIGHT: Calls = Calls {
    rules: REFERENCE,
    order: Rules::make_order,
    row: Rules::row,
    common: Rules::common,
    pair: Rules::pair,
    fresh: Rules::fresh,
    page: fetch,
    run: Rules::run,
    read: Rules::read,
    write: Rules::write,
};

/// Every slip of the calls that are compared together.
pub fn slips() -> impl Iterator<Item = Slip> {
    let tables = [
        crate::plan::slips::SLIPS,
        crate::order::slips::SLIPS,
        crate::row::slips::SLIPS,
        crate::pair::slips::SLIPS,
        crate::page::slips::SLIPS,
        crate::page::record_slips::SLIPS,
        crate::run::slips::SLIPS,
        crate::text::slips::SLIPS,
    ];
    tables.into_iter().flatten().copied()
}

impl Overlay for Calls {
    fn make_order(&self, shape: &Shape, cells: &[i32], order: &mut [u32]) -> u32 {
        (self.order)(&self.rules, shape, cells, order)
    }
    fn row(&self, shape: &Shape, cells: &[i32], row: &[u32]) -> RowTold {
        (self.row)(&self.rules, shape, cells, row)
    }
    fn common(&self, shape: &Shape, cells: &[i32], row: &[u32]) -> CommonTold {
        (self.common)(&self.rules, shape, cells, row)
    }
    fn pair(&self, shape: &Shape, cells: &[i32], places: &[u32]) -> PairTold {
        (self.pair)(&self.rules, shape, cells, places)
    }
    fn fresh(&self, shape: &Shape, cells: &[i32], order: &[u32], record: &mut [u64]) -> (u32, Ticket) {
        (self.fresh)(&self.rules, shape, cells, order, record)
    }
    fn page(
        &self,
        shape: &Shape,
        cells: &[i32],
        order: &[u32],
        ticket: &Ticket,
        record: &mut [u64],
        budget: u32,
        table: &mut [u32],
    ) -> Page {
        (self.page)(&self.rules, &mut Fetch { shape, cells, order, ticket, record, budget, table })
    }
    fn run(&self, shape: &Shape, cells: &[i32], order: &[u32], table: &mut [u32], work: &mut [i32]) -> Run {
        (self.run)(&self.rules, shape, cells, order, table, work)
    }
    fn read(&self, text: &[u8], cells: &mut [i32]) -> Reading {
        (self.read)(&self.rules, text, cells)
    }
    fn write(&self, shape: &Shape, cells: &[i32], text: &mut [u8]) -> Writing {
        (self.write)(&self.rules, shape, cells, text)
    }
}
