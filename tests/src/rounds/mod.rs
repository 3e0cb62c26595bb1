//! Rounds of many tablets: request Q-10 written a second time, wrong versions of it, and a comparison.

pub mod compare;
pub mod slips;

use crate::call::Plan;
use crate::overlay::{Overlay, Page, Stop, Ticket, Total};
use crate::reference::{refused_page, REFERENCE};
pub use compare::compare_rounds;
pub use slips::SLIPS;

/// What a round brings, and the buffers that it is lent.
#[derive(Clone, Debug, PartialEq)]
pub struct Lent {
    pub plan: Plan,
    pub order: Vec<u32>,
    pub m: u32,
    pub first: u32,
    pub budget: u64,
    pub tickets: [Ticket; 16],
    pub records: Vec<u64>,
    pub table: Vec<u32>,
}

/// What a round returns: the number of a cause, the tablet that the next round starts with, and sixteen pages.
#[derive(Clone, Copy, Debug, PartialEq, Eq)]
pub struct RoundTold {
    pub number: u32,
    pub next: u32,
    pub pages: [Page; 16],
}

/// The call.
pub type Round<'a> = &'a dyn Fn(&mut Lent) -> RoundTold;

/// "past m the ticket comes back as given, the stop is Spent and all else 0".
pub fn idle(ticket: &Ticket) -> Page {
    Page { stop: Stop::Spent, rows: 0, trials: 0, area: Total::NONE, ticket: *ticket }
}

/// 02's words as functions; a slip puts another in the place of one.
#[derive(Clone, Copy)]
pub struct Slip {
    /// Whether m, the first tablet, the budget and the number of run records are as they have to be.
    pub numbers: fn(&Lent) -> bool,
    /// Which of the tablets' causes, 6 and 18 from the lowest tablet on, decides.
    pub decides: fn(&[u32]) -> u32,
    /// The first cause of: that of plan and order, whether 22 applies, and that of the tablets.
    pub first: fn(u32, bool, u32) -> u32,
    /// What a refused round returns.
    pub refused: fn(&Lent, u32) -> RoundTold,
    /// What a refused round does before.
    pub before: fn(&Slip, &mut Lent, u32),
    /// What a tablet past m gets.
    pub past: fn(&Ticket) -> Page,
    /// The cells of a part, by those of the table, k and m.
    pub part: fn(usize, usize, usize) -> usize,
    /// The tablet that is served first, from 1.
    pub start: fn(&Lent) -> usize,
    /// What is offered: by the budget, what is left of it, m and the turn.
    pub offer: fn(u64, u64, usize, usize) -> u64,
    /// Which part is a tablet's, by its place and its turn.
    pub cut: fn(usize, usize) -> usize,
    /// Which record is a tablet's, and what it holds then: by what it held and the new count.
    pub record: fn(usize) -> usize,
    pub kept: fn(u64, u64) -> u64,
    /// What is spent: by what was offered, and by the page.
    pub spent: fn(u64, &Page) -> u64,
    /// What is done with the table behind the parts.
    pub rest: fn(&mut [u32]),
    /// The tablet that the next round starts with, by the first one, that which was served first, and m.
    pub next: fn(u32, usize, u32) -> u32,
}

/// No slip.
pub const RIGHT: Slip = Slip {
    // "m outside 1 to 16, the first tablet not among them, B above 2^32 − 1, or not m run records"
    numbers: |lent| numbers(lent, 1, (1 << 32) - 1, lent.records.len()),
    // "then 6 and 18 for each tablet, the lowest tablet deciding"
    decides: |numbers| numbers.first().copied().unwrap_or(0),
    first: |order, numbers, tablets| match (order, numbers) {
        (0, true) => 22,
        (0, false) => tablets,
        _ => order,
    },
    // "every ticket as given and each stop as a refusal with that number"
    refused: |lent, number| RoundTold {
        number,
        next: 0,
        pages: lent.tickets.map(|t| refused_page(number, &t)),
    },
    before: |_, _, _| {},
    past: idle,
    part: |cells, k, m| k * (cells / (k * m)),
    start: |lent| lent.first.max(1) as usize,
    // "the trials left divided by the tablets still to serve, rounded down"
    offer: |_, left, m, turn| left / (m - turn) as u64,
    cut: |at, _| at,
    record: |at| at,
    kept: |_, count| count,
    spent: |_, page| u64::from(page.trials),
    rest: |_| {},
    next: |_, first, m| first as u32 % m + 1,
};

/// Whether the numbers are right, with the lowest first tablet, the largest budget, and the records as they are counted.
pub fn numbers(lent: &Lent, lowest: u32, most: u64, records: usize) -> bool {
    (1..=16).contains(&lent.m)
        && (lowest..=lent.m).contains(&lent.first)
        && lent.budget <= most
        && records == lent.m as usize
}

/// The number of one tablet's page call, 6 or 18, which is put to copies.
pub fn tablet_fault(lent: &Lent, tablet: usize) -> u32 {
    let Some(&record) = lent.records.get(tablet) else { return 0 };
    let (shape, cells) = (&lent.plan.shape, &lent.plan.cells);
    match REFERENCE.page(shape, cells, &lent.order, &lent.tickets[tablet], &mut [record], 0, &mut []).stop {
        Stop::Refused(number) => number,
        _ => 0,
    }
}

/// The round of 02's words, or a wrong version of it.
pub struct ByWords(pub Option<Slip>);

impl Slip {
    /// The first cause that applies: those of plan and order, 22, and those of the tablets.
    fn fault(&self, lent: &Lent) -> u32 {
        let order = REFERENCE.order_fault(&lent.plan.shape, &lent.plan.cells, &lent.order);
        let of = |tablet| tablet_fault(lent, tablet);
        let all = if order == 0 { 0..lent.m.min(16) as usize } else { 0..0 };
        let tablets: Vec<u32> = all.map(of).filter(|&number| number != 0).collect();
        (self.first)(order, !(self.numbers)(lent), (self.decides)(&tablets))
    }

    /// One after the other: each "makes one page call with that".
    pub fn served(&self, lent: &mut Lent) -> RoundTold {
        let (k, m) = (lent.plan.shape.k as usize, lent.m as usize);
        let (part, first) = ((self.part)(lent.table.len(), k, m), (self.start)(lent));
        let mut left = lent.budget.min(u64::from(u32::MAX));
        let mut pages: [Page; 16] = std::array::from_fn(|at| (self.past)(&lent.tickets[at]));
        for turn in 0..m {
            let at = (first - 1 + turn) % m;
            let offer = (self.offer)(lent.budget, left, m, turn);
            let (cut, record) = ((self.cut)(at, turn) * part, (self.record)(at));
            let mut held = [lent.tickets[at].count];
            let page = REFERENCE.page(
                &lent.plan.shape,
                &lent.plan.cells,
                &lent.order,
                &lent.tickets[at],
                &mut held,
                offer as u32,
                &mut lent.table[cut..cut + part],
            );
            lent.records[record] = (self.kept)(lent.records[record], held[0]);
            left -= (self.spent)(offer, &page);
            pages[at] = page;
        }
        (self.rest)(&mut lent.table[m * part..]);
        RoundTold { number: 0, next: (self.next)(lent.first, first, lent.m), pages }
    }
}

impl ByWords {
    /// The round.
    pub fn round(&self, lent: &mut Lent) -> RoundTold {
        let words = self.0.unwrap_or(RIGHT);
        match words.fault(lent) {
            0 => words.served(lent),
            number => {
                (words.before)(&words, lent, number);
                (words.refused)(lent, number)
            }
        }
    }
}

/// The rule.
pub fn round(lent: &mut Lent) -> RoundTold {
    ByWords(None).round(lent)
}
