//! Slips of a round.

use super::{idle, numbers, tablet_fault, Lent, RoundTold, Slip, RIGHT};
use crate::overlay::{Page, Stop, Ticket};
use crate::reference::refused_page;

/// Serves the tablets below the one that is refused.
fn serve_lower(words: &Slip, lent: &mut Lent, number: u32) {
    if !matches!(number, 6 | 18) {
        return;
    }
    let sound = |tablet: &usize| tablet_fault(lent, *tablet) == 0;
    let lower = (0..lent.m as usize).take_while(sound).count();
    if lower == 0 {
        return;
    }
    let records = lent.records[..lower].to_vec();
    let mut fewer = Lent { m: lower as u32, first: 1, records, ..lent.clone() };
    words.served(&mut fewer);
    lent.records[..lower].copy_from_slice(&fewer.records);
    lent.table = fewer.table;
}

/// A refused round that says Spent past m.
fn spent_past(lent: &Lent, number: u32) -> RoundTold {
    let mut told = (RIGHT.refused)(lent, number);
    for at in (0..16).filter(|&at| number != 22 && at >= lent.m as usize) {
        told.pages[at] = idle(&lent.tickets[at]);
    }
    told
}

/// Every wrong version with its description.
pub const SLIPS: [(Slip, &str); 23] = [
    (
        Slip { offer: |budget, _, m, _| budget / m as u64, spent: |_, _| 0, ..RIGHT },
        "each is offered B / m, whatever is left",
    ),
    (Slip { spent: |offer, _| offer, ..RIGHT }, "unused trials are lost"),
    (Slip { offer: |_, left, m, turn| left.div_ceil((m - turn) as u64), ..RIGHT }, "offers rounded up"),
    (Slip { cut: |_, turn| turn, ..RIGHT }, "parts in turn order"),
    (Slip { part: |cells, _, m| cells / m, ..RIGHT }, "parts of cells / m cells"),
    (Slip { rest: |cells| cells.fill(0), ..RIGHT }, "the rest of the table cleared"),
    (Slip { start: |_| 1, ..RIGHT }, "served from tablet 1 on"),
    (Slip { next: |first, _, _| first + 1, ..RIGHT }, "no 1 after m for the next round"),
    (
        Slip { next: |_, first, m| (first as u32 - 1 + m - 1) % m + 1, ..RIGHT },
        "the next round starts with the last one served",
    ),
    (Slip { past: |ticket| Page { stop: Stop::Ended, ..idle(ticket) }, ..RIGHT }, "Ended past m"),
    (Slip { past: |ticket| refused_page(22, ticket), ..RIGHT }, "a refusal past m"),
    (Slip { refused: spent_past, ..RIGHT }, "Spent past m in a refused round"),
    (
        Slip {
            refused: |lent, number| RoundTold { next: lent.first, ..(RIGHT.refused)(lent, number) },
            ..RIGHT
        },
        "a refused round tells the next tablet",
    ),
    (
        Slip {
            refused: |_, number| RoundTold {
                number,
                next: 0,
                pages: [refused_page(number, &Ticket::ENDED); 16],
            },
            ..RIGHT
        },
        "a refused round returns Ended tickets",
    ),
    (
        Slip { decides: |numbers| numbers.iter().min().copied().unwrap_or(0), ..RIGHT },
        "6 of all tablets before any 18",
    ),
    (Slip { decides: |numbers| numbers.last().copied().unwrap_or(0), ..RIGHT }, "the highest tablet decides"),
    (
        Slip {
            first: |order, numbers, tablets| match order {
                5 if numbers => 22,
                _ => (RIGHT.first)(order, numbers, tablets),
            },
            ..RIGHT
        },
        "22 before 5",
    ),
    (
        Slip {
            first: |order, numbers, tablets| match (order, tablets) {
                (0, 6 | 18) => tablets,
                _ => (RIGHT.first)(order, numbers, tablets),
            },
            ..RIGHT
        },
        "6 and 18 before 22",
    ),
    (Slip { before: serve_lower, ..RIGHT }, "lower tablets served before a higher one is refused"),
    (
        Slip { numbers: |lent| numbers(lent, 0, (1 << 32) - 1, lent.records.len()), ..RIGHT },
        "tablet 0 taken as tablet 1",
    ),
    (
        Slip { numbers: |lent| numbers(lent, 1, 1 << 32, lent.records.len()), ..RIGHT },
        "a budget of 2^32 accepted",
    ),
    (
        Slip {
            numbers: |lent| {
                let spare = usize::from(lent.records.len() == lent.m as usize + 1);
                numbers(lent, 1, (1 << 32) - 1, lent.records.len() - spare)
            },
            ..RIGHT
        },
        "a record too many accepted",
    ),
    (Slip { record: |_| 0, kept: u64::max, ..RIGHT }, "one record for all tablets"),
];
