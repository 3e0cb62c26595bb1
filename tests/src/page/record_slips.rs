//! Slips of counts and run records (02, Q-5), of the fresh ticket and of the page call.

use crate::overlay::{Overlay, Page, Stop, Ticket};
use crate::reference::{
    layers_of, passes, plan_fault, position, refused_page, stale, trials_by, Rules, TOO_MANY,
};
use crate::slips::{fetch, Calls, Fetch, Slip, RIGHT};

/// A page call that takes another record in the place of the one that is lent, and the ticket's count for one that is so much less.
fn taken(rules: &Rules, f: &mut Fetch, other: impl Fn(&Fetch) -> Option<(Vec<u64>, u64)>) -> Page {
    let Some((mut record, less)) = other(f) else { return fetch(rules, f) };
    let sent = f.ticket.after(f.ticket.count - less);
    let page = fetch(rules, &mut Fetch { ticket: &sent, record: &mut record, table: &mut *f.table, ..*f });
    if matches!(page.stop, Stop::Refused(_)) {
        return Page { ticket: *f.ticket, ..page };
    }
    let count = record[0].wrapping_add(less);
    f.record.iter_mut().take(1).for_each(|cell| *cell = count);
    Page { ticket: page.ticket.after(count), ..page }
}

/// A page call that believes a ticket of any count where `so` says it, by the first cell of the record.
fn believed(rules: &Rules, f: &mut Fetch, so: fn(&Fetch, u64) -> bool) -> Page {
    taken(rules, f, |f| so(f, held(f)).then(|| (vec![f.ticket.count], 0)))
}

/// The first cell of the record, or 0.
fn held(f: &Fetch) -> u64 {
    f.record.first().copied().unwrap_or(0)
}

/// Whether the record is one cell.
fn one(f: &Fetch) -> bool {
    f.record.len() == 1
}

/// A page call that asks for the record early, where `asks` says so.
fn early(rules: &Rules, f: &mut Fetch, asks: fn(&Rules, &Fetch) -> bool) -> Page {
    if asks(rules, f) && stale(f.record, f.ticket) {
        return refused_page(18, f.ticket);
    }
    fetch(rules, f)
}

/// An accepted page that leaves another count in the record and in its ticket, made of the ticket's, the new one and the page.
fn counted(rules: &Rules, f: &mut Fetch, counts: fn(u64, u64, &Page) -> (u64, u64)) -> Page {
    let page = fetch(rules, f);
    if matches!(page.stop, Stop::Refused(_)) {
        return page;
    }
    let (kept, told) = counts(f.ticket.count, page.ticket.count, &page);
    f.record[0] = kept;
    Page { ticket: page.ticket.after(told), ..page }
}

/// An accepted page that is refused after all, by a number of its own.
fn refused_late(rules: &Rules, f: &mut Fetch, number: fn(&Fetch, &Page) -> u32) -> Page {
    let (table, record) = (f.table.to_vec(), f.record.to_vec());
    let page = fetch(rules, f);
    let number = if matches!(page.stop, Stop::Refused(_)) { 0 } else { number(f, &page) };
    if number == 0 {
        return page;
    }
    f.table.copy_from_slice(&table);
    f.record.copy_from_slice(&record);
    refused_page(number, f.ticket)
}

/// 6 where a ticket's count is not its trial's place in the walk.
fn misplaced(f: &Fetch, _: &Page) -> u32 {
    let list = trials_by(&layers_of(f.shape, f.cells), passes);
    if position(&list, f.ticket).map(|at| at as u64) == Some(f.ticket.count) {
        0
    } else {
        6
    }
}

/// A page refused by a number writes the ticket's count into the record.
fn written(rules: &Rules, f: &mut Fetch, number: u32) -> Page {
    let page = fetch(rules, f);
    if page.stop == Stop::Refused(number) {
        f.record.iter_mut().for_each(|cell| *cell = f.ticket.count);
    }
    page
}

/// An overlay whose page call is another.
macro_rules! page {
    ($how:ident, $other:expr) => {
        Calls { page: |rules, f| $how(rules, f, $other), ..RIGHT }
    };
}

/// An overlay whose fresh start is another.
const fn fresh(
    call: fn(&Rules, &crate::overlay::Shape, &[i32], &[u32], &mut [u64]) -> (u32, Ticket),
) -> Calls {
    Calls { fresh: call, ..RIGHT }
}

pub const SLIPS: &[Slip] = &[
    (page!(believed, |f, _| one(f)), "a ticket's count believed without the record"),
    (
        page!(believed, |f, held| one(f) && f.ticket.count < held),
        "a ticket of fewer trials than the record holds taken",
    ),
    (
        page!(believed, |f, held| one(f) && held < f.ticket.count),
        "a ticket of more trials than the record holds taken",
    ),
    (
        page!(believed, |f, held| one(f) && held as u32 == f.ticket.count as u32),
        "the lower half of the count alone compared",
    ),
    (
        page!(believed, |f, held| one(f) && held >> 32 == f.ticket.count >> 32),
        "the upper half of the count alone compared",
    ),
    (page!(believed, |f, _| one(f) && f.ticket.ended), "Ended taken whatever the record holds"),
    (page!(believed, |f, _| f.record.is_empty()), "a page call without a record taken"),
    (
        page!(believed, |f, held| f.record.len() > 1 && held == f.ticket.count),
        "a record of more cells read as its first",
    ),
    (page!(taken, |f| (held(f) == TOO_MANY - 1).then(|| (Vec::new(), 0))), "a record of 2^57 - 1 refused"),
    (
        page!(taken, |f| {
            let so = one(f) && held(f) == TOO_MANY && f.ticket.count == TOO_MANY;
            so.then(|| (vec![0], f.ticket.count))
        }),
        "a record of 2^57 taken",
    ),
    (
        page!(taken, |f| (one(f) && held(f) == f.ticket.count).then(|| (vec![0], f.ticket.count))),
        "a record of any count taken",
    ),
    (
        page!(refused_late, |_, page| if page.ticket.count >= TOO_MANY { 18 } else { 0 }),
        "a page refused whose new count is 2^57 or more",
    ),
    (page!(early, |rules, f| rules.order_fault(f.shape, f.cells, f.order) == 0), "18 before 6"),
    (page!(early, |_, f| plan_fault(f.shape, f.cells) == 0), "18 before 5"),
    (page!(early, |_, _| true), "18 before the causes of the plan"),
    (page!(refused_late, misplaced), "6 for a ticket whose count is not its trial's place in the walk"),
    (page!(written, 6), "the record written by a page that 6 refuses"),
    (page!(written, 18), "the record written by a page that 18 refuses"),
    (page!(counted, |old, new, _| (old, new)), "the record left by an accepted page"),
    (page!(counted, |old, new, _| (new, old)), "a ticket with the count of the one before"),
    (
        page!(counted, |_, _, page| (page.trials.into(), page.trials.into())),
        "the trials of a page for those of its run",
    ),
    (page!(counted, |_, new, _| (u64::from(new as u32), u64::from(new as u32))), "counts kept in 32 bits"),
    (
        page!(counted, |_, new, page| (new, if page.ticket.ended { 0 } else { new })),
        "the count not carried into Ended",
    ),
    (
        Calls {
            page: |rules, f| {
                let (before, page) = (held(f), fetch(rules, f));
                match page.stop {
                    Stop::Refused(_) => Page { ticket: f.ticket.after(before), ..page },
                    _ => page,
                }
            },
            ..RIGHT
        },
        "a refused page giving its ticket back with the record's count",
    ),
    (
        fresh(|rules, s, c, order, record| {
            let before = record.to_vec();
            let told = rules.fresh(s, c, order, record);
            record.copy_from_slice(&before);
            told
        }),
        "a fresh start that leaves the record",
    ),
    (
        fresh(|rules, s, c, order, record| {
            let cells = record.len().min(1);
            rules.fresh(s, c, order, &mut record[..cells])
        }),
        "a fresh start on a record of more cells taken",
    ),
    (
        fresh(|rules, s, c, order, record| match record.is_empty() {
            true => rules.fresh(s, c, order, &mut [0]),
            false => rules.fresh(s, c, order, record),
        }),
        "a fresh start without a record taken",
    ),
    (
        fresh(|rules, s, c, order, record| match record.len() {
            1 => rules.fresh(s, c, order, record),
            _ => (18, Ticket::ENDED),
        }),
        "18 of a fresh start before 5",
    ),
    (
        fresh(|rules, s, c, order, record| {
            let told = rules.fresh(s, c, order, record);
            if told.0 != 0 {
                record.fill(0);
            }
            told
        }),
        "the record written by a refused fresh start",
    ),
    (
        fresh(|rules, s, c, order, record| {
            let before = record.first().copied().unwrap_or(0);
            match rules.fresh(s, c, order, record) {
                (0, ticket) => (0, ticket.after(before)),
                told => told,
            }
        }),
        "a fresh ticket with the count that the record held",
    ),
    (
        fresh(|rules, s, c, order, record| match rules.fresh(s, c, order, record) {
            (18, _) => (18, rules.fresh(s, c, order, &mut [0]).1),
            told => told,
        }),
        "the first trial told by a fresh start that 18 refuses",
    ),
];
