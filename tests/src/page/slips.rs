//! Slips of the page call: of passing, of stops, of tickets, of the table and of areas. Those of counts and run records are in record_slips.rs.

use crate::overlay::{Overlay, Page, Shape, Stop, Ticket, Total};
use crate::reference::{
    area, intersection, is_empty, layers_of, passes, position, rects_at, ticket_at, trials_by, Layers,
    Passes, Rect, Rules,
};
use crate::run::slips::Sum;
use crate::slips::{fetch, Calls, Fetch, Slip, RIGHT};

/// Passing with <= on both sides.
pub fn ties_twice(_: usize, _: usize, r: Rect, g: Rect, c: Rect) -> bool {
    !is_empty(intersection(r, c)) && r.left <= g.left
}

/// Passing only where inner points are common.
pub fn open_edges(j: usize, i: usize, r: Rect, g: Rect, c: Rect) -> bool {
    let common = intersection(r, c);
    common.left < common.right && common.bottom < common.top && passes(j, i, r, g, c)
}

/// The page call under a rule for passing.
pub fn page_passing(rules: &Rules, f: &mut Fetch, rule: Passes) -> Page {
    rules.page_by(rule, (f.shape, f.cells), f.order, (f.ticket, f.record), f.budget, f.table)
}

/// The ground of the first rows of a table.
pub fn grounds(layers: &Layers, table: &[u32], rows: u32) -> Vec<Rect> {
    let rows = table.chunks(layers.len()).take(rows as usize);
    rows.filter_map(|row| rects_at(layers, row).into_iter().reduce(intersection)).collect()
}

/// The areas of the first rows of a table.
pub fn areas_of(shape: &Shape, cells: &[i32], table: &[u32], rows: u32) -> Vec<u64> {
    grounds(&layers_of(shape, cells), table, rows).into_iter().map(area).collect()
}

/// A sum of areas made of the whole metres of each, the rests of each, and all of it.
pub fn summed_by(sum: fn(u64, u64, u128) -> Total, areas: &[u64]) -> Total {
    let metres = areas.iter().map(|area| area / 1_000_000).sum();
    let rest = areas.iter().map(|area| area % 1_000_000).sum();
    sum(metres, rest, areas.iter().map(|&area| u128::from(area)).sum())
}

/// A page that is accepted, and then another.
fn accepted(rules: &Rules, f: &mut Fetch, other: impl Fn(&mut Fetch, Page) -> Page) -> Page {
    let page = fetch(rules, f);
    if matches!(page.stop, Stop::Refused(_)) {
        page
    } else {
        other(f, page)
    }
}

/// A page that tells another area sum.
pub fn page_area(rules: &Rules, f: &mut Fetch, sum: Sum) -> Page {
    accepted(rules, f, |f, page| Page { area: sum(f.shape, f.cells, f.table, page.rows), ..page })
}

/// A page that is refused, and then another.
fn refused(rules: &Rules, f: &mut Fetch, other: impl Fn(&mut Fetch, Page) -> Page) -> Page {
    let page = fetch(rules, f);
    if matches!(page.stop, Stop::Refused(_)) {
        other(f, page)
    } else {
        page
    }
}

/// A page from the trial that a ticket is taken for which 6 refuses.
fn believed(rules: &Rules, f: &mut Fetch, taken: fn(&Fetch) -> Option<Ticket>) -> Page {
    let page = fetch(rules, f);
    if page.stop != Stop::Refused(6) {
        return page;
    }
    let Some(ticket) = taken(f) else { return page };
    let (record, table) = (&mut *f.record, &mut *f.table);
    let told = fetch(rules, &mut Fetch { ticket: &ticket, record, table, ..*f });
    match told.stop {
        Stop::Refused(_) => Page { stop: told.stop, ..page },
        _ => told,
    }
}

/// The trial of the walk that a ticket would name if its chosen places were not tested.
fn without_chosen(f: &Fetch) -> Option<Ticket> {
    let bare = |ticket: &Ticket| (ticket.ended, ticket.layer, ticket.place, ticket.filled, ticket.next);
    let list = trials_by(&layers_of(f.shape, f.cells), passes);
    let found = list.iter().map(|trial| trial.ticket).find(|trial| bare(trial) == bare(f.ticket))?;
    let unfilled = f.ticket.chosen.iter().skip(f.ticket.filled as usize).all(|&cell| cell == 0);
    unfilled.then_some(found.after(f.ticket.count))
}

/// The same, but only where each chosen place passes with the guard alone.
fn loosely_chosen(f: &Fetch) -> Option<Ticket> {
    let found = without_chosen(f)?;
    let layers = layers_of(f.shape, f.cells);
    let i = f.ticket.layer as usize - 1;
    let g = layers[i][f.ticket.place as usize];
    let slots = (0..layers.len()).filter(|&j| j != i);
    let mut chosen = slots.zip(f.ticket.chosen).take(f.ticket.filled as usize);
    let fits =
        |(j, place): (usize, u32)| layers[j].get(place as usize).is_some_and(|&r| passes(j, i, r, g, g));
    chosen.all(fits).then_some(found)
}

/// What follows a ticket whose place to try is one past the last of its layer.
fn after_last(f: &Fetch) -> Option<Ticket> {
    let (i, slot) = ((f.ticket.layer as usize).checked_sub(1)?, f.ticket.filled as usize);
    let layer = if slot < i { slot } else { slot.checked_add(1)? };
    if f.ticket.next == 0 || f.shape.sizes.get(layer) != Some(&f.ticket.next) {
        return None;
    }
    let list = trials_by(&layers_of(f.shape, f.cells), passes);
    let at = position(&list, &Ticket { next: f.ticket.next - 1, ..*f.ticket })?;
    Some(ticket_at(&list, at + 1).after(f.ticket.count))
}

/// The ticket with nothing in its cells that are not filled.
fn unfilled(f: &Fetch) -> Option<Ticket> {
    let mut bare = *f.ticket;
    bare.chosen.iter_mut().skip(f.ticket.filled as usize).for_each(|cell| *cell = 0);
    Some(bare)
}

/// A page that goes on with a full table until a trial yields a row.
fn full_late(f: &mut Fetch, page: Page) -> Page {
    if page.stop != Stop::Full {
        return page;
    }
    let list = trials_by(&layers_of(f.shape, f.cells), passes);
    let at = position(&list, &page.ticket).unwrap_or(list.len());
    let idle = list[at..].iter().take_while(|trial| !trial.yields).count();
    let more = idle.min((f.budget - page.trials) as usize);
    let ticket = ticket_at(&list, at + more).after(page.ticket.count);
    let stop = if ticket.ended { Stop::Ended } else { Stop::Full };
    Page { stop, trials: page.trials + more as u32, ticket, ..page }
}

/// A page that tells Ended where no later trial yields a row.
fn ended_early(f: &mut Fetch, page: Page) -> Page {
    let list = trials_by(&layers_of(f.shape, f.cells), passes);
    let at = position(&list, &page.ticket).unwrap_or(list.len());
    if list[at..].iter().any(|trial| trial.yields) {
        return page;
    }
    Page { stop: Stop::Ended, ticket: Ticket::ENDED.after(page.ticket.count), ..page }
}

/// A page that goes on past 1,000,000 rows where its table has more cells.
fn cap_ignored(rules: &Rules, f: &mut Fetch) -> Page {
    let page = fetch(rules, f);
    if page.stop != Stop::Full || page.rows != 1_000_000 {
        return page;
    }
    let filled = page.rows as usize * f.shape.k as usize;
    let (record, table) = (&mut *f.record, &mut f.table[filled..]);
    let more = fetch(
        rules,
        &mut Fetch { ticket: &page.ticket, record, table, budget: f.budget - page.trials, ..*f },
    );
    Page {
        rows: page.rows + more.rows,
        trials: page.trials + more.trials,
        area: Total::of(page.area.value() + more.area.value()),
        ..more
    }
}

/// A page that stops otherwise where it did all that it was allowed.
fn stops(f: &Fetch, page: Page, from: Stop, to: Stop) -> Page {
    let done = match to {
        Stop::Full => page.rows > 0 && page.rows as usize == f.table.len() / f.shape.k as usize,
        _ => page.trials == f.budget && (f.budget > 0 || from == Stop::Full),
    };
    Page { stop: if done && page.stop == from { to } else { page.stop }, ..page }
}

/// An overlay whose accepted or refused pages are others.
macro_rules! page {
    ($when:ident, $other:expr) => {
        Calls { page: |rules, f| $when(rules, f, $other), ..RIGHT }
    };
}

pub const SLIPS: &[Slip] = &[
    (
        page!(accepted, |f, page| stops(f, page, Stop::Ended, Stop::Spent)),
        "Spent reported where the last trial ended the walk",
    ),
    (
        page!(accepted, |f, page| stops(f, page, Stop::Ended, Stop::Full)),
        "Full reported where the row that fills the table ended the walk",
    ),
    (page!(accepted, |f, page| stops(f, page, Stop::Full, Stop::Spent)), "Spent asked before Full"),
    (page!(accepted, full_late), "Full told only when a row finds no room"),
    (page!(accepted, ended_early), "Ended told once no more rows come"),
    (
        page!(accepted, |_, page| Page { area: Total::of(u128::from(page.area.value() as u32)), ..page }),
        "area sums of a page kept in 32 bits",
    ),
    (
        page!(accepted, |f, page| {
            f.table[page.rows as usize * f.shape.k as usize..].fill(0);
            page
        }),
        "the rest of the table cleared",
    ),
    (
        page!(refused, |f, page| {
            f.table.iter_mut().take(1).for_each(|cell| *cell = 0);
            page
        }),
        "a refused page altering the table",
    ),
    (
        page!(refused, |_, page| Page { ticket: Ticket::ENDED, ..page }),
        "a refused page giving Ended for its ticket",
    ),
    (page!(refused, |_, page| Page { trials: 1, ..page }), "a refused page telling a trial"),
    (
        Calls {
            page: |rules, f| {
                f.budget = f.budget.saturating_add(1);
                fetch(rules, f)
            },
            ..RIGHT
        },
        "budget passed by one",
    ),
    (page!(believed, without_chosen), "a ticket believed without testing its chosen places"),
    (page!(believed, loosely_chosen), "a ticket's chosen places tested with the guard, not with each other"),
    (page!(believed, after_last), "a ticket accepted whose place to try is one past the last"),
    (
        page!(believed, |f| f.ticket.ended.then_some(Ticket::ENDED.after(f.ticket.count))),
        "Ended accepted with other fields set",
    ),
    (page!(believed, unfilled), "unfilled chosen cells not tested"),
    (Calls { page: cap_ignored, ..RIGHT }, "a page without the cap of 1,000,000 rows"),
    (
        Calls {
            fresh: |rules, shape, cells, order, record| match rules.fresh(shape, cells, order, record) {
                (0, ticket) => (0, ticket),
                (number, ticket) => (number, Ticket { ended: false, ..ticket }),
            },
            ..RIGHT
        },
        "a refused fresh ticket that is not Ended",
    ),
];
