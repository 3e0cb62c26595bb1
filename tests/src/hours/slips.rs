//! Slips of the timed calls.

use super::{has_minute, share_a_minute, sums, Lent, Slip, Window, RIGHT, WEEK};
use crate::overlay::Ticket;
use crate::reference::{join, passes, position, stale, trials_by, ungrown};

/// Whether windows share a minute by another word for being in one; the first two minutes of each are tried.
fn share_by(windows: &[Window], holds: fn(Window, u32) -> bool) -> bool {
    let shared = |minute: u32| windows.iter().all(|&window| holds(window, minute));
    windows.iter().any(|&(from, _)| shared(from) || shared(from + 1))
}

/// The place of a rectangle in its layer, by its number.
fn place_of(lent: &Lent, number: usize) -> usize {
    let mut place = number;
    for &size in &lent.plan.shape.sizes {
        if place < size as usize {
            return place;
        }
        place -= size as usize;
    }
    number
}

/// The place of a rectangle in the order, by its number.
fn turn_of(lent: &Lent, number: usize) -> usize {
    lent.order.iter().position(|&other| other as usize == number).unwrap_or(number)
}

/// A refused call that writes to the table.
fn writes_by_24(lent: &mut Lent, number: u32) {
    lent.table.iter_mut().take(usize::from(number == 24)).for_each(|cell| *cell = 0);
}

/// Every wrong version with its description.
pub const SLIPS: [(Slip, &str); 55] = [
    (
        Slip { share: |w| share_by(w, |(from, to), m| from <= m && m <= to), ..RIGHT },
        "the to minute included",
    ),
    (
        Slip { share: |w| share_by(w, |(from, to), m| from < m && m < to), ..RIGHT },
        "the from minute not included",
    ),
    (
        Slip { share: |w| share_by(w, |w, m| has_minute(w, m) || (m == 0 && w.1 == WEEK)), ..RIGHT },
        "minute 0 in a window to 10,080",
    ),
    (
        Slip { timely: |words, w, last| !last || (words.share)(w), ..RIGHT },
        "windows asked only at the last slot",
    ),
    (
        Slip { timely: |words, w, last| last || (words.share)(w), ..RIGHT },
        "windows asked at every slot but the last",
    ),
    (
        Slip { timely: |words, w, _| (words.share)(&w[w.len().saturating_sub(2)..]), ..RIGHT },
        "each window held against the one before it alone",
    ),
    (
        Slip { timely: |words, w, _| (words.share)(&[w[0], w[w.len() - 1]]), ..RIGHT },
        "each window held against the guard's alone",
    ),
    (Slip { own: |_| (0, WEEK), ..RIGHT }, "the guard's own window forgotten"),
    (Slip { goes_on: |_, more| more, ..RIGHT }, "a slot that does not go on with its old windows"),
    (
        Slip { forgotten: |ticket| (!ticket.ended).then_some(*ticket), ..RIGHT },
        "the windows of a ticket's chosen places forgotten",
    ),
    (
        Slip { cells: |lent, n| (RIGHT.cells)(lent, place_of(lent, n)), ..RIGHT },
        "windows by place and not by the rectangle's number",
    ),
    (Slip { cells: |lent, n| (RIGHT.cells)(lent, turn_of(lent, n)), ..RIGHT }, "windows in sweep order"),
    (
        Slip { cells: |lent, n| (n, lent.plan.cells.len() / 4 + n), ..RIGHT },
        "windows laid out as all from minutes, then all to minutes",
    ),
    (Slip { layers: ungrown, ..RIGHT }, "timed calls on the rectangles as they are drawn"),
    (Slip { timely: |_, _, _| true, ..RIGHT }, "a page of the old walk"),
    (
        Slip { listed: |_, _| true, length: |layers, _| trials_by(layers, passes).len(), ..RIGHT },
        "a whole run of all rows",
    ),
    (
        Slip {
            stands: |layers, list, ticket| {
                let old = || position(&trials_by(layers, passes), ticket).map(|_| list.len());
                position(list, ticket).or_else(old)
            },
            ..RIGHT
        },
        "6 by the old walk",
    ),
    (
        Slip { stale: |record, ticket| record.len() != 1 && stale(record, ticket), ..RIGHT },
        "18 not told by a timed page",
    ),
    (Slip { stale_first: stale, ..RIGHT }, "18 before 6 in a timed page"),
    (Slip { fits: |_, layers| join(layers).len(), ..RIGHT }, "7 by all rows"),
    (Slip { work: |_, layers| 2 * join(layers).len(), ..RIGHT }, "19 by all rows"),
    (Slip { work: |_, _| 0, ..RIGHT }, "19 not told by a timed run"),
    (
        Slip {
            seven_or_nineteen: |full, short| if short { 19 } else { (RIGHT.seven_or_nineteen)(full, short) },
            ..RIGHT
        },
        "19 before 7 in a timed run",
    ),
    (
        Slip { writes: |number| matches!(number, 0 | 7), ..RIGHT },
        "rows written before refusal 7 of a timed run",
    ),
    (Slip { rest: |cells| cells.fill(0), ..RIGHT }, "the rest of a timed run's table cleared"),
    (Slip { ground: |_, layers| sums(&join(layers)).1, ..RIGHT }, "the union of all rows' ground"),
    (Slip { sum: |_, layers| sums(&join(layers)).0, ..RIGHT }, "the area sum of all rows"),
    (
        Slip { length: |layers, _| trials_by(layers, passes).len(), ..RIGHT },
        "the old walk's length told by a timed run",
    ),
    (Slip { asks: |fault| matches!(fault, 0 | 4), ..RIGHT }, "24 before 4"),
    (Slip { asks: |_| true, ..RIGHT }, "24 before the causes of the plan"),
    (Slip { tells: |order| order != 5, ..RIGHT }, "24 after 5"),
    (Slip { waits: |number| number == 24, ..RIGHT }, "24 after 6, 18, 7 and 19"),
    (Slip { refused: writes_by_24, ..RIGHT }, "a table written by a call that 24 refuses"),
    (
        Slip { ticket: |number, given| if number == 24 { Ticket::ENDED } else { given }, ..RIGHT },
        "a page that 24 refuses giving Ended for its ticket",
    ),
    (Slip { told: |number| u32::from(number == 24), ..RIGHT }, "a run that 24 refuses telling rows"),
    (
        Slip { is_long: |given, wanted| given == wanted || given == 0, ..RIGHT },
        "no windows taken as none to ask",
    ),
    (
        Slip {
            is_long: |given, wanted| given >= wanted,
            checked: |mut windows, n| {
                windows.truncate(n);
                windows
            },
            ..RIGHT
        },
        "cells after 2n not looked at",
    ),
    (
        Slip { is_long: |given, wanted| given == wanted || given + 1 == wanted, ..RIGHT },
        "a buffer of 2n - 1 cells read up to the week's end",
    ),
    (Slip { is_window: |(from, to)| from < to && to <= WEEK + 1, ..RIGHT }, "a to of 10,081 taken"),
    (Slip { is_window: |(from, to)| from < to, ..RIGHT }, "any to taken"),
    (Slip { is_window: |(from, to)| from < to && to < WEEK, ..RIGHT }, "a to of 10,080 refused"),
    (Slip { is_window: |(from, to)| from <= to && to <= WEEK, ..RIGHT }, "from equal to to taken"),
    (Slip { is_window: |(from, to)| from <= WEEK && to <= WEEK, ..RIGHT }, "from above to taken"),
    (
        Slip { checked: |windows, _| windows.into_iter().skip(1).collect(), ..RIGHT },
        "the first window not checked",
    ),
    (
        Slip {
            checked: |mut windows, _| {
                windows.pop();
                windows
            },
            ..RIGHT
        },
        "the last window not checked",
    ),
    (Slip { minutes: |first, last| (last + 1, first), ..RIGHT }, "to and from of a row exchanged"),
    (
        Slip { minutes: |first, last| (first, last), ..RIGHT },
        "the last shared minute and not the first after",
    ),
    (
        Slip {
            of_row: |windows, _| windows.into_iter().map(|(from, to)| (from, (to + 1).min(WEEK))).collect(),
            ..RIGHT
        },
        "the to minute included in the minutes of a row",
    ),
    (
        Slip { of_row: |windows, _| windows.into_iter().take(2).collect(), ..RIGHT },
        "the minutes of a row's first two windows",
    ),
    (
        Slip {
            of_row: |windows, row| match row {
                Some(row) if share_a_minute(&windows) => vec![windows[row.guard as usize - 1]],
                _ => windows,
            },
            ..RIGHT
        },
        "the minutes of the guard's window",
    ),
    (Slip { is_row: |_| true, ..RIGHT }, "minutes told of rectangles that do not meet"),
    (
        Slip {
            no_minutes: |windows| windows.iter().fold((0, WEEK), |(a, b), w| (a.max(w.0), b.min(w.1))),
            ..RIGHT
        },
        "the latest from and the earliest to of windows that share nothing",
    ),
    (
        Slip { places: |places, k| &places[..k.min(places.len())], ..RIGHT },
        "more than k cells read as the first k",
    ),
    (Slip { outside: 23, ..RIGHT }, "23 for cells that name no rectangles"),
    (
        Slip { refused_minutes: |number| (0, if number == 24 { WEEK } else { 0 }), ..RIGHT },
        "minutes told by a call that 24 refuses",
    ),
];
