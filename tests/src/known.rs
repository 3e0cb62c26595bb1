//! Calls and reports whose answers the paper gives, in plain numbers and bytes: every overlay is held to them.

use crate::call::{Answer, Call, Plan};
use crate::overlay::{
    CommonTold, Page, PairTold, Reading, RowTold, Run, Shape, Stop, Ticket, Total, Writing,
};
use crate::seeds::spell;

/// The cells of plan D: two rectangles, and one that overlaps the first and touches the second.
const D: [i32; 12] = [0, 0, 1000, 1000, 1000, 0, 2000, 500, 500, 500, 1500, 1500];

/// A call as it is put, what it must answer, and the call with its buffers as it must leave them.
pub struct KnownCall {
    pub name: &'static str,
    pub call: Call,
    pub answer: Answer,
    pub after: Call,
}

/// An input of the report program, and what it must print.
pub struct KnownReport {
    pub name: &'static str,
    pub input: Vec<u8>,
    pub printed: Vec<u8>,
}

// ---------------------------------------------------------------- calls

/// Plan D with this k and these two sizes.
fn shaped(k: u32, first: u32, second: u32) -> Plan {
    let sizes = [first, second, 0, 0, 0, 0];
    Plan { shape: Shape { k, sizes, margins: [0; 6] }, cells: D.to_vec() }
}

/// A plan with these margins of its first layers.
fn grown(plan: Plan, margins: &[u32]) -> Plan {
    let mut shape = plan.shape;
    shape.margins[..margins.len()].copy_from_slice(margins);
    Plan { shape, ..plan }
}

/// Plan D with one coordinate replaced.
fn with_cell(at: usize, coordinate: i32) -> Plan {
    let mut plan = shaped(2, 2, 1);
    plan.cells[at] = coordinate;
    plan
}

/// An order maker call on cells that are all 7: its number, and the cells afterwards.
fn order(name: &'static str, plan: Plan, number: u32, after: &[u32]) -> KnownCall {
    let call = Call::MakeOrder { plan: plan.clone(), order: vec![7; after.len()] };
    let after = Call::MakeOrder { plan, order: after.to_vec() };
    KnownCall { name, call, answer: Answer::Number(number), after }
}

/// A row call: its number, the guard's layer and the area.
fn row(name: &'static str, plan: Plan, places: &[u32], told: (u32, u32, u64)) -> KnownCall {
    let (number, layer, area) = told;
    let call = Call::Row { plan, row: places.to_vec() };
    KnownCall { name, call: call.clone(), answer: Answer::Row(RowTold { number, layer, area }), after: call }
}

/// A pair call: its number, the lower layer and the higher.
fn pair(name: &'static str, plan: Plan, places: &[u32], told: (u32, u32, u32)) -> KnownCall {
    let (number, lower, higher) = told;
    let call = Call::Pair { plan, places: places.to_vec() };
    KnownCall {
        name,
        call: call.clone(),
        answer: Answer::Pair(PairTold { number, lower, higher }),
        after: call,
    }
}

/// One square of side 10 in each layer, at these lefts.
fn in_a_line(lefts: &[i32]) -> Plan {
    let mut sizes = [0; 6];
    sizes[..lefts.len()].fill(1);
    let cells = lefts.iter().flat_map(|&left| [left, 0, left + 10, 10]).collect();
    Plan { shape: Shape { k: lefts.len() as u32, sizes, margins: [0; 6] }, cells }
}

/// A reading into twelve cells that are all 7: its number, the sizes and margins of two layers, and the cells afterwards; k is 0 after a refusal.
fn reading(name: &'static str, text: &str, told: (u32, [u32; 2], [u32; 2]), after: &[i32]) -> KnownCall {
    let (number, sizes, margins) = told;
    let six = |two: [u32; 2]| [two[0], two[1], 0, 0, 0, 0];
    let shape = Shape { k: if number == 0 { 2 } else { 0 }, sizes: six(sizes), margins: six(margins) };
    let mut cells = vec![7; 12];
    let call = Call::Read { text: spell(text), cells: cells.clone() };
    cells[..after.len()].copy_from_slice(after);
    KnownCall {
        name,
        call,
        answer: Answer::Read(Reading { number, shape }),
        after: Call::Read { text: spell(text), cells },
    }
}

/// A writing into as many bytes as the text has, all 7.
fn writing(name: &'static str, plan: Plan, text: &str) -> KnownCall {
    let (length, text) = (text.len(), spell(text));
    let call = Call::Write { plan: plan.clone(), text: vec![7; length] };
    let answer = Answer::Write(Writing { number: 0, length });
    KnownCall { name, call, answer, after: Call::Write { plan, text } }
}

/// Order maker, row call and pair call on plan D, and each of their causes by the smallest change of plan D that has it.
pub fn known_calls() -> Vec<KnownCall> {
    vec![
        order("the order of D", shaped(2, 2, 1), 0, &[0, 2, 1]),
        order("the order of one layer", shaped(1, 2, 1), 1, &[7, 7, 7]),
        order("the order of seven layers", shaped(7, 2, 1), 1, &[7, 7, 7]),
        order("the order of a size of 513", shaped(2, 513, 1), 2, &[7, 7, 7]),
        order("the order of one rectangle too few", shaped(2, 2, 2), 3, &[7, 7, 7]),
        order("the order of a right of 10000001", with_cell(2, 10_000_001), 4, &[7, 7, 7]),
        order("the order of a left above its right", with_cell(4, 2001), 4, &[7, 7, 7]),
        order("an order buffer of two cells", shaped(2, 2, 1), 8, &[7, 7]),
        row("the first row of D", shaped(2, 2, 1), &[0, 0], (0, 2, 250_000)),
        row("the second row of D", shaped(2, 2, 1), &[1, 0], (0, 1, 0)),
        row("a place past the last", shaped(2, 2, 1), &[2, 0], (0, 0, 0)),
        row("a row of one cell", shaped(2, 2, 1), &[0], (0, 0, 0)),
        row("a row of no layers", shaped(0, 2, 1), &[0, 0], (1, 0, 0)),
        row("a row with a size of 600", shaped(2, 2, 600), &[0, 0], (2, 0, 0)),
        row("a row with one rectangle too many", shaped(2, 1, 1), &[0, 0], (3, 0, 0)),
        row("a row with a right of 10000001", with_cell(2, 10_000_001), &[0, 0], (4, 0, 0)),
        pair("the pair of the first row of D", shaped(2, 2, 1), &[0, 0], (0, 0, 0)),
        pair("the pair of two that touch", shaped(2, 2, 1), &[1, 0], (0, 0, 0)),
        pair("the pair of two that lie a millimetre apart", with_cell(9, 501), &[1, 0], (0, 1, 2)),
        pair("the first of two pairs by the lower layer", in_a_line(&[0, 5, 9, 20]), &[0; 4], (0, 1, 4)),
        pair("three that meet in turn but not all", in_a_line(&[0, 10, 20]), &[0; 3], (0, 1, 3)),
        pair("layers 1 and 4 before 2 and 3", in_a_line(&[10, 0, 20, 21]), &[0; 4], (0, 1, 4)),
        pair("a pair of six that all touch", in_a_line(&[0, 10, 0, 10, 0, 10]), &[0; 6], (0, 0, 0)),
        pair("a place past the last", shaped(2, 2, 1), &[2, 0], (23, 0, 0)),
        pair("one place", shaped(2, 2, 1), &[0], (23, 0, 0)),
        pair("three places", shaped(2, 2, 1), &[0, 0, 0], (23, 0, 0)),
        pair("no places", shaped(2, 2, 1), &[], (23, 0, 0)),
        pair(
            "a place in an empty layer",
            Plan { shape: shaped(2, 1, 0).shape, cells: D[..4].to_vec() },
            &[0, 0],
            (23, 0, 0),
        ),
        pair("a pair of no layers", shaped(0, 2, 1), &[], (1, 0, 0)),
        pair("a pair with a size of 600", shaped(2, 2, 600), &[9], (2, 0, 0)),
        pair("a pair with one rectangle too many", shaped(2, 1, 1), &[9], (3, 0, 0)),
        pair("a pair with a right of 10000001", with_cell(2, 10_000_001), &[9], (4, 0, 0)),
    ]
}

/// Calls with margins, and each side of check 17.
pub fn known_margins() -> Vec<KnownCall> {
    let d = || shaped(2, 2, 1);
    let most = |k: usize| {
        let mut plan = in_a_line(&[0; 6][..k]);
        plan.cells = [-10_000_000, -10_000_000, 10_000_000, 10_000_000].repeat(k);
        grown(plan, &[50_000; 6][..k])
    };
    let two = "PLAN,2/LAYER,1,1500/RECT,-3,-2,5,4/LAYER,0,20/";
    vec![
        order("a tie of lefts made by growing, the lowest layer first", grown(d(), &[0, 500]), 0, &[0, 2, 1]),
        order("a left a millimetre before another by growing", grown(d(), &[0, 501]), 0, &[2, 0, 1]),
        order("a tie of lefts made by growing both", grown(d(), &[1, 501]), 0, &[0, 2, 1]),
        order("the order of a margin of 50000", grown(d(), &[0, 50_000]), 0, &[2, 0, 1]),
        order("the order of a margin of 50001", grown(d(), &[0, 50_001]), 17, &[7, 7, 7]),
        order("the order of a margin past k", grown(d(), &[0, 0, 1]), 17, &[7, 7, 7]),
        order("2 before 17", grown(shaped(2, 513, 1), &[50_001]), 2, &[7, 7, 7]),
        order("1 before 17", grown(shaped(1, 2, 1), &[50_001]), 1, &[7, 7, 7]),
        order("17 before 3", grown(shaped(2, 2, 2), &[50_001]), 17, &[7, 7, 7]),
        order("17 before 4", grown(with_cell(2, 10_000_001), &[50_001]), 17, &[7, 7, 7]),
        order("17 before 8", grown(d(), &[50_001]), 17, &[7, 7]),
        order("a right of 10000001 in a margin", grown(with_cell(2, 10_000_001), &[50_000]), 4, &[7, 7, 7]),
        order("a left above its right in a margin", grown(with_cell(4, 2001), &[50_000]), 4, &[7, 7, 7]),
        row("the first row of D in a margin of 250", grown(d(), &[0, 250]), &[0, 0], (0, 2, 562_500)),
        row("the second row of D in a margin of 250", grown(d(), &[0, 250]), &[1, 0], (0, 1, 187_500)),
        row("a guard made by growing", grown(d(), &[0, 500]), &[0, 0], (0, 1, 1_000_000)),
        row("the largest area", most(2), &[0, 0], (0, 1, 404_010_000_000_000)),
        row("the largest area of six layers", most(6), &[0; 6], (0, 1, 404_010_000_000_000)),
        row("a row with a margin of 4294967295", grown(d(), &[u32::MAX]), &[0, 0], (17, 0, 0)),
        row("5 and 5 close a gap of 10", grown(in_a_line(&[0, 20]), &[5, 5]), &[0, 0], (0, 2, 0)),
        row("5 and 4 leave a millimetre of it", grown(in_a_line(&[0, 20]), &[5, 4]), &[0, 0], (0, 0, 0)),
        pair("10 and 0 close a gap of 10", grown(in_a_line(&[0, 20]), &[10]), &[0, 0], (0, 0, 0)),
        pair("9 and 0 leave a millimetre of it", grown(in_a_line(&[0, 20]), &[9]), &[0, 0], (0, 1, 2)),
        pair("17 before 23", grown(d(), &[0, 50_001]), &[], (17, 0, 0)),
        reading("a text with margins", two, (0, [1, 0], [1_500, 20]), &[-3, -2, 5, 4]),
        reading("a margin of 50000", "PLAN,2/LAYER,0,50000/LAYER,0,0/", (0, [0; 2], [50_000, 0]), &[]),
        reading("a margin of 50001", "PLAN,2/LAYER,0,50001/LAYER,0,0/", (10, [0; 2], [0; 2]), &[]),
        reading("a margin of -1", "PLAN,2/LAYER,0,9/LAYER,0,-1/", (10, [0; 2], [0; 2]), &[]),
        reading("a margin of -0", "PLAN,2/LAYER,0,9/LAYER,0,-0/", (9, [0; 2], [0; 2]), &[]),
        reading("an old LAYER line", "PLAN,2/LAYER,0,9/LAYER,0/", (9, [0; 2], [0; 2]), &[]),
        writing(
            "a text with margins, written",
            grown(Plan { shape: shaped(2, 1, 0).shape, cells: vec![-3, -2, 5, 4] }, &[1_500, 20]),
            two,
        ),
    ]
}

/// The ticket of a trial of two layers, after so many trials.
fn ticket(layer: u32, place: u32, next: u32, count: u64) -> Ticket {
    Ticket { ended: false, layer, place, filled: 0, chosen: [0; 5], next, count }
}

/// Ended after so many trials.
fn ended(count: u64) -> Ticket {
    Ticket { ended: true, layer: 0, place: 0, filled: 0, chosen: [0; 5], next: 0, count }
}

/// A fresh start on plan D with an order: its number, the ticket, and the record before and afterwards.
fn start(name: &'static str, order: &[u32], told: (u32, Ticket), records: (&[u64], &[u64])) -> KnownCall {
    let call = |record: &[u64]| Call::Fresh {
        plan: shaped(2, 2, 1),
        order: order.to_vec(),
        record: record.to_vec(),
    };
    KnownCall { name, call: call(records.0), answer: Answer::Fresh(told.0, told.1), after: call(records.1) }
}

/// A page call on plan D with budget 2 and a table of four cells that are all 7: its ticket and record, and what it tells and leaves: the stop, the rows, how
/// many trials, the area, the ticket and the record.
fn paged(
    name: &'static str,
    brought: (Ticket, &[u64]),
    told: (Stop, &[u32], u32, u64, Ticket),
    after: &[u64],
) -> KnownCall {
    let (stop, rows, trials, area, ticket) = told;
    let call = |record: &[u64], rows: &[u32]| {
        let mut table = vec![7; 4];
        table[..rows.len()].copy_from_slice(rows);
        let (plan, order, record) = (shaped(2, 2, 1), vec![0, 2, 1], record.to_vec());
        Call::Page { plan, order, ticket: brought.0, record, budget: 2, table }
    };
    let page = Page { stop, rows: rows.len() as u32 / 2, trials, area: Total::of(area.into()), ticket };
    KnownCall { name, call: call(brought.1, &[]), answer: Answer::Page(page), after: call(after, rows) }
}

/// A page call on plan D that is refused: it gives its ticket back, and leaves its record.
fn refused(name: &'static str, brought: (Ticket, &[u64]), number: u32) -> KnownCall {
    paged(name, brought, (Stop::Refused(number), &[], 0, 0, brought.0), brought.1)
}

/// Runs on plan D, whose walk has four trials: tickets with their counts, run records, and each side of check 18.
pub fn known_tickets() -> Vec<KnownCall> {
    let (good, none) = ([0, 2, 1], ended(0));
    let most = (1 << 57) - 1;
    let fresh = ticket(1, 0, 0, 0);
    let second = ticket(2, 0, 1, 2);
    vec![
        start("a fresh start", &good, (0, fresh), (&[9], &[0])),
        start("a fresh start on a record of 2^64 - 1", &good, (0, fresh), (&[u64::MAX], &[0])),
        start("a fresh start without a record", &good, (18, none), (&[], &[])),
        start("a fresh start on a record of two cells", &good, (18, none), (&[0, 0], &[0, 0])),
        start("5 before 18", &[0, 1, 2], (5, none), (&[], &[])),
        start("a fresh start that 5 refuses", &[0, 1, 2], (5, none), (&[9], &[9])),
        paged("the first page", (fresh, &[0]), (Stop::Spent, &[0, 0], 2, 250_000, second), &[2]),
        paged("the second page", (second, &[2]), (Stop::Ended, &[1, 0], 2, 0, ended(4)), &[4]),
        paged("a page after the end", (ended(4), &[4]), (Stop::Ended, &[], 0, 0, ended(4)), &[4]),
        refused("the first ticket after the first page", (fresh, &[2]), 18),
        refused("the first ticket after the end", (fresh, &[4]), 18),
        refused("the second ticket after the end", (second, &[4]), 18),
        refused("the second ticket after another fresh start", (second, &[0]), 18),
        refused("an old Ended after another fresh start", (ended(4), &[0]), 18),
        refused("an Ended without its count", (ended(0), &[4]), 18),
        refused("a record without cells", (fresh, &[]), 18),
        refused("a record of two cells", (fresh, &[0, 0]), 18),
        refused("a count of 2^32 on a record of 0", (fresh.after(1 << 32), &[0]), 18),
        refused("a count of 1 on a record of 2^32 + 1", (fresh.after(1), &[(1 << 32) + 1]), 18),
        refused("a record of 2^57", (second.after(most + 1), &[most + 1]), 18),
        refused("a record of 2^64 - 1", (ended(u64::MAX), &[u64::MAX]), 18),
        refused("6 before 18", (ticket(3, 0, 0, 0), &[2]), 6),
        refused("6 before 18 without a record", (ticket(1, 2, 0, 0), &[]), 6),
        paged(
            "the same place after nine trials, which 6 leaves aside",
            (fresh.after(9), &[9]),
            (Stop::Spent, &[0, 0], 2, 250_000, second.after(11)),
            &[11],
        ),
        paged(
            "a record of 2^57 - 1",
            (second.after(most), &[most]),
            (Stop::Ended, &[1, 0], 2, 0, ended(most + 2)),
            &[most + 2],
        ),
        refused("the page after it", (ended(most + 2), &[most + 2]), 18),
    ]
}

/// A whole run on a plan with its order, into so many cells that are all 7, with a work buffer of so many: its number, rows, trials, area sum and ground, and
/// the first cells of the table afterwards. What is left in the work buffer is free after an acceptance; those that put the call clear it then.
fn ran(
    name: &'static str,
    (plan, order): (Plan, &[u32]),
    (table, work): (usize, usize),
    told: (u32, u32, u64, u64, u64),
    after: &[u32],
) -> KnownCall {
    let (number, rows, trials, area, ground) = told;
    let (area, ground) = (Total::of(area.into()), Total::of(ground.into()));
    let call = |after: &[u32], work: Vec<i32>| {
        let mut cells = vec![7; table];
        cells[..after.len()].copy_from_slice(after);
        Call::Run { plan: plan.clone(), order: order.to_vec(), table: cells, work }
    };
    KnownCall {
        name,
        call: call(&[], vec![7; work]),
        answer: Answer::Run(Run { number, rows, trials, area, ground }),
        after: call(after, vec![if number == 0 { 0 } else { 7 }; work]),
    }
}

/// Two rectangles of 1,000 by 1,000, the second so far to the right, and one that covers both.
fn two_over(apart: i32) -> Plan {
    let (width, sizes) = (1000 + apart, [2, 1, 0, 0, 0, 0]);
    let cells = vec![0, 0, 1000, 1000, apart, 0, width, 1000, 0, 0, width, 1000];
    Plan { shape: Shape { k: 2, sizes, margins: [0; 6] }, cells }
}

/// The same rectangle in each of two layers.
fn one_each(rect: [i32; 4]) -> Plan {
    Plan { shape: Shape { k: 2, sizes: [1, 1, 0, 0, 0, 0], margins: [0; 6] }, cells: [rect, rect].concat() }
}

/// Whole runs: ground counted once, and each side of check 19.
pub fn known_runs() -> Vec<KnownCall> {
    let d = || (shaped(2, 2, 1), &[0, 2, 1][..]);
    let none = || (Plan { shape: shaped(2, 1, 0).shape, cells: D[..4].to_vec() }, &[0][..]);
    let (refused, both) = (|number| (number, 0, 0, 0, 0), [0, 0, 1, 0]);
    let (million, half) = (1_000_000, 1_500_000);
    vec![
        ran("a run on D", d(), (5, 4), (0, 2, 4, 250_000, 250_000), &both),
        ran("a run on D with work to spare", d(), (5, 50), (0, 2, 4, 250_000, 250_000), &both),
        ran("a work buffer a cell short", d(), (5, 3), refused(19), &[]),
        ran("a work buffer of a cell for each row", d(), (4, 2), refused(19), &[]),
        ran("no work buffer", d(), (4, 0), refused(19), &[]),
        ran("7 before 19", d(), (3, 0), refused(7), &[]),
        ran("a run that 7 refuses", d(), (3, 4), refused(7), &[]),
        ran("a run that 7 refuses, with work to spare", d(), (3, 50), refused(7), &[]),
        ran("5 before 19", (d().0, &[0, 1, 2]), (4, 0), refused(5), &[]),
        ran("no rows and no work buffer", none(), (0, 0), (0, 0, 0, 0, 0), &[]),
        ran(
            "the same ground under two rows",
            (two_over(0), &[0, 1, 2]),
            (4, 4),
            (0, 2, 4, 2 * million, million),
            &both,
        ),
        ran(
            "half of the ground under both",
            (two_over(500), &[0, 2, 1]),
            (4, 4),
            (0, 2, 4, 2 * million, half),
            &both,
        ),
        ran(
            "two rows that touch",
            (two_over(1000), &[0, 2, 1]),
            (4, 4),
            (0, 2, 4, 2 * million, 2 * million),
            &both,
        ),
        ran(
            "two rows that touch, in a margin of 250",
            (grown(two_over(1000), &[250]), &[0, 2, 1]),
            (4, 4),
            // The zone that covers both is not grown: 1,250 of the first and of the second, and 500 of them under both.
            (0, 2, 4, 2 * 1250 * 1000, 2000 * 1000),
            &both,
        ),
        ran(
            "ground from one end of the range to the other",
            (grown(one_each([-10_000_000, -10_000_000, 10_000_000, 10_000_000]), &[50_000, 50_000]), &[0, 1]),
            (2, 2),
            (0, 1, 2, 404_010_000_000_000, 404_010_000_000_000),
            &[0, 0],
        ),
    ]
}

/// A call for a row's common ground: its number, the four sides and the kind.
fn common(name: &'static str, plan: Plan, places: &[u32], told: (u32, [i32; 4], u8)) -> KnownCall {
    let (number, sides, kind) = told;
    let call = Call::Common { plan, row: places.to_vec() };
    let answer = Answer::Common(CommonTold { number, sides, kind });
    KnownCall { name, call: call.clone(), answer, after: call }
}

/// One rectangle in each layer.
fn of_rects(rects: &[[i32; 4]]) -> Plan {
    let plan = in_a_line(&vec![0; rects.len()]);
    Plan { cells: rects.concat(), ..plan }
}

/// The common ground of rows: each kind, by every way to it; no row, and refusals.
pub fn known_grounds() -> Vec<KnownCall> {
    let d = || shaped(2, 2, 1);
    let (square, none) = ([0, 0, 10, 10], |number| (number, [0; 4], 0));
    vec![
        common("the ground of the first row of D", d(), &[0, 0], (0, [500, 500, 1000, 1000], b'G')),
        common("the ground of the second row of D", d(), &[1, 0], (0, [1000, 500, 1500, 500], b'E')),
        common("an edge upright", in_a_line(&[0, 10]), &[0, 0], (0, [10, 0, 10, 10], b'E')),
        common("an edge level", of_rects(&[square, [3, 10, 12, 20]]), &[0, 0], (0, [3, 10, 10, 10], b'E')),
        common("a corner", of_rects(&[square, [10, 10, 12, 20]]), &[0, 0], (0, [10; 4], b'P')),
        common("a corner below", of_rects(&[square, [10, -5, 12, 0]]), &[0, 0], (0, [10, 0, 10, 0], b'P')),
        common("a segment in a square", of_rects(&[square, [2, 5, 8, 5]]), &[0, 0], (0, [2, 5, 8, 5], b'E')),
        common("a segment on an edge", of_rects(&[square, [0, 2, 0, 8]]), &[0, 0], (0, [0, 2, 0, 8], b'E')),
        common(
            "a segment that ends on an edge",
            of_rects(&[square, [10, 5, 18, 5]]),
            &[0, 0],
            (0, [10, 5, 10, 5], b'P'),
        ),
        common(
            "two segments that cross",
            of_rects(&[[0, 5, 10, 5], [5, 0, 5, 10]]),
            &[0, 0],
            (0, [5; 4], b'P'),
        ),
        common("a point in a square", of_rects(&[square, [4; 4]]), &[0, 0], (0, [4; 4], b'P')),
        common(
            "one square on its left",
            of_rects(&[[-1, 0, 0, 9], square]),
            &[0, 0],
            (0, [0, 0, 0, 9], b'E'),
        ),
        common(
            "a square millimetre",
            of_rects(&[square, [9, 9, 20, 20]]),
            &[0, 0],
            (0, [9, 9, 10, 10], b'G'),
        ),
        common(
            "an edge of all though the first two share ground",
            of_rects(&[square, [5, 0, 15, 10], [10, 2, 20, 8]]),
            &[0; 3],
            (0, [10, 2, 10, 8], b'E'),
        ),
        common(
            "a point though no two share less than an edge",
            of_rects(&[[0, 0, 10, 20], [10, 0, 20, 20], [0, 0, 20, 10], [0, 10, 20, 20]]),
            &[0; 4],
            (0, [10; 4], b'P'),
        ),
        common("ground made by a margin", grown(d(), &[0, 250]), &[1, 0], (0, [1000, 250, 1750, 500], b'G')),
        common(
            "5 and 5 close a gap of 10",
            grown(in_a_line(&[0, 20]), &[5, 5]),
            &[0, 0],
            (0, [15, -5, 15, 15], b'E'),
        ),
        common("5 and 4 leave a millimetre of it", grown(in_a_line(&[0, 20]), &[5, 4]), &[0, 0], none(0)),
        common(
            "a point in a margin of 1",
            grown(of_rects(&[square, [4; 4]]), &[0, 1]),
            &[0, 0],
            (0, [3, 3, 5, 5], b'G'),
        ),
        common("places that are no row", in_a_line(&[0, 11]), &[0, 0], none(0)),
        common("a place past the last", d(), &[2, 0], none(0)),
        common("one place", d(), &[0], none(0)),
        common("three places", d(), &[0, 0, 0], none(0)),
        common("the ground of a plan of no layers", shaped(0, 2, 1), &[0, 0], none(1)),
        common("the ground of a size of 600", shaped(2, 2, 600), &[0, 0], none(2)),
        common("the ground of a margin of 50001", grown(d(), &[50_001]), &[0, 0], none(17)),
        common("the ground of one rectangle too many", shaped(2, 1, 1), &[0, 0], none(3)),
        common("the ground of a right of 10000001", with_cell(2, 10_000_001), &[0, 0], none(4)),
    ]
}

// ---------------------------------------------------------------- reports

/// The line of a square of 10.
const SQUARE: &str = "RECT,0,0,10,10/";

/// A report by spellings in which the comma stands for the tab and the slash for the line end.
fn report(name: &'static str, input: &str, printed: &str) -> KnownReport {
    KnownReport { name, input: spell(input), printed: spell(printed) }
}

/// One square in the first layer and these lines from the second layer on.
fn beside_a_square(lines: &str) -> String {
    format!("PLAN,2/LAYER,1,0/{SQUARE}{lines}")
}

/// Two equal rectangles of width 1 and this height, one in each layer.
fn of_height(height: u32) -> String {
    format!("PLAN,2/LAYER,1,0/RECT,0,0,1,{height}/LAYER,1,0/RECT,0,0,1,{height}/")
}

/// Plan D, every cause that the report has, and the two sides of half a hundredth.
pub fn known_reports() -> Vec<KnownReport> {
    let d = |first: &str, second: &str| {
        let layer = "RECT,0,0,1000,1000/RECT,1000,0,2000,500/";
        format!("PLAN,2/LAYER,2{first}/{layer}LAYER,1{second}/RECT,500,500,1500,1500/")
    };
    // 79 times 78 is 6,162, and 12,288 cells take 6,144 rows of two.
    let full = format!("PLAN,2/LAYER,79,0/{}LAYER,78,0/{}", SQUARE.repeat(79), SQUARE.repeat(78));
    let two = |rects: &str| format!("PLAN,2/LAYER,2,0/{rects}LAYER,1,0/RECT,0,0,5000,5000/");
    let mut long = beside_a_square(&format!("LAYER,1,0/{}", SQUARE.repeat(5_000)));
    long.truncate(65_537);
    vec![
        report("D", &d(",0", ",0"), "ROW,2,0,0,250000,G/ROW,1,1,0,0,E/TOTAL,2,4,0.25/"),
        report(
            "D in a margin of 250",
            &d(",0", ",250"),
            "ROW,2,0,0,562500,G/ROW,1,1,0,187500,G/TOTAL,2,4,0.75/",
        ),
        report("D with old LAYER lines", &d("", ""), "REFUSED,9/"),
        report("D with one old LAYER line", &d(",0", ""), "REFUSED,9/"),
        report("D in a margin of 50,001", &d(",50001", ",0"), "REFUSED,10/"),
        report("D in a margin of -1", &d(",0", ",-1"), "REFUSED,10/"),
        report("more rows than the table takes", &full, "REFUSED,7/"),
        report("no byte 10 at the end", &beside_a_square("LAYER,1,0/RECT,0,0,10,10"), "REFUSED,9/"),
        report(
            "a rectangle too many",
            &beside_a_square(&format!("LAYER,1,0/{SQUARE}{SQUARE}")),
            "REFUSED,10/",
        ),
        report("65,537 bytes", &long, "REFUSED,13/"),
        report("4,999 square millimetres", &of_height(4_999), "ROW,1,0,0,4999,G/TOTAL,1,2,0.00/"),
        report("5,000 square millimetres", &of_height(5_000), "ROW,1,0,0,5000,G/TOTAL,1,2,0.01/"),
        report("994,999 square millimetres", &of_height(994_999), "ROW,1,0,0,994999,G/TOTAL,1,2,0.99/"),
        report("995,000 square millimetres", &of_height(995_000), "ROW,1,0,0,995000,G/TOTAL,1,2,1.00/"),
        report("9,994,999 square millimetres", &of_height(9_994_999), "ROW,1,0,0,9994999,G/TOTAL,1,2,9.99/"),
        report("9,995,000 square millimetres", &of_height(9_995_000), "ROW,1,0,0,9995000,G/TOTAL,1,2,10.00/"),
        report("a top of 1000001", &of_height(1_000_001), "ROW,1,0,0,1000001,G/TOTAL,1,2,1.00/"),
        report("a top of 10000000", &of_height(10_000_000), "ROW,1,0,0,10000000,G/TOTAL,1,2,10.00/"),
        report("a top of 10000001", &of_height(10_000_001), "REFUSED,10/"),
        report("a top of 100000000", &of_height(100_000_000), "REFUSED,9/"),
        report(
            "the whole apron",
            "PLAN,2/LAYER,1,50000/RECT,-10000000,-10000000,10000000,10000000/LAYER,1,50000/RECT,-10000000,-10000000,10000000,10000000/",
            "ROW,1,0,0,404010000000000,G/TOTAL,1,2,404010000.00/",
        ),
        report(
            "4,999 square millimetres under two rows",
            &two("RECT,0,0,1,4999/RECT,0,0,1,4999/"),
            "ROW,1,0,0,4999,G/ROW,1,1,0,4999,G/TOTAL,2,4,0.00/",
        ),
        report(
            "4,999 square millimetres twice, beside each other",
            &two("RECT,0,0,1,4999/RECT,1,0,2,4999/"),
            "ROW,1,0,0,4999,G/ROW,1,1,0,4999,G/TOTAL,2,4,0.01/",
        ),
        report(
            "half of the ground under both rows",
            &two("RECT,0,0,1000,1000/RECT,500,0,1500,1000/"),
            "ROW,1,0,0,1000000,G/ROW,1,1,0,1000000,G/TOTAL,2,4,1.50/",
        ),
        report(
            "a corner on a corner",
            &two("RECT,-9,-9,0,0/RECT,-9,5000,0,6000/"),
            "ROW,2,0,0,0,P/ROW,2,1,0,0,P/TOTAL,2,4,0.00/",
        ),
        report(
            "a level segment and an upright one in a square",
            &two("RECT,1,1,9,1/RECT,2,1,2,9/"),
            "ROW,1,0,0,0,E/ROW,1,1,0,0,E/TOTAL,2,4,0.00/",
        ),
    ]
}
