//! The library under test through the crate `overlay`, whose calls are those of its C interface (include/overlay.h).

use overlay::calls::{self, Lent as Handed, Turn};
use overlay_tests::crossings::{ClassTold, Crossings, Report};
use overlay_tests::hours::{self, HoursTold, Timed};
use overlay_tests::nearest::{Near, NearestTold};
use overlay_tests::overlay::{
    CommonTold, Overlay, Page, PairTold, Reading, RowTold, Run, Shape, Stop, Ticket, Total, Writing,
};
use overlay_tests::rounds::{Lent, RoundTold};
use overlay_tests::surveys::{Covered, Survey};

/// A ticket's cells.
pub type Cells = [u32; 12];

/// What answers are filled with before a call, so that a cell left unwritten shows.
const UNWRITTEN: u64 = 0xA5A5_A5A5_A5A5_A5A5;

/// The cells of a ticket.
pub fn cells_of(ticket: &Ticket) -> Cells {
    let [a, b, c, d, e] = ticket.chosen;
    let ended = u32::from(ticket.ended);
    let (low, high) = (ticket.count as u32, (ticket.count >> 32) as u32);
    [ended, ticket.layer, ticket.place, ticket.filled, a, b, c, d, e, ticket.next, low, high]
}

/// The ticket in cells.
fn ticket_in(cells: &Cells) -> Ticket {
    let [ended, layer, place, filled, a, b, c, d, e, next, low, high] = *cells;
    assert!(ended <= 1, "the flag of a ticket is {ended}");
    let count = u64::from(high) << 32 | u64::from(low);
    Ticket { ended: ended == 1, layer, place, filled, chosen: [a, b, c, d, e], next, count }
}

/// A number that fits 32 bits.
fn small(cell: u64) -> u32 {
    u32::try_from(cell).expect("an answer of 32 bits")
}

/// A whole run's number and answer.
fn run_of(number: u32, answer: [u64; 6]) -> Run {
    let [rows, trials, metres, rest, ground, beside] = answer;
    let (area, ground) = (Total { metres, rest }, Total { metres: ground, rest: beside });
    Run { number, rows: small(rows), trials, area, ground }
}

/// The stop for a number of a cause and the first cell of an answer.
fn stop_of(number: u32, code: u64) -> Stop {
    match (number, code) {
        (0, 1) => Stop::Ended,
        (0, 2) => Stop::Full,
        (0, 3) => Stop::Spent,
        (1.., 0) => Stop::Refused(number),
        _ => panic!("number {number} with stop {code}"),
    }
}

/// A plan as the calls take it.
fn handed<'a>(shape: &'a Shape, cells: &'a [i32]) -> Handed<'a> {
    Handed { k: shape.k, sizes: &shape.sizes, margins: &shape.margins, cells }
}

/// A page's number, answer and ticket.
fn page_of(number: u32, answer: [u64; 5], ticket: &Cells) -> Page {
    let [code, rows, trials, metres, rest] = answer;
    let (stop, area) = (stop_of(number, code), Total { metres, rest });
    Page { stop, rows: small(rows), trials: small(trials), area, ticket: ticket_in(ticket) }
}

/// The first of the causes 1, 2, 17, 3 and 4 that applies to a plan.
pub fn plan_cause(shape: &Shape, cells: &[i32]) -> u32 {
    calls::plan_cause(handed(shape, cells))
}

/// The first of the causes 1, 2, 17, 3, 4 and 5 that applies to a plan and an order.
pub fn order_cause(shape: &Shape, cells: &[i32], order: &[u32]) -> u32 {
    calls::order_cause(handed(shape, cells), order)
}

/// What lies nearest to a box in each layer.
pub fn nearest(shape: &Shape, cells: &[i32], around: [i32; 4]) -> NearestTold {
    let mut answer = [UNWRITTEN; 18];
    let number = calls::nearest(handed(shape, cells), &around, &mut answer);
    let mut layers = [Near::default(); 6];
    for (entry, cells) in layers.iter_mut().zip(answer.chunks(3)) {
        assert!(cells[0] <= 1, "the flag of an entry is {}", cells[0]);
        *entry = Near { found: cells[0] == 1, place: small(cells[1]), gap: cells[2] };
    }
    NearestTold { number, layers }
}

/// The page call on a ticket's cells and a run record: the number and the answer.
pub fn fetch_page(
    shape: &Shape,
    cells: &[i32],
    order: &[u32],
    (ticket, record): (&mut Cells, &mut [u64]),
    budget: u32,
    table: &mut [u32],
) -> (u32, [u64; 5]) {
    let mut answer = [UNWRITTEN; 5];
    let plan = handed(shape, cells);
    (calls::fetch_page(plan, order, ticket, record, budget, table, &mut answer), answer)
}

/// The timed page call on a ticket's cells, with all else from what is lent: the number and the answer.
pub fn timed_page(lent: &mut hours::Lent, ticket: &mut Cells) -> (u32, [u64; 5]) {
    let mut answer = [UNWRITTEN; 5];
    let hours::Lent { plan, hours, order, record, budget, table, .. } = lent;
    let plan = handed(&plan.shape, &plan.cells);
    (calls::timed_page(plan, hours, order, ticket, record, *budget, table, &mut answer), answer)
}

/// The round call on sixteen tickets' cells: the number, `next`, and the cells of the answer.
pub fn round_in_cells(lent: &mut Lent, tickets: &mut [u32; 192]) -> (u32, u32, [u64; 80]) {
    let (mut next, mut answer) = (UNWRITTEN as u32, [UNWRITTEN; 80]);
    let Lent { plan, order, m, first, budget, records, table, .. } = lent;
    let (plan, turn) =
        (handed(&plan.shape, &plan.cells), Turn { clients: *m, first: *first, budget: *budget });
    let number = calls::round(plan, order, turn, tickets, records, table, &mut next, &mut answer);
    (number, next, answer)
}

/// A round of many tablets.
pub fn round(lent: &mut Lent) -> RoundTold {
    let mut tickets = [0; 192];
    for (cells, ticket) in tickets.chunks_mut(12).zip(&lent.tickets) {
        cells.copy_from_slice(&cells_of(ticket));
    }
    let (number, next, answer) = round_in_cells(lent, &mut tickets);
    let page = |at: usize| {
        let answer = answer[5 * at..5 * at + 5].try_into().expect("five cells");
        page_of(number, answer, tickets[12 * at..12 * at + 12].try_into().expect("twelve cells"))
    };
    RoundTold { number, next, pages: std::array::from_fn(page) }
}

/// Puts the covers of the kept records of a survey into the cells.
pub fn cover_records(survey: &Survey, cells: &mut [i32]) -> Covered {
    let mut kept = UNWRITTEN as usize;
    let number = calls::cover_records(&survey.kinds, &survey.stops, &survey.corners, cells, &mut kept);
    Covered { number, kept }
}

/// The library under test.
pub struct Library;

impl Overlay for Library {
    fn make_order(&self, shape: &Shape, cells: &[i32], order: &mut [u32]) -> u32 {
        calls::make_order(handed(shape, cells), order)
    }

    fn row(&self, shape: &Shape, cells: &[i32], row: &[u32]) -> RowTold {
        let mut answer = [UNWRITTEN; 2];
        let number = calls::row(handed(shape, cells), row, &mut answer);
        RowTold { number, layer: small(answer[0]), area: answer[1] }
    }

    fn common(&self, shape: &Shape, cells: &[i32], row: &[u32]) -> CommonTold {
        let mut answer = [UNWRITTEN as i32; 5];
        let number = calls::row_common(handed(shape, cells), row, &mut answer);
        let [left, bottom, right, top, kind] = answer;
        CommonTold {
            number,
            sides: [left, bottom, right, top],
            kind: kind.try_into().expect("a letter, or 0"),
        }
    }

    fn pair(&self, shape: &Shape, cells: &[i32], places: &[u32]) -> PairTold {
        let mut answer = [UNWRITTEN; 2];
        let number = calls::apart_pair(handed(shape, cells), places, &mut answer);
        PairTold { number, lower: small(answer[0]), higher: small(answer[1]) }
    }

    fn fresh(&self, shape: &Shape, cells: &[i32], order: &[u32], record: &mut [u64]) -> (u32, Ticket) {
        let mut ticket = [UNWRITTEN as u32; 12];
        let number = calls::fresh_ticket(handed(shape, cells), order, &mut ticket, record);
        (number, ticket_in(&ticket))
    }

    fn page(
        &self,
        shape: &Shape,
        cells: &[i32],
        order: &[u32],
        ticket: &Ticket,
        record: &mut [u64],
        budget: u32,
        table: &mut [u32],
    ) -> Page {
        let mut given = cells_of(ticket);
        let (number, answer) = fetch_page(shape, cells, order, (&mut given, record), budget, table);
        page_of(number, answer, &given)
    }

    fn run(&self, shape: &Shape, cells: &[i32], order: &[u32], table: &mut [u32], work: &mut [i32]) -> Run {
        let mut answer = [UNWRITTEN; 6];
        let number = calls::run_all(handed(shape, cells), order, table, work, &mut answer);
        run_of(number, answer)
    }

    fn read(&self, text: &[u8], cells: &mut [i32]) -> Reading {
        let unwritten = UNWRITTEN as u32;
        let mut shape = Shape { k: unwritten, sizes: [unwritten; 6], margins: [unwritten; 6] };
        let number = calls::read_text(text, cells, &mut shape.k, &mut shape.sizes, &mut shape.margins);
        Reading { number, shape }
    }

    fn write(&self, shape: &Shape, cells: &[i32], text: &mut [u8]) -> Writing {
        let mut length = UNWRITTEN as usize;
        let number = calls::write_text(handed(shape, cells), text, &mut length);
        Writing { number, length }
    }
}

impl Crossings for Library {
    fn class(&self, shape: &Shape, cells: &[i32], places: &[u32]) -> ClassTold {
        let mut class = UNWRITTEN as u32;
        let number = calls::row_class(handed(shape, cells), places, &mut class);
        ClassTold { number, class }
    }

    fn report(
        &self,
        shape: &Shape,
        cells: &[i32],
        order: &[u32],
        table: &mut [u32],
        work: &mut [i32],
    ) -> Report {
        let (mut answer, mut counts) = ([UNWRITTEN; 6], [UNWRITTEN as u32; 17]);
        let plan = handed(shape, cells);
        let number = calls::crossing_report(plan, order, table, work, &mut answer, &mut counts);
        Report { run: run_of(number, answer), counts }
    }
}

impl Timed for Library {
    fn untimed(&self) -> &dyn Overlay {
        self
    }

    fn page(&self, lent: &mut hours::Lent) -> Page {
        let mut given = cells_of(&lent.ticket);
        let (number, answer) = timed_page(lent, &mut given);
        page_of(number, answer, &given)
    }

    fn run(&self, lent: &mut hours::Lent) -> Run {
        let mut answer = [UNWRITTEN; 6];
        let hours::Lent { plan, hours, order, table, work, .. } = lent;
        let plan = handed(&plan.shape, &plan.cells);
        run_of(calls::timed_run(plan, hours, order, table, work, &mut answer), answer)
    }

    fn hours(&self, lent: &mut hours::Lent) -> HoursTold {
        let mut answer = [UNWRITTEN as u32; 2];
        let hours::Lent { plan, hours, places, .. } = lent;
        let number = calls::row_hours(handed(&plan.shape, &plan.cells), hours, places, &mut answer);
        HoursTold { number, from: answer[0], to: answer[1] }
    }
}
