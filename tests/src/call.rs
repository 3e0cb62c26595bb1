//! One call with all that is lent to it, put to an overlay, compared and shown.

use crate::overlay::{CommonTold, Overlay, Page, PairTold, Reading, RowTold, Run, Shape, Ticket, Writing};
use std::fmt::Write;
use std::panic::{catch_unwind, AssertUnwindSafe};

/// A plan as it is handed over.
#[derive(Clone, Debug, PartialEq)]
pub struct Plan {
    pub shape: Shape,
    pub cells: Vec<i32>,
}

/// A call and its lent buffers.
#[derive(Clone, Debug, PartialEq)]
pub enum Call {
    MakeOrder { plan: Plan, order: Vec<u32> },
    Row { plan: Plan, row: Vec<u32> },
    Common { plan: Plan, row: Vec<u32> },
    Pair { plan: Plan, places: Vec<u32> },
    Fresh { plan: Plan, order: Vec<u32>, record: Vec<u64> },
    Page { plan: Plan, order: Vec<u32>, ticket: Ticket, record: Vec<u64>, budget: u32, table: Vec<u32> },
    Run { plan: Plan, order: Vec<u32>, table: Vec<u32>, work: Vec<i32> },
    Read { text: Vec<u8>, cells: Vec<i32> },
    Write { plan: Plan, text: Vec<u8> },
}

/// What a call returned.
#[derive(Clone, Copy, Debug, PartialEq)]
pub enum Answer {
    Number(u32),
    Row(RowTold),
    Common(CommonTold),
    Pair(PairTold),
    Fresh(u32, Ticket),
    Page(Page),
    Run(Run),
    Read(Reading),
    Write(Writing),
    Panicked,
}

/// The pattern that fills every buffer before it is lent.
fn pattern(at: usize) -> u32 {
    (at as u32 + 1).wrapping_mul(0x9E37_79B9) | 0x8000_0000
}

/// Unsigned cells filled with the pattern.
pub fn cells_u32(length: usize) -> Vec<u32> {
    (0..length).map(pattern).collect()
}

/// Signed cells filled with the pattern.
pub fn cells_i32(length: usize) -> Vec<i32> {
    (0..length).map(|at| pattern(at) as i32).collect()
}

/// Cells of 64 bits filled with the pattern.
pub fn cells_u64(length: usize) -> Vec<u64> {
    (0..length).map(|at| u64::from(pattern(at)) << 32 | u64::from(pattern(at + 99))).collect()
}

/// Bytes filled with the pattern.
pub fn bytes(length: usize) -> Vec<u8> {
    (0..length).map(|at| (pattern(at) >> 20) as u8).collect()
}

/// Puts a call to an overlay.
fn put(call: &mut Call, to: &dyn Overlay) -> Answer {
    match call {
        Call::MakeOrder { plan, order } => Answer::Number(to.make_order(&plan.shape, &plan.cells, order)),
        Call::Row { plan, row } => Answer::Row(to.row(&plan.shape, &plan.cells, row)),
        Call::Common { plan, row } => Answer::Common(to.common(&plan.shape, &plan.cells, row)),
        Call::Pair { plan, places } => Answer::Pair(to.pair(&plan.shape, &plan.cells, places)),
        Call::Fresh { plan, order, record } => {
            let (number, ticket) = to.fresh(&plan.shape, &plan.cells, order, record);
            Answer::Fresh(number, ticket)
        }
        Call::Page { plan, order, ticket, record, budget, table } => {
            Answer::Page(to.page(&plan.shape, &plan.cells, order, ticket, record, *budget, table))
        }
        Call::Run { plan, order, table, work } => {
            Answer::Run(to.run(&plan.shape, &plan.cells, order, table, work))
        }
        Call::Read { text, cells } => Answer::Read(to.read(text, cells)),
        Call::Write { plan, text } => Answer::Write(to.write(&plan.shape, &plan.cells, text)),
    }
}

/// Puts a call to an overlay; a panic is an answer too, and never an equal one. After an acceptance the work buffer is cleared: its "contents afterwards are
/// free".
pub fn ask(call: &mut Call, to: &dyn Overlay) -> Answer {
    let answer = catch_unwind(AssertUnwindSafe(|| put(call, to))).unwrap_or(Answer::Panicked);
    if let (Call::Run { work, .. }, Answer::Run(Run { number: 0, .. })) = (call, answer) {
        work.fill(0);
    }
    answer
}

/// The two answers and all lent buffers afterwards are the same.
pub fn same(left: (&Answer, &Call), right: (&Answer, &Call)) -> bool {
    *left.0 != Answer::Panicked && left == right
}

/// The whole case: the call as it was put, both answers, and where the buffers differ afterwards.
pub fn show(call: &Call, left: (&Answer, &Call), right: (&Answer, &Call)) -> String {
    let mut text = String::new();
    show_call(&mut text, call).expect("a string takes all");
    let _ = writeln!(text, "left answer:  {:?}", left.0);
    let _ = writeln!(text, "right answer: {:?}", right.0);
    for ((name, ours), (_, theirs)) in lent(left.1).into_iter().zip(lent(right.1)) {
        show_buffers(&mut text, name, &ours, &theirs);
    }
    text
}

/// The call in words; lent buffers that are to be filled hold the pattern and are told by length.
fn show_call(text: &mut String, call: &Call) -> std::fmt::Result {
    match call {
        Call::MakeOrder { plan, order } => {
            writeln!(text, "make_order, order buffer of {} cells", order.len())?;
            show_plan(text, plan)
        }
        Call::Row { plan, row } => {
            writeln!(text, "row, cells {row:?}")?;
            show_plan(text, plan)
        }
        Call::Common { plan, row } => {
            writeln!(text, "common ground of a row, cells {row:?}")?;
            show_plan(text, plan)
        }
        Call::Pair { plan, places } => {
            writeln!(text, "pair, places {places:?}")?;
            show_plan(text, plan)
        }
        Call::Fresh { plan, order, record } => {
            writeln!(text, "fresh, order {order:?}, record {record:?}")?;
            show_plan(text, plan)
        }
        Call::Page { plan, order, ticket, record, budget, table } => {
            writeln!(
                text,
                "page, budget {budget}, table of {} cells\n{ticket:?}, record {record:?}\norder {order:?}",
                table.len()
            )?;
            show_plan(text, plan)
        }
        Call::Run { plan, order, table, work } => {
            writeln!(
                text,
                "run, table of {} cells, work buffer of {}\norder {order:?}",
                table.len(),
                work.len()
            )?;
            show_plan(text, plan)
        }
        Call::Read { text: read, cells } => {
            writeln!(text, "read into {} cells, text of {} bytes:", cells.len(), read.len())?;
            writeln!(text, "\"{}\"", read.escape_ascii())
        }
        Call::Write { plan, text: buffer } => {
            writeln!(text, "write, buffer of {} bytes", buffer.len())?;
            show_plan(text, plan)
        }
    }
}

/// A plan, four cells to a line.
fn show_plan(text: &mut String, plan: &Plan) -> std::fmt::Result {
    writeln!(text, "{:?}, {} cells:", plan.shape, plan.cells.len())?;
    plan.cells.chunks(4).try_for_each(|rect| writeln!(text, "  {rect:?}"))
}

/// All buffers of a call by name, as plain numbers.
fn lent(call: &Call) -> Vec<(&'static str, Vec<i128>)> {
    let signed = |cells: &[i32]| cells.iter().map(|&c| i128::from(c)).collect::<Vec<i128>>();
    let plain = |cells: &[u32]| cells.iter().map(|&c| i128::from(c)).collect::<Vec<i128>>();
    let wide = |cells: &[u64]| cells.iter().map(|&c| i128::from(c)).collect::<Vec<i128>>();
    let small = |cells: &[u8]| cells.iter().map(|&c| i128::from(c)).collect::<Vec<i128>>();
    match call {
        Call::MakeOrder { plan, order } => vec![("plan", signed(&plan.cells)), ("order", plain(order))],
        Call::Fresh { plan, order, record } => {
            vec![("plan", signed(&plan.cells)), ("order", plain(order)), ("record", wide(record))]
        }
        Call::Row { plan, row } | Call::Common { plan, row } => {
            vec![("plan", signed(&plan.cells)), ("row", plain(row))]
        }
        Call::Pair { plan, places } => vec![("plan", signed(&plan.cells)), ("places", plain(places))],
        Call::Page { plan, order, record, table, .. } => vec![
            ("plan", signed(&plan.cells)),
            ("order", plain(order)),
            ("record", wide(record)),
            ("table", plain(table)),
        ],
        Call::Run { plan, order, table, work } => vec![
            ("plan", signed(&plan.cells)),
            ("order", plain(order)),
            ("table", plain(table)),
            ("work", signed(work)),
        ],
        Call::Read { text, cells } => vec![("text", small(text)), ("cells", signed(cells))],
        Call::Write { plan, text } => vec![("plan", signed(&plan.cells)), ("text", small(text))],
    }
}

/// The first cells in which a lent buffer differs after the two calls.
fn show_buffers(text: &mut String, name: &str, left: &[i128], right: &[i128]) {
    let differing: Vec<usize> = (0..left.len()).filter(|&at| left[at] != right[at]).collect();
    for &at in differing.iter().take(8) {
        let _ = writeln!(text, "{name} cell {at}: left {}, right {}", left[at], right[at]);
    }
    if differing.len() > 8 {
        let _ = writeln!(text, "{name}: {} cells differ in all", differing.len());
    }
}
