//! The calls as they are: on lent buffers, without allocation, and for any input.
//!
//! Each returns the number of the first cause that refuses it, 0 for none ([`Cause::check`](crate::Cause::check) makes a `Result` of it), and leaves its answer in
//! cells that stand as `include/overlay.h` says. Look at the number before the answer: after a refusal every buffer is as it was, and all cells of an answer
//! are 0. [`Plan`](crate::Plan) is the easier way; this is for programs that lend their own buffers.

use crate::sys;

/// A plan as it is lent to a call: nothing is believed of it.
#[derive(Clone, Copy, Debug)]
pub struct Lent<'a> {
    /// How many layers it has, 2 to 6.
    pub k: u32,
    /// How many rectangles each layer has; 0 past k.
    pub sizes: &'a [u32; 6],
    /// The margin of each layer in millimetres; 0 past k.
    pub margins: &'a [u32; 6],
    /// Left, bottom, right and top of each rectangle, layer 1 first.
    pub cells: &'a [i32],
}

/// A call of the library on a plan.
macro_rules! on_plan {
    ($name:ident, $plan:expr $(, $argument:expr)* $(,)?) => {{
        let Lent { k, sizes, margins, cells } = $plan;
        // SAFETY: every pointer comes from a reference, with its length; those written to are exclusive.
        unsafe { sys::$name(k, sizes.as_ptr(), margins.as_ptr(), cells.as_ptr(), cells.len() $(, $argument)*) }
    }};
}

/// The version of the library.
pub fn version() -> u32 {
    // SAFETY: it takes nothing and reads nothing.
    unsafe { sys::overlay_version() }
}

/// Judges a plan.
#[must_use]
pub fn plan_cause(plan: Lent) -> u32 {
    on_plan!(overlay_plan_cause, plan)
}

/// Makes the sweep order of a plan, in as many cells as it has rectangles.
#[must_use]
pub fn make_order(plan: Lent, order: &mut [u32]) -> u32 {
    on_plan!(overlay_make_order, plan, order.as_mut_ptr(), order.len())
}

/// Judges a plan and an order.
#[must_use]
pub fn order_cause(plan: Lent, order: &[u32]) -> u32 {
    on_plan!(overlay_order_cause, plan, order.as_ptr(), order.len())
}

/// What places name in the table of a plan: the guard's layer and the area; both 0 where they are no row.
#[must_use]
pub fn row(plan: Lent, places: &[u32], answer: &mut [u64; 2]) -> u32 {
    on_plan!(overlay_row, plan, places.as_ptr(), places.len(), answer.as_mut_ptr())
}

/// The common ground of a row: left, bottom, right, top and the letter of its kind; all 0 where the places are no row.
#[must_use]
pub fn row_common(plan: Lent, places: &[u32], answer: &mut [i32; 5]) -> u32 {
    on_plan!(overlay_row_common, plan, places.as_ptr(), places.len(), answer.as_mut_ptr())
}

/// What lies nearest to a box in each layer: three cells for each of six layers, whether there is one, its place and its squared gap.
#[must_use]
pub fn nearest(plan: Lent, around: &[i32; 4], answer: &mut [u64; 18]) -> u32 {
    on_plan!(overlay_nearest, plan, around.as_ptr(), answer.as_mut_ptr())
}

/// The first pair of layers whose rectangles at these places do not meet; both 0 where all share a point.
#[must_use]
pub fn apart_pair(plan: Lent, places: &[u32], answer: &mut [u64; 2]) -> u32 {
    on_plan!(overlay_apart_pair, plan, places.as_ptr(), places.len(), answer.as_mut_ptr())
}

/// The minutes that the windows of a row share: the first one and the first after them; both 0 where there is none.
#[must_use]
pub fn row_hours(plan: Lent, hours: &[u32], places: &[u32], answer: &mut [u32; 2]) -> u32 {
    on_plan!(
        overlay_row_hours,
        plan,
        hours.as_ptr(),
        hours.len(),
        places.as_ptr(),
        places.len(),
        answer.as_mut_ptr(),
    )
}

/// The ticket of the first trial; a run begins in its record.
#[must_use]
pub fn fresh_ticket(plan: Lent, order: &[u32], ticket: &mut [u32; 12], record: &mut [u64]) -> u32 {
    on_plan!(
        overlay_fresh_ticket,
        plan,
        order.as_ptr(),
        order.len(),
        ticket.as_mut_ptr(),
        record.as_mut_ptr(),
        record.len(),
    )
}

/// A page from a ticket on: why it stopped, rows, trials, and metres and rest of its rows' areas.
#[must_use]
pub fn fetch_page(
    plan: Lent,
    order: &[u32],
    ticket: &mut [u32; 12],
    record: &mut [u64],
    budget: u32,
    table: &mut [u32],
    answer: &mut [u64; 5],
) -> u32 {
    on_plan!(
        overlay_fetch_page,
        plan,
        order.as_ptr(),
        order.len(),
        ticket.as_mut_ptr(),
        record.as_mut_ptr(),
        record.len(),
        budget,
        table.as_mut_ptr(),
        table.len(),
        answer.as_mut_ptr(),
    )
}

/// A page of the timed walk, as [`fetch_page`].
#[must_use]
#[allow(clippy::too_many_arguments)]
pub fn timed_page(
    plan: Lent,
    hours: &[u32],
    order: &[u32],
    ticket: &mut [u32; 12],
    record: &mut [u64],
    budget: u32,
    table: &mut [u32],
    answer: &mut [u64; 5],
) -> u32 {
    on_plan!(
        overlay_timed_page,
        plan,
        hours.as_ptr(),
        hours.len(),
        order.as_ptr(),
        order.len(),
        ticket.as_mut_ptr(),
        record.as_mut_ptr(),
        record.len(),
        budget,
        table.as_mut_ptr(),
        table.len(),
        answer.as_mut_ptr(),
    )
}

/// What a round takes beside the plan, its order and the buffers that it writes to.
#[derive(Clone, Copy, Debug)]
pub struct Turn {
    /// How many clients are served, 1 to 16.
    pub clients: u32,
    /// The client that is served first, from 1.
    pub first: u32,
    /// The most trials of the whole round, up to 2^32 - 1.
    pub budget: u64,
}

/// A round of clients: a page for each, and in `next` the client that the next round starts with.
#[must_use]
#[allow(clippy::too_many_arguments)]
pub fn round(
    plan: Lent,
    order: &[u32],
    turn: Turn,
    tickets: &mut [u32; 192],
    records: &mut [u64],
    table: &mut [u32],
    next: &mut u32,
    answer: &mut [u64; 80],
) -> u32 {
    on_plan!(
        overlay_round,
        plan,
        order.as_ptr(),
        order.len(),
        turn.clients,
        turn.first,
        turn.budget,
        tickets.as_mut_ptr(),
        records.as_mut_ptr(),
        records.len(),
        table.as_mut_ptr(),
        table.len(),
        next,
        answer.as_mut_ptr(),
    )
}

/// All rows of a plan's table: rows, trials, metres and rest of their areas, metres and rest of their ground counted once.
#[must_use]
pub fn run_all(plan: Lent, order: &[u32], table: &mut [u32], work: &mut [i32], answer: &mut [u64; 6]) -> u32 {
    on_plan!(
        overlay_run_all,
        plan,
        order.as_ptr(),
        order.len(),
        table.as_mut_ptr(),
        table.len(),
        work.as_mut_ptr(),
        work.len(),
        answer.as_mut_ptr(),
    )
}

/// All rows whose windows share a minute, as [`run_all`].
#[must_use]
pub fn timed_run(
    plan: Lent,
    hours: &[u32],
    order: &[u32],
    table: &mut [u32],
    work: &mut [i32],
    answer: &mut [u64; 6],
) -> u32 {
    on_plan!(
        overlay_timed_run,
        plan,
        hours.as_ptr(),
        hours.len(),
        order.as_ptr(),
        order.len(),
        table.as_mut_ptr(),
        table.len(),
        work.as_mut_ptr(),
        work.len(),
        answer.as_mut_ptr(),
    )
}

/// The class of a row; 17 where the places are no row.
#[must_use]
pub fn row_class(plan: Lent, places: &[u32], told: &mut u32) -> u32 {
    on_plan!(overlay_row_class, plan, places.as_ptr(), places.len(), told)
}

/// All rows, as [`run_all`], and how many fall in each class.
#[must_use]
pub fn crossing_report(
    plan: Lent,
    order: &[u32],
    table: &mut [u32],
    work: &mut [i32],
    answer: &mut [u64; 6],
    counts: &mut [u32; 17],
) -> u32 {
    on_plan!(
        overlay_crossing_report,
        plan,
        order.as_ptr(),
        order.len(),
        table.as_mut_ptr(),
        table.len(),
        work.as_mut_ptr(),
        work.len(),
        answer.as_mut_ptr(),
        counts.as_mut_ptr(),
    )
}

/// Reads a plan text: k, sizes and margins, and the cells.
#[must_use]
pub fn read_text(
    text: &[u8],
    cells: &mut [i32],
    k: &mut u32,
    sizes: &mut [u32; 6],
    margins: &mut [u32; 6],
) -> u32 {
    // SAFETY: every pointer comes from a reference, with its length; those written to are exclusive.
    unsafe {
        sys::overlay_read_text(
            text.as_ptr(),
            text.len(),
            cells.as_mut_ptr(),
            cells.len(),
            k,
            sizes.as_mut_ptr(),
            margins.as_mut_ptr(),
        )
    }
}

/// Writes the text of a plan, and its length in `size`.
#[must_use]
pub fn write_text(plan: Lent, text: &mut [u8], size: &mut usize) -> u32 {
    on_plan!(overlay_write_text, plan, text.as_mut_ptr(), text.len(), size)
}

/// Covers the corner records that both strips keep, and tells in `kept` how many there are.
#[must_use]
pub fn cover_records(
    kinds: &[u32; 2],
    stops: &[f64; 4],
    corners: &[f64],
    cells: &mut [i32],
    kept: &mut usize,
) -> u32 {
    // SAFETY: every pointer comes from a reference, with its length; those written to are exclusive.
    unsafe {
        sys::overlay_cover_records(
            kinds.as_ptr(),
            stops.as_ptr(),
            corners.as_ptr(),
            corners.len(),
            cells.as_mut_ptr(),
            cells.len(),
            kept,
        )
    }
}
