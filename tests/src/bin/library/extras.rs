//! The calls of the C interface that `Overlay` does not have, and cells that are no ticket.

use crate::ffi::{cells_of, fetch_page, order_cause, plan_cause, round_in_cells, timed_page, Library};
use overlay_tests::call::{cells_u32, Plan};
use overlay_tests::hours::{base, windows_for, WINDOW_STYLES};
use overlay_tests::overlay::{Overlay, Ticket};
use overlay_tests::reference::{plan_fault, REFERENCE};
use overlay_tests::rounds::Lent;
use overlay_tests::seeds::{order, other_orders, tickets, Seeds, DAMAGES, STYLES};

/// How many plans are drawn.
const PLANS: u64 = 1000;

/// Where the seeds start.
const SEED: u64 = 0x9E37_79B9_7F4A_7C15;

/// Two answers are the same, or the first difference in words.
fn expect<T: PartialEq + std::fmt::Debug>(
    name: &str,
    plan: &Plan,
    library: T,
    reference: T,
) -> Result<u64, String> {
    if library == reference {
        return Ok(1);
    }
    Err(format!("DIFFERENCE in {name}\n{plan:?}\nlibrary:   {library:?}\nreference: {reference:?}"))
}

/// Causes 1, 2, 17, 3, 4, of a sound plan and of damaged ones.
fn causes(seeds: &mut Seeds, plan: &Plan) -> Result<u64, String> {
    let mut cases = expect("plan cause", plan, plan_cause(&plan.shape, &plan.cells), 0)?;
    for way in 0..DAMAGES {
        let mut unsound = plan.clone();
        seeds.damage_plan(&mut unsound, way);
        let (shape, cells) = (&unsound.shape, &unsound.cells);
        cases += expect("plan cause", &unsound, plan_cause(shape, cells), plan_fault(shape, cells))?;
    }
    Ok(cases)
}

/// Causes 1, 2, 17, 3, 4, 5: the good order of a sound plan, others, and the good order with damaged plans.
fn orders(seeds: &mut Seeds, plan: &Plan) -> Result<u64, String> {
    let good = order(plan);
    let mut cases = expect("order cause", plan, order_cause(&plan.shape, &plan.cells, &good), 0)?;
    for other in other_orders(seeds, &good) {
        let fault = REFERENCE.order_fault(&plan.shape, &plan.cells, &other);
        cases += expect("order cause", plan, order_cause(&plan.shape, &plan.cells, &other), fault)?;
    }
    for way in 0..DAMAGES {
        let mut unsound = plan.clone();
        seeds.damage_plan(&mut unsound, way);
        let (shape, cells) = (&unsound.shape, &unsound.cells);
        cases += expect(
            "order cause",
            &unsound,
            order_cause(shape, cells, &good),
            REFERENCE.order_fault(shape, cells, &good),
        )?;
    }
    Ok(cases)
}

/// Cells whose flag is neither 0 nor 1 are refused as 6, and stay what they were, as table and record do.
fn flags(seeds: &mut Seeds, plan: &Plan) -> Result<u64, String> {
    let good = order(plan);
    let first = tickets(plan).first().copied().unwrap_or(Ticket::ENDED);
    let mut cases = 0;
    for ticket in [first, Ticket::ENDED, seeds.any_ticket()] {
        for flag in [2, 3, 256, u32::MAX] {
            let mut given = cells_of(&ticket);
            given[0] = flag;
            let (mut after, mut record, mut table) = (given, [ticket.count], cells_u32(24));
            let (number, answer) =
                fetch_page(&plan.shape, &plan.cells, &good, (&mut after, &mut record), 9, &mut table);
            let told = (number, answer, after, record, table);
            cases += expect("flags", plan, told, (6, [0; 5], given, [ticket.count], cells_u32(24)))?;
        }
    }
    Ok(cases)
}

/// The count of a ticket stands in its last two cells, the lower half first: a run that has done so many trials, which end
/// past 2^32 at times.
fn counts(seeds: &mut Seeds, plan: &Plan) -> Result<u64, String> {
    let (good, all) = (order(plan), tickets(plan));
    let mut cases = 0;
    for (low, high) in [(0, 0), (5, 0), (0, 7), (u32::MAX, 0), (u32::MAX, 3), (9, (1 << 25) - 1)] {
        let (ticket, budget) = (all.first().copied().unwrap_or(Ticket::ENDED), seeds.below(9) as u32);
        let mut given = cells_of(&ticket);
        [given[10], given[11]] = [low, high];
        let count = u64::from(high) * (1 << 32) + u64::from(low);
        let (mut record, mut table) = ([count], cells_u32(2_000));
        let (number, answer) =
            fetch_page(&plan.shape, &plan.cells, &good, (&mut given, &mut record), budget, &mut table);
        let done = count + answer[2];
        let due = (0, [(done % (1 << 32)) as u32, (done / (1 << 32)) as u32], [done]);
        cases += expect("counts", plan, (number, [given[10], given[11]], record), due)?;
    }
    Ok(cases)
}

/// A round's cells past m stay what they were, whatever they hold; a tablet's flag that is neither 0 nor 1 is refused as 6, and all cells stay what they were.
fn round_cells(seeds: &mut Seeds, plan: &Plan) -> Result<u64, String> {
    let (good, mut record) = (order(plan), [0]);
    let (_, fresh) = REFERENCE.fresh(&plan.shape, &plan.cells, &good, &mut record);
    let (m, budget) = (1 + seeds.below(16) as u32, seeds.below(40));
    let lent = Lent {
        plan: plan.clone(),
        order: good,
        m,
        first: m,
        budget,
        tickets: [fresh; 16],
        records: vec![0; m as usize],
        table: cells_u32(200),
    };
    let mut given: [u32; 192] = cells_u32(192).try_into().expect("192 cells");
    for cells in given.chunks_mut(12).take(m as usize) {
        cells.copy_from_slice(&cells_of(&fresh));
    }
    let (mut left, mut after) = (lent.clone(), given);
    let (number, next, answer) = round_in_cells(&mut left, &mut after);
    let past = 12 * m as usize;
    let due = (0, 1, &given[past..], vec![3, 0, 0, 0, 0].repeat(16 - m as usize));
    let mut cases =
        expect("round past m", plan, (number, next, &after[past..], answer[5 * m as usize..].to_vec()), due)?;
    let (mut left, at) = (lent.clone(), 12 * seeds.below(u64::from(m)) as usize);
    given[at] = seeds.pick(&[2, 3, 256, u32::MAX]);
    let mut after = given;
    let told = round_in_cells(&mut left, &mut after);
    cases += expect("round flags", plan, (told, after, left), ((6, 0, [0; 80]), given, lent))?;
    Ok(cases)
}

/// The flag of a timed page's ticket that is neither 0 nor 1 is refused as 6, and all cells stay what they were; the count stands in its last two.
fn timed_cells(seeds: &mut Seeds, plan: &Plan) -> Result<u64, String> {
    let style = seeds.below(WINDOW_STYLES);
    let lent = base(plan, &windows_for(seeds, plan.cells.len() / 4, style));
    let mut given = cells_of(&lent.ticket);
    given[0] = seeds.pick(&[2, 3, 256, u32::MAX]);
    let (mut left, mut after) = (lent.clone(), given);
    let told = timed_page(&mut left, &mut after);
    let mut cases = expect("timed flags", plan, (told, after, left), ((6, [0; 5]), given, lent.clone()))?;
    let count = seeds.pick(&[5, (1 << 32) - 1, 7 << 32, (1 << 57) - 1]);
    let mut given = cells_of(&lent.ticket.after(count));
    let mut left = lent;
    left.record = vec![count];
    let (number, answer) = timed_page(&mut left, &mut given);
    let done = count + answer[2];
    let due = (0, [(done % (1 << 32)) as u32, (done / (1 << 32)) as u32], vec![done]);
    cases += expect("timed counts", plan, (number, [given[10], given[11]], left.record), due)?;
    Ok(cases)
}

/// The order made for a plan is told to be its order.
fn made_orders(plan: &Plan) -> Result<u64, String> {
    let mut made = cells_u32(plan.cells.len() / 4);
    let number = Library.make_order(&plan.shape, &plan.cells, &mut made);
    expect("orders made", plan, (number, order_cause(&plan.shape, &plan.cells, &made)), (0, 0))
}

/// All of them on every plan: how many cases, or the first difference.
pub fn compare_extras() -> Result<u64, String> {
    let mut seeds = Seeds(SEED);
    let mut cases = 0;
    for round in 0..PLANS {
        let mut plan = seeds.plan(2 + (round % 5) as usize, round % STYLES);
        if round % 2 == 1 {
            plan = seeds.with_margins(plan);
        }
        cases += causes(&mut seeds, &plan)?;
        cases += orders(&mut seeds, &plan)?;
        cases += flags(&mut seeds, &plan)?;
        cases += counts(&mut seeds, &plan)?;
        cases += round_cells(&mut seeds, &plan)?;
        cases += timed_cells(&mut seeds, &plan)?;
        cases += made_orders(&plan)?;
    }
    Ok(cases)
}
