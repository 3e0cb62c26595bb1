//! The types of the crate `overlay` beside the reference: plans, rows, runs, pages, windows and rounds, on plans that are drawn.

use overlay::{Cause, Page as Fetched, Plan, Rect, Stop as Why, Window};
use overlay_tests::call;
use overlay_tests::hours::{self, timed, windows_for, Timed, WINDOW_STYLES};
use overlay_tests::nearest::nearest;
use overlay_tests::overlay::{Overlay, Run};
use overlay_tests::reference::{plan_fault, text_of, REFERENCE};
use overlay_tests::seeds::{order, Seeds, DAMAGES, STYLES};

/// How many plans are drawn.
const PLANS: u64 = 1000;

/// Where the seeds start.
const SEED: u64 = 0x5851_F42D_4C95_7F2D;

/// More rows than any plan that is drawn has.
const ROOM: usize = 20_000;

/// Two answers are the same, or the first difference in words.
fn expect<T: PartialEq + std::fmt::Debug>(
    name: &str,
    plan: &call::Plan,
    typed: T,
    reference: T,
) -> Result<u64, String> {
    if typed == reference {
        return Ok(1);
    }
    Err(format!("DIFFERENCE in {name} by types\n{plan:?}\ntyped:     {typed:?}\nreference: {reference:?}"))
}

/// A plan by its cells.
fn plan_of(drawn: &call::Plan) -> Result<Plan, u32> {
    let shape = &drawn.shape;
    Plan::from_cells(shape.k, shape.sizes, shape.margins, drawn.cells.clone()).map_err(Cause::number)
}

/// A run as the reference tells it: rows, their cells, trials, area and ground.
type Told = (u32, Vec<u32>, u64, u128, u128);

/// The reference's run and the first cells of its table.
fn told(run: Run, table: &[u32], k: u32) -> Told {
    let cells = table[..(run.rows * k) as usize].to_vec();
    (run.rows, cells, run.trials, run.area.value(), run.ground.value())
}

/// A run by types.
fn typed_run(run: overlay::Run) -> Told {
    let sums = (run.area.square_millimetres(), run.ground.square_millimetres());
    (run.rows.len() as u32, run.rows.cells().to_vec(), run.trials, sums.0, sums.1)
}

/// All pages together: the cells of their rows, trials and area; the last one ends, and no other does.
fn all_pages(pages: impl Iterator<Item = Fetched>) -> (Vec<u32>, u64, u128, bool) {
    let pages: Vec<Fetched> = pages.collect();
    let cells = pages.iter().flat_map(|page| page.rows.cells()).copied().collect();
    let area = pages.iter().map(|page| page.area).sum::<overlay::Total>().square_millimetres();
    let ends: Vec<bool> = pages.iter().map(|page| page.stop == Why::Ended).collect();
    let once = ends.iter().filter(|end| **end).count() == 1 && ends.last() == Some(&true);
    (cells, pages.iter().map(|page| page.trials).sum(), area, once)
}

/// Plans that are refused, by their causes.
fn refusals(seeds: &mut Seeds, drawn: &call::Plan) -> Result<u64, String> {
    let mut cases = 0;
    for way in 0..DAMAGES {
        let mut unsound = drawn.clone();
        seeds.damage_plan(&mut unsound, way);
        let number = plan_fault(&unsound.shape, &unsound.cells);
        cases += expect("refusals", &unsound, plan_of(&unsound).err().unwrap_or(0), number)?;
    }
    Ok(cases)
}

/// Text, layers, order, nearest, and each row of the run.
fn parts(seeds: &mut Seeds, drawn: &call::Plan, plan: &Plan, rows: &[u32]) -> Result<u64, String> {
    let (shape, cells) = (&drawn.shape, &drawn.cells[..]);
    let mut cases = expect("texts", drawn, plan.to_text(), text_of(shape, cells))?;
    cases += expect("texts read", drawn, Plan::from_text(&plan.to_text()).as_ref(), Ok(plan))?;
    cases += expect("layers", drawn, Plan::new(&plan.layers()).as_ref(), Ok(plan))?;
    cases += expect("orders", drawn, plan.order().to_vec(), order(drawn))?;
    let around: [i32; 4] =
        std::array::from_fn(|side| seeds.between(-40, 40) + if side < 2 { -40 } else { 40 });
    let [left, bottom, right, top] = around;
    let near = plan.nearest(Rect::new(left, bottom, right, top)).map_err(Cause::number);
    let entry = |near: &overlay_tests::nearest::Near| near.found.then_some((near.place, near.gap));
    let due: Vec<_> = nearest(shape, cells, around).layers[..shape.k as usize].iter().map(entry).collect();
    let pairs =
        near.map(|near| near.into_iter().map(|near| near.map(|n| (n.place, n.squared_gap))).collect());
    cases += expect("nearest", drawn, pairs, Ok(due))?;
    let other: Vec<u32> = (0..shape.k).map(|_| seeds.below(9) as u32).collect();
    for places in rows.chunks(shape.k as usize).take(20).chain([&other[..], &other[1..]]) {
        let row = REFERENCE.row(shape, cells, places);
        let named = plan.row(places).map_or((0, 0), |row| (row.layer, row.area));
        cases += expect("rows", drawn, named, (row.layer, row.area))?;
        let common = REFERENCE.common(shape, cells, places);
        let ground = plan.common(places).map_or(([0; 4], 0), |c| (c.rect.cells(), c.kind.letter() as u8));
        cases += expect("common ground", drawn, ground, (common.sides, common.kind))?;
        let pair = REFERENCE.pair(shape, cells, places);
        let apart = plan.apart_pair(places).map_err(Cause::number).map(Option::unwrap_or_default);
        let due = if pair.number == 0 { Ok((pair.lower, pair.higher)) } else { Err(pair.number) };
        cases += expect("pairs", drawn, apart, due)?;
    }
    Ok(cases)
}

/// The timed run and its pages.
fn hours(seeds: &mut Seeds, drawn: &call::Plan, plan: &Plan) -> Result<u64, String> {
    let style = seeds.below(WINDOW_STYLES);
    let cells = windows_for(seeds, drawn.cells.len() / 4, style);
    let windows: Vec<Window> = cells.chunks(2).map(|two| Window::new(two[0], two[1])).collect();
    let by_types = plan.timed(&windows).map_err(|cause| format!("{cause}"))?;
    let k = drawn.shape.k as usize;
    let due: Vec<u32> = timed(drawn, &cells).1.iter().flat_map(|row| row.places[..k].to_vec()).collect();
    let run = by_types.run(ROOM).map_err(|cause| format!("{cause}"))?;
    let mut cases = expect("timed rows", drawn, run.rows.cells(), &due)?;
    let pages = all_pages(by_types.pages(1 + seeds.below(200) as u32, 1 + seeds.below(30) as usize));
    cases +=
        expect("timed pages", drawn, pages, (due.clone(), run.trials, run.area.square_millimetres(), true))?;
    for places in due.chunks(k).take(5) {
        let mut lent = hours::Lent { places: places.to_vec(), ..hours::base(drawn, &cells) };
        let shared = hours::ByWords(None).hours(&mut lent);
        cases += expect("hours", drawn, by_types.hours(places), Some(Window::new(shared.from, shared.to)))?;
    }
    Ok(cases)
}

/// Rounds until all runs have ended: each client gets the table.
fn rounds(seeds: &mut Seeds, drawn: &call::Plan, plan: &Plan, rows: &[u32]) -> Result<u64, String> {
    let count = 1 + seeds.below(16) as usize;
    let (budget, room) = (1000 * count as u64 + seeds.below(1000), 1 + seeds.below(200) as usize);
    let mut clients = plan.clients(count).map_err(|cause| format!("{cause}"))?;
    let (mut got, mut ended) = (vec![Vec::new(); count], vec![false; count]);
    while !ended.iter().all(|end| *end) {
        for served in clients.round(budget, room).map_err(|cause| format!("{cause}"))? {
            let client = served.client as usize - 1;
            got[client].extend_from_slice(served.page.rows.cells());
            ended[client] = served.page.stop == Why::Ended;
        }
    }
    expect("rounds", drawn, got, vec![rows.to_vec(); count])
}

/// All of them on every plan: how many cases, or the first difference.
pub fn compare_types() -> Result<u64, String> {
    let (mut seeds, mut cases) = (Seeds(SEED), 0);
    for round in 0..PLANS {
        let mut drawn = seeds.plan(2 + (round % 5) as usize, round % STYLES);
        if round % 2 == 1 {
            drawn = seeds.with_margins(drawn);
        }
        let plan = plan_of(&drawn).map_err(|number| format!("{drawn:?} is refused by {number}"))?;
        let (mut table, mut work) = (vec![0; ROOM * 6], vec![0; ROOM * 6]);
        let good = order(&drawn);
        let run = REFERENCE.run(&drawn.shape, &drawn.cells, &good, &mut table, &mut work);
        let due = told(run, &table, drawn.shape.k);
        let rows = due.1.clone();
        let typed = plan.run(ROOM).map_err(Cause::number).map(typed_run);
        cases += expect("runs", &drawn, typed, Ok(due.clone()))?;
        let pages = all_pages(plan.pages(1 + seeds.below(200) as u32, 1 + seeds.below(30) as usize));
        cases += expect("pages", &drawn, pages, (rows.clone(), due.2, due.3, true))?;
        cases += refusals(&mut seeds, &drawn)?;
        cases += parts(&mut seeds, &drawn, &plan, &rows)?;
        cases += hours(&mut seeds, &drawn, &plan)?;
        cases += rounds(&mut seeds, &drawn, &plan, &rows)?;
    }
    Ok(cases)
}
