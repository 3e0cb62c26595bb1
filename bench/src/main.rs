//! Times the library beside hand-written Rust: each call on several plans, the best of some rounds.

#[path = "../../tests/src/bin/library/ffi.rs"]
#[allow(dead_code)]
mod ffi;
mod hand;
mod plans;

use ffi::Library;
use hand::{Count, Scan};
use overlay_tests::call::Plan;
use overlay_tests::hours::{self, Lent};
use overlay_tests::overlay::{Overlay, Run, Stop, Ticket};
use overlay_tests::seeds::{grown_by, towers, Seeds};
use std::hint::black_box;
use std::time::Instant;

/// How many rounds of each are taken.
const ROUNDS: u32 = 25;

/// The trials of a page of a trap.
const TRAP_BUDGET: u32 = 10_000_000;

/// How many calls take a few milliseconds.
fn calls_of(call: &mut dyn FnMut()) -> u32 {
    let start = Instant::now();
    call();
    (0.005 / start.elapsed().as_secs_f64().max(1e-9)).clamp(1.0, 10_000.0) as u32
}

/// The time of a call in a round of so many, in microseconds.
fn round(call: &mut dyn FnMut(), calls: u32) -> f64 {
    let start = Instant::now();
    (0..calls).for_each(|_| call());
    start.elapsed().as_secs_f64() * 1e6 / calls as f64
}

/// The shortest round of each. They are taken in turn, so that what else the machine does meets all alike.
fn turns<const N: usize>(mut calls: [&mut dyn FnMut(); N]) -> [f64; N] {
    let (mut counts, mut best) = ([0; N], [f64::MAX; N]);
    for (count, call) in counts.iter_mut().zip(&mut calls) {
        *count = calls_of(call);
    }
    for _ in 0..ROUNDS {
        for ((best, call), &count) in best.iter_mut().zip(&mut calls).zip(&counts) {
            *best = best.min(round(call, count));
        }
    }
    best
}

/// A line of the table: what was done, our time, and each of Rust's with the ratio to it.
fn tell(plan: &str, call: &str, ours: f64, rust: &[f64]) {
    print!("{plan:<27} {call:<10} {ours:>12.1}");
    for &time in rust {
        print!(" {time:>12.1} {:>6.2}", ours / time);
    }
    println!();
}

/// What part of a time is left when another is taken away, in hundredths.
fn share(whole: f64, rest: f64) -> f64 {
    (100.0 * (1.0 - rest / whole)).max(0.0)
}

/// Pages from the fresh ticket to the end, by budgets of a given size, with a run record.
fn pages(mut page: impl FnMut(&Ticket, &mut [u64]) -> (Stop, Ticket), fresh: Ticket) {
    let (mut ticket, mut record) = (fresh, [0]);
    loop {
        let (stop, next) = page(&ticket, &mut record);
        if stop == Stop::Ended {
            break;
        }
        ticket = next;
    }
}

/// The box of which the nearest is asked.
const AROUND: [i32; 4] = [-300, -200, 300, 400];

/// Both give the same answers and buffers on a plan: its order, its run, and its text.
fn agree(plan: &Plan) -> (Vec<u32>, Run, Vec<u8>) {
    let (shape, cells) = (&plan.shape, &plan.cells[..]);
    let n = cells.len() / 4;
    let (mut order, mut other) = (vec![0; n], vec![0; n]);
    assert_eq!(Library.make_order(shape, cells, &mut order), hand::make_order(shape, cells, &mut other));
    assert_eq!(order, other);
    assert_eq!(ffi::order_cause(shape, cells, &order), hand::cause(shape, cells, &order));

    let (mut table, mut second) = (vec![0; 6_000_000], vec![0; 6_000_000]);
    let (mut work, mut other) = (vec![0; 2_000_000], vec![0; 2_000_000]);
    let run = Library.run(shape, cells, &order, &mut table, &mut work);
    assert_eq!(run, hand::run(Scan::Singly, shape, cells, &order, &mut second, &mut other));
    let by_tree = hand::run_counting(Count::Tree, Scan::ByFours, shape, cells, &order, &mut second, &mut other);
    assert_eq!(run, by_tree);
    assert!(run.number == 0 && table == second);
    let (mut record, mut beside) = ([7], [0]);
    let fresh = Library.fresh(shape, cells, &order, &mut record).1;
    let page = Library.page(shape, cells, &order, &fresh, &mut record, 1_000, &mut table);
    for scan in [Scan::Singly, Scan::ByFours] {
        beside = [0];
        assert_eq!(page, hand::page(scan, shape, cells, &order, &fresh, &mut beside, 1_000, &mut second));
    }
    assert!(table == second && record == beside);
    assert_eq!(ffi::nearest(shape, cells, AROUND), hand::nearest(shape, cells, AROUND));

    let (mut text, mut copy) = (vec![0; 200_000], vec![0; 200_000]);
    let size = Library.write(shape, cells, &mut text).length;
    assert_eq!(size, hand::write(shape, cells, &mut copy).length);
    assert!(text == copy);
    text.truncate(size);
    let (mut into, mut also) = (vec![0; 12_288], vec![0; 12_288]);
    assert_eq!(Library.read(&text, &mut into), hand::read(&text, &mut also));
    assert!(into == also);
    (order, run, text)
}

fn bench(name: &str, plan: &Plan) {
    let (shape, cells) = (&plan.shape, &plan.cells[..]);
    let n = cells.len() / 4;
    agree(&grown_by(plan.clone(), &[500, 0, 1_500, 700, 3_000, 1][..shape.k as usize]));
    let (mut order, run, text) = agree(plan);
    let mut other = vec![0; n];
    let (mut table, mut second) = (vec![0; 6_000_000], vec![0; 6_000_000]);
    let (mut work, mut lent) = (vec![0; 2_000_000], vec![0; 2_000_000]);
    let name = format!("{name}, {} rows", run.rows);

    let mut third = vec![0; 6_000_000];
    let mut more = vec![0; 2_000_000];
    let [ours, singly, fours] = turns([
        &mut || { black_box(Library.run(shape, cells, black_box(&order), &mut table, &mut work)); },
        &mut || { black_box(hand::run(Scan::Singly, shape, cells, black_box(&order), &mut second, &mut lent)); },
        &mut || { black_box(hand::run(Scan::ByFours, shape, cells, black_box(&order), &mut third, &mut more)); },
    ]);
    tell(&name, "run", ours, &[singly, fours]);
    let each = |time: f64| time * 1_000.0 / run.trials as f64;
    println!("{:<27} {:<10} {:>12.2} {:>12.2} {:>6} {:>12.2}", "", "ns a trial", each(ours), each(singly), "", each(fours));

    let budget = 100_000;
    let fresh = Library.fresh(shape, cells, &order, &mut [0]).1;
    let [ours, singly, fours] = turns([
        &mut || pages(|t, r| { let p = Library.page(shape, cells, &order, t, r, budget, &mut table); (p.stop, p.ticket) }, fresh),
        &mut || pages(|t, r| { let p = hand::page(Scan::Singly, shape, cells, &order, t, r, budget, &mut second); (p.stop, p.ticket) }, fresh),
        &mut || pages(|t, r| { let p = hand::page(Scan::ByFours, shape, cells, &order, t, r, budget, &mut third); (p.stop, p.ticket) }, fresh),
    ]);
    tell(&name, "pages", ours, &[singly, fours]);

    let [ours, rust] = turns([
        &mut || { black_box(Library.make_order(shape, black_box(cells), &mut order)); },
        &mut || { black_box(hand::make_order(shape, black_box(cells), &mut other)); },
    ]);
    tell(&name, "order", ours, &[rust]);

    let [ours, rust] = turns([
        &mut || { black_box(ffi::order_cause(shape, black_box(cells), &order)); },
        &mut || { black_box(hand::cause(shape, black_box(cells), &order)); },
    ]);
    tell(&name, "checks", ours, &[rust]);

    let [ours, rust] = turns([
        &mut || { black_box(ffi::nearest(shape, black_box(cells), AROUND)); },
        &mut || { black_box(hand::nearest(shape, black_box(cells), AROUND)); },
    ]);
    tell(&name, "nearest", ours, &[rust]);

    let (mut buffer, mut copy) = (vec![0; 200_000], vec![0; 200_000]);
    let [ours, rust] = turns([
        &mut || { black_box(Library.write(shape, black_box(cells), &mut buffer)); },
        &mut || { black_box(hand::write(shape, black_box(cells), &mut copy)); },
    ]);
    tell(&name, "write", ours, &[rust]);

    let text = &text[..];
    let (mut into, mut also) = (vec![0; 12_288], vec![0; 12_288]);
    let [ours, rust] = turns([
        &mut || { black_box(Library.read(black_box(text), &mut into)); },
        &mut || { black_box(hand::read(black_box(text), &mut also)); },
    ]);
    tell(&name, "read", ours, &[rust]);
}

/// Times a whole run whose ground is counted: the library; its walk alone, which is so many passes of the page call; hand-written Rust that counts the ground
/// by reaches, by a tree and not at all; and what part of a run its ground takes in both.
fn bench_ground(name: &str, plan: &Plan) {
    let (shape, cells) = (&plan.shape, &plan.cells[..]);
    let (order, run, _) = agree(plan);
    let mut tables = [(); 5].map(|_| vec![0; 6_000_000]);
    let mut works = [(); 4].map(|_| vec![0; 2_000_000]);
    let fresh = Library.fresh(shape, cells, &order, &mut [0]).1;
    let [t, u, v, w, x] = &mut tables;
    let [a, b, c, d] = &mut works;
    let counting = |count, table: &mut Vec<u32>, work: &mut Vec<i32>| {
        black_box(hand::run_counting(count, Scan::ByFours, shape, cells, black_box(&order), table, work));
    };
    let [ours, walk, reaches, tree, not] = turns([
        &mut || { black_box(Library.run(shape, cells, black_box(&order), t, a)); },
        &mut || { black_box(Library.page(shape, cells, black_box(&order), &fresh, &mut [0], u32::MAX, u)); },
        &mut || counting(Count::Reaches, v, b),
        &mut || counting(Count::Tree, w, c),
        &mut || counting(Count::Not, x, d),
    ]);
    println!(
        "{:<36} {ours:>8.0} {walk:>10.0} {:>6.0} {reaches:>8.0} {tree:>9.0} {not:>8.0} {:>6.0} {:>6.2}",
        format!("{name}, {} rows", run.rows),
        share(ours, walk),
        share(reaches, not),
        ours / reaches
    );
}

/// Times a page of a plan with too many trials to walk to the end.
fn bench_trap(name: &str, plan: &Plan) {
    let (shape, cells) = (&plan.shape, &plan.cells[..]);
    let mut order = vec![0; cells.len() / 4];
    assert_eq!(Library.make_order(shape, cells, &mut order), 0);
    let fresh = Library.fresh(shape, cells, &order, &mut [0]).1;
    let mut tables = [(); 3].map(|_| vec![0; 60_000]);
    let [t, u, v] = &mut tables;
    let page = Library.page(shape, cells, &order, &fresh, &mut [0], TRAP_BUDGET, t);
    for scan in [Scan::Singly, Scan::ByFours] {
        assert_eq!(page, hand::page(scan, shape, cells, &order, &fresh, &mut [0], TRAP_BUDGET, u));
    }
    let [ours, singly, fours] = turns([
        &mut || { black_box(Library.page(shape, cells, black_box(&order), &fresh, &mut [0], TRAP_BUDGET, t)); },
        &mut || { black_box(hand::page(Scan::Singly, shape, cells, black_box(&order), &fresh, &mut [0], TRAP_BUDGET, u)); },
        &mut || { black_box(hand::page(Scan::ByFours, shape, cells, black_box(&order), &fresh, &mut [0], TRAP_BUDGET, v)); },
    ]);
    tell(&format!("{name}, {} rows", page.rows), "page", ours, &[singly, fours]);
}

/// Times the whole run of a plan that would stall a walk, beside that of a plan of the same size that would not.
fn bench_hostile(name: &str, plan: &Plan) {
    let (shape, cells) = (&plan.shape, &plan.cells[..]);
    let plain = Seeds(7).sparse(&shape.sizes[..shape.k as usize], 60_000);
    let (mut table, mut work) = (vec![0; 6_000_000], vec![0; 2_000_000]);
    let mut run = |shape: &_, cells: &[i32]| {
        let mut order = vec![0; cells.len() / 4];
        assert_eq!(Library.make_order(shape, cells, &mut order), 0);
        let mut best = (f64::MAX, 0, 0);
        for _ in 0..5 {
            let start = Instant::now();
            let run = Library.run(shape, cells, black_box(&order), &mut table, &mut work);
            assert_eq!(run.number, 0);
            best = (best.0.min(start.elapsed().as_secs_f64() * 1e6), run.rows, run.trials);
        }
        best
    };
    let (ours, rows, trials) = run(shape, cells);
    let (other, ..) = run(&plain.shape, &plain.cells);
    println!("{:<36} {trials:>18} {ours:>10.0} {other:>10.0} {:>7.1}", format!("{name}, {rows} rows"), ours / other);
}

/// Times the whole timed run of a plan that would stall a walk, once, beside that of a plan of the same size and windows that would not.
fn bench_timed(name: &str, plan: &Plan, windows: &[u32]) {
    let plain = Seeds(7).sparse(&plan.shape.sizes[..plan.shape.k as usize], 60_000);
    let run = |plan: &Plan| {
        let (shape, cells) = (&plan.shape, &plan.cells[..]);
        let mut order = vec![0; cells.len() / 4];
        assert_eq!(Library.make_order(shape, cells, &mut order), 0);
        let ticket = Library.fresh(shape, cells, &order, &mut [0]).1;
        let (table, work) = (vec![0; 6_000_000], vec![0; 2_000_000]);
        let hours = windows.to_vec();
        let mut lent = Lent { plan: plan.clone(), hours, order, ticket, record: vec![0], budget: 0, table, work, places: Vec::new() };
        let start = Instant::now();
        let run = hours::Timed::run(&Library, black_box(&mut lent));
        assert_eq!(run.number, 0);
        (start.elapsed().as_secs_f64() * 1e6, run.rows, run.trials)
    };
    let (ours, rows, trials) = run(plan);
    let (other, ..) = run(&plain);
    println!("{:<36} {trials:>18} {ours:>10.0} {other:>10.0} {:>7.1}", format!("{name}, {rows} rows"), ours / other);
}

/// The heads of the columns.
fn heads(of: &str) {
    println!(
        "{of:<27} {:<10} {:>12} {:>12} {:>6} {:>12} {:>6}",
        "call", "ours, us", "Rust, us", "ratio", "by fours, us", "ratio"
    );
}

fn main() {
    heads("plan");
    let plans: [(&str, usize, u32, i32); 8] = [
        ("k 2, 64, sparse", 2, 64, 20_000),
        ("k 2, 512, sparse", 2, 512, 20_000),
        ("k 2, 512, dense", 2, 512, 1_000_000),
        ("k 3, 64, medium", 3, 64, 400_000),
        ("k 3, 512, sparse", 3, 512, 20_000),
        ("k 3, 512, medium", 3, 512, 200_000),
        ("k 6, 64, medium", 6, 64, 400_000),
        ("k 6, 512, sparse", 6, 512, 60_000),
    ];
    let mut seeds = Seeds(2026);
    for (name, k, n, side) in plans {
        bench(name, &seeds.sparse(&vec![n; k], side));
    }
    bench("k 3, 512, bands", &plans::bands(&mut Seeds(512), 3, 512, 10_000));

    println!();
    heads("a page of 10,000,000 trials");
    for (name, n) in [("k 6, 24, trap", 24), ("k 6, 512, trap", 512)] {
        bench_trap(name, &plans::trap(&mut Seeds(24), 6, n));
    }

    println!();
    println!("{:<36} {:>18} {:>10} {:>10} {:>7}", "run of a hostile plan, us", "trials", "ours", "plain", "ratio");
    bench_hostile("k 6, 24, trap", &plans::trap(&mut Seeds(24), 6, 24));
    bench_hostile("k 6, 512, trap", &plans::trap(&mut Seeds(24), 6, 512));
    bench_hostile("k 6, 512, equal", &plans::equal(6, 512));
    bench_hostile("k 6, 512, in the last guard", &plans::trap_with_rows(&mut Seeds(24), 6, 512, 1));
    bench_hostile("k 6, 512, for each of a layer", &plans::trap_with_rows(&mut Seeds(24), 6, 512, 512));
    bench_hostile("k 6, 10, all meet", &plans::all_meet(&mut Seeds(24), 6, 10));
    bench_hostile("k 3, 100, all meet", &plans::all_meet(&mut Seeds(24), 3, 100));

    println!();
    println!("{:<36} {:>18} {:>10} {:>10} {:>7}", "timed run of a hostile plan, us", "trials", "ours", "plain", "ratio");
    let (trap, met) = (plans::trap(&mut Seeds(24), 6, 512), plans::trap_with_rows(&mut Seeds(24), 6, 512, 512));
    bench_timed("k 6, 512, nested", &trap, &plans::nested(3_072));
    bench_timed("k 6, 512, sliding", &trap, &plans::sliding(3_072));
    bench_timed("k 6, 512, long and short", &trap, &plans::long_and_short(3_072));
    bench_timed("k 6, 512, nested, for each", &met, &plans::nested(3_072));

    println!();
    println!(
        "{:<36} {:>8} {:>10} {:>6} {:>8} {:>9} {:>8} {:>6} {:>6}",
        "run with its ground, us", "ours", "walk alone", "ground", "Rust", "with tree", "without", "ground", "ratio"
    );
    bench_ground("k 6, 512, towers", &towers(6, 512));
    // All rectangles hold one point, so that all combinations are rows.
    bench_ground("k 2, 512, about a point", &seeds.plan_of(&[512, 512], 9));
    for (name, k, n, side) in [
        ("k 2, 512, tiles", 2, 512, 0),
        ("k 3, 512, medium", 3, 512, 200_000),
        ("k 6, 64, medium", 6, 64, 400_000),
        ("k 3, 64, lifelike", 3, 64, 250_000),
    ] {
        let plan = if side == 0 { seeds.plan_of(&vec![n; k], 6) } else { seeds.sparse(&vec![n; k], side) };
        bench_ground(name, &plan);
    }
    bench_ground("k 3, 512, bands", &plans::bands(&mut Seeds(512), 3, 512, 10_000));
    let mut cells = vec![0; 12_288];
    let shape = Library.read(include_bytes!("../../examples/forecourt.plan"), &mut cells).shape;
    cells.truncate(4 * shape.sizes.iter().sum::<u32>() as usize);
    bench_ground("examples/forecourt.plan", &Plan { shape, cells });
}
