//! The shorter way to tell whether windows share a minute says what a look at every minute of the week says, and the timed walk yields the timed rows.

use overlay_tests::hours::{
    base, compare_hours, share_a_minute, shared_minutes, timed, windows_for, ByWords, Lent, Timed, WEEK,
    WINDOW_STYLES,
};
use overlay_tests::overlay::Stop;
use overlay_tests::reference::{join, layers_of, passes, trials_by};
use overlay_tests::seeds::{Seeds, STYLES};

/// Where the seeds start.
const SEED: u64 = 0x2545_F491_4F6C_DD1D;

#[test]
fn a_shared_minute_is_found_among_the_first_ones() {
    let (mut seeds, mut shared) = (Seeds(SEED), 0);
    for round in 0..4_000 {
        let n = 1 + (round % 6) as usize;
        let cells = windows_for(&mut seeds, n, round % WINDOW_STYLES);
        let windows: Vec<(u32, u32)> = cells.chunks(2).map(|pair| (pair[0], pair[1])).collect();
        let minutes = shared_minutes(&windows);
        assert_eq!(share_a_minute(&windows), !minutes.is_empty(), "{windows:?}");
        let latest = windows.iter().map(|window| window.0).max();
        let earliest = windows.iter().map(|window| window.1).min();
        if let (Some(&first), Some(&last)) = (minutes.first(), minutes.last()) {
            shared += 1;
            assert_eq!((Some(first), Some(last + 1)), (latest, earliest), "{windows:?}");
            assert_eq!(minutes.len() as u32, last + 1 - first, "{windows:?}");
        }
    }
    assert!((1_000..3_000).contains(&shared), "{shared} shared");
}

#[test]
fn the_timed_walk_yields_the_timed_rows() {
    let mut seeds = Seeds(SEED);
    for round in 0..600 {
        let mut plan = seeds.plan(2 + (round % 5) as usize, round % STYLES);
        if round % 2 == 1 {
            plan = seeds.with_margins(plan);
        }
        let n = plan.cells.len() / 4;
        let hours = windows_for(&mut seeds, n, (round / 5) % WINDOW_STYLES);
        let (walk, rows) = timed(&plan, &hours);
        assert_eq!(walk.iter().filter(|trial| trial.yields).count(), rows.len());
        // Whole weeks leave the old walk and the old rows.
        let layers = layers_of(&plan.shape, &plan.cells);
        let (walk, rows) = timed(&plan, &[0, WEEK].repeat(n));
        assert_eq!(rows, join(&layers));
        let old = trials_by(&layers, passes);
        assert!(walk.iter().map(|trial| trial.ticket).eq(old.iter().map(|trial| trial.ticket)));
    }
}

#[test]
fn every_outcome_occurs() {
    assert!(compare_hours(&ByWords(None), &ByWords(None)).is_ok_and(|cases| cases > 100_000));
}

#[test]
fn the_order_of_the_causes() {
    // 1, 2, 17, 3, 4, 24, 5, and then 6 and 18, or 7 and 19: each is told before those behind it. All apply at first; they are mended in turn.
    let plan = Seeds(SEED).plan_of(&[2, 2], 8);
    let good = base(&plan, &[0, WEEK].repeat(4));
    let mut lent = good.clone();
    lent.plan.shape.k = 7;
    lent.plan.shape.sizes[1] = 513;
    lent.plan.shape.margins[0] = 50_001;
    lent.plan.cells[0] = 2_000_000_000;
    lent.plan.cells.push(0);
    lent.hours.push(0);
    lent.order.reverse();
    lent.ticket.layer = 9;
    lent.record[0] = 1;
    lent.table.clear();
    lent.work.clear();
    let words = ByWords(None);
    let stop = |lent: &Lent| match words.page(&mut lent.clone()).stop {
        Stop::Refused(number) => number,
        _ => 0,
    };
    let told = |lent: &Lent| {
        [stop(lent), words.run(&mut lent.clone()).number, words.hours(&mut lent.clone()).number]
    };
    assert_eq!(told(&lent), [1, 1, 1]);
    lent.plan.shape.k = 2;
    assert_eq!(told(&lent), [2, 2, 2]);
    lent.plan.shape.sizes[1] = 2;
    assert_eq!(told(&lent), [17, 17, 17]);
    lent.plan.shape.margins[0] = 0;
    assert_eq!(told(&lent), [3, 3, 3]);
    lent.plan.cells.pop();
    assert_eq!(told(&lent), [4, 4, 4]);
    lent.plan = good.plan.clone();
    assert_eq!(told(&lent), [24, 24, 24]);
    lent.hours.pop();
    assert_eq!(told(&lent), [5, 5, 0]);
    lent.order = good.order.clone();
    assert_eq!(told(&lent), [6, 7, 0]);
    (lent.ticket, lent.table) = (good.ticket, good.table.clone());
    assert_eq!(told(&lent), [18, 19, 0]);
    (lent.record, lent.work) = (good.record.clone(), good.work.clone());
    assert_eq!(told(&lent), [0, 0, 0]);
}
