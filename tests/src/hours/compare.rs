//! The comparison of two sets of timed calls.

use crate::call::{cells_i32, cells_u32, cells_u64, Plan};
use crate::compare::Difference;
use crate::hours::{timed, HoursTold, Lent, Timed, Window, RIGHT, WEEK};

use crate::overlay::{Overlay, Page, Run, Stop, Ticket};
use crate::reference::{
    each_tuple, intersection, is_empty, join, layers_of, passes, rects_at, ticket_at, trials_by, Layers,
    REFERENCE,
};
use crate::seeds::{equal_plan, order, other_orders, plan_from, tickets, Seeds, DAMAGES, FIELDS, STYLES};
use std::collections::BTreeMap;
use std::panic::{catch_unwind, AssertUnwindSafe};
use Asked::{Hours as AskedHours, Page as AskedPage, Run as AskedRun};

/// How many plans are drawn.
pub const PLANS: u64 = 1_200;

/// Where the seeds start.
pub const SEED: u64 = 0xBF58_476D_1CE4_E5B9;

/// A plan of up to so many combinations is asked for the minutes of each.
pub const MOST_COMBINATIONS: u32 = 128;

/// How many styles of windows there are.
pub const WINDOW_STYLES: u64 = 8;

/// Minutes at the ends of the week and in its middle.
pub const MINUTES: [u32; 8] = [0, 1, 2, 5_039, 5_040, 10_078, 10_079, 10_080];

/// Cells that are no window.
pub const NO_WINDOWS: [Window; 12] = [
    (5, 5),
    (0, 0),
    (6, 5),
    (0, WEEK + 1),
    (WEEK - 1, WEEK + 1),
    (WEEK, WEEK),
    (WEEK, WEEK + 1),
    (WEEK, 0),
    (WEEK + 1, WEEK + 2),
    (0, u32::MAX),
    (u32::MAX, u32::MAX),
    (1 << 31, 5),
];

/// A window of a style.
pub fn window(seeds: &mut Seeds, style: u64) -> Window {
    let two = |seeds: &mut Seeds, draw: &dyn Fn(&mut Seeds) -> u32| loop {
        let (a, b) = (draw(seeds), draw(seeds));
        if a != b {
            break (a.min(b), a.max(b));
        }
    };
    match style {
        // Some minutes at the start of the week: many share one, many only touch.
        0 => two(seeds, &|seeds| seeds.below(8) as u32),
        // Long ones, which share the middle of the week.
        1 if seeds.once_in(3) => (seeds.below(5_000) as u32, WEEK),
        1 => (seeds.below(5_000) as u32, 5_001 + seeds.below(5_080) as u32),
        2 => (0, WEEK),
        // Whole hours one behind the other: of two that share nothing many touch.
        3 => two(seeds, &|seeds| 60 * seeds.below(5) as u32),
        4 => two(seeds, &|seeds| seeds.pick(&MINUTES)),
        5 => two(seeds, &|seeds| seeds.below(u64::from(WEEK) + 1) as u32),
        // The whole week, but for some.
        6 if seeds.once_in(4) => window(seeds, 0),
        6 => (0, WEEK),
        _ => {
            let other = seeds.pick(&[0, 1, 2, 3, 4, 5]);
            window(seeds, other)
        }
    }
}

/// Windows for n rectangles, as cells.
pub fn windows_for(seeds: &mut Seeds, n: usize, style: u64) -> Vec<u32> {
    (0..n).flat_map(|_| <[u32; 2]>::from(window(seeds, style))).collect()
}

/// Buffers of another length, and with one window that is none.
pub fn other_hours(seeds: &mut Seeds, good: &[u32]) -> Vec<Vec<u32>> {
    let (cells, mut all) = (good.len(), Vec::new());
    let lengths =
        [cells + 1, cells + 2, cells.wrapping_sub(1), cells.wrapping_sub(2), 0, cells / 2, 2 * cells];
    for length in lengths.into_iter().filter(|&length| length != cells && length <= 2 * cells + 2) {
        let more = [0, WEEK].iter().copied().cycle().skip(cells % 2);
        all.push(good.iter().copied().chain(more).take(length).collect());
    }
    let n = cells / 2;
    for none in NO_WINDOWS.into_iter().filter(|_| n > 0) {
        let mut hours = good.to_vec();
        let any = seeds.below(n as u64) as usize;
        let at = seeds.pick(&[0, n - 1, any]);
        (hours[2 * at], hours[2 * at + 1]) = none;
        all.push(hours);
    }
    all
}

/// What is lent for a sound plan with its windows: the fresh ticket, and tables that are large enough for most.
pub fn base(plan: &Plan, hours: &[u32]) -> Lent {
    let order = order(plan);
    let (_, ticket) = REFERENCE.fresh(&plan.shape, &plan.cells, &order, &mut [0]);
    Lent {
        plan: plan.clone(),
        hours: hours.to_vec(),
        order,
        ticket,
        record: vec![0],
        budget: 20,
        table: cells_u32(600),
        work: cells_i32(600),
        places: vec![0; plan.shape.k as usize],
    }
}

/// Which call is put.
#[derive(Clone, Copy, Debug, PartialEq)]
pub enum Asked {
    Page,
    Run,
    Hours,
}

/// What a call returned.
#[derive(Clone, Copy, Debug, PartialEq)]
pub enum Told {
    Page(Page),
    Run(Run),
    Hours(HoursTold),
    Panicked,
}

impl Told {
    /// The number of a refusal, or 0.
    fn number(&self) -> u32 {
        match self {
            Told::Page(Page { stop: Stop::Refused(number), .. }) => *number,
            Told::Run(run) => run.number,
            Told::Hours(hours) => hours.number,
            _ => 0,
        }
    }
}

/// The told answer, and the work buffer cleared where its "contents afterwards are free". A panic is an answer too, and never an equal one.
pub fn told(lent: &mut Lent, call: impl FnOnce(&mut Lent) -> Told) -> Told {
    let told = catch_unwind(AssertUnwindSafe(|| call(lent))).unwrap_or(Told::Panicked);
    if let Told::Run(Run { number: 0, .. }) = told {
        lent.work.fill(0);
    }
    told
}

/// Puts a timed call.
pub fn ask(to: &dyn Timed, asked: Asked, lent: &mut Lent) -> Told {
    told(lent, |lent| match asked {
        AskedPage => Told::Page(to.page(lent)),
        AskedRun => Told::Run(to.run(lent)),
        AskedHours => Told::Hours(to.hours(lent)),
    })
}

/// Puts the call without windows.
pub fn ask_untimed(to: &dyn Timed, asked: Asked, lent: &mut Lent) -> Told {
    told(lent, |lent| {
        let (to, Lent { plan, order, ticket, record, budget, table, work, .. }) = (to.untimed(), lent);
        let (shape, cells) = (&plan.shape, &plan.cells);
        match asked {
            AskedPage => Told::Page(to.page(shape, cells, order, ticket, record, *budget, table)),
            _ => Told::Run(to.run(shape, cells, order, table, work)),
        }
    })
}

/// What has to be seen often.
pub const SEEN: [&str; 24] = [
    "page 24",
    "run 24",
    "hours 24",
    "page 5",
    "run 5",
    "page 6",
    "page 18",
    "run 7",
    "run 19",
    "6 for a trial of the old walk",
    "7 where there are rows",
    "a table for the timed rows alone",
    "a work buffer for the timed rows alone",
    "some rows left",
    "fewer trials",
    "page Ended",
    "page Full",
    "page Spent",
    "minutes of a row",
    "a row without minutes",
    "a row whose windows only touch",
    "minutes of no row",
    "from 0",
    "to 10,080",
];

/// Two versions, how many cases were compared, and what was seen in them.
pub struct Bench<'a> {
    pub left: &'a dyn Timed,
    pub right: &'a dyn Timed,
    pub cases: u64,
    pub seen: BTreeMap<&'static str, u64>,
}

/// A comparison goes on, or stops at a difference.
pub type Outcome = Result<(), Difference>;

impl Bench<'_> {
    /// Counts what was seen.
    fn see(&mut self, what: &'static str, is: bool) {
        *self.seen.entry(what).or_default() += u64::from(is);
    }

    /// A difference in the last case.
    fn differ(&self, what: &str, lent: &Lent, left: (&Told, &Lent), right: (&Told, &Lent)) -> Difference {
        let differing = (0..lent.table.len()).find(|&at| left.1.table[at] != right.1.table[at]);
        let Lent { plan, hours, order, ticket, record, budget, places, .. } = lent;
        let text = format!(
            "DIFFERENCE in {what}, case {}\n{plan:?}\nhours {hours:?}\norder {order:?}\n{ticket:?}, record {record:?}\nbudget {budget}, table of {} cells, work buffer of {}, places {places:?}\nleft:  {:?}, record {:?}\nright: {:?}, record {:?}\nfirst cell of the table that differs: {differing:?}\n",
            self.cases,
            lent.table.len(),
            lent.work.len(),
            left.0,
            left.1.record,
            right.0,
            right.1.record,
        );
        Difference { cases: self.cases, kind: "hours", text }
    }

    /// Both versions on one call; what it told, and what it left.
    fn put(&mut self, asked: Asked, lent: &Lent) -> Result<(Told, Lent), Difference> {
        self.cases += 1;
        let (mut ours, mut theirs) = (lent.clone(), lent.clone());
        let (left, right) = (ask(self.left, asked, &mut ours), ask(self.right, asked, &mut theirs));
        self.count(asked, &right);
        if left != Told::Panicked && (&left, &ours) == (&right, &theirs) {
            return Ok((right, theirs));
        }
        Err(self.differ(&format!("timed {asked:?}"), lent, (&left, &ours), (&right, &theirs)))
    }

    /// Both versions on all three calls.
    fn put_all(&mut self, lent: &Lent) -> Outcome {
        for asked in [AskedPage, AskedRun, AskedHours] {
            self.put(asked, lent)?;
        }
        Ok(())
    }

    /// Counts an answer.
    fn count(&mut self, asked: Asked, told: &Told) {
        let refused = match (asked, told.number()) {
            (AskedPage, 24) => "page 24",
            (AskedRun, 24) => "run 24",
            (AskedHours, 24) => "hours 24",
            (AskedPage, 5) => "page 5",
            (AskedRun, 5) => "run 5",
            (AskedPage, 6) => "page 6",
            (AskedPage, 18) => "page 18",
            (AskedRun, 7) => "run 7",
            (AskedRun, 19) => "run 19",
            _ => "",
        };
        self.see(refused, true);
        match told {
            Told::Page(page) => {
                self.see("page Ended", page.stop == Stop::Ended && page.trials > 0);
                self.see("page Full", page.stop == Stop::Full && page.rows > 0);
                self.see("page Spent", page.stop == Stop::Spent && page.trials > 0);
            }
            Told::Hours(hours) => {
                self.see("minutes of a row", hours.to > 0);
                self.see("from 0", hours.to > 0 && hours.from == 0);
                self.see("to 10,080", hours.to == WEEK && hours.from > 0);
            }
            _ => {}
        }
    }

    /// The minutes of every combination of a small plan and of some of a larger one, of places outside, and of lengths other than k.
    fn minutes(&mut self, seeds: &mut Seeds, good: &Lent) -> Outcome {
        let shape = &good.plan.shape;
        let (k, layers) = (shape.k as usize, layers_of(shape, &good.plan.cells));
        let sizes = &shape.sizes[..k];
        let tuple = |seeds: &mut Seeds, past: u64| -> Vec<u32> {
            sizes.iter().map(|&size| seeds.below((u64::from(size) + past).max(1)) as u32).collect()
        };
        let mut all: Vec<Vec<u32>> = Vec::new();
        if sizes.iter().product::<u32>() <= MOST_COMBINATIONS {
            each_tuple(&layers, &mut Vec::new(), &mut |places| all.push(places.to_vec()));
        } else {
            all.extend((0..32).map(|_| tuple(seeds, 0)));
            all.extend(join(&layers).iter().take(64).map(|row| row.places[..k].to_vec()));
        }
        for places in &all {
            self.see_minutes(good, &layers, places);
        }
        all.extend((0..3).map(|_| tuple(seeds, 2)));
        for length in [0, 1, k - 1, k + 1, 7] {
            all.push([0].repeat(length));
            all.push(tuple(seeds, 0).into_iter().chain([0; 7]).take(length).collect());
        }
        for layer in 0..k {
            let mut places = tuple(seeds, 0);
            places[layer] = seeds.pick(&[sizes[layer], 512, 1 << 31, u32::MAX]);
            all.push(places);
        }
        for places in all {
            self.put(AskedHours, &Lent { places, ..good.clone() })?;
        }
        Ok(())
    }

    /// Counts what a combination shows.
    fn see_minutes(&mut self, good: &Lent, layers: &Layers, places: &[u32]) {
        if places.iter().zip(layers).any(|(&place, rects)| place as usize >= rects.len()) {
            return;
        }
        let windows = RIGHT.windows(good);
        let of: Vec<Window> = windows.iter().zip(places).map(|(l, &place)| l[place as usize]).collect();
        let meet = rects_at(layers, places).into_iter().reduce(intersection).is_some_and(|r| !is_empty(r));
        let (from, to) = of.iter().fold((0, WEEK), |(a, b), &(from, to)| (a.max(from), b.min(to)));
        self.see("a row without minutes", meet && from >= to);
        self.see("a row whose windows only touch", meet && from == to);
        self.see("minutes of no row", !meet && from < to);
    }

    /// Whole runs with tables and work buffers about what the timed rows need, and what all rows would.
    fn runs(&mut self, good: &Lent) -> Outcome {
        let k = good.plan.shape.k as usize;
        let layers = layers_of(&good.plan.shape, &good.plan.cells);
        let (walk, rows) = timed(&good.plan, &good.hours);
        let (some, all) = (rows.len(), join(&layers).len());
        self.see("some rows left", 0 < some && some < all);
        self.see("fewer trials", walk.len() < trials_by(&layers, passes).len());
        let tables = [k * some, (k * some).wrapping_sub(1), k * some + 1, k * all, k * all + k, k, 0];
        for table in tables.into_iter().filter(|&table| table <= k * all + k) {
            for work in [2 * some, 2 * all] {
                let lent = Lent { table: cells_u32(table), work: cells_i32(work), ..good.clone() };
                let (told, _) = self.put(AskedRun, &lent)?;
                self.see("a table for the timed rows alone", told.number() == 0 && table / k < all);
                self.see("7 where there are rows", told.number() == 7 && table >= k);
            }
        }
        for work in [(2 * some).wrapping_sub(1), 2 * some + 1, (2 * all).wrapping_sub(1), some, 0] {
            if work > 2 * all + 1 {
                continue;
            }
            let lent = Lent { table: cells_u32(k * all + 3), work: cells_i32(work), ..good.clone() };
            let (told, _) = self.put(AskedRun, &lent)?;
            self.see("a work buffer for the timed rows alone", told.number() == 0 && work < 2 * all);
            let both = Lent { table: cells_u32((k * some).saturating_sub(1)), ..lent };
            self.put(AskedRun, &both)?;
        }
        Ok(())
    }

    /// A list of timed page calls from the fresh ticket until Ended, with others among them. Its rows are the timed rows in their order, its trials the
    /// timed walk.
    fn list(&mut self, seeds: &mut Seeds, good: &Lent) -> Outcome {
        let k = good.plan.shape.k as usize;
        let (walk, rows) = timed(&good.plan, &good.hours);
        let bare: Vec<Ticket> = walk.iter().map(|trial| trial.ticket).collect();
        let old = tickets(&good.plan);
        let outside: Vec<Ticket> =
            old.iter().map(|ticket| ticket.after(0)).filter(|ticket| !bare.contains(ticket)).collect();
        let mut lent = Lent { record: cells_u64(1), ..good.clone() };
        self.fresh(&mut lent, ticket_at(&walk, 0))?;
        let (mut given, mut listed) = (vec![lent.ticket], Vec::new());
        for turn in 0.. {
            let left = (walk.len() as u64 - lent.record[0], rows.len() - listed.len());
            lent.budget = match seeds.below(6) {
                0 => (left.0 as u32 + seeds.pick(&[0, 1])).saturating_sub(seeds.pick(&[0, 1])),
                _ if turn > 20 => u32::MAX,
                _ => seeds.budget(left.0),
            };
            let cells = match seeds.below(3) {
                0 => k * left.1 + seeds.pick(&[0, 1, k]),
                _ if turn > 20 => k * left.1 + k,
                _ => seeds.table_length(k),
            };
            lent.table = cells_u32(cells);
            if seeds.once_in(2) {
                self.interrupt(seeds, &lent, &given, &outside)?;
            }
            let (told, after) = self.put(AskedPage, &lent)?;
            let Told::Page(page) = told else { unreachable!("a page call gives a page") };
            listed.extend(after.table.chunks_exact(k).take(page.rows as usize).map(<[u32]>::to_vec));
            (lent.ticket, lent.record) = (page.ticket, after.record);
            given.push(page.ticket);
            if page.stop == Stop::Ended {
                break;
            }
        }
        let places: Vec<&[u32]> = rows.iter().map(|row| &row.places[..k]).collect();
        assert_eq!(listed, places, "the pages' rows are the timed rows");
        assert_eq!(lent.record, [walk.len() as u64], "the pages' trials are the timed walk");
        self.interrupt(seeds, &lent, &given, &outside)?;
        self.put(AskedPage, &lent).map(drop)
    }

    /// The fresh ticket, which is that of the old walk and of the timed one, and the record that it begins.
    fn fresh(&mut self, lent: &mut Lent, first: Ticket) -> Outcome {
        self.cases += 1;
        let Lent { plan, order, record, .. } = lent;
        let (number, ticket) = self.left.untimed().fresh(&plan.shape, &plan.cells, order, record);
        if (number, ticket, &record[..]) == (0, first, &[0]) {
            lent.ticket = ticket;
            return Ok(());
        }
        let text =
            format!("DIFFERENCE in the fresh ticket\n{plan:?}\n{number} {ticket:?}, and not {first:?}\n");
        Err(Difference { cases: self.cases, kind: "hours", text })
    }

    /// Calls between two pages: earlier tickets, trials of the old walk that are none of the timed one, damaged tickets and records, and timed tickets in
    /// calls without windows.
    fn interrupt(&mut self, seeds: &mut Seeds, lent: &Lent, given: &[Ticket], outside: &[Ticket]) -> Outcome {
        let count = lent.ticket.count;
        let mut others = vec![seeds.pick(given), given[0], seeds.any_ticket().after(count)];
        let field = seeds.below(FIELDS);
        others.push(seeds.damage_ticket(&lent.ticket, field));
        if !outside.is_empty() {
            let ticket = seeds.pick(outside).after(count);
            let (told, _) = self.put(AskedPage, &Lent { ticket, ..lent.clone() })?;
            self.see("6 for a trial of the old walk", told.number() == 6);
            others.extend([seeds.pick(outside), seeds.pick(outside).after(count + 1)]);
        }
        for ticket in others {
            self.put(AskedPage, &Lent { ticket, ..lent.clone() })?;
        }
        for record in
            [vec![], vec![count, count], vec![seeds.near_count(count)], seeds.other_record(&lent.ticket)]
        {
            self.put(AskedPage, &Lent { record, ..lent.clone() })?;
        }
        self.untimed(lent)
    }

    /// A ticket of the timed walk in a call without windows.
    fn untimed(&mut self, lent: &Lent) -> Outcome {
        self.cases += 1;
        let (mut ours, mut theirs) = (lent.clone(), lent.clone());
        let left = ask_untimed(self.left, AskedPage, &mut ours);
        let right = ask_untimed(self.right, AskedPage, &mut theirs);
        if left != Told::Panicked && (&left, &ours) == (&right, &theirs) {
            return Ok(());
        }
        Err(self.differ("an untimed page", lent, (&left, &ours), (&right, &theirs)))
    }

    /// Windows of the whole week: each timed call is that without windows.
    fn all_week(&mut self, seeds: &mut Seeds, good: &Lent) -> Outcome {
        let (k, n) = (good.plan.shape.k as usize, good.plan.cells.len() / 4);
        let old = tickets(&good.plan);
        for _ in 0..4 {
            let ticket = if old.is_empty() { good.ticket } else { seeds.pick(&old) };
            let lent = Lent {
                hours: [0, WEEK].repeat(n),
                ticket,
                record: vec![ticket.count],
                budget: seeds.budget(old.len() as u64),
                table: cells_u32(seeds.table_length(k)),
                work: cells_i32(seeds.table_length(k)),
                ..good.clone()
            };
            for asked in [AskedPage, AskedRun] {
                self.put(asked, &lent)?;
                let (mut ours, mut theirs) = (lent.clone(), lent.clone());
                let told = (ask(self.left, asked, &mut ours), ask_untimed(self.left, asked, &mut theirs));
                if (&told.0, &ours) != (&told.1, &theirs) {
                    return Err(self.differ(
                        "all week and untimed",
                        &lent,
                        (&told.0, &ours),
                        (&told.1, &theirs),
                    ));
                }
            }
        }
        Ok(())
    }

    /// Every cause alone, and 24 beside each of the others.
    fn refusals(&mut self, seeds: &mut Seeds, good: &Lent) -> Outcome {
        let bad = other_hours(seeds, &good.hours);
        for hours in &bad {
            self.put_all(&Lent { hours: hours.clone(), ..good.clone() })?;
        }
        // One of them.
        let some = |seeds: &mut Seeds| bad[seeds.below(bad.len() as u64) as usize].clone();
        for way in 0..DAMAGES {
            let mut plan = good.plan.clone();
            seeds.damage_plan(&mut plan, way);
            self.put_all(&Lent { plan: plan.clone(), ..good.clone() })?;
            for hours in [some(seeds), some(seeds)] {
                self.put_all(&Lent { plan: plan.clone(), hours, ..good.clone() })?;
            }
        }
        for order in other_orders(seeds, &good.order) {
            self.put(AskedPage, &Lent { order: order.clone(), ..good.clone() })?;
            self.put(AskedRun, &Lent { order: order.clone(), ..good.clone() })?;
            let lent = Lent { order, hours: some(seeds), ..good.clone() };
            self.put_all(&lent)?;
        }
        for _ in 0..6 {
            let hours = some(seeds);
            let ticket = seeds.any_ticket();
            self.put(AskedPage, &Lent { hours: hours.clone(), ticket, ..good.clone() })?;
            let record = seeds.other_record(&good.ticket);
            self.put(AskedPage, &Lent { hours: hours.clone(), record, ..good.clone() })?;
            let (table, work) = (cells_u32(0), cells_i32(seeds.pick(&[0, 600])));
            self.put_all(&Lent { hours: hours.clone(), table, work, ..good.clone() })?;
            self.put(AskedRun, &Lent { hours, work: cells_i32(0), ..good.clone() })?;
        }
        Ok(())
    }

    /// All cases on one plan with its windows.
    fn plan(&mut self, seeds: &mut Seeds, plan: &Plan, style: u64) -> Outcome {
        let hours = windows_for(seeds, plan.cells.len() / 4, style);
        let good = base(plan, &hours);
        self.minutes(seeds, &good)?;
        self.runs(&good)?;
        self.list(seeds, &good)?;
        self.all_week(seeds, &good)?;
        if seeds.once_in(4) {
            self.refusals(seeds, &good)?;
        }
        Ok(())
    }

    /// Plans without rectangles in all layers or in one: no windows, and others.
    fn empty(&mut self, seeds: &mut Seeds) -> Outcome {
        for sizes in [&[0, 0][..], &[0; 6], &[1, 0], &[0, 2, 0], &[2, 1, 0]] {
            let plan = equal_plan(sizes, [0, 0, 5, 5]);
            for style in 0..WINDOW_STYLES {
                self.plan(seeds, &plan, style)?;
            }
        }
        Ok(())
    }

    /// Larger plans, a whole run and some pages of each.
    fn large(&mut self, seeds: &mut Seeds) -> Outcome {
        let plans = [
            (seeds.sparse(&[300, 512], 90_000), 3),
            (seeds.sparse(&[512, 512, 512], 60_000), 1),
            (seeds.sparse(&[90, 90, 90, 90], 300_000), 5),
            (seeds.sparse(&[40, 40, 40, 40, 40, 40], 500_000), 7),
            (equal_plan(&[30, 30, 30], [0, 0, 9, 9]), 3),
            (equal_plan(&[8, 8, 8, 8, 8], [0, 0, 9, 9]), 0),
            (equal_plan(&[5, 5, 5, 5, 5, 5], [0, 0, 9, 9]), 3),
        ];
        for (plan, style) in plans {
            let hours = windows_for(seeds, plan.cells.len() / 4, style);
            let (good, k) = (base(&plan, &hours), plan.shape.k as usize);
            let (walk, rows) = timed(&plan, &hours);
            for (table, work) in [(rows.len(), rows.len()), (rows.len().saturating_sub(1), rows.len())] {
                let lent = Lent { table: cells_u32(k * table), work: cells_i32(2 * work), ..good.clone() };
                self.put(AskedRun, &lent)?;
            }
            let mut lent = good;
            for turn in 0..3 {
                lent.budget = if turn == 2 { u32::MAX } else { seeds.below(walk.len() as u64 / 2) as u32 };
                lent.table = cells_u32(k * rows.len() + k);
                let (Told::Page(page), after) = self.put(AskedPage, &lent)? else { break };
                (lent.ticket, lent.record) = (page.ticket, after.record);
            }
        }
        Ok(())
    }

    /// A million timed rows, where there are more without windows: 7 speaks of the timed ones.
    fn million(&mut self) -> Outcome {
        let plan = equal_plan(&[4, 500, 501], [-1, -1, 0, 0]);
        let mut hours = [60, 120].repeat(1005);
        hours[2 * 1004..].copy_from_slice(&[120, 180]);
        let table = cells_u32(3_000_000);
        for work in [2_000_000, 1_999_999] {
            let lent = Lent { table: table.clone(), work: cells_i32(work), ..base(&plan, &hours) };
            self.put(AskedRun, &lent)?;
        }
        hours[2 * 1004] = 119;
        self.put(AskedRun, &Lent { table, work: cells_i32(2_000_000), ..base(&plan, &hours) }).map(drop)
    }
}

/// The plan of examples/stand.plan, and the windows that the manual gives its rectangles.
pub fn manual() -> (Plan, Vec<u32>) {
    let layers: [&[[i32; 4]]; 3] = [
        &[[0, 0, 4_000, 3_000]],
        &[[1_000, 0, 3_000, 2_000], [2_000, 1_000, 5_000, 4_000]],
        &[[1_500, 500, 3_500, 2_500]],
    ];
    (plan_from(&layers), vec![480, 600, 0, WEEK, 600, 720, 540, 660])
}

/// What the manual says of its example: rows and trials without windows, and timed; the minutes of both rows.
pub const MANUAL: [(u32, u64); 2] = [(2, 9), (1, 8)];

pub const MANUAL_MINUTES: [(u32, u32); 2] = [(540, 600), (0, 0)];

impl Bench<'_> {
    /// The example of the manual.
    fn manual(&mut self) -> Outcome {
        let (plan, hours) = manual();
        let lent = base(&plan, &hours);
        self.put_all(&lent)?;
        let Told::Run(run) = ask(self.right, AskedRun, &mut lent.clone()) else { unreachable!("a run") };
        let Told::Run(old) = ask_untimed(self.right, AskedRun, &mut lent.clone()) else {
            unreachable!("a run")
        };
        assert_eq!([(old.rows, old.trials), (run.rows, run.trials)], MANUAL, "the manual's example");
        for (place, minutes) in (0..).zip(MANUAL_MINUTES) {
            let lent = Lent { places: vec![0, place, 0], ..lent.clone() };
            let (Told::Hours(told), _) = self.put(AskedHours, &lent)? else { unreachable!("minutes") };
            assert_eq!((told.from, told.to), minutes, "the manual's example");
        }
        Ok(())
    }
}

/// Two versions on plans of every kind with windows of every kind, refused calls among them; returns how many cases were compared.
pub fn compare_hours(left: &dyn Timed, right: &dyn Timed) -> Result<u64, Difference> {
    let mut seeds = Seeds(SEED);
    let mut bench = Bench { left, right, cases: 0, seen: BTreeMap::new() };
    bench.manual()?;
    bench.empty(&mut seeds)?;
    for turn in 0..PLANS {
        let mut plan = seeds.plan(2 + (turn % 5) as usize, turn % STYLES);
        if turn % 2 == 1 {
            plan = seeds.with_margins(plan);
        }
        bench.plan(&mut seeds, &plan, (turn / 5) % WINDOW_STYLES)?;
    }
    bench.large(&mut seeds)?;
    bench.million()?;
    let seen = |what: &&str| bench.seen.get(what).copied().unwrap_or(0);
    let rare: Vec<&str> = SEEN.into_iter().filter(|what| seen(what) < 100).collect();
    assert!(rare.is_empty(), "seen too seldom: {rare:?} of {:?}", bench.seen);
    Ok(bench.cases)
}
