//! Puts thousands of seeded calls to two overlays and compares answers and all lent buffers.

use crate::call::{ask, same, show, Answer, Call, Plan};
use crate::known::{known_calls, known_grounds, known_margins, known_runs, known_tickets};
use crate::overlay::{Overlay, Ticket};
use crate::page::compare::halves;
use crate::reference::{count_rows, layers_of, REACH};
use crate::seeds::{equal_plan, grown_by, order, plan_d, plan_from, spell, text, Seeds, STYLES};
use crate::text::compare::USUAL;
use std::fmt;

/// How many rounds of small plans are compared.
pub const ROUNDS: u64 = 1000;

/// A plan of up to so many combinations is asked for the pair of each.
pub const MOST_COMBINATIONS: u32 = 256;

/// Where the seeds start.
pub const SEED: u64 = 0x2545_F491_4F6C_DD1D;

/// How many cases of each kind were compared.
#[derive(Default)]
pub struct Tally(Vec<(&'static str, u64)>);

/// The first case in which two overlays differ.
pub struct Difference {
    pub cases: u64,
    pub kind: &'static str,
    pub text: String,
}

/// A comparison goes on, or stops at a difference.
pub type Outcome = Result<(), Difference>;

impl Tally {
    /// Counts cases of a kind.
    pub fn add(&mut self, kind: &'static str, cases: u64) {
        match self.0.iter_mut().find(|(name, _)| *name == kind) {
            Some((_, count)) => *count += cases,
            None => self.0.push((kind, cases)),
        }
    }

    /// All cases so far.
    pub fn cases(&self) -> u64 {
        self.0.iter().map(|(_, count)| count).sum()
    }
}

impl fmt::Display for Tally {
    /// One line per kind, and the sum last.
    fn fmt(&self, f: &mut fmt::Formatter) -> fmt::Result {
        for (kind, count) in &self.0 {
            writeln!(f, "{kind}: {count}")?;
        }
        writeln!(f, "compared {} cases", self.cases())
    }
}

/// Two overlays, the seeds, and the count so far.
pub struct Bench<'a> {
    pub left: &'a dyn Overlay,
    pub right: &'a dyn Overlay,
    pub seeds: Seeds,
    pub tally: Tally,
}

/// Compares two overlays on every kind of case.
pub fn compare(left: &dyn Overlay, right: &dyn Overlay) -> Result<Tally, Difference> {
    let mut bench = Bench { left, right, seeds: Seeds(SEED), tally: Tally::default() };
    bench.ground()?;
    for round in 0..ROUNDS {
        bench.round(round, false)?;
        if round % 2 == 0 {
            bench.round(round / 2, true)?;
        }
        bench.fixed(round)?;
    }
    bench.large()?;
    bench.known()?;
    Ok(bench.tally)
}

impl Bench<'_> {
    /// Puts one call to both and compares the whole of it; hands back the right answer, and the call with its buffers as they are
    /// then.
    pub fn ask(&mut self, kind: &'static str, call: Call) -> Result<(Answer, Call), Difference> {
        let (mut ours, mut theirs) = (call.clone(), call.clone());
        let (left, right) = (ask(&mut ours, self.left), ask(&mut theirs, self.right));
        self.tally.add(kind, 1);
        if same((&left, &ours), (&right, &theirs)) {
            return Ok((right, theirs));
        }
        Err(self.difference(kind, show(&call, (&left, &ours), (&right, &theirs))))
    }

    /// A difference in the last case counted.
    pub fn difference(&self, kind: &'static str, shown: String) -> Difference {
        let cases = self.tally.cases();
        Difference { cases, kind, text: format!("DIFFERENCE in {kind}, case {cases}\n{shown}") }
    }

    /// A random budget and a random length of a table.
    pub fn limits(&mut self, plan: &Plan, length: u64) -> (u32, usize) {
        (self.seeds.budget(length), self.seeds.table_length(plan.shape.k as usize))
    }

    /// Every kind once, on one small plan, with or without margins; k and style go round.
    pub fn round(&mut self, round: u64, margins: bool) -> Outcome {
        let k = 2 + (round % 5) as usize;
        let mut plan = self.seeds.plan(k, round % STYLES);
        if margins {
            plan = self.seeds.with_margins(plan);
        }
        if round % 9 == 8 {
            self.middle_plan(k, (round / 9) % STYLES, margins)?;
        }
        self.order_maker(&plan)?;
        self.orders(&plan)?;
        self.row_calls(&plan)?;
        self.pair_calls(&plan)?;
        self.paging(&plan)?;
        self.tickets(&plan)?;
        self.records(&plan)?;
        self.runs(&plan)?;
        self.whole_runs(&plan)?;
        self.texts_written(&plan)?;
        self.texts_read(&plan)?;
        self.texts_damaged(&plan)?;
        self.unsound_plans(&plan)
    }

    /// Pages, tickets and runs on a plan of some more rectangles.
    pub fn middle_plan(&mut self, k: usize, style: u64, margins: bool) -> Outcome {
        let most = [120, 24, 10, 7, 5][k - 2];
        let sizes: Vec<u32> = (0..k).map(|_| 1 + self.seeds.below(most) as u32).collect();
        let mut plan = self.seeds.plan_of(&sizes, style);
        if margins {
            plan = self.seeds.with_margins(plan);
        }
        self.order_maker(&plan)?;
        self.paging(&plan)?;
        self.tickets(&plan)?;
        self.runs(&plan)?;
        self.whole_runs(&plan)
    }

    /// One place for each layer, up to so many past its last.
    pub fn tuple(&mut self, plan: &Plan, past: u64) -> Vec<u32> {
        let sizes = &plan.shape.sizes[..plan.shape.k as usize];
        sizes.iter().map(|&size| self.seeds.below((u64::from(size) + past).max(1)) as u32).collect()
    }

    /// Every call that takes a plan, half of the time with later causes as well.
    pub fn every_call(&mut self, plan: &Plan, good: &[u32], ticket: &Ticket) -> Outcome {
        let kind = "unsound plans";
        let more = self.seeds.once_in(2);
        let order = if more { [good, &[7]].concat() } else { good.to_vec() };
        let ticket = if more { self.seeds.any_ticket() } else { *ticket };
        let room = if more { 0 } else { 2000 };
        self.ask_order(kind, plan, order.len())?;
        self.ask_row(kind, plan, &[0; 6][..plan.shape.k.min(6) as usize])?;
        self.ask_pair(kind, plan, &[if more { 600 } else { 0 }; 6][..plan.shape.k.min(6) as usize])?;
        self.ask_pair(kind, plan, &[0; 7])?;
        let mut record = self.record(&ticket);
        self.ask_start(kind, plan, &order, &mut record)?;
        let (budget, mut record) = (self.seeds.budget(20), self.record(&ticket));
        self.ask_next(kind, (plan, &order), &ticket, &mut record, (budget, room))?;
        let work = if self.seeds.once_in(2) { 0 } else { room };
        self.ask_run_with(kind, plan, &order, (room, work))?;
        self.ask_write(kind, plan, room)
    }

    /// The calls whose answers the paper gives, put to both; a difference shows what is due as the right one.
    pub fn known(&mut self) -> Outcome {
        let kind = "known answers";
        let known = [known_calls(), known_margins(), known_tickets(), known_runs(), known_grounds()];
        for known in known.into_iter().flatten() {
            for overlay in [self.left, self.right] {
                let mut lent = known.call.clone();
                let told = ask(&mut lent, overlay);
                self.tally.add(kind, 1);
                let (ours, due) = ((&told, &lent), (&known.answer, &known.after));
                if !same(ours, due) {
                    let shown = show(&known.call, ours, due);
                    return Err(self.difference(kind, format!("{}: {shown}", known.name)));
                }
            }
        }
        Ok(())
    }

    /// The cases that are not drawn; each of them in one of the first rounds.
    pub fn fixed(&mut self, round: u64) -> Outcome {
        match round {
            0 => self.ticket_box(&equal_plan(&[2, 2], [0, 0, 1, 1])),
            1 => self.ticket_box(&plan_from(&[
                &[[0, 0, 4, 4], [2, 0, 3, 3]],
                &[[1, 1, 5, 5], [0, 9, 9, 9]],
                &[[1, 0, 2, 2]],
            ])),
            2 => self.ticket_box(&halves()),
            3 => self.row_box(),
            4 => self.hand_texts(),
            5 => self.number_texts(),
            6 => self.size_limits(),
            7 => self.wrapped_sizes(),
            8 => self.row_cap(),
            9 => self.every_byte(&text(&plan_d()), USUAL),
            10 => self.every_byte(&text(&plan_from(&[&[[-REACH, -99, 7, REACH]], &[], &[]])), USUAL),
            11 => self.every_byte(
                &spell("PLAN,2/LAYER,1,0/RECT,-1,0,23,4/LAYER,0,0/"),
                &(0..=255).collect::<Vec<u8>>(),
            ),
            12 => self.pair_box(),
            13 => self.margin_box(),
            14 => self.margin_limits(),
            15 => self.far_out(),
            16 => self.every_byte(
                &spell("PLAN,2/LAYER,1,50000/RECT,-1,0,23,4/LAYER,0,9/"),
                &(0..=255).collect::<Vec<u8>>(),
            ),
            17 => self.ticket_box(&grown_by(halves(), &[1])),
            18 => self.ticket_box(&grown_by(halves(), &[0, 1, 1, 0])),
            19 => self.ground_box(),
            20 => self.ground_large(),
            21 => self.kind_box(),
            22 => self.wide_sums(),
            _ => Ok(()),
        }
    }

    /// All calls on a sound plan.
    pub fn whole_plan(&mut self, kind: &'static str, plan: &Plan) -> Outcome {
        let (good, n) = (order(plan), plan.cells.len() / 4);
        self.ask_order(kind, plan, n)?;
        self.ask_run(kind, plan, &good, 600)?;
        let fresh = self.ask_fresh(kind, plan, &good)?;
        let page = self.ask_page(kind, plan, &good, &fresh, (2, 600))?;
        self.ask_page(kind, plan, &good, &page.ticket, (u32::MAX, 600))?;
        self.ask_row(kind, plan, &[0; 6][..plan.shape.k as usize])?;
        self.ask_pair(kind, plan, &[0; 6][..plan.shape.k as usize])?;
        self.ask_write(kind, plan, 700)?;
        self.ask_read(kind, &text(plan), plan.cells.len() + 4)
    }

    /// Layers up to 512 rectangles.
    pub fn large(&mut self) -> Outcome {
        for style in 0..STYLES {
            let sizes = [200 + self.seeds.below(313) as u32, 512];
            let plan = self.seeds.plan_of(&sizes, style);
            self.large_plan(&plan)?;
            let grown = self.seeds.with_margins(plan);
            self.large_plan(&grown)?;
        }
        for (sizes, side) in [
            (vec![512, 512], 100_000),
            (vec![512, 512], 5_000),
            (vec![512, 512, 512], 60_000),
            (vec![512, 0, 512], 30_000),
            (vec![300, 512, 400], 90_000),
            (vec![200, 200, 200, 200], 150_000),
            (vec![90, 90, 90, 90, 90], 300_000),
            (vec![60, 60, 60, 60, 60, 60], 400_000),
            (vec![512, 512, 512, 512, 512, 512], 80_000),
        ] {
            let plan = self.seeds.sparse(&sizes, side);
            self.large_plan(&plan)?;
            self.large_plan(&grown_by(plan, &[500, 0, 5_000, 1_500, 0, 3_000][..sizes.len()]))?;
        }
        let dense = equal_plan(&[400, 400, 400], [0, 0, 1_000_000, 1_000_000]);
        self.ask_run("large plans", &dense, &order(&dense), 3_000_000)
    }

    /// Order, row and pair calls, whole runs, pages, tickets and texts on a large plan.
    pub fn large_plan(&mut self, plan: &Plan) -> Outcome {
        let kind = "large plans";
        let (good, k) = (order(plan), plan.shape.k as usize);
        let rows = count_rows(&layers_of(&plan.shape, &plan.cells)) as usize;
        self.ask_order(kind, plan, good.len())?;
        self.ask_run(kind, plan, &good, rows * k)?;
        self.ask_run(kind, plan, &good, (rows * k).saturating_sub(1))?;
        self.ask_run_with(kind, plan, &good, (rows * k, 2 * rows))?;
        self.ask_run_with(kind, plan, &good, (rows * k, (2 * rows).saturating_sub(1)))?;
        for _ in 0..50 {
            let row = self.tuple(plan, 1);
            self.ask_row(kind, plan, &row)?;
            self.ask_pair(kind, plan, &row)?;
        }
        let length = text(plan).len();
        self.ask_write(kind, plan, length)?;
        self.ask_write(kind, plan, length - 1)?;
        self.ask_read(kind, &text(plan), plan.cells.len())?;
        self.ask_read(kind, &text(plan), plan.cells.len() - 1)?;
        for way in 0..10 {
            let mut damaged = text(plan);
            self.damage_text(&mut damaged, way);
            self.ask_read(kind, &damaged, plan.cells.len() + 9)?;
        }
        self.large_pages(plan, &good)
    }

    /// The examples of the paper, as calls.
    pub fn ground(&mut self) -> Outcome {
        let kind = "ground examples";
        let equal = [0, 0, 1, 1];
        let plans = [
            plan_d(),
            equal_plan(&[1, 1], equal),
            equal_plan(&[1, 0], equal),
            equal_plan(&[1, 1, 0], equal),
            plan_from(&[&[[0, 0, 9, 5]], &[[10, 0, 20, 5]]]),
            plan_from(&[&[[0, 0, 10, 5]], &[[10, 0, 20, 5]]]),
        ];
        for plan in &plans {
            self.ask_order(kind, plan, plan.cells.len() / 4)?;
            self.ask_run(kind, plan, &order(plan), 20)?;
            for limits in [(2, 10), (9, 2), (0, 0)] {
                let fresh = self.ask_fresh(kind, plan, &order(plan))?;
                let page = self.ask_page(kind, plan, &order(plan), &fresh, limits)?;
                self.ask_page(kind, plan, &order(plan), &page.ticket, limits)?;
            }
            self.ask_write(kind, plan, 200)?;
            self.ask_read(kind, &text(plan), 20)?;
        }
        Ok(())
    }
}
