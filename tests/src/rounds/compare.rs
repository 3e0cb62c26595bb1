//! The comparison of two rounds.

use crate::call::{cells_u32, Plan};
use crate::compare::Difference;
use crate::overlay::{Overlay, Stop};
use crate::reference::REFERENCE;
use crate::rounds::{Lent, Round, RoundTold};
use crate::seeds::{length, order, other_orders, plan_d, Seeds, DAMAGES, FIELDS, STYLES};

/// How many plans are drawn.
pub const PLANS: u64 = 220;

/// How many rounds a list has at most.
pub const ROUNDS: u64 = 12;

/// Where the seeds start.
pub const SEED: u64 = 0x94D0_49BB_1331_11EB;

/// Two versions, how many cases were compared, and what was seen in them.
pub struct Bench<'a> {
    pub calls: (Round<'a>, Round<'a>),
    pub cases: u64,
    pub seen: [u64; 8],
}

/// What has to be seen often: causes 6, 18 and 22, each stop, an offer above the equal share, and a tablet past m.
pub const SEEN: [&str; 8] = ["6", "18", "22", "Ended", "Full", "Spent", "unused trials passed on", "past m"];

impl Bench<'_> {
    /// Counts what a round shows.
    fn count(&mut self, lent: &Lent, told: &RoundTold) {
        let mut see = |at: usize, is: bool| self.seen[at] += u64::from(is);
        see(0, told.number == 6);
        see(1, told.number == 18);
        see(2, told.number == 22);
        let served = if told.number == 0 { lent.m as usize } else { 0 };
        for page in &told.pages[..served] {
            see(3, page.stop == Stop::Ended && page.trials > 0);
            see(4, page.stop == Stop::Full);
            see(5, page.stop == Stop::Spent && page.trials > 0);
            see(6, u64::from(page.trials) > lent.budget.div_ceil(served as u64));
        }
        see(7, served > 0 && served < 16);
    }

    /// Both versions on one round; what it left, and what it told.
    fn compare(&mut self, lent: &Lent) -> Result<(Lent, RoundTold), Difference> {
        self.cases += 1;
        let (mut ours, mut theirs) = (lent.clone(), lent.clone());
        let (left, right) = (self.calls.0(&mut ours), self.calls.1(&mut theirs));
        self.count(lent, &right);
        if (&left, &ours) == (&right, &theirs) {
            return Ok((theirs, right));
        }
        let text = format!(
            "DIFFERENCE in rounds\n{lent:?}\nleft:  {left:?}\nright: {right:?}\nleft record {:?}, table {:?}\nright record {:?}, table {:?}\n",
            ours.records, ours.table, theirs.records, theirs.table
        );
        Err(Difference { cases: self.cases, kind: "rounds", text })
    }

    /// A round with something wrong in it, and one with two things.
    fn refusals(&mut self, seeds: &mut Seeds, lent: &Lent) -> Result<(), Difference> {
        let m = lent.m;
        let mut wrong: Vec<Lent> = Vec::new();
        for (m, first) in [(0, 1), (0, 0), (17, 1), (u32::MAX, 3), (m, 0), (m, m + 1), (m, u32::MAX)] {
            wrong.push(Lent { m, first, records: vec![0; m.min(17) as usize], ..lent.clone() });
        }
        for budget in [1 << 32, (1 << 32) + 5, u64::MAX] {
            wrong.push(Lent { budget, ..lent.clone() });
        }
        for records in [m - 1, m + 1, 0, 16, 17].into_iter().filter(|&records| records != m) {
            let mut held = lent.records.clone();
            held.resize(records as usize, 0);
            wrong.push(Lent { records: held, ..lent.clone() });
        }
        for other in other_orders(seeds, &lent.order) {
            wrong.push(Lent { order: other.clone(), first: 0, ..lent.clone() });
            wrong.push(Lent { order: other, ..lent.clone() });
        }
        for way in 0..DAMAGES {
            let mut unsound = lent.clone();
            seeds.damage_plan(&mut unsound.plan, way);
            wrong.push(unsound);
        }
        for _ in 0..8 {
            wrong.push(self.wrong_tickets(seeds, lent));
        }
        for case in &wrong {
            self.compare(case)?;
        }
        for _ in 0..6 {
            let mut two = self.wrong_tickets(seeds, lent);
            match seeds.below(3) {
                0 => two.budget = 1 << 32,
                1 => two.first = 0,
                _ => two.order.reverse(),
            }
            self.compare(&two)?;
        }
        Ok(())
    }

    /// Tickets that are none of the plan, and records that are another's, of one to three tablets.
    fn wrong_tickets(&mut self, seeds: &mut Seeds, lent: &Lent) -> Lent {
        let mut wrong = lent.clone();
        for _ in 0..=seeds.below(3) {
            let at = seeds.below(u64::from(lent.m)) as usize;
            match seeds.below(3) {
                0 => wrong.records[at] = seeds.near_count(wrong.records[at]),
                1 => wrong.tickets[at] = seeds.any_ticket(),
                _ => {
                    let field = seeds.below(FIELDS);
                    wrong.tickets[at] = seeds.damage_ticket(&wrong.tickets[at], field);
                }
            }
        }
        wrong
    }

    /// A list of rounds on one plan, whose tablets come and go; each goes on from where it was.
    fn list(&mut self, seeds: &mut Seeds, plan: &Plan) -> Result<(), Difference> {
        let k = plan.shape.k as usize;
        let order = order(plan);
        let (_, fresh) = REFERENCE.fresh(&plan.shape, &plan.cells, &order, &mut [0]);
        let (mut tickets, mut records, mut first) = ([fresh; 16], [0u64; 16], 1);
        let walk = length(plan);
        for turn in 0..ROUNDS {
            let m = if seeds.once_in(4) { 16 } else { 1 + seeds.below(16) as u32 };
            let first_now =
                if first > m || seeds.once_in(4) { 1 + seeds.below(u64::from(m)) as u32 } else { first };
            let budget = match seeds.below(8) {
                0 => seeds.below(20),
                1 => u64::from(u32::MAX),
                2 => walk * u64::from(m),
                _ => seeds.below(walk * u64::from(m) / 3 + 17),
            };
            let cells = match seeds.below(5) {
                0 => seeds.table_length(k),
                1 => k * m as usize - 1,
                2 => k * m as usize * (1 + seeds.below(4) as usize),
                _ => k * m as usize * seeds.below(9) as usize + seeds.below(k as u64 * u64::from(m)) as usize,
            };
            let lent = Lent {
                plan: plan.clone(),
                order: order.clone(),
                m,
                first: first_now,
                budget,
                tickets,
                records: records[..m as usize].to_vec(),
                table: cells_u32(cells),
            };
            if turn % 4 == 1 {
                self.refusals(seeds, &lent)?;
            }
            let (after, told) = self.compare(&lent)?;
            records[..m as usize].copy_from_slice(&after.records);
            tickets = std::array::from_fn(|at| told.pages[at].ticket);
            first = told.next;
        }
        Ok(())
    }

    /// The example of the manual: plan D, two tablets, from the second one on.
    fn manual(&mut self) -> Result<(), Difference> {
        let plan = plan_d();
        let order = order(&plan);
        let (_, fresh) = REFERENCE.fresh(&plan.shape, &plan.cells, &order, &mut [0]);
        let lent = Lent {
            plan,
            order,
            m: 2,
            first: 2,
            budget: 5,
            tickets: [fresh; 16],
            records: vec![0; 2],
            table: cells_u32(9),
        };
        let (after, told) = self.compare(&lent)?;
        let shown = |at: usize| (told.pages[at].stop, told.pages[at].rows, told.pages[at].trials);
        assert_eq!((told.number, told.next), (0, 1), "the manual's example");
        assert_eq!([shown(0), shown(1), shown(2)], MANUAL, "the manual's example");
        assert_eq!((after.records, after.table[8]), (vec![3, 2], lent.table[8]), "the manual's example");
        Ok(())
    }
}

/// What the manual shows of its example: of tablets 1, 2 and 3.
pub const MANUAL: [(Stop, u32, u32); 3] = [(Stop::Spent, 1, 3), (Stop::Spent, 1, 2), (Stop::Spent, 0, 0)];

/// Two versions on lists of rounds over many plans, refused rounds among them; returns how many cases were compared.
pub fn compare_rounds(left: Round, right: Round) -> Result<u64, Difference> {
    let mut seeds = Seeds(SEED);
    let mut bench = Bench { calls: (left, right), cases: 0, seen: [0; 8] };
    bench.manual()?;
    for turn in 0..PLANS {
        let mut plan = seeds.plan(2 + (turn % 5) as usize, turn % STYLES);
        if turn % 2 == 1 {
            plan = seeds.with_margins(plan);
        }
        bench.list(&mut seeds, &plan)?;
    }
    let rare: Vec<&str> = (0..8).filter(|&at| bench.seen[at] < 100).map(|at| SEEN[at]).collect();
    assert!(rare.is_empty(), "seen too seldom: {rare:?} of {:?}", bench.seen);
    Ok(bench.cases)
}
