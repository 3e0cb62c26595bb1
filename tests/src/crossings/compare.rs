//! The comparison of two class calls and crossing reports.

use crate::call::{cells_i32, cells_u32, Plan};
use crate::compare::Difference;
use crate::crossings::Crossings;
use crate::reference::{join, layers_of};
use crate::seeds::{grown_by, order, other_orders, plan_from, Seeds, DAMAGES, STYLES};

/// How many plans of segments are drawn.
pub const PLANS: u64 = 600;

/// Where the seeds start.
pub const SEED: u64 = 0xD1B5_4A32_D192_ED03;

/// A layer's rectangles, or segments where `thin` says which.
pub fn layer(seeds: &mut Seeds, thin: Option<bool>) -> Vec<[i32; 4]> {
    let size = if seeds.once_in(12) { 0 } else { 1 + seeds.below(3) };
    let mut rects = Vec::new();
    for _ in 0..size {
        let mut side = || {
            let (a, b) = (seeds.between(0, 6), seeds.between(0, 6));
            (a.min(b), a.max(b))
        };
        let ((left, right), (bottom, top)) = (side(), side());
        rects.push(match thin {
            Some(true) => [left, bottom, right, bottom],
            Some(false) => [left, bottom, left, top],
            None => [left, bottom, right, top],
        });
    }
    rects
}

/// A drawn plan of k layers whose last two hold segments, some of length 0.
pub fn drawn(seeds: &mut Seeds, k: usize) -> Plan {
    let layers: Vec<_> = (1..=k)
        .map(|j| layer(seeds, if j + 1 == k { Some(true) } else { (j == k).then_some(false) }))
        .collect();
    plan_from(&layers.iter().map(Vec::as_slice).collect::<Vec<_>>())
}

/// A plan of k layers with one row, of the given class: a cross of two segments; the rectangles before the class's layer lie inside it, that one
/// reaches one end and no further, and the later ones cover all.
pub fn made(k: usize, class: usize) -> Plan {
    let reaching = [[0, 4, 6, 6], [4, 4, 10, 6], [4, 0, 6, 6], [4, 4, 6, 10]];
    let rect = |j: usize| match (class + 3) / 4 {
        0 => [4, 4, 6, 6],
        i if j < i => [4, 4, 6, 6],
        i if j == i => reaching[(class - 1) % 4],
        _ => [0, 0, 10, 10],
    };
    let mut layers: Vec<[[i32; 4]; 1]> = (1..=k - 2).map(|j| [rect(j)]).collect();
    layers.extend([[[0, 5, 10, 5]], [[5, 0, 5, 10]]]);
    plan_from(&layers.iter().map(<[_; 1]>::as_slice).collect::<Vec<_>>())
}

/// The plan with the rectangles of layers 1 to k - 2 drawn smaller by a millimetre and given back by a margin of 1: nothing else changes.
pub fn drawn_smaller(mut plan: Plan) -> Plan {
    let k = plan.shape.k as usize;
    let others = plan.shape.sizes[..k - 2].iter().sum::<u32>() as usize;
    for r in plan.cells.chunks_mut(4).take(others) {
        r.copy_from_slice(&[r[0] + 1, r[1] + 1, r[2] - 1, r[3] - 1]);
    }
    grown_by(plan, &[1; 4][..k - 2])
}

/// The plan with small margins on the layers of rectangles, and on no others.
pub fn with_margins(seeds: &mut Seeds, mut plan: Plan) -> Plan {
    let k = plan.shape.k as usize;
    plan.shape.margins[..k - 2].fill_with(|| seeds.pick(&[0, 0, 1, 2, 50_000]));
    plan
}

/// The example of the manual, and the first of its counts.
pub fn manual() -> (Plan, [u32; 5]) {
    let pipes = [[-500, 500, 1500, 500], [200, 700, 1500, 700]];
    let ducts = [[500, -500, 500, 1500], [800, -500, 800, 1000]];
    (plan_from(&[&[[0, 0, 1000, 1000]], &pipes, &ducts]), [1, 2, 0, 0, 1])
}

/// A comparison of two, and what was seen so far.
pub struct Bench<'a> {
    pub left: &'a dyn Crossings,
    pub right: &'a dyn Crossings,
    pub cases: u64,
    pub seen: [u64; 18],
}

impl Bench<'_> {
    /// A difference in the last case.
    fn differ(&self, kind: &'static str, shown: String) -> Difference {
        Difference {
            cases: self.cases,
            kind,
            text: format!("DIFFERENCE in {kind}, case {}\n{shown}", self.cases),
        }
    }

    /// One class call.
    fn class(&mut self, plan: &Plan, places: &[u32]) -> Result<(), Difference> {
        let told = [self.left, self.right].map(|to| to.class(&plan.shape, &plan.cells, places));
        self.cases += 1;
        if told[0] != told[1] {
            return Err(self.differ("classes", format!("{plan:?} {places:?}\n{told:?}")));
        }
        if told[1].number == 0 {
            self.seen[told[1].class as usize] += 1;
        }
        Ok(())
    }

    /// One crossing report, with its table and a work buffer of so many cells, whose contents are free after an acceptance.
    fn report(
        &mut self,
        plan: &Plan,
        order: &[u32],
        (cells, work): (usize, usize),
    ) -> Result<(), Difference> {
        let told = [self.left, self.right].map(|to| {
            let (mut table, mut work) = (cells_u32(cells), cells_i32(work));
            let report = to.report(&plan.shape, &plan.cells, order, &mut table, &mut work);
            if report.run.number == 0 {
                work.fill(0);
            }
            (report, table, work)
        });
        self.cases += 1;
        let (report, counts) = (&told[1].0, told[1].0.counts);
        assert_eq!(counts.iter().sum::<u32>(), report.run.rows, "the counts add up to the rows");
        if told[0] != told[1] {
            return Err(self.differ("crossing reports", format!("{plan:?} {order:?}\n{told:?}")));
        }
        Ok(())
    }

    /// Both calls on a plan: every row of its table, other cells, tables of several lengths, and other orders.
    fn plan(&mut self, seeds: &mut Seeds, plan: &Plan) -> Result<(), Difference> {
        let k = plan.shape.k as usize;
        for row in join(&layers_of(&plan.shape, &plan.cells)).iter().take(40) {
            self.class(plan, &row.places[..k])?;
        }
        for length in [k, k, k, k - 1, k + 1, 0] {
            let places: Vec<u32> = (0..length).map(|_| seeds.below(4) as u32).collect();
            self.class(plan, &places)?;
        }
        let good = order(plan);
        let two = 2 * join(&layers_of(&plan.shape, &plan.cells)).len();
        for cells in [0, k, 3 * k + 1, 600] {
            self.report(plan, &good, (cells, two))?;
        }
        for work in [0, two.saturating_sub(1), two, two + 1, 600] {
            self.report(plan, &good, (600, work))?;
        }
        self.report(plan, &good, (0, 0))?;
        for other in other_orders(seeds, &good) {
            self.report(plan, &other, (600, seeds.pick(&[0, 600])))?;
        }
        Ok(())
    }

    /// Both calls on a plan that may be refused.
    fn refused(&mut self, seeds: &mut Seeds, plan: &Plan, orders: &[u32]) -> Result<(), Difference> {
        let places: Vec<u32> = (0..plan.shape.k.min(6)).map(|_| seeds.below(2) as u32).collect();
        self.class(plan, &places)?;
        self.report(plan, orders, (600, seeds.pick(&[0, 600])))?;
        self.report(plan, &[7], (600, seeds.pick(&[0, 600])))
    }
}

/// Both calls of two versions on every kind of plan; how many cases were compared.
pub fn compare_crossings(left: &dyn Crossings, right: &dyn Crossings) -> Result<u64, Difference> {
    let mut seeds = Seeds(SEED);
    let mut bench = Bench { left, right, cases: 0, seen: [0; 18] };
    let (plan, counts) = manual();
    let told = right.report(&plan.shape, &plan.cells, &order(&plan), &mut cells_u32(12), &mut cells_i32(8));
    assert_eq!(told.counts[..5], counts, "the manual's example");
    bench.plan(&mut seeds, &plan)?;
    for k in 3..=6 {
        for class in 0..=4 * (k - 2) {
            let plan = made(k, class);
            bench.plan(&mut seeds, &plan)?;
            bench.plan(&mut seeds, &drawn_smaller(plan))?;
        }
    }
    for round in 0..PLANS {
        let k = 3 + (round % 4) as usize;
        let plan = drawn(&mut seeds, k);
        let plan = if round % 2 == 1 { with_margins(&mut seeds, plan) } else { plan };
        bench.plan(&mut seeds, &plan)?;
        let good = order(&plan);
        for way in 0..DAMAGES {
            let mut unsound = plan.clone();
            seeds.damage_plan(&mut unsound, way);
            bench.refused(&mut seeds, &unsound, &good)?;
        }
        for segments in [k - 2, k - 1] {
            let mut wide = plan.clone();
            wide.shape.margins[segments] = seeds.pick(&[1, 50_000, 50_001]);
            bench.refused(&mut seeds, &wide, &good)?;
        }
        let any = seeds.plan(2 + (round % 5) as usize, round % STYLES);
        bench.refused(&mut seeds, &any, &order(&any))?;
        let any = seeds.with_margins(any);
        bench.refused(&mut seeds, &any, &order(&any))?;
    }
    assert!(bench.seen.iter().all(|&times| times > 0), "classes seen: {:?}", bench.seen);
    Ok(bench.cases)
}
