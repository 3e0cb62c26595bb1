//! The comparison: whole runs and their ground.

use crate::call::{cells_i32, cells_u32, Call, Plan};
use crate::compare::{Bench, Outcome};
use crate::reference::{count_rows, layers_of, REACH};
use crate::row::compare::small_rects;
use crate::seeds::{covered, equal_plan, grown_by, order, plan_from, tickets, towers};

impl Bench<'_> {
    /// One whole run with a work buffer of as many cells as the table, which is always enough.
    pub fn ask_run(&mut self, kind: &'static str, plan: &Plan, order: &[u32], table: usize) -> Outcome {
        self.ask_run_with(kind, plan, order, (table, table))
    }

    /// One whole run with a table and a work buffer of so many cells.
    pub fn ask_run_with(
        &mut self,
        kind: &'static str,
        plan: &Plan,
        order: &[u32],
        (table, work): (usize, usize),
    ) -> Outcome {
        let (table, work) = (cells_u32(table), cells_i32(work));
        self.ask(kind, Call::Run { plan: plan.clone(), order: order.to_vec(), table, work }).map(drop)
    }

    /// Tables that fit exactly, are a cell or a row short, hold some cells more, or are large; and with them work buffers of two cells a row, fewer and
    /// more.
    pub fn whole_runs(&mut self, plan: &Plan) -> Outcome {
        let (kind, k, good) = ("whole runs", plan.shape.k as usize, order(plan));
        let rows = count_rows(&layers_of(&plan.shape, &plan.cells)) as usize;
        let exact = rows * k;
        let short = exact.saturating_sub(1);
        let row_short = exact.saturating_sub(k);
        for table in [exact, short, row_short, exact + 1, exact + k - 1, exact + k, 0, k, exact + 1000] {
            self.ask_run(kind, plan, &good, table)?;
        }
        let two = 2 * rows;
        for work in [two, two.saturating_sub(1), two + 1, rows, 0, 1, two + 1000] {
            let table = self.seeds.pick(&[exact, exact, exact + 1, exact + 1000]);
            self.ask_run_with(kind, plan, &good, (table, work))?;
        }
        self.ask_run_with(kind, plan, &good, (short, two.saturating_sub(1)))?;
        self.ask_run_with(kind, plan, &good, (0, 0))
    }

    /// Whole runs on every pair of small rectangles, and on three and four at random: apart, touching, over each other, one in the other, as a cross, as a
    /// segment or a point.
    pub fn ground_box(&mut self) -> Outcome {
        let (kind, rects) = ("ground", small_rects());
        for &a in &rects {
            for &b in &rects {
                let plan = covered(&[a, b], 2);
                self.ask_run(kind, &plan, &order(&plan), 4)?;
            }
        }
        for round in 0..2_000 {
            let few: Vec<[i32; 4]> = (0..3 + round % 5).map(|_| self.seeds.pick(&rects)).collect();
            let plan = covered(&few, 2 + round % 3);
            self.ask_run(kind, &plan, &order(&plan), 40)?;
        }
        // A ring, a comb, stairs, and a hole of one square.
        let comb: Vec<[i32; 4]> = (0..40).map(|i| [2 * i, 0, 2 * i + 1, 9]).chain([[0, 0, 80, 1]]).collect();
        let stairs: Vec<[i32; 4]> = (0..60).map(|i| [i, i, i + 3, 70]).collect();
        let ring = [[0, 0, 9, 1], [0, 8, 9, 9], [0, 0, 1, 9], [8, 0, 9, 9]];
        let hole = [[0, 0, 5, 3], [0, 4, 5, 9], [0, 3, 2, 4], [3, 3, 5, 4]];
        for rects in [&comb[..], &stairs, &ring, &hole] {
            for scale in [1, 7, 12_000] {
                let scaled: Vec<[i32; 4]> = rects.iter().map(|r| r.map(|z| z * scale)).collect();
                for margin in [0, 1, 3] {
                    let plan = grown_by(covered(&scaled, 3), &[margin]);
                    self.ask_run(kind, &plan, &order(&plan), 400)?;
                }
            }
        }
        Ok(())
    }

    /// Whole runs on plans with many rows and many lines, and with ground far out.
    pub fn ground_large(&mut self) -> Outcome {
        let kind = "ground";
        for (k, size) in [(2, 512), (3, 200), (6, 100)] {
            let plan = towers(k, size);
            self.ask_run(kind, &plan, &order(&plan), 40_000)?;
        }
        let most = REACH;
        for margin in [0, 1, 50_000] {
            let all = equal_plan(&[3, 3], [-most, -most, most, most]);
            let corners = plan_from(&[
                &[[-most, -most, 0, 0], [0, 0, most, most], [-most, 0, 0, most], [0, -most, most, 0]],
                &[[-most, -most, most, most], [-1, -most, 1, most]],
            ]);
            for plan in [all, corners] {
                let plan = grown_by(plan, &[margin, margin]);
                self.ask_run(kind, &plan, &order(&plan), 20)?;
            }
        }
        for sizes in [[40, 60], [200, 200], [512, 512]] {
            for style in [4, 6, 8, 9] {
                let plan = self.seeds.plan_of(&sizes, style);
                self.ask_run(kind, &plan, &order(&plan), 600_000)?;
            }
        }
        Ok(())
    }

    /// Sums at each side of a whole square metre, and above 2^64 square millimetres, of whole runs and of pages.
    pub fn wide_sums(&mut self) -> Outcome {
        let kind = "sums";
        // Rows of one area: a rest of 999,999 and about it, and many that carry.
        for height in
            [1, 4_999, 5_000, 499_999, 500_000, 994_999, 995_000, 999_999, 1_000_000, 1_000_001, 1_999_999]
        {
            for (sizes, rest) in [([1, 1], 5), ([3, 1], 5), ([9, 7], 9)] {
                let mut plan = equal_plan(&sizes, [0, 0, 1, height]);
                plan.cells[3] = height.min(rest * 111_111);
                let fresh = tickets(&plan)[0];
                self.ask_run(kind, &plan, &order(&plan), 200)?;
                for limits in [(3, 200), (u32::MAX, 200), (u32::MAX, 4)] {
                    let page = self.ask_page(kind, &plan, &order(&plan), &fresh, limits)?;
                    self.ask_page(kind, &plan, &order(&plan), &page.ticket, limits)?;
                }
            }
        }
        // 65,536 rows of the largest area come to 2.6 × 10^19.
        for sizes in [[256, 256], [128, 300]] {
            let plan = grown_by(equal_plan(&sizes, [-REACH, -REACH, REACH, REACH]), &[50_000, 50_000]);
            let fresh = tickets(&plan)[0];
            self.ask_run(kind, &plan, &order(&plan), 200_000)?;
            self.ask_page(kind, &plan, &order(&plan), &fresh, (u32::MAX, 200_000))?;
            self.ask_page(kind, &plan, &order(&plan), &fresh, (100_000, 200_000))?;
        }
        Ok(())
    }
}
