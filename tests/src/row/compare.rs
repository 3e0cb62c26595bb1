//! The comparison: row calls.

use crate::call::{Call, Plan};
use crate::compare::{Bench, Outcome};
use crate::reference::{join, layers_of};
use crate::seeds::{plan_from, shape_of, STYLES};

/// Extents that lie apart, touch, lie over each other or in each other, some of length 0.
pub const EXTENTS: [(i32, i32); 7] = [(0, 0), (0, 1), (0, 2), (1, 2), (2, 3), (0, 3), (1, 3)];

/// Every rectangle of two such extents.
pub fn small_rects() -> Vec<[i32; 4]> {
    EXTENTS.iter().flat_map(|x| EXTENTS.iter().map(move |y| [x.0, y.0, x.1, y.1])).collect()
}

impl Bench<'_> {
    /// One row call, and one for the row's common ground.
    pub fn ask_row(&mut self, kind: &'static str, plan: &Plan, row: &[u32]) -> Outcome {
        self.ask(kind, Call::Row { plan: plan.clone(), row: row.to_vec() })?;
        self.ask(kind, Call::Common { plan: plan.clone(), row: row.to_vec() }).map(drop)
    }

    /// Rows, tuples that are none, places outside, and lengths other than k.
    pub fn row_calls(&mut self, plan: &Plan) -> Outcome {
        let k = plan.shape.k as usize;
        for _ in 0..8 {
            let row = self.tuple(plan, 0);
            self.ask_row("row calls", plan, &row)?;
        }
        let rows = join(&layers_of(&plan.shape, &plan.cells));
        for _ in 0..rows.len().min(8) {
            let row = self.seeds.pick(&rows);
            self.ask_row("row calls", plan, &row.places[..k])?;
        }
        for _ in 0..6 {
            let row = self.tuple(plan, 2);
            self.ask_row("row calls", plan, &row)?;
        }
        for length in (0..=8).filter(|&length| length != k) {
            let mut row = self.tuple(plan, 0);
            row.resize(length, 0);
            self.ask_row("row calls", plan, &row)?;
        }
        let mut row = self.tuple(plan, 0);
        row[self.seeds.below(k as u64) as usize] = self.seeds.pick(&[512, 1 << 30, 1 << 31, u32::MAX]);
        self.ask_row("row calls", plan, &row)
    }

    /// Every tuple of places, one past the last included, on small plans of each k.
    pub fn row_box(&mut self) -> Outcome {
        for style in 0..STYLES {
            for k in 2..=5 {
                let sizes = &[2; 6][..k];
                let plan = self.seeds.plan_of(sizes, style);
                for code in 0..3u32.pow(k as u32) {
                    let row: Vec<u32> = (0..k).map(|j| code / 3u32.pow(j as u32) % 3).collect();
                    self.ask_row("row calls", &plan, &row)?;
                }
            }
        }
        Ok(())
    }

    /// The row of every two small rectangles, and of three to six at random, as they are drawn and with margins.
    pub fn kind_box(&mut self) -> Outcome {
        let (kind, rects) = ("kinds", small_rects());
        for &a in &rects {
            for &b in &rects {
                self.ask_row(kind, &plan_from(&[&[a], &[b]]), &[0, 0])?;
            }
        }
        for round in 0..6_000 {
            let k = 3 + round % 4;
            let cells = (0..k).flat_map(|_| self.seeds.pick(&rects)).collect();
            let mut plan = Plan { shape: shape_of(&[1; 6][..k]), cells };
            if round % 3 == 2 {
                plan.shape.margins[..k].fill_with(|| self.seeds.below(2) as u32);
            }
            self.ask_row(kind, &plan, &[0; 6][..k])?;
        }
        Ok(())
    }
}
