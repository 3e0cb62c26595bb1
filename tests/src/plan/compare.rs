//! The comparison: plans that are unsound, and margins.

use crate::call::Plan;
use crate::compare::{Bench, Outcome};
use crate::overlay::Ticket;
use crate::pair::compare::parted;
use crate::reference::{pairs, REACH};
use crate::seeds::{equal_plan, grown_by, order, shape_of, text, tickets, DAMAGES};

impl Bench<'_> {
    /// Each cause alone and several at once; "Checked in the order of the lines that apply".
    pub fn unsound_plans(&mut self, plan: &Plan) -> Outcome {
        let good = order(plan);
        let first = tickets(plan).first().copied().unwrap_or(Ticket::ENDED);
        for way in 0..DAMAGES + 8 {
            let mut unsound = plan.clone();
            let causes = if way < DAMAGES { 1 } else { 2 + self.seeds.below(3) };
            for cause in 0..causes {
                let pick = if cause == 0 { way % DAMAGES } else { self.seeds.below(DAMAGES) };
                self.seeds.damage_plan(&mut unsound, pick);
            }
            self.every_call(&unsound, &good, &first)?;
        }
        Ok(())
    }

    /// 512 is a size, 513 is none, in plans and in texts.
    pub fn size_limits(&mut self) -> Outcome {
        for sizes in [[512, 1], [513, 1], [1, 512], [1, 513], [0, 512], [513, 0]] {
            let plan = equal_plan(&sizes, [-3, 0, 4, 1]);
            let n = plan.cells.len() / 4;
            let identity: Vec<u32> = (0..n as u32).collect();
            self.ask_order("unsound plans", &plan, n)?;
            self.every_call(&plan, &identity, &Ticket::ENDED)?;
            for cells in [4 * n, 4 * n - 1, 4 * n + 5] {
                self.ask_read("texts by hand", &text(&plan), cells)?;
            }
            self.ask_write("texts written", &plan, 20_000)?;
        }
        Ok(())
    }

    /// Sizes whose sum, or four times it, would wrap round to what the cells hold.
    pub fn wrapped_sizes(&mut self) -> Outcome {
        let wraps: [[u32; 6]; 6] = [
            [1 << 30, 0, 0, 0, 0, 0],
            [1 << 31, 1 << 31, 0, 0, 0, 0],
            [u32::MAX, 1, 0, 0, 0, 0],
            [u32::MAX, 2, 0, 0, 0, 0],
            [u32::MAX; 6],
            [0, 0, 0, 0, 0, u32::MAX],
        ];
        for (sizes, k) in wraps.iter().flat_map(|sizes| [0, 1, 2, 3, 5, 6, 7, u32::MAX].map(|k| (*sizes, k)))
        {
            for cells in [0, 4, 8] {
                let mut plan = Plan { shape: shape_of(&sizes), cells: vec![0; cells] };
                plan.shape.k = k;
                self.every_call(&plan, &[], &Ticket::ENDED)?;
            }
        }
        Ok(())
    }

    /// Every pair of layers as the only one that does not meet as drawn, with margins that just close the gap, leave a millimetre of it, or pass it.
    pub fn margin_box(&mut self) -> Outcome {
        for k in 2..=6 {
            for (i, j) in pairs(k) {
                for gap in [1, 2, 9, 3_000, 99_999, 100_000] {
                    for (flip, less) in [(false, 0), (true, 0), (false, 1), (true, 1), (true, -1)] {
                        let sum = (gap - less).min(100_000) as u32;
                        let axis = if (i + j) % 2 == 0 { [(i, j), (k, k)] } else { [(k, k), (i, j)] };
                        let plan = parted(k, axis, [flip; 2], gap);
                        for share in [0, 1, sum / 2, sum / 2 + 1, sum] {
                            let mut margins = [0; 6];
                            margins[i] = share.clamp(sum.saturating_sub(50_000), sum.min(50_000));
                            margins[j] = sum - margins[i];
                            self.whole_plan("margins", &grown_by(plan.clone(), &margins))?;
                        }
                    }
                }
            }
        }
        Ok(())
    }

    /// 50,000 is a margin, 50,001 is none, at every layer and past k; 17 stands behind 1 and 2 and before 3 and 4.
    pub fn margin_limits(&mut self) -> Outcome {
        for k in 2..=6 {
            let sound = equal_plan(&[1; 6][..k], [-3, 0, 4, 1]);
            for layer in 0..6 {
                for margin in [1, 49_999, 50_000, 50_001, 1 << 16, 1 << 31, u32::MAX - 49_999, u32::MAX] {
                    let mut plan = sound.clone();
                    plan.shape.margins[layer] = margin;
                    let identity: Vec<u32> = (0..k as u32).collect();
                    self.every_call(&plan, &identity, &Ticket::ENDED)?;
                    for damage in [0, 2, 3, 4, 5, 6, 7] {
                        let mut worse = plan.clone();
                        self.seeds.damage_plan(&mut worse, damage);
                        self.every_call(&worse, &identity, &Ticket::ENDED)?;
                    }
                }
            }
        }
        Ok(())
    }

    /// Rectangles at the ends of the range, which grow past it; among them the largest area.
    pub fn far_out(&mut self) -> Outcome {
        let most = REACH;
        let all = [-most, -most, most, most];
        for k in 2..=6 {
            for margins in [[50_000; 6], [0, 50_000, 0, 50_000, 0, 50_000], [1; 6], [50_000, 1, 2, 3, 4, 5]] {
                let margins = &margins[..k];
                self.whole_plan("margins", &grown_by(equal_plan(&[1; 6][..k], all), margins))?;
                self.whole_plan("margins", &grown_by(equal_plan(&[2; 6][..k], [most; 4]), margins))?;
                self.whole_plan("margins", &grown_by(equal_plan(&[2; 6][..k], [-most; 4]), margins))?;
                for _ in 0..20 {
                    let plan = self.seeds.plan(k, 3);
                    self.whole_plan("margins", &grown_by(plan, margins))?;
                }
            }
        }
        Ok(())
    }
}
