//! The comparison: orders.

use crate::call::{cells_u32, Call, Plan};
use crate::compare::{Bench, Outcome};
use crate::seeds::{order, other_orders};

impl Bench<'_> {
    /// One order maker call.
    pub fn ask_order(&mut self, kind: &'static str, plan: &Plan, length: usize) -> Outcome {
        self.ask(kind, Call::MakeOrder { plan: plan.clone(), order: cells_u32(length) }).map(drop)
    }

    /// Order buffers of n cells, and of others.
    pub fn order_maker(&mut self, plan: &Plan) -> Outcome {
        let n = plan.cells.len() / 4;
        for length in [n, n + 1, n.saturating_sub(1), 0, 4 * n, n + 512] {
            self.ask_order("order maker", plan, length)?;
        }
        Ok(())
    }

    /// Good, damaged, short and long orders, brought to every call that takes one.
    pub fn orders(&mut self, plan: &Plan) -> Outcome {
        let good = order(plan);
        let first = self.ask_fresh("fresh tickets", plan, &good)?;
        for other in other_orders(&mut self.seeds, &good) {
            self.ask_fresh("orders", plan, &other)?;
            let limits = self.limits(plan, 20);
            let ticket = if self.seeds.once_in(3) { self.seeds.any_ticket() } else { first };
            self.ask_page("orders", plan, &other, &ticket, limits)?;
            let work = if self.seeds.once_in(3) { 0 } else { limits.1 };
            self.ask_run_with("orders", plan, &other, (limits.1, work))?;
        }
        Ok(())
    }
}
