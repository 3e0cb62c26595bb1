//! The comparison: tickets and pages.

use crate::call::{cells_u32, cells_u64, Answer, Call, Plan};
use crate::compare::{Bench, Difference, Outcome};
use crate::overlay::{Page, Stop, Ticket};
use crate::reference::{count_rows, layers_of};
use crate::seeds::{equal_plan, length, order, plan_from, tickets, DAMAGES, FIELDS, STYLES};

/// A plan whose chosen places may all meet the guard and yet have nothing in common.
pub fn halves() -> Plan {
    let (lower, upper, whole) = ([0, 0, 10, 4], [0, 6, 10, 10], [5, 0, 10, 10]);
    plan_from(&[&[lower, upper], &[upper, lower], &[whole, lower], &[whole, upper]])
}

impl Bench<'_> {
    /// One fresh-ticket call on a record of one cell, with its ticket.
    pub fn ask_fresh(
        &mut self,
        kind: &'static str,
        plan: &Plan,
        order: &[u32],
    ) -> Result<Ticket, Difference> {
        self.ask_start(kind, plan, order, &mut cells_u64(1))
    }

    /// One fresh-ticket call on a record, with its ticket.
    pub fn ask_start(
        &mut self,
        kind: &'static str,
        plan: &Plan,
        order: &[u32],
        record: &mut Vec<u64>,
    ) -> Result<Ticket, Difference> {
        let call = Call::Fresh { plan: plan.clone(), order: order.to_vec(), record: record.clone() };
        match self.ask(kind, call)? {
            (Answer::Fresh(_, ticket), Call::Fresh { record: after, .. }) => {
                *record = after;
                Ok(ticket)
            }
            _ => unreachable!("a fresh-ticket call gives a fresh ticket"),
        }
    }

    /// One page call on a record that holds the ticket's count, with its page.
    pub fn ask_page(
        &mut self,
        kind: &'static str,
        plan: &Plan,
        order: &[u32],
        ticket: &Ticket,
        limits: (u32, usize),
    ) -> Result<Page, Difference> {
        self.ask_next(kind, (plan, order), ticket, &mut vec![ticket.count], limits)
    }

    /// One page call on a record, with its page.
    pub fn ask_next(
        &mut self,
        kind: &'static str,
        (plan, order): (&Plan, &[u32]),
        ticket: &Ticket,
        record: &mut Vec<u64>,
        limits: (u32, usize),
    ) -> Result<Page, Difference> {
        let call = Call::Page {
            plan: plan.clone(),
            order: order.to_vec(),
            ticket: *ticket,
            record: record.clone(),
            budget: limits.0,
            table: cells_u32(limits.1),
        };
        match self.ask(kind, call)? {
            (Answer::Page(page), Call::Page { record: after, .. }) => {
                *record = after;
                Ok(page)
            }
            _ => unreachable!("a page call gives a page"),
        }
    }

    /// Pages from the fresh ticket until Ended, with refused calls among them.
    pub fn paging(&mut self, plan: &Plan) -> Outcome {
        let good = order(plan);
        let mut left = (length(plan), count_rows(&layers_of(&plan.shape, &plan.cells)));
        let mut ticket = self.ask_fresh("fresh tickets", plan, &good)?;
        let step = left.0 <= 60 && self.seeds.once_in(2);
        loop {
            if self.seeds.once_in(5) {
                self.refused_page(plan, &good, &ticket)?;
            }
            let limits = if step { (1, plan.shape.k as usize) } else { self.page_limits(plan, left) };
            let page = self.ask_page("pages", plan, &good, &ticket, limits)?;
            ticket = page.ticket;
            left = (left.0 - u64::from(page.trials), left.1 - u64::from(page.rows));
            if page.stop == Stop::Ended {
                break;
            }
        }
        self.ask_page("pages", plan, &good, &ticket, (0, 0))?;
        let limits = self.limits(plan, 20);
        self.ask_page("pages", plan, &good, &ticket, limits).map(drop)
    }

    /// Limits for a page; at times just what the trials or the rows still to come need, or one off.
    pub fn page_limits(&mut self, plan: &Plan, left: (u64, u64)) -> (u32, usize) {
        let (k, (mut budget, mut table)) = (plan.shape.k as usize, self.limits(plan, left.0));
        if self.seeds.once_in(4) {
            budget = (left.0 as u32 + self.seeds.pick(&[0, 0, 1, 2])).saturating_sub(1);
        }
        if self.seeds.once_in(3) {
            table = (left.1 as usize * k + self.seeds.pick(&[0, 0, 1, k]))
                .saturating_sub(self.seeds.pick(&[0, 1, k]));
        }
        (budget, table)
    }

    /// A page call in the list that is most likely refused: plan, order, ticket or record is damaged.
    pub fn refused_page(&mut self, plan: &Plan, good: &[u32], ticket: &Ticket) -> Outcome {
        let limits = self.limits(plan, 20);
        let (mut plan, mut order, mut ticket) = (plan.clone(), good.to_vec(), *ticket);
        let mut record = self.record(&ticket);
        match self.seeds.below(4) {
            0 => {
                let way = self.seeds.below(DAMAGES);
                self.seeds.damage_plan(&mut plan, way);
            }
            1 => order.push(0),
            2 => {
                let field = self.seeds.below(FIELDS);
                ticket = self.seeds.damage_ticket(&ticket, field);
            }
            _ => record = self.seeds.other_record(&ticket),
        }
        self.ask_next("pages", (&plan, &order), &ticket, &mut record, limits).map(drop)
    }

    /// A record that holds the ticket's count, and at times another.
    pub fn record(&mut self, ticket: &Ticket) -> Vec<u64> {
        if self.seeds.once_in(6) {
            self.seeds.other_record(ticket)
        } else {
            vec![ticket.count]
        }
    }

    /// Good tickets, tickets of another plan, tickets damaged in every field, and any others.
    pub fn tickets(&mut self, plan: &Plan) -> Outcome {
        let good = tickets(plan);
        for ticket in self.some_tickets(&good, 5) {
            self.ask_ticket(plan, &ticket)?;
        }
        for ticket in self.some_tickets(&good, 2).into_iter().chain([Ticket::ENDED]) {
            for field in 0..FIELDS {
                let damaged = self.seeds.damage_ticket(&ticket, field);
                self.ask_ticket(plan, &damaged)?;
                if damaged.count != ticket.count {
                    let (limits, mut record) = (self.limits(plan, 60), vec![ticket.count]);
                    self.ask_next("tickets", (plan, &order(plan)), &damaged, &mut record, limits)?;
                }
            }
        }
        let style = self.seeds.below(STYLES);
        let k = if self.seeds.once_in(2) { plan.shape.k as usize } else { 2 + self.seeds.below(5) as usize };
        let other = self.seeds.plan(k, style);
        for ticket in self.some_tickets(&tickets(&other), 6) {
            self.ask_ticket(plan, &ticket)?;
        }
        for _ in 0..6 {
            let ticket = self.seeds.any_ticket();
            self.ask_ticket(plan, &ticket)?;
        }
        self.deep_tickets(plan, &good)
    }

    /// Tickets with filled slots in which one chosen place is replaced by another of its layer.
    pub fn deep_tickets(&mut self, plan: &Plan, good: &[Ticket]) -> Outcome {
        let deep: Vec<Ticket> = good.iter().copied().filter(|ticket| ticket.filled > 0).collect();
        for mut ticket in self.some_tickets(&deep, 6) {
            let slot = self.seeds.below(u64::from(ticket.filled)) as usize;
            let layer = if slot + 1 < ticket.layer as usize { slot } else { slot + 1 };
            ticket.chosen[slot] = self.seeds.below(u64::from(plan.shape.sizes[layer]) + 1) as u32;
            self.ask_ticket(plan, &ticket)?;
        }
        for _ in 0..[0, 6, 20, 20, 20][plan.shape.k as usize - 2] {
            let ticket = self.likely_ticket(plan);
            self.ask_ticket(plan, &ticket)?;
        }
        Ok(())
    }

    /// A ticket whose every place lies in its layer, and which may yet be no trial.
    pub fn likely_ticket(&mut self, plan: &Plan) -> Ticket {
        let k = u64::from(plan.shape.k);
        let guard = self.seeds.below(k) as usize;
        let filled = self.seeds.below(k - 1) as usize;
        let places = self.tuple(plan, 0);
        let mut slots = places.clone();
        slots.remove(guard);
        let mut chosen = [0; 5];
        chosen[..filled].copy_from_slice(&slots[..filled]);
        let (layer, filled, next) = (guard as u32 + 1, filled as u32, slots[filled]);
        let count = self.seeds.below(30);
        Ticket { ended: false, layer, place: places[guard], filled, chosen, next, count }
    }

    /// The first, the last and some others of a list.
    pub fn some_tickets(&mut self, of: &[Ticket], count: usize) -> Vec<Ticket> {
        if of.is_empty() {
            return Vec::new();
        }
        let mut some: Vec<Ticket> = (0..count).map(|_| self.seeds.pick(of)).collect();
        some.extend([of[0], of[of.len() - 1]]);
        some
    }

    /// A page call on the good order with this ticket.
    pub fn ask_ticket(&mut self, plan: &Plan, ticket: &Ticket) -> Outcome {
        let limits = self.limits(plan, 60);
        self.ask_page("tickets", plan, &order(plan), ticket, limits).map(drop)
    }

    /// Every ticket of small numbers, on a small plan.
    pub fn ticket_box(&mut self, plan: &Plan) -> Outcome {
        let sides = [5, 3, 3, 3, 2, 3, 2];
        for code in 0..sides.iter().product::<u32>() {
            let mut rest = code;
            let digits = sides.map(|side| {
                let digit = rest % side;
                rest /= side;
                digit
            });
            let [layer, place, filled, first, second, next, ended] = digits;
            let ended = ended == 1 && code % 5 == 0;
            let chosen = [first, second, 0, 0, 0];
            let count = u64::from(code % 7);
            self.ask_ticket(plan, &Ticket { ended, layer, place, filled, chosen, next, count })?;
        }
        Ok(())
    }

    /// "never more than 1,000,000" rows, however large the table is.
    pub fn row_cap(&mut self) -> Outcome {
        let kind = "large plans";
        let exact = equal_plan(&[100, 100, 100], [5, 5, 5, 5]);
        self.ask_run(kind, &exact, &order(&exact), 3_000_000)?;
        self.ask_run(kind, &exact, &order(&exact), 2_999_999)?;
        self.ask_run_with(kind, &exact, &order(&exact), (3_000_000, 2_000_000))?;
        self.ask_run_with(kind, &exact, &order(&exact), (3_000_000, 1_999_999))?;
        let over = equal_plan(&[4, 500, 501], [-1, -1, 0, 0]);
        self.ask_run(kind, &over, &order(&over), 3_006_007)?;
        let fresh = tickets(&over)[0];
        let page = self.ask_page(kind, &over, &order(&over), &fresh, (u32::MAX, 3_006_007))?;
        self.ask_page(kind, &over, &order(&over), &page.ticket, (u32::MAX, 3_006_007)).map(drop)
    }

    /// Some pages from the fresh ticket, then one to the end, and damaged tickets.
    pub fn large_pages(&mut self, plan: &Plan, good: &[u32]) -> Outcome {
        let kind = "large plans";
        let length = length(plan);
        let mut ticket = self.ask_fresh(kind, plan, good)?;
        for _ in 0..2 {
            let limits = (self.seeds.below(length / 2 + 1) as u32, 20_000);
            ticket = self.ask_page(kind, plan, good, &ticket, limits)?.ticket;
        }
        let field = self.seeds.below(FIELDS);
        let damaged = self.seeds.damage_ticket(&ticket, field);
        self.ask_page(kind, plan, good, &damaged, (5, 100))?;
        self.ask_page(kind, plan, good, &ticket, (u32::MAX, 1_000_000)).map(drop)
    }
}
