//! The comparison: stale tickets and run records (02, Q-5).

use crate::call::{cells_u64, Plan};
use crate::compare::{Bench, Outcome};
use crate::overlay::{Stop, Ticket};
use crate::reference::TOO_MANY;
use crate::seeds::{length, order, tickets, DAMAGES};

/// A run as its tablet knows it: every ticket that it was given, the last one last, and its record.
#[derive(Clone)]
pub struct Tablet {
    pub given: Vec<Ticket>,
    pub record: Vec<u64>,
}

impl Tablet {
    /// The ticket that was given last.
    pub fn last(&self) -> Ticket {
        self.given[self.given.len() - 1]
    }

    /// The ticket so many screens back, or the first.
    pub fn back(&self, screens: usize) -> Ticket {
        self.given[self.given.len().saturating_sub(screens + 1)]
    }
}

impl Bench<'_> {
    /// Records of every length and about every limit, with tickets that have their count and with others.
    pub fn records(&mut self, plan: &Plan) -> Outcome {
        let (kind, good) = ("records", order(plan));
        for length in [0, 1, 2, 3] {
            self.ask_start(kind, plan, &good, &mut cells_u64(length))?;
            self.ask_start(kind, plan, &good, &mut vec![0; length])?;
        }
        let mut all = tickets(plan);
        all.push(Ticket::ENDED.after(all.len() as u64));
        for ticket in [self.seeds.pick(&all), all[all.len() - 1]] {
            for length in [0, 2, 3] {
                let limits = self.limits(plan, 20);
                self.ask_next(kind, (plan, &good), &ticket, &mut vec![ticket.count; length], limits)?;
            }
            let (any, near) = (self.seeds.draw(), self.seeds.near_count(ticket.count));
            for count in [0, 1 << 32, TOO_MANY - 1, TOO_MANY, TOO_MANY + 1, u64::MAX, any, near] {
                let limits = self.limits(plan, 20);
                self.ask_next(kind, (plan, &good), &ticket, &mut vec![count], limits)?;
                // A run that has done so many trials, and the page after.
                let mut record = vec![count];
                let page = self.ask_next(kind, (plan, &good), &ticket.after(count), &mut record, limits)?;
                self.ask_next(kind, (plan, &good), &page.ticket, &mut record, limits)?;
            }
        }
        Ok(())
    }

    /// Lists of page calls that bring any ticket of their run, with others among them, from the fresh start to a second one.
    pub fn runs(&mut self, plan: &Plan) -> Outcome {
        let (kind, good) = ("runs", order(plan));
        let mut tablet = Tablet { given: Vec::new(), record: cells_u64(1) };
        let other = self.seeds.plan(plan.shape.k as usize, 6);
        let others = tickets(&other);
        for _ in 0..2 {
            let earlier = tablet.given.last().copied();
            let fresh = self.ask_start(kind, plan, &good, &mut tablet.record)?;
            tablet.given = vec![fresh];
            // The last ticket of the run before, which had ended, with this run's record.
            if let Some(ticket) = earlier {
                self.bring(plan, &good, &ticket, &mut tablet)?;
            }
            for _ in 0..6 {
                let mut limits = self.limits(plan, length(plan));
                limits.0 = limits.0.min(1 + length(plan) as u32 / 3);
                let page = self.ask_next(kind, (plan, &good), &tablet.last(), &mut tablet.record, limits)?;
                tablet.given.push(page.ticket);
                self.interrupt(plan, &good, &others, &mut tablet)?;
            }
            let last = tablet.last();
            let page =
                self.ask_next(kind, (plan, &good), &last, &mut tablet.record, (u32::MAX, 1_000_000))?;
            tablet.given.push(page.ticket);
            for screens in [0, 1, 2, 3, tablet.given.len()] {
                let ticket = tablet.back(screens);
                self.bring(plan, &good, &ticket, &mut tablet)?;
            }
        }
        Ok(())
    }

    /// Calls between two screens: earlier tickets of the run, tickets of other runs, and refused calls that bring the run's record or any other.
    pub fn interrupt(
        &mut self,
        plan: &Plan,
        good: &[u32],
        others: &[Ticket],
        tablet: &mut Tablet,
    ) -> Outcome {
        let (kind, limits) = ("runs", self.limits(plan, 20));
        let screens = self.seeds.pick(&[1, 1, 2, 3, 5, 100]);
        let back = tablet.back(screens);
        let last = tablet.last();
        match self.seeds.below(8) {
            0..=2 => self.bring(plan, good, &back, tablet),
            3 => {
                // With another plan.
                let (mut damaged, mut aside) = (plan.clone(), tablet.clone());
                let way = self.seeds.below(DAMAGES);
                self.seeds.damage_plan(&mut damaged, way);
                self.bring(&damaged, good, &back, &mut aside)
            }
            4 => {
                // A ticket of another run, which has done as many trials.
                let same = others.get(last.count as usize).copied();
                let ticket = same.unwrap_or_else(|| Ticket::ENDED.after(last.count));
                let mut record = tablet.record.clone();
                self.ask_next(kind, (plan, good), &ticket, &mut record, limits).map(drop)
            }
            5 => {
                let (ticket, mut record) = (self.seeds.any_ticket(), tablet.record.clone());
                self.ask_next(kind, (plan, good), &ticket, &mut record, limits).map(drop)
            }
            6 => {
                let (order, mut record) = ([good, &[0]].concat(), tablet.record.clone());
                self.ask_next(kind, (plan, &order), &last, &mut record, limits)?;
                self.ask_start(kind, plan, &order, &mut tablet.record).map(drop)
            }
            _ => {
                let mut record = self.seeds.other_record(&last);
                self.ask_next(kind, (plan, good), &last, &mut record, limits).map(drop)
            }
        }
    }

    /// A call of the list that brings some ticket, with the run's own record. Where it is one of the run: "one with another count is refused, and one with
    /// the same count equals the last one".
    pub fn bring(&mut self, plan: &Plan, good: &[u32], ticket: &Ticket, tablet: &mut Tablet) -> Outcome {
        let (kind, k) = ("runs", plan.shape.k.clamp(2, 6) as usize);
        let limits = (self.seeds.budget(20), self.seeds.table_length(k));
        let page = self.ask_next(kind, (plan, good), ticket, &mut tablet.record, limits)?;
        let accepted = !matches!(page.stop, Stop::Refused(_));
        if tablet.given.contains(ticket) {
            let last = tablet.last();
            let holds = if ticket.count == last.count { *ticket == last } else { !accepted };
            if !holds {
                let shown = format!("{plan:?}\n{ticket:?}, the last one {last:?}\n{page:?}");
                return Err(self.difference(kind, shown));
            }
        }
        if accepted {
            tablet.given.push(page.ticket);
        }
        Ok(())
    }
}
