//! Many clients that page through one plan in turn.

use crate::calls::{self, Turn};
use crate::{Cause, Page, Plan, Ticket, MOST_CLIENTS};

/// Clients of one plan, each in a run of its own, served in rounds. The one that is served first changes from round to round.
///
/// ```
/// use overlay::{Layer, Plan, Rect, Stop};
///
/// let zone = Layer::new([Rect::new(0, 0, 9, 9)]);
/// let plan = Plan::new(&[zone.clone(), zone])?;
/// let mut clients = plan.clients(2)?;
/// let pages = clients.round(10, 5)?;
/// assert!(pages.iter().all(|served| served.page.stop == Stop::Ended && served.page.rows.len() == 1));
/// # Ok::<(), overlay::Cause>(())
/// ```
#[derive(Clone, Debug)]
pub struct Clients<'a> {
    plan: &'a Plan,
    tickets: [u32; 192],
    records: Vec<u64>,
    first: u32,
}

/// What a client got in a round.
#[derive(Clone, Debug, PartialEq, Eq)]
pub struct Served {
    /// The client, from 1.
    pub client: u32,
    /// Its page.
    pub page: Page,
    /// Its ticket for what is due next.
    pub ticket: Ticket,
}

impl<'a> Clients<'a> {
    /// So many clients at the beginning of their runs.
    pub(crate) fn of(plan: &'a Plan, count: usize) -> Result<Clients<'a>, Cause> {
        if count == 0 || count > MOST_CLIENTS {
            return Err(Cause::Round);
        }
        let (mut tickets, (fresh, record)) = ([0; 192], plan.begin());
        for cells in tickets.chunks_exact_mut(12) {
            cells.copy_from_slice(&fresh.cells());
        }
        Ok(Clients { plan, tickets, records: vec![record.count(); count], first: 1 })
    }

    /// The client that the next round serves first.
    pub fn first(&self) -> u32 {
        self.first
    }

    /// Serves each client a page of at most so many rows, and all of them together at most so many trials. The budget is refused above 2^32 - 1.
    pub fn round(&mut self, budget: u64, rows: usize) -> Result<Vec<Served>, Cause> {
        let (clients, layers) = (self.records.len(), self.plan.layer_count());
        let part = layers * rows.min(crate::MOST_ROWS);
        let (mut table, mut answer, mut next) = (vec![0; part * clients], [0; 80], 0);
        let turn = Turn { clients: clients as u32, first: self.first, budget };
        Cause::check(calls::round(
            self.plan.lent(),
            self.plan.order(),
            turn,
            &mut self.tickets,
            &mut self.records,
            &mut table,
            &mut next,
            &mut answer,
        ))?;
        self.first = next;
        let served = |i: usize| Served {
            client: i as u32 + 1,
            page: Page::of(layers, table[part * i..part * (i + 1)].to_vec(), &answer[5 * i..5 * i + 5]),
            ticket: Ticket(self.tickets[12 * i..12 * i + 12].try_into().expect("twelve cells")),
        };
        Ok((0..clients).map(served).collect())
    }
}
