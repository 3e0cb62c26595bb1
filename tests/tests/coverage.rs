//! Every outcome of every call occurs often enough among the compared cases.

use overlay_tests::compare::compare;
use overlay_tests::overlay::{
    CommonTold, Overlay, Page, PairTold, Reading, RowTold, Run, Shape, Stop, Ticket, Writing,
};
use overlay_tests::reference::{
    intersection, join, kind_of, pairs, rects_at, row_of, share_a_point, sweep_order, ungrown, REFERENCE,
    TOO_MANY,
};
use std::cell::RefCell;
use std::collections::BTreeMap;

/// The reference, counting its outcomes.
#[derive(Default)]
struct Counting(RefCell<BTreeMap<String, u64>>);

impl Counting {
    /// Counts a page that 18 refuses, by what is wrong with its record.
    fn count_stale(&self, ticket: &Ticket, record: &[u64]) {
        let why = match record {
            [held] if *held >= TOO_MANY && *held == ticket.count => "a record of 2^57 or more",
            [held] if ticket.ended && ticket.count > *held => "an Ended of an earlier run",
            [held] if ticket.ended && ticket.count < *held => "an Ended of too few trials",
            [held] if ticket.count < *held => "an earlier ticket",
            [_] => "a ticket of more trials",
            [] => "no record",
            _ => "a record of more cells",
        };
        self.count(format!("page 18 for {why}"));
    }

    /// Counts one outcome.
    fn count(&self, outcome: String) {
        *self.0.borrow_mut().entry(outcome).or_default() += 1;
    }

    /// Counts a page with what makes it special.
    fn count_page(&self, shape: &Shape, page: &Page, budget: u32, table: usize) {
        self.count(format!("page {:?}", page.stop));
        if matches!(page.stop, Stop::Refused(_)) {
            return;
        }
        if page.ticket.ended && page.ticket.count > 0 {
            self.count("page Ended with a count".into());
        }
        if page.ticket.count >= TOO_MANY {
            self.count("page that passes 2^57".into());
        }
        if page.ticket.count - u64::from(page.trials) == TOO_MANY - 1 {
            self.count("page from 2^57 - 1 on".into());
        }
        self.count(format!("page {:?} k {}", page.stop, shape.k));
        let full = page.rows > 0 && page.rows as usize == table / shape.k as usize;
        if page.stop == Stop::Ended && full {
            self.count("page Ended with a full table".into());
        }
        if page.stop == Stop::Ended && page.trials > 0 && page.trials == budget {
            self.count("page Ended with a spent budget".into());
        }
        if page.stop == Stop::Full && budget > 0 && page.trials == budget {
            self.count("page Full with a spent budget".into());
        }
        if !page.ticket.ended {
            self.count(format!("ticket filled {} of k {}", page.ticket.filled, shape.k));
        }
    }
}

impl Overlay for Counting {
    fn make_order(&self, shape: &Shape, cells: &[i32], order: &mut [u32]) -> u32 {
        let number = REFERENCE.make_order(shape, cells, order);
        self.count(format!("order {number}"));
        if number == 0 && order != sweep_order(&ungrown(shape, cells)) {
            self.count("order only by margins".into());
        }
        number
    }

    fn row(&self, shape: &Shape, cells: &[i32], row: &[u32]) -> RowTold {
        let told = REFERENCE.row(shape, cells, row);
        self.count(format!("row {} layer {}", told.number, told.layer));
        if told.layer > 0 {
            match row_of(&ungrown(shape, cells), row) {
                None if told.area == 0 => self.count("row that just touches by margins".into()),
                None => self.count("row only by margins".into()),
                Some(drawn) if drawn.guard != told.layer => self.count("guard only by margins".into()),
                Some(drawn) if drawn.area != told.area => self.count("area only by margins".into()),
                Some(_) => {}
            }
        }
        told
    }

    fn common(&self, shape: &Shape, cells: &[i32], row: &[u32]) -> CommonTold {
        let told = REFERENCE.common(shape, cells, row);
        let kind = if told.kind == 0 { "none".into() } else { char::from(told.kind).to_string() };
        self.count(format!("ground {} {kind}", told.number));
        if told.kind != 0 {
            self.count(format!("ground {kind} of k {}", shape.k));
            let rects = rects_at(&(REFERENCE.layers)(shape, cells), row);
            let pair = |&(i, j): &(usize, usize)| kind_of(intersection(rects[i], rects[j]));
            let pairs = pairs(rects.len()).iter().map(pair).collect::<Vec<u8>>();
            if pairs[0] != told.kind {
                self.count(format!("ground {kind} but not of the first pair"));
            }
            if !pairs.contains(&told.kind) {
                self.count(format!("ground {kind} of no pair"));
            }
            match row_of(&ungrown(shape, cells), row) {
                Some(drawn) if kind_of(drawn.common) == told.kind => {}
                _ => self.count(format!("ground {kind} only by margins")),
            }
        }
        told
    }

    fn pair(&self, shape: &Shape, cells: &[i32], places: &[u32]) -> PairTold {
        let told = REFERENCE.pair(shape, cells, places);
        self.count(format!("pair {} of {} and {}", told.number, told.lower, told.higher));
        if told.number == 0 && told.higher == 0 {
            self.count(format!("pair none of k {}", shape.k));
            if !share_a_point(&rects_at(&ungrown(shape, cells), places)) {
                self.count("pair none only by margins".into());
            }
        }
        told
    }

    fn fresh(&self, shape: &Shape, cells: &[i32], order: &[u32], record: &mut [u64]) -> (u32, Ticket) {
        let (number, ticket) = REFERENCE.fresh(shape, cells, order, record);
        self.count(format!("fresh {number} ended {}", ticket.ended));
        (number, ticket)
    }

    fn page(
        &self,
        shape: &Shape,
        cells: &[i32],
        order: &[u32],
        ticket: &Ticket,
        record: &mut [u64],
        budget: u32,
        table: &mut [u32],
    ) -> Page {
        let page = REFERENCE.page(shape, cells, order, ticket, record, budget, table);
        self.count_page(shape, &page, budget, table.len());
        if page.stop == Stop::Refused(18) {
            self.count_stale(ticket, record);
        }
        page
    }

    fn run(&self, shape: &Shape, cells: &[i32], order: &[u32], table: &mut [u32], work: &mut [i32]) -> Run {
        let run = REFERENCE.run(shape, cells, order, table, work);
        self.count(format!("run {}", run.number));
        if run.number == 0 && run.rows > 1 {
            let shared = if run.ground.value() < run.area.value() { "shared" } else { "apart" };
            self.count(format!("run with ground {shared}, k {}", shape.k));
        }
        if run.number == 0 && work.len() == 2 * run.rows as usize {
            self.count(
                if work.is_empty() { "run without work" } else { "run with work that just fits" }.into(),
            );
        }
        if run.number == 0 && join(&ungrown(shape, cells)).len() < run.rows as usize {
            self.count("run with rows only by margins".into());
        }
        run
    }

    fn read(&self, text: &[u8], cells: &mut [i32]) -> Reading {
        let reading = REFERENCE.read(text, cells);
        self.count(format!("read {}", reading.number));
        if reading.shape.margins != [0; 6] {
            self.count("read margins".into());
        }
        reading
    }

    fn write(&self, shape: &Shape, cells: &[i32], text: &mut [u8]) -> Writing {
        let writing = REFERENCE.write(shape, cells, text);
        self.count(format!("write {}", writing.number));
        writing
    }
}

/// All outcomes that must occur.
fn outcomes() -> Vec<String> {
    let mut all = Vec::new();
    let mut add =
        |name: &str, numbers: &[u32]| all.extend(numbers.iter().map(|number| format!("{name} {number}")));
    add("order", &[0, 1, 2, 17, 3, 4, 8]);
    add("run", &[0, 1, 2, 17, 3, 4, 5, 7, 19]);
    add("run with ground shared, k", &[2, 3, 4, 5, 6]);
    add("run with ground apart, k", &[2, 3, 4, 5, 6]);
    add("read", &[0, 9, 10, 11]);
    add("write", &[0, 1, 2, 17, 3, 4, 12]);
    add("row 0 layer", &[0, 1, 2, 3, 4, 5, 6]);
    add("pair none of k", &[2, 3, 4, 5, 6]);
    add("page Ended k", &[2, 3, 4, 5, 6]);
    add("page Full k", &[2, 3, 4, 5, 6]);
    add("page Spent k", &[2, 3, 4, 5, 6]);
    for k in 2..=6 {
        all.extend((0..=k - 2).map(|filled| format!("ticket filled {filled} of k {k}")));
    }
    all.extend([1, 2, 17, 3, 4].map(|number| format!("row {number} layer 0")));
    all.extend([1, 2, 17, 3, 4, 23].map(|number| format!("pair {number} of 0 and 0")));
    all.extend(pairs(6).iter().map(|(lower, higher)| format!("pair 0 of {} and {}", lower + 1, higher + 1)));
    all.extend([0, 1, 2, 17, 3, 4, 5, 18].map(|number| format!("fresh {number} ended true")));
    all.push("fresh 0 ended false".into());
    all.extend([1, 2, 17, 3, 4, 5, 6, 18].map(|number| format!("page Refused({number})")));
    let stale = [
        "a record of 2^57 or more",
        "an Ended of an earlier run",
        "an Ended of too few trials",
        "an earlier ticket",
        "a ticket of more trials",
        "no record",
        "a record of more cells",
    ];
    all.extend(stale.map(|why| format!("page 18 for {why}")));
    all.extend(
        ["Ended with a count", "that passes 2^57", "from 2^57 - 1 on"].map(|what| format!("page {what}")),
    );
    all.extend(["full table", "spent budget"].map(|what| format!("page Ended with a {what}")));
    all.push("page Full with a spent budget".into());
    let grown = ["order", "row", "guard", "area", "pair none", "run with rows"];
    all.extend(grown.map(|what| format!("{what} only by margins")));
    all.extend(["row that just touches by margins", "read margins"].map(String::from));
    for kind in ["G", "E", "P"] {
        all.extend((2..=6).map(|k| format!("ground {kind} of k {k}")));
        all.extend([format!("ground 0 {kind}"), format!("ground {kind} only by margins")]);
    }
    all.extend(["E", "P"].map(|kind| format!("ground {kind} but not of the first pair")));
    all.extend([0, 1, 2, 17, 3, 4].map(|number| format!("ground {number} none")));
    all.push("ground P of no pair".into());
    all.extend(["run without work", "run with work that just fits"].map(String::from));
    all
}

#[test]
fn every_outcome_occurs() {
    let counting = Counting::default();
    assert!(compare(&counting, &REFERENCE).is_ok());
    let counts = counting.0.borrow();
    for (outcome, count) in counts.iter() {
        println!("{outcome}: {count}");
    }
    for outcome in outcomes() {
        let count = counts.get(&outcome).copied().unwrap_or(0);
        assert!(count >= 20, "{outcome}: {count}");
    }
}
