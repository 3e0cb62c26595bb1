//! The calls of the plan overlay on plain types.

/// k, the six sizes and the six margins of a plan.
#[derive(Clone, Copy, Debug, PartialEq, Eq)]
pub struct Shape {
    pub k: u32,
    pub sizes: [u32; 6],
    pub margins: [u32; 6],
}

impl Shape {
    /// What a refused reading returns.
    pub const NONE: Shape = Shape { k: 0, sizes: [0; 6], margins: [0; 6] };
}

/// The trial due next, or Ended with all else 0; and the trials that its run has done so far.
#[derive(Clone, Copy, Debug, PartialEq, Eq)]
pub struct Ticket {
    pub ended: bool,
    pub layer: u32,
    pub place: u32,
    pub filled: u32,
    pub chosen: [u32; 5],
    pub next: u32,
    pub count: u64,
}

impl Ticket {
    /// Ended in its one form, before any trial.
    pub const ENDED: Ticket =
        Ticket { ended: true, layer: 0, place: 0, filled: 0, chosen: [0; 5], next: 0, count: 0 };

    /// The same ticket after so many trials.
    pub fn after(self, count: u64) -> Ticket {
        Ticket { count, ..self }
    }
}

/// Why a page call stopped.
#[derive(Clone, Copy, Debug, PartialEq, Eq)]
pub enum Stop {
    Ended,
    Full,
    Spent,
    Refused(u32),
}

/// An area sum: "kept as whole square metres and a rest below 1,000,000 square millimetres".
#[derive(Clone, Copy, Debug, PartialEq, Eq)]
pub struct Total {
    pub metres: u64,
    pub rest: u64,
}

impl Total {
    /// The sum of no areas.
    pub const NONE: Total = Total { metres: 0, rest: 0 };

    /// The sum of so many square millimetres.
    pub fn of(millimetres: u128) -> Total {
        Total { metres: (millimetres / 1_000_000) as u64, rest: (millimetres % 1_000_000) as u64 }
    }

    /// Its square millimetres.
    pub fn value(self) -> u128 {
        u128::from(self.metres) * 1_000_000 + u128::from(self.rest)
    }
}

/// What a page call returns.
#[derive(Clone, Copy, Debug, PartialEq, Eq)]
pub struct Page {
    pub stop: Stop,
    pub rows: u32,
    pub trials: u32,
    pub area: Total,
    pub ticket: Ticket,
}

/// What the whole run returns; number 0 is an acceptance. The ground is that of all rows, counted once.
#[derive(Clone, Copy, Debug, PartialEq, Eq)]
pub struct Run {
    pub number: u32,
    pub rows: u32,
    pub trials: u64,
    pub area: Total,
    pub ground: Total,
}

/// What the row call returns; layer 0 with number 0 says that the cells name no row.
#[derive(Clone, Copy, Debug, PartialEq, Eq)]
pub struct RowTold {
    pub number: u32,
    pub layer: u32,
    pub area: u64,
}

/// What the call on a row's common ground returns: left, bottom, right, top, and the letter of its kind; all 0 with number 0 says that the cells name no row.
#[derive(Clone, Copy, Debug, PartialEq, Eq)]
pub struct CommonTold {
    pub number: u32,
    pub sides: [i32; 4],
    pub kind: u8,
}

/// What the pair call returns; number 0 with both layers 0 says that the rectangles share a point.
#[derive(Clone, Copy, Debug, PartialEq, Eq)]
pub struct PairTold {
    pub number: u32,
    pub lower: u32,
    pub higher: u32,
}

/// What the reader of a plan text returns.
#[derive(Clone, Copy, Debug, PartialEq, Eq)]
pub struct Reading {
    pub number: u32,
    pub shape: Shape,
}

/// What the writer of a plan text returns.
#[derive(Clone, Copy, Debug, PartialEq, Eq)]
pub struct Writing {
    pub number: u32,
    pub length: usize,
}

/// The calls that are compared; both the reference and the one under test have them.
pub trait Overlay {
    /// Makes the sweep order in a buffer of n cells.
    fn make_order(&self, shape: &Shape, cells: &[i32], order: &mut [u32]) -> u32;
    /// Tells the guard's layer and the area of the row in the cells.
    fn row(&self, shape: &Shape, cells: &[i32], row: &[u32]) -> RowTold;
    /// Tells the common ground of the row in the cells, and its kind.
    fn common(&self, shape: &Shape, cells: &[i32], row: &[u32]) -> CommonTold;
    /// Tells the first pair of layers whose rectangles at the places do not meet.
    fn pair(&self, shape: &Shape, cells: &[i32], places: &[u32]) -> PairTold;
    /// Gives the ticket of the first trial, and begins a run in its record.
    fn fresh(&self, shape: &Shape, cells: &[i32], order: &[u32], record: &mut [u64]) -> (u32, Ticket);
    /// Does trials from a ticket on, within a budget and a table, and counts them in the run's record.
    fn page(
        &self,
        shape: &Shape,
        cells: &[i32],
        order: &[u32],
        ticket: &Ticket,
        record: &mut [u64],
        budget: u32,
        table: &mut [u32],
    ) -> Page;
    /// Does the whole walk into one table; the work buffer's contents are free after an acceptance.
    fn run(&self, shape: &Shape, cells: &[i32], order: &[u32], table: &mut [u32], work: &mut [i32]) -> Run;
    /// Reads a plan text into cells.
    fn read(&self, text: &[u8], cells: &mut [i32]) -> Reading;
    /// Writes the text of a plan.
    fn write(&self, shape: &Shape, cells: &[i32], text: &mut [u8]) -> Writing;
}
