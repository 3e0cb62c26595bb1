//! Why a call is refused.

use std::error::Error;
use std::fmt;

/// What refuses a call: the first of its checks that fails. Its number is that of the manual; its words are what it prints.
#[derive(Clone, Copy, Debug, PartialEq, Eq, Hash, PartialOrd, Ord)]
#[repr(u32)]
pub enum Cause {
    /// The plan has not 2 to 6 layers.
    Layers = 1,
    /// A layer has more than 512 rectangles, or one past the last has some; or more than 512 records are kept.
    Sizes = 2,
    /// The cells are not four for each rectangle.
    Cells = 3,
    /// A coordinate is not from -10000000 to 10000000, left is greater than right or bottom greater than top.
    Rect = 4,
    /// The order is not the sweep order of the plan.
    Order = 5,
    /// The ticket is none of this plan.
    Ticket = 6,
    /// There are more rows than the table takes.
    Rows = 7,
    /// The order buffer has not one cell for each rectangle.
    OrderLength = 8,
    /// The text is not well formed.
    Form = 9,
    /// The text is well formed, but layers or rectangles are miscounted, or a number is out of range or out of order.
    Count = 10,
    /// The cells are too few.
    Room = 11,
    /// The text is longer than the buffer.
    TextLength = 12,
    /// The input has more than 65536 bytes.
    Input = 13,
    /// The box has left greater than right, bottom greater than top or a coordinate out of range.
    Box = 14,
    /// The plan has fewer than three layers.
    FewLayers = 15,
    /// The last two layers are not segments without margin: east to west (bottom = top) in the last but one, north to south (left = right) in the last.
    Segments = 16,
    /// A margin is greater than 50000, or a layer past the last has one.
    Margins = 17,
    /// The ticket is not the newest of its run, or the run record is not one sound cell.
    Stale = 18,
    /// The work buffer is shorter than two cells for each row.
    Work = 19,
    /// The corners are not four a record, or one is not finite, out of order or beyond ten million.
    Record = 20,
    /// A stop is not finite, the lower one of a strip is greater than the upper one, or a kind is greater than 3.
    Strip = 21,
    /// A round has not 1 to 16 clients, or its first client, its budget or its records are wrong.
    Round = 22,
    /// There is not one place for each layer, or a place is not in its layer.
    Places = 23,
    /// There is not one window for each rectangle, or one does not end behind its start within the week of 10080 minutes.
    Hours = 24,
}

/// Every cause in the order of their numbers, from 1 on.
pub const CAUSES: [Cause; 24] = [
    Cause::Layers,
    Cause::Sizes,
    Cause::Cells,
    Cause::Rect,
    Cause::Order,
    Cause::Ticket,
    Cause::Rows,
    Cause::OrderLength,
    Cause::Form,
    Cause::Count,
    Cause::Room,
    Cause::TextLength,
    Cause::Input,
    Cause::Box,
    Cause::FewLayers,
    Cause::Segments,
    Cause::Margins,
    Cause::Stale,
    Cause::Work,
    Cause::Record,
    Cause::Strip,
    Cause::Round,
    Cause::Places,
    Cause::Hours,
];

impl Cause {
    /// Its number, from 1.
    pub fn number(self) -> u32 {
        self as u32
    }

    /// The cause of a number; 0 is none, and so are numbers that no call of this version tells.
    pub fn of(number: u32) -> Option<Cause> {
        CAUSES.into_iter().find(|cause| cause.number() == number)
    }

    /// The number that a call returned, as a result.
    ///
    /// # Panics
    ///
    /// Where no call of this version tells the number.
    pub fn check(number: u32) -> Result<(), Cause> {
        match number {
            0 => Ok(()),
            _ => Err(Cause::of(number).expect("a number of this version")),
        }
    }

    /// What it means, in words.
    pub fn text(self) -> &'static str {
        match self {
            Cause::Layers => "the plan has not 2 to 6 layers",
            Cause::Sizes => "a layer has more than 512 rectangles, or one past the last has some; or more than 512 records are kept",
            Cause::Cells => "the cells are not four for each rectangle",
            Cause::Rect => "a coordinate is not from -10000000 to 10000000, left is greater than right or bottom greater than top",
            Cause::Order => "the order is not the sweep order of the plan",
            Cause::Ticket => "the ticket is none of this plan",
            Cause::Rows => "there are more rows than the table takes",
            Cause::OrderLength => "the order buffer has not one cell for each rectangle",
            Cause::Form => "the text is not well formed",
            Cause::Count => "the text is well formed, but layers or rectangles are miscounted, or a number is out of range or out of order",
            Cause::Room => "the cells are too few",
            Cause::TextLength => "the text is longer than the buffer",
            Cause::Input => "the input has more than 65536 bytes",
            Cause::Box => "the box has left greater than right, bottom greater than top or a coordinate out of range",
            Cause::FewLayers => "the plan has fewer than three layers",
            Cause::Segments => "the last two layers are not segments without margin: east to west (bottom = top) in the last but one, north to south (left = right) in the last",
            Cause::Margins => "a margin is greater than 50000, or a layer past the last has one",
            Cause::Stale => "the ticket is not the newest of its run, or the run record is not one sound cell",
            Cause::Work => "the work buffer is shorter than two cells for each row",
            Cause::Record => "the corners are not four a record, or one is not finite, out of order or beyond ten million",
            Cause::Strip => "a stop is not finite, the lower one of a strip is greater than the upper one, or a kind is greater than 3",
            Cause::Round => "a round has not 1 to 16 clients, or its first client, its budget or its records are wrong",
            Cause::Places => "there is not one place for each layer, or a place is not in its layer",
            Cause::Hours => "there is not one window for each rectangle, or one does not end behind its start within the week of 10080 minutes",
        }
    }
}

impl fmt::Display for Cause {
    fn fmt(&self, f: &mut fmt::Formatter) -> fmt::Result {
        f.write_str(self.text())
    }
}

impl Error for Cause {}
