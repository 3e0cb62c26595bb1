//! What plans are made of and what the calls tell of them.

use std::fmt;
use std::iter::Sum;
use std::ops::{Add, AddAssign};

/// An upright rectangle in millimetres, its edges included. A segment or a point is one too.
#[derive(Clone, Copy, Debug, PartialEq, Eq, Hash)]
pub struct Rect {
    /// Its left edge.
    pub left: i32,
    /// Its bottom edge.
    pub bottom: i32,
    /// Its right edge, not left of the left one.
    pub right: i32,
    /// Its top edge, not below the bottom one.
    pub top: i32,
}

impl Rect {
    /// The rectangle of these sides.
    pub const fn new(left: i32, bottom: i32, right: i32, top: i32) -> Rect {
        Rect { left, bottom, right, top }
    }

    /// Its four cells.
    pub const fn cells(self) -> [i32; 4] {
        [self.left, self.bottom, self.right, self.top]
    }
}

/// What the row call tells of a row.
#[derive(Clone, Copy, Debug, PartialEq, Eq)]
pub struct Row {
    /// The layer of its left guard, from 1: of the rectangle whose left edge is that of the common ground.
    pub layer: u32,
    /// The area of its common ground in square millimetres.
    pub area: u64,
}

/// The common ground of a row.
#[derive(Clone, Copy, Debug, PartialEq, Eq)]
pub struct Common {
    /// The rectangle that all rectangles of the row share, margins included.
    pub rect: Rect,
    /// Its kind.
    pub kind: Kind,
}

/// The kind of a row's common ground.
#[derive(Clone, Copy, Debug, PartialEq, Eq, Hash)]
pub enum Kind {
    /// Both sides are above 0.
    Ground,
    /// Exactly one side is 0: they touch along an edge.
    Edge,
    /// Both sides are 0: they touch in a point.
    Point,
}

impl Kind {
    /// The letter of the report: G, E or P.
    pub fn letter(self) -> char {
        match self {
            Kind::Ground => 'G',
            Kind::Edge => 'E',
            Kind::Point => 'P',
        }
    }

    /// The kind of a cell; none where it says that there is no row.
    pub(crate) fn of(cell: i32) -> Option<Kind> {
        [Kind::Ground, Kind::Edge, Kind::Point].into_iter().find(|kind| kind.letter() as i32 == cell)
    }
}

/// What lies nearest in a layer.
#[derive(Clone, Copy, Debug, PartialEq, Eq)]
pub struct Near {
    /// The place of the nearest rectangle; the lowest among equals.
    pub place: u32,
    /// The square of the gap in square millimetres; 0 where it meets the box.
    pub squared_gap: u64,
}

/// The class of a row whose last two layers are segments.
#[derive(Clone, Copy, Debug, PartialEq, Eq, Hash)]
pub enum Class {
    /// Both segments cross every rectangle of the other layers.
    Crossed,
    /// The rectangle of this layer, from 1, covers this end, and none before it in the order of classes does.
    Ends(u32, End),
}

/// An end of one of the two segments.
#[derive(Clone, Copy, Debug, PartialEq, Eq, Hash)]
pub enum End {
    /// The left end of the horizontal segment.
    Left,
    /// The right end of the horizontal segment.
    Right,
    /// The bottom end of the vertical segment.
    Bottom,
    /// The top end of the vertical segment.
    Top,
}

/// The ends in the order of the classes.
const ENDS: [End; 4] = [End::Left, End::Right, End::Bottom, End::Top];

impl Class {
    /// Its number, 0 to 16.
    pub fn number(self) -> u32 {
        match self {
            Class::Crossed => 0,
            Class::Ends(layer, end) => 4 * (layer - 1) + 1 + end as u32,
        }
    }

    /// The class of a number from 0 to 16.
    pub fn of(number: u32) -> Option<Class> {
        match number {
            0 => Some(Class::Crossed),
            1..=16 => Some(Class::Ends(1 + (number - 1) / 4, ENDS[(number as usize - 1) % 4])),
            _ => None,
        }
    }
}

/// A sum of areas, exact: whole square metres and a rest below 1,000,000 square millimetres. It is shown in square metres with two decimals, half a hundredth up.
#[derive(Clone, Copy, Debug, Default, PartialEq, Eq, PartialOrd, Ord, Hash)]
pub struct Total {
    /// Whole square metres.
    pub metres: u64,
    /// The rest in square millimetres, below 1,000,000.
    pub rest: u64,
}

impl Total {
    /// The same in square millimetres.
    pub fn square_millimetres(self) -> u128 {
        u128::from(self.metres) * 1_000_000 + u128::from(self.rest)
    }
}

impl Add for Total {
    type Output = Total;

    fn add(self, other: Total) -> Total {
        let rest = self.rest + other.rest;
        Total { metres: self.metres + other.metres + rest / 1_000_000, rest: rest % 1_000_000 }
    }
}

impl AddAssign for Total {
    fn add_assign(&mut self, other: Total) {
        *self = *self + other;
    }
}

impl Sum for Total {
    fn sum<I: Iterator<Item = Total>>(totals: I) -> Total {
        totals.fold(Total::default(), Total::add)
    }
}

impl fmt::Display for Total {
    fn fmt(&self, f: &mut fmt::Formatter) -> fmt::Result {
        let hundredths = (self.rest + 5_000) / 10_000;
        write!(f, "{}.{:02}", self.metres + hundredths / 100, hundredths % 100)
    }
}
