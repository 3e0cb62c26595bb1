//! Corner records of the survey instrument, written from request Q-9 alone, wrong versions of it, and a comparison of two.
//!
//! No float is computed with: a value is read from its bits as a whole number times a power of two, and values are compared
//! by their bits as whole numbers.

pub mod compare;
pub mod slips;

pub use compare::{compare_surveys, floats, known_surveys, surveys};
pub use slips::wrong_surveys;

/// What is handed to the call: for each axis a kind of strip and two stops; the corners, four a record; how many cells are lent.
#[derive(Clone, Debug)]
pub struct Survey {
    pub kinds: [u32; 2],
    pub stops: [f64; 4],
    pub corners: Vec<f64>,
    pub room: usize,
}

/// What the call returns.
#[derive(Clone, Copy, Debug, PartialEq, Eq)]
pub struct Covered {
    pub number: u32,
    pub kept: usize,
}

/// The call: a survey and the lent cells.
pub type Cover<'a> = dyn Fn(&Survey, &mut [i32]) -> Covered + 'a;

/// All bits but the sign.
pub const SIZE: u64 = u64::MAX >> 1;

/// Whether a float is a value: its exponent is not all ones.
pub fn is_finite(x: f64) -> bool {
    x.to_bits() & SIZE < 0x7ff << 52
}

/// A number that stands in the order of the finite floats: their bits behind the sign, negative where the sign is set. Both zeros are 0.
pub fn rank(x: f64) -> i64 {
    let size = (x.to_bits() & SIZE) as i64;
    if x.is_sign_negative() {
        -size
    } else {
        size
    }
}

/// The size of a finite float cut to a whole number, and whether anything was cut off; sizes of 2^64 and more are 2^64.
pub fn cut(x: f64) -> (i128, bool) {
    let field = (x.to_bits() & SIZE) >> 52;
    let digits = x.to_bits() & ((1 << 52) - 1);
    // The value is digits * 2^power.
    let (digits, power) = if field == 0 { (digits, -1074) } else { (digits | 1 << 52, field as i32 - 1075) };
    let digits = i128::from(digits);
    match power {
        12.. => (1 << 64, false),
        0..=11 => (digits << power, false),
        -63..=-1 => (digits >> -power, digits & ((1 << -power) - 1) != 0),
        _ => (0, digits != 0),
    }
}

/// The greatest whole number that is not above a finite float, for sizes below 2^64.
pub fn down(x: f64) -> i128 {
    let (whole, rest) = cut(x);
    if x.is_sign_negative() {
        -whole - i128::from(rest)
    } else {
        whole
    }
}

/// The least whole number that is not below a finite float, for sizes below 2^64.
pub fn up(x: f64) -> i128 {
    let (whole, rest) = cut(x);
    if x.is_sign_negative() {
        -whole
    } else {
        whole + i128::from(rest)
    }
}

/// The stops of an axis: lower and upper, where there are any; nothing where the kind is none.
pub type Stops = Option<(Option<f64>, Option<f64>)>;

/// Whether a closed extent meets a strip.
pub type Meets = fn((Option<f64>, Option<f64>), f64, f64) -> bool;

/// The four causes.
#[derive(Clone, Copy)]
pub enum Check {
    Strips,
    Records,
    Many,
    Room,
}

/// The rules that a slip may change.
#[derive(Clone, Copy)]
pub struct Rules {
    pub checks: [Check; 4],
    pub stops: fn(&Survey, usize) -> Stops,
    pub judges_stops: fn(Option<f64>, Option<f64>) -> bool,
    pub down: fn(f64) -> i128,
    pub up: fn(f64) -> i128,
    pub meets: Meets,
    pub meets_upward: Meets,
    pub covers_first: bool,
    pub judges_kept_only: bool,
    pub loose_length: bool,
    pub reach: i128,
    pub most: usize,
    pub room_a_record: usize,
    pub writes_early: bool,
    pub clears_rest: bool,
    pub counts_refused: bool,
}

/// The rules of the request.
pub const RIGHT: Rules = Rules {
    checks: [Check::Strips, Check::Records, Check::Many, Check::Room],
    stops: stops_of,
    judges_stops: sound_stops,
    down,
    up,
    meets,
    meets_upward: meets,
    covers_first: false,
    judges_kept_only: false,
    loose_length: false,
    reach: 10_000_000,
    most: 512,
    room_a_record: 4,
    writes_early: false,
    clears_rest: false,
    counts_refused: false,
};

/// The stops that the kind of an axis has.
pub fn stops_of(survey: &Survey, axis: usize) -> Stops {
    let (lower, upper) = (survey.stops[2 * axis], survey.stops[2 * axis + 1]);
    match survey.kinds[axis] {
        0 => Some((None, None)),
        1 => Some((Some(lower), None)),
        2 => Some((None, Some(upper))),
        3 => Some((Some(lower), Some(upper))),
        _ => None,
    }
}

/// "a stop not finite or the lower above the upper, 21"
pub fn sound_stops(lower: Option<f64>, upper: Option<f64>) -> bool {
    let finite = lower.iter().chain(&upper).all(|&stop| is_finite(stop));
    finite && lower.zip(upper).is_none_or(|(lower, upper)| rank(lower) <= rank(upper))
}

/// What is common to the extent and the strip is not empty.
pub fn meets((lower, upper): (Option<f64>, Option<f64>), low: f64, high: f64) -> bool {
    let low = lower.map_or(rank(low), |stop| rank(stop).max(rank(low)));
    let high = upper.map_or(rank(high), |stop| rank(stop).min(rank(high)));
    low <= high
}

impl Rules {
    /// The cover of a record.
    fn cover(&self, record: &[f64]) -> [i128; 4] {
        [(self.down)(record[0]), (self.down)(record[1]), (self.up)(record[2]), (self.up)(record[3])]
    }

    /// "any record's corner not finite, out of order, or covered beyond a million millimetres, 20"; Q-13: ten million
    fn sound(&self, record: &[f64]) -> bool {
        record.iter().all(|&corner| is_finite(corner))
            && rank(record[0]) <= rank(record[2])
            && rank(record[1]) <= rank(record[3])
            && self.cover(record).iter().all(|side| side.abs() <= self.reach)
    }

    /// Whether a record is kept.
    fn keeps(&self, survey: &Survey, record: &[f64]) -> bool {
        let extent = if self.covers_first {
            self.cover(record).map(|side| side as f64).to_vec()
        } else {
            record.to_vec()
        };
        let stops = |axis| (self.stops)(survey, axis).unwrap_or((None, None));
        (self.meets)(stops(0), extent[0], extent[2]) && (self.meets_upward)(stops(1), extent[1], extent[3])
    }

    /// Whether a check lets the survey through.
    fn passes(&self, check: Check, survey: &Survey, kept: &[&[f64]]) -> bool {
        match check {
            Check::Strips => (0..2).all(|axis| {
                (self.stops)(survey, axis).is_some_and(|(lower, upper)| (self.judges_stops)(lower, upper))
            }),
            Check::Records => {
                let long = self.loose_length || survey.corners.len() % 4 == 0;
                let judged = |record: &&[f64]| !self.judges_kept_only || self.keeps(survey, record);
                long && survey.corners.chunks_exact(4).filter(judged).all(|record| self.sound(record))
            }
            Check::Many => kept.len() <= self.most,
            Check::Room => survey.room >= self.room_a_record * kept.len(),
        }
    }

    /// The call.
    fn covered(&self, survey: &Survey, cells: &mut [i32]) -> Covered {
        let records = survey.corners.chunks_exact(4);
        let kept: Vec<&[f64]> = records.filter(|record| self.keeps(survey, record)).collect();
        let failed = self.checks.iter().find(|&&check| !self.passes(check, survey, &kept));
        if failed.is_none() || self.writes_early && matches!(failed, Some(Check::Room)) {
            let layer = kept.iter().flat_map(|record| self.cover(record)).map(|side| side as i32);
            cells.iter_mut().zip(layer).for_each(|(cell, side)| *cell = side);
        }
        let number = match failed {
            None => 0,
            Some(Check::Strips) => 21,
            Some(Check::Records) => 20,
            Some(Check::Many) => 2,
            Some(Check::Room) => 11,
        };
        if number == 0 && self.clears_rest {
            cells[4 * kept.len()..].fill(0);
        }
        Covered { number, kept: if number == 0 || self.counts_refused { kept.len() } else { 0 } }
    }
}

/// The call by the request's words.
pub fn cover_records(survey: &Survey, cells: &mut [i32]) -> Covered {
    RIGHT.covered(survey, cells)
}
