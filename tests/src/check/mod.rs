//! What the command `check` says of a text.

pub mod compare;
pub mod slips;

use crate::reference::{line_of, Line, REACH};

pub use compare::compare_checks;
pub use slips::SLIPS;

/// What a command says: an exit status, and what it prints on standard output and on standard error.
#[derive(Clone, Debug, PartialEq, Eq)]
pub struct Said {
    pub status: u32,
    pub out: Vec<u8>,
    pub err: Vec<u8>,
}

/// The command as a function of the text.
pub type Check<'a> = &'a dyn Fn(&[u8]) -> Said;

/// A line by its number, and what is wrong with it.
type Thing = (usize, &'static str);

/// What may slip: how many digits are too many; whether a line has a space, of which a line with a word that is known or spaced is told, a return, or a minus
/// before a zero; the line without its end; whether a line stands in its place, by whether it is a PLAN line and its number from 0; which of the lines that
/// are not well formed is named, or all are; whether a RECT line is too many, by how many came and how many are due; the line at which a layer is short, by
/// its own and the one read; whether the last layer is short; how a line is numbered; the status of a refusal; how many of so many things are told, and
/// whether it is said that there are more; and the rectangles of all layers.
#[derive(Clone, Copy)]
pub struct Slip {
    pub digits: usize,
    pub spaced: fn(&[u8], bool) -> bool,
    pub returned: fn(&[u8]) -> bool,
    pub minus_zero: fn(&[u8]) -> bool,
    pub body: fn(&[u8]) -> Option<&[u8]>,
    pub placed: fn(bool, usize) -> bool,
    pub named: fn(&[Thing]) -> Option<&Thing>,
    pub surplus: fn(i64, i64) -> bool,
    pub short: fn(usize, usize) -> usize,
    pub short_last: fn(i64, i64) -> bool,
    pub numbered: fn(usize) -> usize,
    pub status: u32,
    pub most: fn(usize) -> usize,
    pub more: fn(usize) -> bool,
    pub all: fn(&[u64]) -> u64,
}

/// No slip.
pub const RIGHT: Slip = Slip {
    digits: 9,
    spaced: |line, worded| line.contains(&b' ') && worded,
    returned: |line| line.contains(&b'\r'),
    minus_zero: |line| line.windows(2).any(|w| w == b"-0"),
    body: |line| line.strip_suffix(b"\n"),
    placed: |plan, at| plan == (at == 0),
    named: |things| things.first(),
    surplus: |came, due| came == due + 1,
    short: |own, _| own,
    short_last: |came, due| came < due,
    numbered: |number| number,
    status: 1,
    most: |things| things.min(64),
    more: |things| things > 64,
    all: |counts| counts.iter().sum(),
};

/// The rule, with a slip or without.
pub struct ByWords(pub Slip);

impl ByWords {
    /// What is wrong with a line that is not well formed; it has its byte 10, if there is one.
    fn reason(&self, first: bool, line: &[u8]) -> &'static str {
        let has = |byte: u8| line.contains(&byte);
        let body = line.strip_suffix(b"\n");
        let word = [&b"PLAN\t"[..], b"LAYER\t", b"RECT\t"].iter().any(|word| line.starts_with(word));
        let digits = line.split(|byte| !byte.is_ascii_digit()).any(|run| run.len() >= self.0.digits);
        let zero = line.windows(3).any(|w| w[0] == 9 && w[1] == b'0' && w[2].is_ascii_digit());
        let minus = (self.0.minus_zero)(line);
        let spaced = [&b" "[..], b"PLAN ", b"LAYER ", b"RECT "].iter().any(|word| line.starts_with(word));
        let space = (self.0.spaced)(line, word || spaced);
        let field = line.strip_prefix(b"LAYER\t").and_then(|rest| rest.strip_suffix(b"\n"));
        let one = field.is_some_and(|field| !field.is_empty() && field.iter().all(u8::is_ascii_digit));
        let tests = [
            (line.is_empty(), "the text is empty"),
            (line.starts_with(b"\xef\xbb\xbf"), "a byte order mark"),
            ((self.0.returned)(line), "a carriage return"),
            (line == b"\n", "a blank line"),
            (body.and_then(line_of).is_some() && first, "the first line is no PLAN line"),
            (body.and_then(line_of).is_some(), "a second PLAN line"),
            (space, "a space: fields are parted by one tab and nothing else"),
            (!word, "a word that is none of PLAN, LAYER and RECT, or no tab behind it"),
            (has(b'+'), "a number with a plus"),
            (has(b'.'), "a number with a point"),
            (zero || minus, "a number with a leading zero"),
            (digits, "a number of nine digits or more"),
            (one, "a LAYER line with one number"),
            (body.is_none(), "no line end at the end of the text"),
        ];
        let told = tests.iter().find(|(holds, _)| *holds);
        let numbers = "not the numbers that its word wants: PLAN 1, LAYER 2, RECT 4, each behind one tab";
        told.map_or(numbers, |(_, words)| words)
    }

    /// The lines of a well formed text, or the first that is not well formed and what is wrong with it.
    fn lines(&self, text: &[u8]) -> Result<Vec<Line>, Thing> {
        let mut all: Vec<&[u8]> = text.split_inclusive(|&byte| byte == 10).collect();
        if all.is_empty() {
            all.push(b"");
        }
        let (mut lines, mut bad) = (Vec::new(), Vec::new());
        for (i, bytes) in all.into_iter().enumerate() {
            let line = (self.0.body)(bytes).and_then(line_of);
            match line {
                Some(line) if (self.0.placed)(matches!(line, Line::Plan(_)), i) => lines.push(line),
                _ => bad.push((i + 1, self.reason(i == 0, bytes))),
            }
        }
        (self.0.named)(&bad).map_or(Ok(lines), |&thing| Err(thing))
    }

    /// Each thing that is wrong with well formed lines, with its line; k, and the rectangles of each layer.
    fn things(&self, lines: &[Line]) -> (Vec<Thing>, i64, Vec<u64>) {
        let (mut told, mut k, mut counts) = (Vec::new(), 0, Vec::new());
        // The number of the last LAYER line, how many RECT lines it says, and how many came.
        let (mut from, mut due, mut came) = (0, 0, 0);
        for (i, line) in lines.iter().enumerate() {
            let number = i + 1;
            match line {
                Line::Plan(layers) if i == 0 => {
                    k = *layers;
                    if !(2..=6).contains(layers) {
                        told.push((1, "a plan of fewer than 2 layers, or more than 6"));
                    }
                    let there = lines.iter().filter(|line| matches!(line, Line::Layer(..))).count();
                    if k.max(0) != there as i64 {
                        told.push((1, "the PLAN line says another number of LAYER lines"));
                    }
                }
                Line::Plan(_) => {}
                Line::Layer(size, margin) => {
                    if came < due {
                        told.push((
                            (self.0.short)(from, number),
                            "fewer RECT lines than this LAYER line says",
                        ));
                    }
                    if !(0..=512).contains(size) {
                        told.push((number, "a layer of more than 512 rectangles, or fewer than 0"));
                    }
                    if !(0..=50_000).contains(margin) {
                        told.push((number, "a margin above 50000 or below 0"));
                    }
                    (from, due, came) = (number, *size.max(&0), 0);
                    counts.push(0);
                }
                Line::Rect([left, bottom, right, top]) => {
                    came += 1;
                    if (self.0.surplus)(came, due) {
                        let early = "a RECT line before any LAYER line";
                        let more = "more RECT lines than the LAYER line says";
                        told.push((number, if from == 0 { early } else { more }));
                    }
                    let far = [left, bottom, right, top].iter().any(|c| c.abs() > i64::from(REACH));
                    if left > right {
                        told.push((number, "left above right"));
                    }
                    if bottom > top {
                        told.push((number, "bottom above top"));
                    }
                    if far {
                        told.push((number, "a coordinate above 10000000 or below -10000000"));
                    }
                    if let Some(count) = counts.last_mut() {
                        *count += 1;
                    }
                }
            }
        }
        if (self.0.short_last)(came, due) {
            told.push((from, "fewer RECT lines than this LAYER line says"));
        }
        (told, k, counts)
    }

    /// A refusal by its number.
    fn refusal(&self, number: u32, told: &[Thing]) -> Said {
        let line = |(at, words): &Thing| format!("overlay: line {}: {words}\n", (self.0.numbered)(*at));
        let err: String = told.iter().map(line).collect();
        let out = format!("REFUSED\t{number}\n");
        Said { status: self.0.status, out: out.into_bytes(), err: err.into_bytes() }
    }

    /// What is said of a text.
    pub fn check(&self, text: &[u8]) -> Said {
        if text.len() > 65_536 {
            let err = b"overlay: the input has more than 65536 bytes\n".to_vec();
            return Said { err, ..self.refusal(13, &[]) };
        }
        let lines = match self.lines(text) {
            Err(bad) => return self.refusal(9, &[bad]),
            Ok(lines) => lines,
        };
        let (told, k, counts) = self.things(&lines);
        if !told.is_empty() {
            let mut said = self.refusal(10, &told[..(self.0.most)(told.len())]);
            if (self.0.more)(told.len()) {
                said.err.extend(b"overlay: more is wrong\n");
            }
            return said;
        }
        let n = (self.0.all)(&counts);
        Said { status: 0, out: format!("PLAN\t{k}\t{n}\n").into_bytes(), err: Vec::new() }
    }
}

/// The rule.
pub fn check(text: &[u8]) -> Said {
    ByWords(RIGHT).check(text)
}
