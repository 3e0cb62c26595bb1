//! Slips of the reader and of the writer.

use crate::overlay::{Overlay, Reading, Shape, Writing};
use crate::plan::slips::{beyond_old, grown_cells};
use crate::reference::{line_of, plan_fault, text_of, Line, REFERENCE};
use crate::slips::{Calls, Slip, RIGHT};

/// The fields of a line, and these put otherwise.
pub type Fields = Vec<Vec<u8>>;
pub type Put = fn(Fields) -> Fields;

/// A text with the fields of each LAYER line put otherwise.
pub fn with_layer_lines(text: &[u8], put: Put) -> Vec<u8> {
    let mut out = Vec::new();
    for line in text.split_inclusive(|&byte| byte == 10) {
        match line.strip_suffix(b"\n").filter(|line| line.starts_with(b"LAYER\t")) {
            Some(line) => {
                let fields = line.split(|&byte| byte == 9).map(<[u8]>::to_vec).collect();
                out.extend(put(fields).join(&9));
                out.push(10);
            }
            None => out.extend(line),
        }
    }
    out
}

/// The fields of a LAYER line with its margin replaced by another, where it is well formed.
pub fn with_margin(mut fields: Fields, other: fn(i64) -> i64) -> Fields {
    if let Some(Line::Layer(_, margin)) = line_of(&fields.join(&9)) {
        fields[2] = other(margin).to_string().into_bytes();
    }
    fields
}

/// The fields of a LAYER line with its two numbers exchanged.
fn margin_first(mut fields: Fields) -> Fields {
    if fields.len() == 3 {
        fields.swap(1, 2);
    }
    fields
}

/// The fields of a LAYER line with margin 0 where it has none.
fn margin_0(mut fields: Fields) -> Fields {
    fields.resize(fields.len().max(3), b"0".to_vec());
    fields
}

/// The margins that the LAYER lines of a text name.
fn margins_in(text: &[u8]) -> Vec<i64> {
    let lines = text.split(|&byte| byte == 10).filter_map(line_of);
    lines.filter_map(|line| if let Line::Layer(_, margin) = line { Some(margin) } else { None }).collect()
}

/// Writes the RECT lines of a refused text as far as they can be read.
fn write_early(text: &[u8], cells: &mut [i32]) {
    let rects = text.split(|&byte| byte == 10).map_while(line_of).filter_map(|line| match line {
        Line::Rect(rect) => Some(rect),
        _ => None,
    });
    for (cell, told) in cells.iter_mut().zip(rects.flatten()) {
        *cell = told as i32;
    }
}

/// A text in which every field -0 is 0.
fn without_minus_zero(text: &[u8]) -> Vec<u8> {
    let mut out = Vec::new();
    for part in text.split_inclusive(|&byte| byte == 9 || byte == 10) {
        let skip = usize::from(part.starts_with(b"-0\t") || part.starts_with(b"-0\n"));
        out.extend(&part[skip..]);
    }
    out
}

/// A text in which every number of so many digits has another in its place.
fn digits_cut(text: &[u8], count: usize, other: &[u8]) -> Vec<u8> {
    let mut out = Vec::new();
    for part in text.split_inclusive(|&byte| byte == 9 || byte == 10) {
        let digits = part.strip_prefix(b"-").unwrap_or(part);
        let many =
            digits.len() == count + 1 && digits[..count].iter().all(u8::is_ascii_digit) && digits[0] != b'0';
        let (number, end) = part.split_at(part.len() - 1);
        out.extend(if many { other } else { number });
        out.extend(end);
    }
    out
}

/// The cells that an accepted text filled.
fn filled(reading: &Reading) -> usize {
    4 * reading.shape.sizes.iter().sum::<u32>() as usize
}

/// The margins of a text that is refused by 10 or 11, told all the same.
fn refused_margins(text: &[u8], reading: Reading) -> Reading {
    let mut shape = reading.shape;
    if matches!(reading.number, 10 | 11) {
        let named = margins_in(text).into_iter().map(|margin| margin as u32);
        shape.margins.iter_mut().zip(named).for_each(|(cell, margin)| *cell = margin);
    }
    Reading { shape, ..reading }
}

/// A writer of another text, where it has room for it.
fn writes(shape: &Shape, cells: &[i32], text: &mut [u8], told: impl Fn() -> Vec<u8>) -> Writing {
    if plan_fault(shape, cells) == 0 {
        let told = told();
        if told.len() <= text.len() {
            text[..told.len()].copy_from_slice(&told);
            return Writing { number: 0, length: told.len() };
        }
    }
    REFERENCE.write(shape, cells, text)
}

/// An overlay that reads another text, or tells another thing of one.
macro_rules! reads {
    (|$text:ident| $other:expr) => {
        Calls { read: |rules, $text, cells| rules.read(&$other, cells), ..RIGHT }
    };
    (|$text:ident, $cells:ident, $reading:ident| $other:expr) => {
        Calls {
            read: |rules, $text, $cells| {
                let $reading = rules.read($text, $cells);
                $other
            },
            ..RIGHT
        }
    };
}

pub const SLIPS: &[Slip] = &[
    (reads!(|text| without_minus_zero(text)), "-0 accepted"),
    (reads!(|text| digits_cut(text, 9, b"99999999")), "a number of nine digits taken for one"),
    (reads!(|text| digits_cut(text, 8, b"x")), "a number of eight digits not well formed"),
    (
        reads!(|text| [text, if text.ends_with(b"\n") { b"" } else { &b"\n"[..] }].concat()),
        "a text accepted without its last line end",
    ),
    (reads!(|text| with_layer_lines(text, margin_first)), "the margin read as the size"),
    (reads!(|text| with_layer_lines(text, margin_0)), "a LAYER line without a margin read"),
    (
        reads!(|text| with_layer_lines(text, |fields| with_margin(fields, |m| m.min(50_000)))),
        "a margin above 50,000 in a text read as 50,000",
    ),
    (
        reads!(|text| with_layer_lines(text, |fields| with_margin(fields, i64::abs))),
        "the minus of a margin in a text passed over",
    ),
    (
        reads!(|text, cells, reading| {
            if reading.number != 0 {
                write_early(text, cells);
            }
            reading
        }),
        "cells written before a text is accepted",
    ),
    (
        reads!(|_text, cells, reading| {
            cells[..filled(&reading)].iter_mut().for_each(|cell| *cell = cell.abs());
            reading
        }),
        "a minus passed over",
    ),
    (
        reads!(|_text, cells, reading| {
            cells[filled(&reading)..]
                .iter_mut()
                .take(usize::from(reading.number == 0))
                .for_each(|cell| *cell = 0);
            reading
        }),
        "the reader writing past the first 4n cells",
    ),
    (
        reads!(|_text, cells, reading| match beyond_old(&cells[..filled(&reading)]) {
            true => Reading { number: 10, shape: Shape::NONE },
            false => reading,
        }),
        "texts of the old range alone",
    ),
    (
        reads!(|_text, _cells, reading| match reading.number {
            11 => Reading { shape: Shape { k: 2, ..reading.shape }, ..reading },
            _ => reading,
        }),
        "a refused reading telling a k",
    ),
    (reads!(|text, _cells, reading| refused_margins(text, reading)), "margins after a refused reading"),
    (
        reads!(|_text, _cells, reading| Reading {
            shape: Shape { margins: [0; 6], ..reading.shape },
            ..reading
        }),
        "a text read with margin 0",
    ),
    (
        reads!(|text, _cells, reading| {
            let out = margins_in(text).iter().any(|m| !(0..=50_000).contains(m));
            Reading { number: if reading.number == 10 && out { 9 } else { reading.number }, ..reading }
        }),
        "9 for a margin in a text that is out of range",
    ),
    (
        reads!(|text, _cells, reading| {
            let first = reading.number == 9 && text.starts_with(b"PLAN\t9\n");
            Reading { number: if first { 10 } else { reading.number }, ..reading }
        }),
        "10 given at the first fault of a text that is not well formed further on",
    ),
    (
        Calls {
            write: |_, s, c, text| writes(s, c, text, || text_of(&Shape { margins: [0; 6], ..*s }, c)),
            ..RIGHT
        },
        "a text written with margin 0",
    ),
    (
        Calls {
            write: |_, s, c, text| writes(s, c, text, || with_layer_lines(&text_of(s, c), margin_first)),
            ..RIGHT
        },
        "a text written with the margin before the size",
    ),
    (
        Calls { write: |_, s, c, text| writes(s, c, text, || text_of(s, &grown_cells(s, c))), ..RIGHT },
        "a text of the grown rectangles",
    ),
    (
        Calls {
            write: |rules, s, c, text| {
                let writing = rules.write(s, c, text);
                let early = if writing.number == 12 { 5 } else { 0 };
                text.iter_mut().zip(b"PLAN\t").take(early).for_each(|(cell, byte)| *cell = *byte);
                writing
            },
            ..RIGHT
        },
        "text written before refusal 12",
    ),
    (
        Calls {
            write: |rules, s, c, text| match rules.write(s, c, text) {
                Writing { number: 12, .. } => Writing { number: 12, length: text.len() + 1 },
                writing => writing,
            },
            ..RIGHT
        },
        "a refused writing telling a length",
    ),
];
