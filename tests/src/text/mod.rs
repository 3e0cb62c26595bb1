//! The reader and the writer.

pub mod compare;
pub mod slips;

use crate::overlay::{Reading, Shape};
use crate::plan::plan_fault;

/// A line of a well formed text.
#[derive(Clone, Copy, Debug, PartialEq, Eq)]
pub enum Line {
    Plan(i64),
    Layer(i64, i64),
    Rect([i64; 4]),
}

/// "A number is 0, or an optional minus, a digit 1 to 9 and up to .. digits more"; "a number in a text may have eight digits".
pub fn number_of(field: &[u8]) -> Option<i64> {
    if field == b"0" {
        return Some(0);
    }
    let (sign, digits) = match field.strip_prefix(b"-") {
        Some(rest) => (-1, rest),
        None => (1, field),
    };
    let first = (b'1'..=b'9').contains(digits.first()?);
    let spelled = first && digits.len() <= 8 && digits.iter().all(u8::is_ascii_digit);
    spelled.then(|| sign * digits.iter().fold(0, |sum, digit| sum * 10 + i64::from(digit - b'0')))
}

/// One line without its byte 10, "fields parted by byte 9".
pub fn line_of(line: &[u8]) -> Option<Line> {
    let fields: Vec<&[u8]> = line.split(|&byte| byte == 9).collect();
    let word = fields[0];
    let numbers: Option<Vec<i64>> = fields[1..].iter().map(|field| number_of(field)).collect();
    match (word, numbers?.as_slice()) {
        (b"PLAN", &[k]) => Some(Line::Plan(k)),
        (b"LAYER", &[size, margin]) => Some(Line::Layer(size, margin)),
        (b"RECT", &[left, bottom, right, top]) => Some(Line::Rect([left, bottom, right, top])),
        _ => None,
    }
}

/// "well formed when it is a PLAN line followed by any LAYER and RECT lines so spelled".
pub fn lines_of(text: &[u8]) -> Option<Vec<Line>> {
    let body = text.strip_suffix(b"\n")?;
    let lines: Option<Vec<Line>> = body.split(|&byte| byte == 10).map(line_of).collect();
    let lines = lines?;
    let is_plan = |line: &Line| matches!(line, Line::Plan(_));
    (is_plan(&lines[0]) && !lines[1..].iter().any(is_plan)).then_some(lines)
}

/// The plan of a well formed text, or nothing where number 10 applies.
pub fn plan_of(lines: &[Line]) -> Option<(Shape, Vec<i32>)> {
    let mut k = 0;
    let mut layers: Vec<(i64, i64, Vec<[i64; 4]>)> = Vec::new();
    for line in lines {
        match *line {
            Line::Plan(told) => k = told,
            Line::Layer(size, margin) => layers.push((size, margin, Vec::new())),
            Line::Rect(rect) => layers.last_mut()?.2.push(rect),
        }
    }
    let counted =
        layers.len() as i64 == k && layers.iter().all(|(size, _, rects)| rects.len() as i64 == *size);
    if !counted || !(2..=6).contains(&k) {
        return None;
    }
    let mut shape = Shape { k: k as u32, ..Shape::NONE };
    for (j, (_, margin, rects)) in layers.iter().enumerate() {
        shape.sizes[j] = rects.len() as u32;
        shape.margins[j] = u32::try_from(*margin).ok()?;
    }
    let cells: Vec<i32> =
        layers.iter().flat_map(|(_, _, rects)| rects.iter().flatten().map(|&c| c as i32)).collect();
    (plan_fault(&shape, &cells) == 0).then_some((shape, cells))
}

/// "the one text of a plan".
pub fn text_of(shape: &Shape, cells: &[i32]) -> Vec<u8> {
    let mut text = format!("PLAN\t{}\n", shape.k);
    let mut rects = cells.chunks(4);
    for (size, margin) in shape.sizes.iter().zip(shape.margins).take(shape.k as usize) {
        text += &format!("LAYER\t{size}\t{margin}\n");
        for rect in rects.by_ref().take(*size as usize) {
            text += &format!("RECT\t{}\t{}\t{}\t{}\n", rect[0], rect[1], rect[2], rect[3]);
        }
    }
    text.into_bytes()
}

/// A refused reading.
pub fn refused_reading(number: u32) -> Reading {
    Reading { number, shape: Shape::NONE }
}
