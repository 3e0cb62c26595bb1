//! Wrong reports; the comparison must catch every one.

use crate::overlay::{Overlay, Total};
use crate::reference::{intersection, kind_of, report, square_metres, Rules, REFERENCE};
use crate::row::slips::exchanged;
use crate::run::slips::summed;
use crate::text::slips::{with_layer_lines, with_margin};

/// A report as a function of its input.
pub type Report = fn(&[u8]) -> Vec<u8>;

/// Every wrong report with its description.
pub const SLIPS: [(Report, &str); 16] = [
    (rounded_rows, "each row's area rounded before summing"),
    (summed_rows, "a total of all areas, ground under two rows twice"),
    (short_work, "a work buffer of 6,144 cells lent, which does not suffice for every table"),
    (thirteen_last, "13 asked only of a good text"),
    (thirteen_at_limit, "13 at 65,536 bytes"),
    (cut_short, "a report cut short at 65,536 bytes"),
    (as_drawn, "a report of the rectangles as they are drawn"),
    (no_kinds, "ROW lines without their kind"),
    (kinds_first, "the kind of a row before its area"),
    (small_kinds, "kinds in small letters"),
    (exchanged_kinds, "ROW lines with E and P exchanged"),
    (first_pair_kinds, "ROW lines with the kind of their first two rectangles"),
    (open_kinds, "a report without the rows that only touch"),
    (carry_lost, "a rest rounded up to a whole metre lost"),
    (hundred_hundredths, "a hundred hundredths behind the point"),
    (rest_cut, "whole square metres alone"),
];

/// The report with each row's area rounded to hundredths of a square metre before summing.
fn rounded_rows(input: &[u8]) -> Vec<u8> {
    let text = String::from_utf8(report(input)).expect("a report is plain");
    let mut hundredths = 0;
    let mut out = String::new();
    for line in text.split_inclusive('\n') {
        let fields: Vec<&str> = line.trim_end().split('\t').collect();
        if fields[0] == "ROW" {
            let area: u128 = fields[fields.len() - 2].parse().expect("an area before the kind");
            hundredths += (area + 5_000) / 10_000;
        }
        if fields[0] == "TOTAL" {
            let metres = square_metres(Total::of(hundredths * 10_000));
            out += &format!("TOTAL\t{}\t{}\t{}\n", fields[1], fields[2], metres);
        } else {
            out += line;
        }
    }
    out.into_bytes()
}

/// The report whose metres do not know of the rounding of their rest.
fn carry_lost(input: &[u8]) -> Vec<u8> {
    let metres = |total: Total| format!("{}.{:02}", total.metres, (total.rest + 5_000) / 10_000 % 100);
    Rules { metres, ..REFERENCE }.report(input)
}

/// The report with 100 hundredths where a rest is rounded up.
fn hundred_hundredths(input: &[u8]) -> Vec<u8> {
    let metres = |total: Total| format!("{}.{:02}", total.metres, (total.rest + 5_000) / 10_000);
    Rules { metres, ..REFERENCE }.report(input)
}

/// The report of the metres alone.
fn rest_cut(input: &[u8]) -> Vec<u8> {
    Rules { metres: |total| format!("{}.00", total.metres), ..REFERENCE }.report(input)
}

/// The report with the sum of the rows' areas in its total.
fn summed_rows(input: &[u8]) -> Vec<u8> {
    Rules { union: summed, ..REFERENCE }.report(input)
}

/// The report that lends 6,144 cells of work: 12,288 are so many where a row needs four of them.
fn short_work(input: &[u8]) -> Vec<u8> {
    Rules { work: |rows, _, _| 4 * rows, ..REFERENCE }.report(input)
}

/// The report with each ROW line's fields put otherwise.
fn with_rows(input: &[u8], put: fn(Vec<String>) -> Vec<String>) -> Vec<u8> {
    let text = String::from_utf8(report(input)).expect("a report is plain");
    let line = |line: &str| {
        let fields: Vec<String> = line.split('\t').map(String::from).collect();
        if fields[0] == "ROW" { put(fields) } else { fields }.join("\t") + "\n"
    };
    text.lines().map(line).collect::<String>().into_bytes()
}

/// The report as it was before rows had kinds, but for its total.
fn no_kinds(input: &[u8]) -> Vec<u8> {
    with_rows(input, |mut fields| {
        fields.pop();
        fields
    })
}

/// The report with the last two fields of each ROW line exchanged.
fn kinds_first(input: &[u8]) -> Vec<u8> {
    with_rows(input, |mut fields| {
        let last = fields.len() - 1;
        fields.swap(last - 1, last);
        fields
    })
}

/// The report with g, e and p.
fn small_kinds(input: &[u8]) -> Vec<u8> {
    with_rows(input, |mut fields| {
        let kind = fields.pop().unwrap_or_default();
        fields.push(kind.to_lowercase());
        fields
    })
}

/// The report with E and P exchanged.
fn exchanged_kinds(input: &[u8]) -> Vec<u8> {
    Rules { kind: exchanged, ..REFERENCE }.report(input)
}

/// The report with the kind of the first two rectangles of each row.
fn first_pair_kinds(input: &[u8]) -> Vec<u8> {
    Rules { kind: |rects| kind_of(intersection(rects[0], rects[1])), ..REFERENCE }.report(input)
}

/// The report with G lines alone.
fn open_kinds(input: &[u8]) -> Vec<u8> {
    let text = String::from_utf8(report(input)).expect("a report is plain");
    let lines =
        text.split_inclusive('\n').filter(|line| !line.ends_with("\tE\n") && !line.ends_with("\tP\n"));
    lines.collect::<String>().into_bytes()
}

/// The report that reads a text before it asks for its length.
fn thirteen_last(input: &[u8]) -> Vec<u8> {
    let reading = REFERENCE.read(input, &mut [0; 12_288]);
    if reading.number != 0 {
        format!("REFUSED\t{}\n", reading.number).into_bytes()
    } else {
        report(input)
    }
}

/// The report that refuses its longest input.
fn thirteen_at_limit(input: &[u8]) -> Vec<u8> {
    if input.len() >= 65_536 {
        b"REFUSED\t13\n".to_vec()
    } else {
        report(input)
    }
}

/// The report as far as a buffer of 65,536 bytes takes it.
fn cut_short(input: &[u8]) -> Vec<u8> {
    let mut printed = report(input);
    printed.truncate(65_536);
    printed
}

/// The report of an accepted plan with all margins 0.
fn as_drawn(input: &[u8]) -> Vec<u8> {
    let read = REFERENCE.read(input, &mut [0; 12_288]).number == 0 && input.len() <= 65_536;
    if read {
        report(&with_layer_lines(input, |fields| with_margin(fields, |_| 0)))
    } else {
        report(input)
    }
}
