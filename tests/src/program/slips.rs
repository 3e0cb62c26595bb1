//! Slips of the program.

use super::{float_of, plan_in, whole_root, Asked, ByWords, Slip, COMMANDS, RIGHT};
use crate::check::Said;

/// Every slip with its name.
pub const SLIPS: [(Slip, &str); 22] = [
    (Slip { dash: |_| true, ..RIGHT }, "- taken for any number"),
    (Slip { stop: |stop| stop.or(Some(0)), ..RIGHT }, "a stop that is not given taken for 0"),
    (Slip { axes: |stops| stops, ..RIGHT }, "stops in the order left, right, bottom, top"),
    (
        Slip { corners: |bytes| (RIGHT.corners)(&bytes[..bytes.len() / 8 * 8]), ..RIGHT },
        "bytes behind the last float ignored",
    ),
    (
        Slip {
            corners: |bytes| bytes.chunks(8).map(|float| float_of(float, f64::from_be_bytes)).collect(),
            ..RIGHT
        },
        "floats with the big end first",
    ),
    (Slip { layer: |layer| layer.filter(|&n| n != 0), ..RIGHT }, "pairs 0 tells all pairs"),
    (Slip { numbered: |at| at, ..RIGHT }, "pairs counts layers from 0"),
    (
        Slip { paired: |lower, _| lower, ..RIGHT },
        "pairs LAYER tells the pairs in which it is the lower alone",
    ),
    (Slip { root: nearest_root, ..RIGHT }, "a gap rounded to the nearest hundredth"),
    (Slip { none: |_| String::new(), ..RIGHT }, "an empty layer not told"),
    (Slip { counted: |_| true, ..RIGHT }, "classes without rows told"),
    (Slip { row_with: before_kind, ..RIGHT }, "the class before the kind"),
    (Slip { behind: |last| last, ..RIGHT }, "the last shared minute in place of the first after them"),
    (Slip { hours: windows_first, ..RIGHT }, "the windows text judged before the plan text"),
    (Slip { beyond: |_| None, ..RIGHT }, "windows too many passed"),
    (Slip { returned: |_| false, ..RIGHT }, "a carriage return of a windows text not told"),
    (Slip { open: |_| false, ..RIGHT }, "a missing line end of a windows text not told"),
    (Slip { looked_at: |_| 7, ..RIGHT }, "a name that is a number not taken"),
    (Slip { named: |numbers, _| 2 + numbers, ..RIGHT }, "the text read from the first name"),
    (Slip { misused: 1, ..RIGHT }, "status 1 for wrong arguments"),
    (
        Slip { helped: |command| command.or(Some(COMMANDS.len())), ..RIGHT },
        "help of a word that is no command's",
    ),
    (Slip { most: |most| if most == 6 { 7 } else { most }, ..RIGHT }, "seven places taken"),
];

/// The whole number nearest to a root.
fn nearest_root(square: u128) -> u128 {
    let root = whole_root(square);
    root + u128::from(square > root * root + root)
}

/// A row's line with more before its last field.
fn before_kind(line: &str, more: &str) -> String {
    let (front, last) = line.rsplit_once('\t').expect("a row's line has fields");
    format!("{front}\t{more}\t{last}\n")
}

/// What `hours` says where its windows text is judged first.
fn windows_first(words: &ByWords, asked: &Asked) -> Said {
    let rects = plan_in(&asked.text).map_or(0, |plan| plan.cells.len() / 4);
    words.windows(rects, &asked.second).map_or_else(|wrong| wrong, |_| (RIGHT.hours)(words, asked))
}
