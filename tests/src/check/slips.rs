//! Slips of the command `check`.

use super::{Slip, RIGHT};

/// Every slip with its name.
pub const SLIPS: [(Slip, &str); 16] = [
    (Slip { numbered: |number| number - 1, ..RIGHT }, "lines counted from 0"),
    (Slip { named: |things| things.last(), ..RIGHT }, "the last line that is not well formed named"),
    (Slip { returned: |_| false, ..RIGHT }, "a carriage return not told"),
    (Slip { placed: |plan, at| plan || at > 0, ..RIGHT }, "a second PLAN line taken"),
    (
        Slip { body: |line| line.strip_suffix(b"\n").or(Some(line)), ..RIGHT },
        "a last line without its end taken",
    ),
    (Slip { spaced: |line, _| line.contains(&b' '), ..RIGHT }, "a space told before an unknown word"),
    (Slip { digits: 8, ..RIGHT }, "eight digits told as too many"),
    (Slip { minus_zero: |_| false, ..RIGHT }, "-0 not told as a leading zero"),
    (Slip { surplus: |came, due| came > due, ..RIGHT }, "each RECT line too many told"),
    (Slip { short_last: |_, _| false, ..RIGHT }, "the last layer not counted"),
    (Slip { most: |_| 1, more: |things| things > 1, ..RIGHT }, "the first thing told alone"),
    (Slip { most: |things| things, more: |_| false, ..RIGHT }, "more than 64 things told"),
    (Slip { more: |_| false, ..RIGHT }, "no last line where more is wrong"),
    (Slip { short: |_, read| read, ..RIGHT }, "a short layer told at the next line"),
    (Slip { status: 0, ..RIGHT }, "status 0 after a refusal"),
    (
        Slip { all: |counts| counts.iter().max().copied().unwrap_or(0), ..RIGHT },
        "the largest layer told for all rectangles",
    ),
];
