//! Compares two commands `check` over many texts.

use super::{Check, Said};
use crate::compare::Difference;
use crate::reports::inputs;
use crate::seeds::{spell, text, Seeds, STYLES};

/// How many texts are drawn.
const DRAWN: u64 = 6_000;

/// Where the seeds start.
const SEED: u64 = 0xA076_1D64_78BD_642F;

/// What is put into a text to spoil it.
const SPOILING: [&[u8]; 16] = [
    b" ",
    b"\r",
    b"\n",
    b"+",
    b".",
    b"0",
    b"9",
    b"\t",
    b"-",
    b"x",
    b"\xef\xbb\xbf",
    b"123456789",
    b"PLAN\t2\n",
    b"RECT\t1\t2\n",
    b"LAYER\t5\n",
    b"LAYER\t1\t2\n",
];

/// A text with one thing put in, taken out, or put in another's place.
fn spoilt(seeds: &mut Seeds, mut text: Vec<u8>) -> Vec<u8> {
    let at = seeds.below(text.len() as u64 + 1) as usize;
    match seeds.below(8) {
        0..=3 => {
            let bytes = seeds.pick(&SPOILING);
            text.splice(at..at, bytes.iter().copied());
        }
        4 | 5 if at < text.len() => {
            text.remove(at);
        }
        6 if at < text.len() => text[at] = seeds.below(256) as u8,
        _ => text.truncate(at),
    }
    text
}

/// The text with one number replaced.
fn misnumbered(seeds: &mut Seeds, text: Vec<u8>) -> Vec<u8> {
    let tabs: Vec<usize> = (0..text.len()).filter(|&i| text[i] == 9).collect();
    let from = seeds.pick(&tabs) + 1;
    let to = from + text[from..].iter().position(|&byte| byte == 9 || byte == 10).unwrap_or(0);
    let number =
        seeds.pick(&["0", "-1", "1", "3", "7", "513", "50001", "10000001", "-10000001", "99999999", "-0"]);
    [&text[..from], number.as_bytes(), &text[to..]].concat()
}

/// The text with one line twice, or without it.
fn miscounted(seeds: &mut Seeds, text: Vec<u8>) -> Vec<u8> {
    let lines: Vec<&[u8]> = text.split_inclusive(|&byte| byte == 10).collect();
    let at = seeds.below(lines.len() as u64) as usize;
    let times = seeds.pick(&[0, 2, 3]);
    let mut changed = lines[..at].to_vec();
    changed.extend(std::iter::repeat(lines[at]).take(times));
    changed.extend(&lines[at + 1..]);
    changed.concat()
}

/// Every text of the comparison.
fn texts() -> Vec<Vec<u8>> {
    let mut all = inputs();
    let wrong = [
        "",
        "/",
        "PLAN,2",
        "PLAN,2/LAYER,0",
        "PLAN,1/LAYER,0,0/",
        "PLAN,3/LAYER,0,0/LAYER,0,0/",
        "PLAN,7/LAYER,2,60000/RECT,3,0,1,1/",
        "PLAN,2/RECT,0,0,1,1/LAYER,0,0/LAYER,0,0/",
        "PLAN,-2/",
        "PLAN,02/",
        "PLAN,2/LAYER,1,0/LAYER,1,0/",
        "PLAN,2/PLAN,2/",
        "LAYER,0,0/PLAN,2/",
        "PLAN,2/ZONE 1,0/",
        "PLAN,2/LAYER 1,0/",
        "PLAN,2/ LAYER,1,0/",
        "PLAN,2/LAYER,/",
        "PLAN,2/LAYER,x/",
        "PLAN,2/LAYER,5/",
        "PLAN,2/LAYER,0,0/LAYER,1,0/RECT,20000000,6,5,5/",
        "PLAN,99999999/",
        "PLAN,2/LAYER,99999999,0,1/",
    ];
    all.extend(wrong.map(spell));
    all.push(spell(&format!("PLAN,2/{}", "RECT,2,0,1,1/".repeat(100))));
    let mut seeds = Seeds(SEED);
    for round in 0..DRAWN {
        let plan = seeds.plan(2 + (round % 5) as usize, (round / 5) % STYLES);
        let plan = if round % 2 == 1 { seeds.with_margins(plan) } else { plan };
        let mut drawn = text(&plan);
        for _ in 0..seeds.below(3) {
            drawn = miscounted(&mut seeds, drawn);
            if drawn.contains(&9) {
                drawn = misnumbered(&mut seeds, drawn);
            }
        }
        if seeds.once_in(2) {
            drawn = spoilt(&mut seeds, drawn);
        }
        all.push(drawn);
    }
    all
}

/// Compares two commands over many texts; returns how many cases were compared.
pub fn compare_checks(left: Check, right: Check) -> Result<u64, Difference> {
    let mut cases = 0;
    for input in texts() {
        cases += 1;
        let (ours, theirs) = (left(&input), right(&input));
        if ours != theirs {
            let show = |said: &Said| {
                let (out, err) = (said.out.escape_ascii(), said.err.escape_ascii());
                format!("{} \"{out}\" \"{err}\"", said.status)
            };
            let input = input.escape_ascii();
            let (left, right) = (show(&ours), show(&theirs));
            let text = format!("DIFFERENCE in check\ninput: \"{input}\"\nleft:  {left}\nright: {right}\n");
            return Err(Difference { cases, kind: "checks", text });
        }
    }
    Ok(cases)
}
