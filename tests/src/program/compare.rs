//! Compares two programs `overlay` over many arguments and texts.

use super::{Answer, Asked, Program};
use crate::call::Plan;
use crate::compare::Difference;
use crate::crossings;
use crate::hours::{windows_for, WINDOW_STYLES};
use crate::reports::inputs;
use crate::seeds::{equal_plan, spell, text, Seeds, STYLES};
use crate::surveys::surveys;

/// How many plans are drawn.
const DRAWN: u64 = 400;

/// Where the seeds start.
const SEED: u64 = 0xD1B5_4A32_D192_ED03;

/// Words of arguments: commands, numbers well spelled and not, names.
const WORDS: [&str; 37] = [
    "report",
    "check",
    "pairs",
    "nearest",
    "apart",
    "classes",
    "hours",
    "cover",
    "picture",
    "help",
    "version",
    "Report",
    "rows",
    "",
    "0",
    "1",
    "2",
    "3",
    "6",
    "7",
    "-1",
    "-0",
    "04",
    "+1",
    "1.5",
    "-",
    "--",
    "10000000",
    "10000001",
    "99999999",
    "-99999999",
    "123456789",
    "a",
    "file.plan",
    "1a",
    " 1",
    "-h",
];

/// Asks for words parted by spaces.
fn asked(line: &str, text: &[u8], second: &[u8]) -> Asked {
    let words = line.split(' ').filter(|word| !word.is_empty());
    Asked {
        words: words.map(|word| word.as_bytes().to_vec()).collect(),
        text: text.to_vec(),
        second: second.to_vec(),
    }
}

/// A windows text.
fn spelt(hours: &[u32]) -> Vec<u8> {
    hours.chunks(2).flat_map(|pair| format!("WINDOW\t{}\t{}\n", pair[0], pair[1]).into_bytes()).collect()
}

/// A windows text with one thing wrong, at times.
fn other_windows(seeds: &mut Seeds, mut text: Vec<u8>) -> Vec<u8> {
    let at = seeds.below(text.len() as u64 + 1) as usize;
    match seeds.below(7) {
        0 => text.truncate(at),
        1 => text.extend(b"WINDOW\t0\t1\n"),
        2 => text.push(b'\n'),
        3 if at < text.len() => drop(text.remove(at)),
        4 => {
            let bytes = seeds.pick(&[
                &b"\r"[..],
                b" ",
                b"\t",
                b"0",
                b"-",
                b"+",
                b".",
                b"9999",
                b"\n",
                b"WINDOW\t5\t5\n",
                b"WINDOW 1 2\n",
                b"x",
                b"\xef\xbb\xbf",
                b"123456789",
                b"WINDOW\t0\t10081\n",
            ]);
            text.splice(at..at, bytes.iter().copied());
        }
        _ => {}
    }
    text
}

/// A number as a stop or a corner: near 0, far, or none.
fn stop(seeds: &mut Seeds) -> String {
    match seeds.below(4) {
        0 => "-".into(),
        1 => seeds.between(-10_000_001, 10_000_001).to_string(),
        _ => seeds.between(-12, 12).to_string(),
    }
}

/// What is asked of a plan: each command, with drawn numbers.
fn of_plan(seeds: &mut Seeds, plan: &Plan, all: &mut Vec<Asked>) {
    let (k, spelled) = (plan.shape.k as usize, text(plan));
    let mut say = |line: &str, second: &[u8]| all.push(asked(line, &spelled, second));
    for line in ["report", "check a.plan", "pairs", "classes", "picture"] {
        say(line, b"");
    }
    say(&format!("pairs {}", seeds.between(-1, 7)), b"");
    let (left, bottom) = (seeds.between(-40, 40), seeds.between(-40, 40));
    let (right, top) = (left + seeds.between(-1, 30), bottom + seeds.between(0, 30));
    say(&format!("nearest {left} {bottom} {right} {top} 7"), b"");
    say(&format!("nearest {left} {bottom} - {top}"), b"");
    let places: Vec<String> =
        plan.shape.sizes[..k].iter().map(|&size| seeds.between(0, size as i32).to_string()).collect();
    say(&format!("apart {}", places.join(" ")), b"");
    say(&format!("apart {} {}", places[..k - 1].join(" "), seeds.between(-2, 1)), b"");
    let style = seeds.below(WINDOW_STYLES);
    let hours = spelt(&windows_for(seeds, plan.cells.len() / 4, style));
    say("hours w", &hours);
    let other = other_windows(seeds, hours);
    say("hours w a.plan", &other);
}

/// The bytes of corners.
fn bytes_of(corners: &[f64]) -> Vec<u8> {
    corners.iter().flat_map(|corner| corner.to_le_bytes()).collect()
}

/// All that is asked.
fn all_asked() -> Vec<Asked> {
    let mut all = Vec::new();
    let mut seeds = Seeds(SEED);
    let sound = spell("PLAN,2/LAYER,1,0/RECT,0,0,9,9/LAYER,2,5/RECT,1,1,2,2/RECT,20,0,30,9/");
    let windows = spelt(&[0, 600, 60, 660, 0, 10_080]);
    for word in WORDS {
        all.extend([asked(word, &sound, &windows), asked(&format!("help {word}"), &sound, &windows)]);
    }
    for line in [
        "apart 0 0 0 0 0 0 0",
        "apart 0 0 0 0 0 0 7",
        "apart 0 1 7",
        "cover 1 2 3",
        "cover - - - - -",
        "pairs 1 7",
        "version -",
        "hours a b c",
    ] {
        all.push(asked(line, &sound, &windows));
    }
    for _ in 0..20 * DRAWN {
        let mut words = vec![seeds.pick(&WORDS[..11])];
        words.extend((0..seeds.below(8)).map(|_| seeds.pick(&WORDS)));
        let mut drawn = asked("", &sound, &windows);
        drawn.words = words.iter().map(|word| word.as_bytes().to_vec()).collect();
        all.push(drawn);
    }
    for round in 0..DRAWN {
        let plan = seeds.plan(2 + (round % 5) as usize, (round / 5) % STYLES);
        let plan = if round % 2 == 1 { seeds.with_margins(plan) } else { plan };
        of_plan(&mut seeds, &plan, &mut all);
        let crossing = crossings::compare::drawn(&mut seeds, 3 + (round % 4) as usize);
        all.push(asked("classes", &text(&crossing), b""));
    }
    // More rows than the report's table takes, texts that are none, and texts that are too long.
    let many = text(&equal_plan(&[80, 80], [0, 0, 1, 1]));
    for line in ["pairs", "pairs 2", "hours w", "classes", "report", "picture"] {
        all.push(asked(line, &many, &spelt(&[0, 1].repeat(160))));
    }
    for input in inputs().iter().filter(|input| input.len() < 60 || input.len() > 65_500).take(12) {
        for line in [
            "report",
            "check",
            "pairs",
            "nearest 0 0 1 1",
            "apart 0 0",
            "classes",
            "hours w",
            "cover - - - -",
            "picture",
        ] {
            all.push(asked(line, input, &windows));
        }
    }
    for survey in surveys().iter().filter(|survey| survey.corners.len() <= 8_193).step_by(25) {
        let mut records = bytes_of(&survey.corners);
        if seeds.once_in(8) {
            records.truncate(records.len().saturating_sub(1 + seeds.below(8) as usize));
        }
        let stops: Vec<String> = (0..4).map(|_| stop(&mut seeds)).collect();
        all.push(asked(&format!("cover {}", stops.join(" ")), &records, b""));
    }
    all
}

/// Compares two programs; returns how many cases were compared.
pub fn compare_programs(left: Program, right: Program) -> Result<u64, Difference> {
    let mut cases = 0;
    for asked in all_asked() {
        cases += 1;
        let (ours, theirs) = (left(&asked), right(&asked));
        if ours != theirs {
            let words: Vec<String> = asked.words.iter().map(|word| word.escape_ascii().to_string()).collect();
            let show = |answer: &Answer| {
                let (said, text, second) = answer;
                format!(
                    "{} {text} {second} \"{}\" \"{}\"",
                    said.status,
                    said.out.escape_ascii(),
                    said.err.escape_ascii()
                )
            };
            let (input, second) = (asked.text.escape_ascii(), asked.second.escape_ascii());
            let shown = format!(
                "text: \"{input}\"\nsecond: \"{second}\"\nleft:  {}\nright: {}\n",
                show(&ours),
                show(&theirs)
            );
            let text = format!("DIFFERENCE in the program\narguments: {words:?}\n{shown}");
            return Err(Difference { cases, kind: "program", text });
        }
    }
    Ok(cases)
}
