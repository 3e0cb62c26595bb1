//! The comparison: texts that are read and written.

use crate::call::{bytes, cells_i32, Call, Plan};
use crate::compare::{Bench, Outcome};
use crate::seeds::{grown_by, plan_d, spell, text};

/// Bytes that a damaged text is likely to hold.
pub const USUAL: &[u8] = &[
    b'\t', b'\n', b'\r', b' ', b'-', b'+', b'.', b'0', b'1', b'2', b'9', b'P', b'L', b'R', b'T', b'p', b',',
    b'/', b':', 0, 11, 127, 128, 0xC3, 255,
];

/// Numbers put in the place of every number of a small text.
pub const NUMBERS: &[&str] = &[
    "",
    "0",
    "-0",
    "00",
    "07",
    "-07",
    "-",
    "--1",
    "+1",
    "1",
    "-1",
    "2",
    "3",
    "6",
    "7",
    "9",
    "10",
    "512",
    "513",
    "49999",
    "50000",
    "50001",
    "-50000",
    "999999",
    "1000000",
    "1000001",
    "-1000000",
    "-1000001",
    "9999999",
    "-9999999",
    "10000000",
    "10000001",
    "-10000000",
    "-10000001",
    "12345678",
    "99999999",
    "-99999999",
    "100000000",
    "-100000000",
    "123456789",
    "01000000",
    "010000000",
    "4294967296",
    "4294967298",
    "18446744073709551618",
    "1-",
    "1 ",
    " 1",
    "1.0",
    "1e3",
    "0x1",
    "1,",
    ",1",
    "1,2",
    "1/",
    "-1,",
    "\u{661}",
    "\u{ff11}",
];

/// Whole texts in which the comma stands for the tab and the slash for the line end.
pub const TEXTS: &[&str] = &[
    "",
    "/",
    "//",
    ",",
    "PLAN",
    "PLAN/",
    "PLAN,/",
    "PLAN,2",
    "PLAN,2/",
    "PLAN,2,/",
    "PLAN,2,2/",
    "PLAN 2/",
    "plan,2/",
    "PLANE,2/",
    "PLAN,,2/",
    ",PLAN,2/",
    " PLAN,2/",
    "PLAN,2 /",
    "PLAN,0/",
    "PLAN,1/LAYER,0,0/",
    "PLAN,-2/",
    "PLAN,-2/LAYER,0,0/LAYER,0,0/",
    "PLAN,9999999/",
    "PLAN,10000000/",
    "PLAN,99999999/",
    "PLAN,100000000/",
    "PLAN,2/LAYER,0,0/",
    "PLAN,2/LAYER,0,0/LAYER,0,0/",
    "PLAN,2/LAYER,0,0/LAYER,0,0",
    "PLAN,2/LAYER,0,0/LAYER,0,0//",
    "PLAN,2//LAYER,0,0/LAYER,0,0/",
    "/PLAN,2/LAYER,0,0/LAYER,0,0/",
    "PLAN,2/LAYER,0,0/LAYER,0,0/LAYER,0,0/",
    "PLAN,2/LAYER,0,0/LAYER,0,0/PLAN,2/",
    "PLAN,2/PLAN,2/LAYER,0,0/LAYER,0,0/",
    "LAYER,0,0/PLAN,2/LAYER,0,0/",
    "LAYER,0,0/LAYER,0,0/",
    "PLAN,2/LAYER,0,0/LAYER,0,0/PLAN,2/LAYER,0,0/LAYER,0,0/",
    "PLAN,2\r/LAYER,0,0/LAYER,0,0/",
    "PLAN,2/LAYER,0,0/LAYER,0,0\r/",
    "PLAN,2\rLAYER,0,0\rLAYER,0,0\r",
    "PLAN,2/LAYER,0,0/LAYER,0,0/ ",
    "PLAN,2/LAYER,0,0/LAYER,0,0/\u{0}",
    "\u{feff}PLAN,2/LAYER,0,0/LAYER,0,0/",
    "PLAN,2/LAYER,-1,0/LAYER,0,0/",
    "PLAN,2/LAYER,513,0/LAYER,0,0/",
    "PLAN,2/LAYER,1,0/LAYER,0,0/",
    "PLAN,2/LAYER/LAYER,0,0/",
    "PLAN,2/LAYER,0,0,0/LAYER,0,0/",
    "PLAN,2/LAYER,0,0/LAYER,0,0/RECT,0,0,0,0/",
    "PLAN,2/RECT,0,0,0,0/LAYER,0,0/LAYER,0,0/",
    "PLAN,2/RECT,0,0,0,0/LAYER,1,0/LAYER,0,0/",
    "PLAN,2/RECT,0,0,0,0/",
    "RECT,0,0,0,0/",
    "PLAN,2/LAYER,1,0/RECT,0,0,0,0/LAYER,0,0/",
    "PLAN,2/LAYER,1,0/RECT,0,0,0/LAYER,0,0/",
    "PLAN,2/LAYER,1,0/RECT,0,0,0,0,0/LAYER,0,0/",
    "PLAN,2/LAYER,1,0/RECT,0,0,0,0,/LAYER,0,0/",
    "PLAN,2/LAYER,1,0/RECT,,0,0,0,0/LAYER,0,0/",
    "PLAN,2/LAYER,1,0/RECT,0,0,0,0/RECT,0,0,0,0/LAYER,0,0/",
    "PLAN,2/LAYER,2,0/RECT,0,0,0,0/LAYER,0,0/RECT,0,0,0,0/",
    "PLAN,2/LAYER,0,0/LAYER,1,0/RECT,0,0,0,0/",
    "PLAN,2/LAYER,1,0/RECT,1,0,0,0/LAYER,0,0/",
    "PLAN,2/LAYER,1,0/RECT,0,1,0,0/LAYER,0,0/",
    "PLAN,2/LAYER,1,0/RECT,0,0,1000001,0/LAYER,0,0/",
    "PLAN,2/LAYER,1,0/RECT,-1000001,0,0,0/LAYER,0,0/",
    "PLAN,2/LAYER,1,0/RECT,-1000000,-1000000,1000000,1000000/LAYER,0,0/",
    "PLAN,2/LAYER,1,0/RECT,0,0,10000001,0/LAYER,0,0/",
    "PLAN,2/LAYER,1,0/RECT,-10000001,0,0,0/LAYER,0,0/",
    "PLAN,2/LAYER,1,0/RECT,0,0,100000000,0/LAYER,0,0/",
    "PLAN,2/LAYER,1,0/RECT,-10000000,-10000000,10000000,10000000/LAYER,0,0/",
    "PLAN,3/LAYER,0,0/LAYER,0,0/",
    "PLAN,3/LAYER,0,0/LAYER,0,0/LAYER,0,0/",
    "PLAN,6/LAYER,0,0/LAYER,0,0/LAYER,0,0/LAYER,0,0/LAYER,0,0/LAYER,0,0/",
    "PLAN,7/LAYER,0,0/LAYER,0,0/LAYER,0,0/LAYER,0,0/LAYER,0,0/LAYER,0,0/LAYER,0,0/",
    "PLAN,2/LAYER,9999999,0/LAYER,0,0/x",
    "PLAN,2/LAYER,99999999,0/LAYER,0,0/x",
    "PLAN,9/x/",
    "PLAN,9/LAYER,0,0/RECT,1,1,0,0/LAYER,00,0/",
    "PLAN,2/LAYER,0,0/LAYER,0,0/LAYER,0,0/RECT",
    "RECT,0,0,0,0/LAYER,1,0/PLAN,2/",
    "PLAN,\u{e9}/",
    "PLAN,2/LAYER,0,0/LAYER,0,0/\u{e9}",
    "PLAN,2/LAYER,0,0/LAYER,0,0/# done/",
    "PLAN,2/LAYERS,0,0/LAYER,0,0/",
    "PLAN,2/LAYE,0,0/LAYER,0,0/",
    "PLAN,2/LAYER,1,0/RECTS,0,0,0,0/LAYER,0,0/",
    "PLAN,2/LAYER,1,0/REC,0,0,0,0/LAYER,0,0/",
    "PLAN,2/LAYER,1,0/rect,0,0,0,0/LAYER,0,0/",
    "PLAN,2/LAYER,0/LAYER,0/",
    "PLAN,2/LAYER,0,0/LAYER,0/",
    "PLAN,2/LAYER,0/LAYER,0,0/",
    "PLAN,2/LAYER,1/RECT,0,0,0,0/LAYER,0/",
    "PLAN,2/LAYER,0,/LAYER,0,0/",
    "PLAN,2/LAYER,,0/LAYER,0,0/",
    "PLAN,2/LAYER,0,,0/LAYER,0,0/",
    "PLAN,2/LAYER,0,0,/LAYER,0,0/",
    "PLAN,2/LAYER,0 0/LAYER,0,0/",
    "PLAN,2/LAYER,0,-0/LAYER,0,0/",
    "PLAN,2/LAYER,0,00/LAYER,0,0/",
    "PLAN,2/LAYER,0,0500/LAYER,0,0/",
    "PLAN,2/LAYER,0,+1/LAYER,0,0/",
    "PLAN,2/LAYER,0,1/LAYER,0,0/",
    "PLAN,2/LAYER,1,0/LAYER,0,1/",
    "PLAN,2/LAYER,0,1/RECT,0,0,0,0/LAYER,0,0/",
    "PLAN,2/LAYER,1,2/RECT,0,0,0,0/LAYER,0,50000/",
    "PLAN,2/LAYER,1,50000/RECT,-1000000,-1000000,1000000,1000000/LAYER,1,50000/RECT,0,0,0,0/",
    "PLAN,2/LAYER,1,50000/RECT,-1000001,0,0,0/LAYER,0,0/",
    "PLAN,2/LAYER,1,50000/RECT,-10000000,-10000000,10000000,10000000/LAYER,1,50000/RECT,0,0,0,0/",
    "PLAN,2/LAYER,1,50000/RECT,-10000001,0,0,0/LAYER,0,0/",
    "PLAN,2/LAYER,1,1/RECT,1,0,0,0/LAYER,0,0/",
    "PLAN,2/LAYER,1,49999/RECT,0,0,0,0/LAYER,0,49999/",
    "PLAN,2/LAYER,1,50001/RECT,0,0,0,0/LAYER,0,0/",
    "PLAN,2/LAYER,1,0/RECT,0,0,0,0/LAYER,0,50001/",
    "PLAN,2/LAYER,1,-1/RECT,0,0,0,0/LAYER,0,0/",
    "PLAN,2/LAYER,0,0/LAYER,0,-50000/",
    "PLAN,2/LAYER,0,-9999999/LAYER,0,9999999/",
    "PLAN,2/LAYER,0,10000000/LAYER,0,0/",
    "PLAN,2/LAYER,0,-99999999/LAYER,0,99999999/",
    "PLAN,2/LAYER,0,100000000/LAYER,0,0/",
    "PLAN,2/LAYER,0,-1/LAYER,0,0",
    "PLAN,2/LAYER,0,50001/LAYER,0/",
    "PLAN,2/LAYER,0,0/LAYER,0,0/LAYER,0,1/",
    "PLAN,6/LAYER,0,1/LAYER,0,2/LAYER,0,3/LAYER,0,4/LAYER,0,5/LAYER,0,6/",
    "PLAN,6/LAYER,0,1/LAYER,0,2/LAYER,0,3/LAYER,0,4/LAYER,0,5/LAYER,0,60000/",
];

impl Bench<'_> {
    /// One reading.
    pub fn ask_read(&mut self, kind: &'static str, text: &[u8], cells: usize) -> Outcome {
        self.ask(kind, Call::Read { text: text.to_vec(), cells: cells_i32(cells) }).map(drop)
    }

    /// One writing.
    pub fn ask_write(&mut self, kind: &'static str, plan: &Plan, buffer: usize) -> Outcome {
        self.ask(kind, Call::Write { plan: plan.clone(), text: bytes(buffer) }).map(drop)
    }

    /// Text buffers of the exact length, shorter and longer ones.
    pub fn texts_written(&mut self, plan: &Plan) -> Outcome {
        let length = text(plan).len();
        for buffer in [length, length - 1, length + 1, length + 300, length / 2, 7, 0] {
            self.ask_write("texts written", plan, buffer)?;
        }
        Ok(())
    }

    /// The plan's text into cells enough, more and fewer.
    pub fn texts_read(&mut self, plan: &Plan) -> Outcome {
        let n = plan.cells.len();
        for cells in [n, n + 1, n + 64, n.saturating_sub(1), n.saturating_sub(4), n / 2, 0] {
            self.ask_read("texts read", &text(plan), cells)?;
        }
        Ok(())
    }

    /// The plan's text with bytes or lines damaged at random.
    pub fn texts_damaged(&mut self, plan: &Plan) -> Outcome {
        for way in 0..40 {
            let mut text = text(plan);
            self.damage_text(&mut text, way % 10);
            let spare = self.seeds.pick(&[0, 0, 4, 9]);
            let fewer = self.seeds.pick(&[0, 0, 0, 1]);
            self.ask_read("texts damaged", &text, (plan.cells.len() + spare).saturating_sub(fewer))?;
        }
        Ok(())
    }

    /// Damages a text in one way.
    pub fn damage_text(&mut self, text: &mut Vec<u8>, way: u64) {
        let at = self.seeds.below(text.len() as u64) as usize;
        match way {
            0 => text[at] = self.seeds.below(256) as u8,
            1 => text[at] = self.seeds.pick(USUAL),
            2 => drop(text.remove(at)),
            3 => text.insert(at, text[at]),
            4 => text.insert(at, self.seeds.pick(USUAL)),
            5 => text.truncate(at),
            6 => text.extend_from_within(at..),
            _ => self.damage_lines(text, way),
        }
    }

    /// Drops, doubles or exchanges whole lines, or changes a count by one.
    pub fn damage_lines(&mut self, text: &mut Vec<u8>, way: u64) {
        let mut lines: Vec<Vec<u8>> = text.split_inclusive(|&byte| byte == 10).map(<[u8]>::to_vec).collect();
        let (a, b) =
            (self.seeds.below(lines.len() as u64) as usize, self.seeds.below(lines.len() as u64) as usize);
        match way {
            7 => drop(lines.remove(a)),
            8 => lines.insert(b, lines[a].clone()),
            _ if self.seeds.once_in(2) => lines.swap(a, b),
            _ => self.damage_count(&mut lines[a]),
        }
        *text = lines.concat();
    }

    /// Changes the last digit of one number of a line by one.
    pub fn damage_count(&mut self, line: &mut [u8]) {
        let last = |&at: &usize| line[at].is_ascii_digit() && line[at + 1] < b'0';
        let digits: Vec<usize> = (0..line.len() - 1).filter(last).collect();
        let at = self.seeds.pick(&digits);
        line[at] = if self.seeds.once_in(2) { line[at] + 1 } else { line[at] - 1 };
    }

    /// Texts spelled by hand, into cells enough, just enough and too few.
    pub fn hand_texts(&mut self) -> Outcome {
        for spelling in TEXTS {
            for cells in [0, 3, 4, 5, 40] {
                self.ask_read("texts by hand", &spell(spelling), cells)?;
            }
        }
        Ok(())
    }

    /// Every number of plan D's text, with margins, replaced by each of many others.
    pub fn number_texts(&mut self) -> Outcome {
        let text = String::from_utf8(text(&grown_by(plan_d(), &[1_500, 3]))).expect("a text is plain");
        let parts: Vec<&str> = text.split_inclusive(['\t', '\n']).collect();
        for (at, part) in parts.iter().enumerate() {
            let end = &part[part.len() - 1..];
            for number in NUMBERS.iter().map(|number| spell(number)) {
                let mut damaged = parts[..at].concat().into_bytes();
                damaged.extend(number);
                damaged.extend(end.bytes());
                damaged.extend(parts[at + 1..].concat().bytes());
                self.ask_read("texts by hand", &damaged, 14)?;
            }
        }
        Ok(())
    }

    /// Every byte of a text replaced by others, dropped, doubled, preceded by others; every shorter text.
    pub fn every_byte(&mut self, text: &[u8], others: &[u8]) -> Outcome {
        let kind = "texts byte by byte";
        for at in 0..text.len() {
            let (before, after) = (&text[..at], &text[at + 1..]);
            for &other in others {
                self.ask_read(kind, &[before, &[other], after].concat(), 16)?;
                self.ask_read(kind, &[before, &[other], &text[at..]].concat(), 16)?;
            }
            self.ask_read(kind, &[before, after].concat(), 16)?;
            self.ask_read(kind, &[before, &text[at..=at], &text[at..]].concat(), 16)?;
            self.ask_read(kind, before, 16)?;
        }
        Ok(())
    }
}
