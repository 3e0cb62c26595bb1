//! What the program `overlay` says: the rule of each command. `check` and `picture` have folders of their own.

pub mod compare;
pub mod slips;

use crate::call::Plan;
use crate::check::{check, Said};
use crate::crossings::{ByWords as CrossingsByWords, Crossings};
use crate::hours::{shared_minutes, timed, Window, WEEK};
use crate::nearest::nearest;
use crate::overlay::{Overlay, Shape, Total};
use crate::picture::picture;
use crate::reference::{
    count_rows, join, layers_of, pairs, rects_at, report, row_of, square_metres, sweep_order, text_of,
    union_of, Rect, Row, REFERENCE,
};
use crate::report::row_line;
use crate::surveys::{cover_records, Survey};
use crate::text::number_of;

pub use compare::compare_programs;
pub use slips::SLIPS;

const HEADER: &str = include_str!("../../../include/overlay.h");

/// A table and a work buffer of the report have so many cells; no text is longer than so many bytes.
const REPORT_CELLS: usize = 12_288;
const LONGEST: usize = 65_536;

/// What the program is asked: its arguments, and the bytes of its two texts.
#[derive(Clone, Debug)]
pub struct Asked {
    pub words: Vec<Vec<u8>>,
    pub text: Vec<u8>,
    pub second: Vec<u8>,
}

/// What it says, and where its text and its second text come from.
pub type Answer = (Said, usize, usize);

/// The program as a function.
pub type Program<'a> = &'a dyn Fn(&Asked) -> Answer;

/// What may slip. Arguments: whether `-` may stand for a number, by whether the command takes it; the most numbers that a command takes, and how many arguments
/// are looked at for numbers; which argument is the text's, by the numbers and all words; the status of wrong arguments; the command that help is asked of.
/// `pairs`: the layer that is asked for; whether a pair is told, by whether the lower and the higher layer is that one; how a layer is numbered. `nearest`: the
/// root of a square; the line of an empty layer. `classes` and `hours`: whether a class of so many rows is told; a row's line with more behind it; the first
/// minute behind the last shared one; what is said of both texts; what is looked at behind the last window; whether a line has a return, or no end. `cover`:
/// a stop; the stops of both axes; the corners of bytes.
#[derive(Clone, Copy)]
pub struct Slip {
    pub dash: fn(bool) -> bool,
    pub most: fn(usize) -> usize,
    pub looked_at: fn(usize) -> usize,
    pub named: fn(usize, usize) -> usize,
    pub misused: u32,
    pub helped: fn(Option<usize>) -> Option<usize>,
    pub layer: fn(Option<i64>) -> Option<i64>,
    pub paired: fn(bool, bool) -> bool,
    pub numbered: fn(usize) -> usize,
    pub root: fn(u128) -> u128,
    pub none: fn(u32) -> String,
    pub counted: fn(u32) -> bool,
    pub row_with: fn(&str, &str) -> String,
    pub behind: fn(u32) -> u32,
    pub hours: fn(&ByWords, &Asked) -> Said,
    pub beyond: fn(Option<&[u8]>) -> Option<&[u8]>,
    pub returned: fn(&[u8]) -> bool,
    pub open: fn(&[u8]) -> bool,
    pub stop: fn(Option<i64>) -> Option<i64>,
    pub axes: fn([Option<i64>; 4]) -> [Option<i64>; 4],
    pub corners: fn(&[u8]) -> Vec<f64>,
}

/// No slip.
pub const RIGHT: Slip = Slip {
    dash: |taken| taken,
    most: |most| most,
    looked_at: |most| most,
    named: |_, words| words,
    misused: 2,
    helped: |command| command,
    layer: |layer| layer,
    paired: |lower, higher| lower || higher,
    numbered: |at| at + 1,
    root: whole_root,
    none: |layer| format!("NONE\t{layer}\n"),
    counted: |count| count > 0,
    row_with: |line, more| format!("{line}\t{more}\n"),
    behind: |last| last + 1,
    hours: |words, asked| words.planned(asked, &|plan| words.hours(plan, &asked.second)),
    beyond: |line| line,
    returned: |line| line.contains(&b'\r'),
    open: |line| !line.ends_with(b"\n"),
    stop: |stop| stop,
    axes: |[left, bottom, right, top]| [left, right, bottom, top],
    corners: |bytes| bytes.chunks(8).map(|float| float_of(float, f64::from_le_bytes)).collect(),
};

/// The greatest whole number whose square is at most this one.
pub fn whole_root(square: u128) -> u128 {
    let mut root = (square as f64).sqrt() as u128 + 2;
    while root * root > square {
        root -= 1;
    }
    root
}

/// A float of its bytes; not finite where they are not eight.
pub fn float_of(bytes: &[u8], read: fn([u8; 8]) -> f64) -> f64 {
    <[u8; 8]>::try_from(bytes).map_or(f64::NAN, read)
}

/// The fewest and the most of something.
type Span = (usize, usize);

/// Each command: its word, what stands behind it in its usage, what more the usage says, its numbers and names, whether it reads a text, whether `-` may stand
/// for a number; what its help says, and what the help of all says.
const COMMANDS: [(&str, &str, &str, Span, Span, bool, bool, &str, &str); 11] = [
    ("report", " [FILE]", "", (0, 0), (0, 1), true, false,
     "The rows of a plan text: ROW, the layer of the left guard, the places, the area in square millimetres, the kind;\n\
      then TOTAL, the rows, the trials, the ground of all rows in square metres, ground under several rows counted once.",
     "the rows in which all layers meet"),
    ("check", " [FILE]", "", (0, 0), (0, 1), true, false,
     "Whether a text is a plan's: PLAN, layers, rectangles; or the line that is wrong and why, on standard error.",
     "whether a text is a plan's, and what is wrong in which line"),
    ("pairs", " [LAYER] [FILE]", " (a layer by its number from 1 on, no plus, no leading zero)", (0, 1), (0, 1), true, false,
     "The rows of each two layers, or of each two of which one is LAYER: PAIR, both layers, both places, the area, the kind; then TOTAL.",
     "the rows of each two layers"),
    ("nearest", " LEFT BOTTOM RIGHT TOP [FILE]", " (whole millimetres, at most eight digits, no plus, no leading zero)", (4, 4), (0, 1), true, false,
     "What lies nearest to a box in each layer: NEAR, the layer, the place, the squared gap, the gap in millimetres; or NONE, the layer.",
     "what lies nearest to a box in each layer"),
    ("apart", " PLACE.. [FILE]", ", with a place for each layer (from 0 on, at most six, no plus, no leading zero)", (1, 6), (0, 1), true, false,
     "Whether the rectangles at these places, one a layer, share a point: SHARE; or APART and the first two layers that do not.",
     "whether rectangles, one a layer, share a point"),
    ("classes", " [FILE]", "", (0, 0), (0, 1), true, false,
     "The crossing report: each ROW with its class at the end; CLASS, class, count for each class that has rows; TOTAL.",
     "the rows with their classes"),
    ("hours", " WINDOWS-FILE [FILE]", "", (0, 0), (1, 2), true, false,
     "The timed run of a plan text with a windows text, which has a line WINDOW, from, to for each rectangle, in minutes of the week:\n\
      each ROW with the first minute that its windows share and the first after these at the end; TOTAL.\n\
      Of a windows text that is wrong, the first wrong line is told.",
     "the rows that are there at the same time, with their minutes"),
    ("cover", " LEFT BOTTOM RIGHT TOP [FILE]", ", with a whole number of millimetres or - for each stop (at most eight digits, no plus, no leading zero)", (4, 4), (0, 1), true, true,
     "The covers of the corner records that meet the stops, - being no stop: LAYER, their number, 0; then RECT and four corners for each.\n\
      The input is bytes: left, bottom, right, top of each record in millimetres, as 64-bit floats, the little end first;\n\
      at most 65536 bytes, which are 2048 records, of which at most 512 are kept.",
     "the covers of corner records, as a layer of a plan text"),
    ("picture", " [FILE]", "", (0, 0), (0, 1), true, false,
     "A picture of a plan text as SVG: the layers, the common ground of every row, a legend and a scale.\n\
      A plan that the report refuses has no picture.",
     "a picture of a plan as SVG"),
    ("help", " [COMMAND]", "", (0, 0), (0, 1), false, false, "What a command does, or all commands.", "what a command does"),
    ("version", "", "", (0, 0), (0, 0), false, false, "The version: that of the interface, OVERLAY_VERSION in overlay.h.", "the version of the interface"),
];

/// Causes that the program tells in other words than the header. Of 2, 17, 18, 21 and 22 it says less, since it calls nothing in which the rest can be: a plan
/// of its own text has nothing past its last layer, a stop is of one of four kinds, and it keeps no tickets and no rounds. Of 7 it says how many rows its own
/// table takes, and of 9 and 10 which command tells the line.
pub const OWN_WORDS: [(u32, &str); 8] = [
    (2, "a layer has more than 512 rectangles, or more than 512 records are kept"),
    (7, "there are more rows than 12288 / k, k being the number of layers; overlay pairs has no such limit"),
    (9, "the text is not well formed (overlay check tells the line)"),
    (10, "the text is well formed, but layers or rectangles are miscounted, or a number is out of range or out of order (overlay check tells the line)"),
    (17, "a margin is greater than 50000"),
    (18, "the ticket is not the newest of its run"),
    (21, "a stop is not finite, or the lower one of a strip is greater than the upper one"),
    (22, "a round has not 1 to 16 clients, or its budget or its records are wrong"),
];

/// A cause in the header's words, or in the program's own ones.
pub fn cause_words(cause: u32) -> &'static str {
    let own = OWN_WORDS.iter().find(|(number, _)| *number == cause);
    let declared = |line: &&'static str| {
        line.starts_with("    OVERLAY_CAUSE_") && line.contains(&format!("= {cause}, "))
            || line.starts_with("    OVERLAY_CAUSE_HOURS") && cause == 24
    };
    let line = HEADER.lines().find(declared).expect("a cause of the header");
    own.map_or_else(
        || line[line.find("/* ").expect("words") + 3..].trim_end_matches(" */"),
        |(_, words)| words,
    )
}

/// The header's version.
pub fn version() -> &'static str {
    let line = HEADER.lines().find_map(|line| line.strip_prefix("#define OVERLAY_VERSION "));
    line.expect("a version of the header")
}

/// What is said of a question that is answered.
fn done(out: String) -> Said {
    Said { status: 0, out: out.into_bytes(), err: Vec::new() }
}

/// A refusal that says what its number means.
fn refused(number: u32) -> Said {
    refused_for(number, cause_words(number))
}

/// A refusal with other words.
fn refused_for(number: u32, words: &str) -> Said {
    let (out, err) = (format!("REFUSED\t{number}\n"), format!("overlay: {words}\n"));
    Said { status: 1, out: out.into_bytes(), err: err.into_bytes() }
}

/// How each is called, from the word of the command on; behind them what is said of all.
fn usage(command: usize) -> String {
    let words: Vec<&str> = COMMANDS.iter().map(|row| row.0).collect();
    match COMMANDS.get(command) {
        Some((word, takes, more, ..)) => format!("{word}{takes}{more}"),
        None => format!("COMMAND [ARGUMENTS] [FILE], with a command of: {}", words.join(", ")),
    }
}

/// What `help` says of a command, or of all.
fn help(command: usize) -> String {
    if let Some((word, takes, _, _, _, _, _, says, _)) = COMMANDS.get(command) {
        return format!("overlay {word}{takes}\n{says}\n");
    }
    let reads = "The text is the file named last, or standard input where none is named; - is a file's name.";
    let status = "Exit status: 0 done, 1 refused, 2 wrong arguments, 3 not read or not written.";
    let lines: String =
        COMMANDS.iter().map(|row| format!("{:40}{}\n", format!("{}{}", row.0, row.1), row.8)).collect();
    format!("overlay COMMAND [ARGUMENTS] [FILE]\n{reads}\n{status}\n{lines}")
}

/// The rows, trials and ground of a total.
fn total(rows: &[Row], trials: usize) -> String {
    let ground = union_of(&rows.iter().map(|row| row.common).collect::<Vec<Rect>>());
    format!("TOTAL\t{}\t{trials}\t{}\n", rows.len(), square_metres(Total::of(ground.into())))
}

/// The plan of a text, or why there is none.
pub fn plan_in(text: &[u8]) -> Result<Plan, Said> {
    if text.len() > LONGEST {
        return Err(refused(13));
    }
    let mut cells = vec![0; REPORT_CELLS];
    let reading = REFERENCE.read(text, &mut cells);
    if reading.number != 0 {
        return Err(refused(reading.number));
    }
    cells.truncate(4 * reading.shape.sizes.iter().sum::<u32>() as usize);
    Ok(Plan { shape: reading.shape, cells })
}

/// The rules, with a slip or without.
pub struct ByWords(pub Slip);

impl ByWords {
    /// What is said of a plan's text, by its plan.
    pub fn planned(&self, asked: &Asked, say: &dyn Fn(&Plan) -> Said) -> Said {
        plan_in(&asked.text).map_or_else(|why| why, |plan| say(&plan))
    }

    /// Wrong arguments.
    fn misused(&self, words: &str) -> Said {
        Said { status: self.0.misused, out: Vec::new(), err: format!("overlay: {words}\n").into_bytes() }
    }

    /// `pairs`: the rows of each plan of two layers, of the report's form.
    fn pairs(&self, plan: &Plan, layer: Option<i64>) -> Said {
        let k = plan.shape.k as usize;
        let layer = (self.0.layer)(layer);
        if layer.is_some_and(|n| n < 1 || n > k as i64) {
            return self.misused("the plan has no layer of this number");
        }
        let drawn: Vec<&[i32]> = plan.shape.sizes[..k]
            .iter()
            .scan(&plan.cells[..], |rest, &size| {
                let (own, behind) = rest.split_at(4 * size as usize);
                *rest = behind;
                Some(own)
            })
            .collect();
        let (mut out, mut count) = (String::new(), 0);
        for (i, j) in pairs(k) {
            let is = |at: usize| layer == Some(at as i64 + 1);
            if layer.is_some() && !(self.0.paired)(is(i), is(j)) {
                continue;
            }
            let of = |all: &[u32; 6]| [all[i], all[j], 0, 0, 0, 0];
            let shape = Shape { k: 2, sizes: of(&plan.shape.sizes), margins: of(&plan.shape.margins) };
            let layers = layers_of(&shape, &[drawn[i], drawn[j]].concat());
            for row in join(&layers) {
                let kind = (REFERENCE.kind)(&rects_at(&layers, &row.places[..2]));
                let (p, q) = (row.places[0], row.places[1]);
                out += &format!(
                    "PAIR\t{}\t{}\t{p}\t{q}\t{}\t{}\n",
                    (self.0.numbered)(i),
                    (self.0.numbered)(j),
                    row.area,
                    char::from(kind)
                );
                count += 1;
            }
        }
        done(format!("{out}TOTAL\t{count}\n"))
    }

    /// `nearest`: a line a layer of the plan.
    fn nearest(&self, plan: &Plan, around: [i32; 4]) -> Said {
        let told = nearest(&plan.shape, &plan.cells, around);
        if told.number != 0 {
            return refused(told.number);
        }
        let mut out = String::new();
        for (layer, near) in (1..=plan.shape.k).zip(told.layers) {
            let hundredths = (self.0.root)(10_000 * u128::from(near.gap));
            let gap = format!("{}.{:02}", hundredths / 100, hundredths % 100);
            if near.found {
                out += &format!("NEAR\t{layer}\t{}\t{}\t{gap}\n", near.place, near.gap);
            } else {
                out += &(self.0.none)(layer);
            }
        }
        done(out)
    }

    /// `apart`: what the pair call tells.
    fn apart(&self, plan: &Plan, places: &[u32]) -> Said {
        let told = REFERENCE.pair(&plan.shape, &plan.cells, places);
        match (told.number, told.lower) {
            (0, 0) => done("SHARE\n".into()),
            (0, _) => done(format!("APART\t{}\t{}\n", told.lower, told.higher)),
            (number, _) => refused(number),
        }
    }

    /// A row's line with more fields behind its kind.
    fn row_with(&self, plan: &Plan, row: &Row, more: &str) -> String {
        let layers = layers_of(&plan.shape, &plan.cells);
        let kind = (REFERENCE.kind)(&rects_at(&layers, &row.places[..layers.len()]));
        let line = row_line(row, layers.len(), kind);
        (self.0.row_with)(line.trim_end(), more)
    }

    /// `classes`: the crossing report into the report's cells.
    fn classes(&self, plan: &Plan) -> Said {
        let (words, k) = (CrossingsByWords(None), plan.shape.k as usize);
        let layers = layers_of(&plan.shape, &plan.cells);
        let (mut table, mut work) = (vec![0; REPORT_CELLS], vec![0; REPORT_CELLS]);
        let told = words.report(&plan.shape, &plan.cells, &sweep_order(&layers), &mut table, &mut work);
        if told.run.number != 0 {
            return refused(told.run.number);
        }
        let mut out = String::new();
        for places in table.chunks(k).take(told.run.rows as usize) {
            let row = row_of(&layers, places).expect("a row of the run");
            let class = words.class(&plan.shape, &plan.cells, places).class;
            out += &self.row_with(plan, &row, &class.to_string());
        }
        for (class, count) in told.counts.iter().enumerate() {
            if (self.0.counted)(*count) {
                out += &format!("CLASS\t{class}\t{count}\n");
            }
        }
        done(
            out + &format!(
                "TOTAL\t{}\t{}\t{}\n",
                told.run.rows,
                told.run.trials,
                square_metres(told.run.ground)
            ),
        )
    }

    /// What is wrong with a line of a windows text that is not well formed; it has its byte 10, if there is one.
    fn reason(&self, line: &[u8]) -> &'static str {
        let has = |byte: u8| line.contains(&byte);
        let word = line.starts_with(b"WINDOW\t");
        let spaced = line.starts_with(b" ") || line.starts_with(b"WINDOW ");
        let zero = line.windows(3).any(|w| w[0] == 9 && w[1] == b'0' && w[2].is_ascii_digit());
        let tests = [
            (line.starts_with(b"\xef\xbb\xbf"), "a byte order mark"),
            ((self.0.returned)(line), "a carriage return"),
            (line == b"\n", "a blank line"),
            (spaced || word && has(b' '), "a space: fields are parted by one tab and nothing else"),
            (!word, "a word that is not WINDOW, or no tab behind it"),
            (has(b'+'), "a number with a plus"),
            (has(b'.'), "a number with a point"),
            (zero || line.windows(2).any(|w| w == b"-0"), "a number with a leading zero"),
            (
                line.split(|byte| !byte.is_ascii_digit()).any(|run| run.len() >= 9),
                "a number of nine digits or more",
            ),
            ((self.0.open)(line), "no line end at the end of the text"),
        ];
        let told = tests.iter().find(|(holds, _)| *holds);
        told.map_or("not the two numbers that WINDOW takes, each behind one tab", |(_, words)| words)
    }

    /// The windows of so many rectangles, or the first line that is wrong and why.
    pub fn windows(&self, n: usize, text: &[u8]) -> Result<Vec<u32>, Said> {
        let mut lines = text.split_inclusive(|&byte| byte == 10);
        let wrong =
            |line: usize, words: &str| Err(refused_for(24, &format!("windows, line {line}: {words}")));
        let fields = |line: &[u8]| -> Option<Vec<i64>> {
            let body = line.strip_prefix(b"WINDOW\t")?.strip_suffix(b"\n")?;
            let numbers: Option<Vec<i64>> = body.split(|&byte| byte == 9).map(number_of).collect();
            numbers.filter(|numbers| numbers.len() == 2)
        };
        let mut cells = Vec::new();
        for i in 1..=n {
            let Some(line) = lines.next() else {
                return wrong(i, "fewer windows than rectangles");
            };
            let Some(&[from, to]) = fields(line).as_deref() else {
                return wrong(i, self.reason(line));
            };
            if !(0 <= from && from < to && to <= i64::from(WEEK)) {
                return wrong(i, "from is less than 0 or not less than to, or to is greater than 10080");
            }
            cells.extend([from as u32, to as u32]);
        }
        if let Some(line) = (self.0.beyond)(lines.next()) {
            let told =
                if fields(line).is_some() { "more windows than rectangles" } else { self.reason(line) };
            return wrong(n + 1, told);
        }
        Ok(cells)
    }

    /// `hours`: the timed run into the report's cells.
    pub fn hours(&self, plan: &Plan, windows: &[u8]) -> Said {
        let (n, k) = (plan.cells.len() / 4, plan.shape.k as usize);
        let hours = match self.windows(n, windows) {
            Err(wrong) => return wrong,
            Ok(hours) => hours,
        };
        let (trials, rows) = timed(plan, &hours);
        if rows.len() > REPORT_CELLS / k {
            return refused(7);
        }
        let mut out = String::new();
        for row in &rows {
            let starts = plan.shape.sizes.iter().scan(0, |sum, &size| {
                *sum += size;
                Some(*sum - size)
            });
            let places = starts.zip(&row.places[..k]).map(|(start, place)| 2 * (start + place) as usize);
            let own: Vec<Window> = places.map(|at| (hours[at], hours[at + 1])).collect();
            let minutes = shared_minutes(&own);
            let behind = (self.0.behind)(minutes[minutes.len() - 1]);
            out += &self.row_with(plan, row, &format!("{}\t{behind}", minutes[0]));
        }
        done(out + &total(&rows, trials.len()))
    }

    /// `cover`: the covers of the records that meet the stops left, bottom, right, top, each where it is given.
    fn cover(&self, records: &[u8], stops: [Option<i64>; 4]) -> Said {
        if records.len() > LONGEST {
            return refused(13);
        }
        let axes = (self.0.axes)(stops.map(self.0.stop));
        let kind = |lower: Option<i64>, upper: Option<i64>| {
            u32::from(lower.is_some()) + 2 * u32::from(upper.is_some())
        };
        let survey = Survey {
            kinds: [kind(axes[0], axes[1]), kind(axes[2], axes[3])],
            stops: axes.map(|stop| stop.unwrap_or(0) as f64),
            corners: (self.0.corners)(records),
            room: 2_048,
        };
        let mut cells = vec![0; 2_048];
        let covered = cover_records(&survey, &mut cells);
        if covered.number != 0 {
            return refused(covered.number);
        }
        let mut shape = Shape { k: 1, ..Shape::NONE };
        shape.sizes[0] = covered.kept as u32;
        let text = text_of(&shape, &cells[..4 * covered.kept]);
        Said { status: 0, out: text[b"PLAN\t1\n".len()..].to_vec(), err: Vec::new() }
    }

    /// What a command says of numbers, names and texts that fit it.
    fn said(&self, command: usize, numbers: &[Option<i64>], names: &[Vec<u8>], asked: &Asked) -> Said {
        let natural = |number: &Option<i64>| u32::try_from(number.unwrap_or(0)).unwrap_or(u32::MAX);
        let side = |at: usize| numbers[at].unwrap_or(0) as i32;
        let planned = |say: &dyn Fn(&Plan) -> Said| self.planned(asked, say);
        match COMMANDS[command].0 {
            "report" => {
                let out = report(&asked.text);
                match out.strip_prefix(b"REFUSED\t") {
                    Some(number) => {
                        refused(String::from_utf8_lossy(number).trim_end().parse().expect("a number"))
                    }
                    None => Said { status: 0, out, err: Vec::new() },
                }
            }
            "check" => check(&asked.text),
            "pairs" => planned(&|plan| self.pairs(plan, numbers.first().map(|n| n.unwrap_or(0)))),
            "nearest" => planned(&|plan| self.nearest(plan, [side(0), side(1), side(2), side(3)])),
            "apart" => planned(&|plan| self.apart(plan, &numbers.iter().map(natural).collect::<Vec<u32>>())),
            "classes" => planned(&|plan| self.classes(plan)),
            "hours" => (self.0.hours)(self, asked),
            "cover" => self.cover(&asked.text, [numbers[0], numbers[1], numbers[2], numbers[3]]),
            "picture" => planned(&|plan| {
                let layers = layers_of(&plan.shape, &plan.cells);
                if count_rows(&layers) > (REPORT_CELLS / layers.len()) as u64 {
                    return refused(7);
                }
                Said { status: 0, out: picture(plan), err: Vec::new() }
            }),
            "version" => done(format!("overlay {}\n", version())),
            _ => match names.first().map(|name| COMMANDS.iter().position(|row| row.0.as_bytes() == name)) {
                None => done(help(COMMANDS.len())),
                Some(at) => match (self.0.helped)(at) {
                    None => self.misused(&format!("wanted: overlay {}", usage(COMMANDS.len()))),
                    Some(at) => done(help(at)),
                },
            },
        }
    }

    /// What the program says, and where its texts come from.
    pub fn answer(&self, asked: &Asked) -> Answer {
        let word = asked.words.first().map_or(&b""[..], |word| word);
        let Some(command) = COMMANDS.iter().position(|row| row.0.as_bytes() == word) else {
            return (self.misused(&format!("wanted: overlay {}", usage(COMMANDS.len()))), 0, 0);
        };
        let (_, _, _, (fewest, most), (least, highest), reads, dash, ..) = COMMANDS[command];
        let (most, dash) = ((self.0.most)(most), (self.0.dash)(dash));
        let numbers: Vec<Option<i64>> = asked.words[1..]
            .iter()
            .take((self.0.looked_at)(most))
            .map_while(|word| if dash && word == b"-" { Some(None) } else { number_of(word).map(Some) })
            .collect();
        let names = &asked.words[1 + numbers.len()..];
        if !(fewest..=most).contains(&numbers.len()) || !(least..=highest).contains(&names.len()) {
            return (self.misused(&format!("wanted: overlay {}", usage(command))), 0, 0);
        }
        let named = (self.0.named)(numbers.len(), asked.words.len());
        let text = if names.len() > least { named } else { 1 };
        let second = if least > 0 { 2 + numbers.len() } else { 0 };
        (self.said(command, &numbers, names, asked), if reads { text } else { 0 }, second)
    }
}

/// The rules.
pub fn answer(asked: &Asked) -> Answer {
    ByWords(RIGHT).answer(asked)
}
