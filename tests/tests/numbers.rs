//! Every named number of the header: held to a list, to the definitions that the contracts of the exported functions cite, to the lengths of the arrays that it
//! declares, and to the Rust crate and the Python module. The causes are compared in interface.rs.

const HEADER: &str = include_str!("../../include/overlay.h");
const CELLS: &str = include_str!("../../crates/c_cells/specs/Cells.antt");
const NEAREST: &str = include_str!("../../crates/nearest/specs/Nearest.antt");
const RECTANGLES: &str = include_str!("../../crates/geometry/specs/Rectangles.antt");
const LIMITS: &str = include_str!("../../crates/plan/specs/Limits.antt");
const PAGES: &str = include_str!("../../crates/paging/specs/Pages.antt");
const TOTALS: &str = include_str!("../../crates/totals/specs/Totals.antt");
const WINDOWS: &str = include_str!("../../crates/windows/specs/Windows.antt");
const CLASSES: &str = include_str!("../../crates/crossings/specs/ClassCall.antt");
const PROGRAM: &str = include_str!("../../crates/program/src/lib.rt");
const RUST: [&str; 3] = [
    include_str!("../../rust/src/walk.rs"),
    include_str!("../../rust/src/survey.rs"),
    include_str!("../../rust/src/timed.rs"),
];
const MODULE: &str = include_str!("../../python/overlay.py");

/// What the names of the header mean, each without `OVERLAY_`.
const STATED: &str = "
MOST_LAYERS 6 MOST_SIZE 512 MOST_COORDINATE 10000000 MOST_MARGIN 50000 MOST_RECTS 3072 MOST_CELLS 12288 MOST_LAYER_CELLS 2048 MOST_HOURS 6144
MOST_TEXT 138343 MOST_ROWS 1000000 SQUARE_METRE 1000000 STACK_BYTES 262144
TICKET_ENDED 0 TICKET_LAYER 1 TICKET_PLACE 2 TICKET_FILLED 3 TICKET_CHOSEN 4 TICKET_NEXT 9 TICKET_LOW 10 TICKET_HIGH 11 TICKET_CELLS 12
PAGE_STOP 0 PAGE_ROWS 1 PAGE_TRIALS 2 PAGE_METRES 3 PAGE_REST 4 PAGE_CELLS 5 PAGE_PROBES OVERLAY_PAGE_TRIALS
REFUSED 0 ENDED 1 FULL 2 SPENT 3
MOST_CLIENTS 16 ROUND_TICKETS 192 ROUND_PAGES 80
RUN_ROWS 0 RUN_TRIALS 1 RUN_METRES 2 RUN_REST 3 RUN_GROUND_METRES 4 RUN_GROUND_REST 5 RUN_CELLS 6 RUN_PROBES OVERLAY_RUN_TRIALS
ROW_LAYER 0 ROW_AREA 1 ROW_CELLS 2
COMMON_LEFT 0 COMMON_BOTTOM 1 COMMON_RIGHT 2 COMMON_TOP 3 COMMON_KIND 4 COMMON_CELLS 5
KIND_NO_ROW 0 KIND_GROUND 'G' KIND_EDGE 'E' KIND_POINT 'P'
CLASS_CROSSED 0 CLASS_NO_ROW 17 CLASS_COUNTS 17
PAIR_LOWER 0 PAIR_HIGHER 1 PAIR_CELLS 2
HOURS_FROM 0 HOURS_TO 1 HOURS_CELLS 2 WEEK 10080
NEAR_FOUND 0 NEAR_PLACE 1 NEAR_GAP 2 NEAR_CELLS 3 NEAREST_CELLS 18
STRIP_FREE 0 STRIP_FROM 1 STRIP_TO 2 STRIP_BETWEEN 3
STRIP_ACROSS 0 STRIP_UPWARD 1 STRIP_KINDS 2 STRIP_LEFT 0 STRIP_RIGHT 1 STRIP_BOTTOM 2 STRIP_TOP 3 STRIP_STOPS 4
COMMAND_TEXT 65536 COMMAND_CELLS 524288 COMMAND_OUT 167772160 COMMAND_ERR 65536";

/// The enumerators of a header in their order, without those of the causes: `NAME value`.
fn named(header: &str) -> Vec<String> {
    let mut code = String::new();
    for (i, part) in header.split("/*").enumerate() {
        code.push_str(if i == 0 { part } else { part.split_once("*/").expect("a comment that ends").1 });
    }
    let blocks = code.split("enum ").skip(1).filter(|block| !block.starts_with("overlay_cause"));
    let bodies =
        blocks.map(|block| block.split_once('{').expect("a body").1.split_once('}').expect("its end").0);
    let read = |text: &str| text.trim().strip_prefix("OVERLAY_").map(|text| text.replacen(" = ", " ", 1));
    bodies.flat_map(|body| body.split(',').filter_map(read)).collect()
}

/// The number of a name, or of a letter.
fn number(header: &str, name: &str) -> u64 {
    let found =
        named(header).into_iter().find_map(|text| text.strip_prefix(&format!("{name} ")).map(str::to_string));
    let value = found.unwrap_or_else(|| panic!("no {name}"));
    value.parse().unwrap_or_else(|_| u64::from(value.trim_matches('\'').as_bytes()[0]))
}

/// The digits behind a mark.
fn behind(text: &str, mark: &str) -> u64 {
    let rest = &text[text.find(mark).unwrap_or_else(|| panic!("no {mark:?}")) + mark.len()..];
    let digits: String = rest.chars().filter(|c| *c != '_').take_while(char::is_ascii_digit).collect();
    digits.parse().unwrap_or_else(|_| panic!("no number behind {mark:?}"))
}

/// The definitions of cells: a prefix, the names of the cells in their order, and the definition that puts them so.
const ORDERS: [(&str, &str, &str, &str); 9] = [
    ("TICKET_", "ENDED LAYER PLACE FILLED CHOSEN", CELLS, "cursor_cells c = cond c.ended 1 0 ∷ c.layer ∷ c.place ∷ c.filled ∷ padded 5 c.chosen ++ c.next ∷ []"),
    ("PAGE_", "STOP ROWS TRIALS METRES REST CELLS", CELLS, "page_cells p = stop_code p.stop ∷ p.rows ∷ p.probes ∷ p.area.metres ∷ p.area.rest ∷ []"),
    (
        "RUN_",
        "ROWS TRIALS METRES REST GROUND_METRES GROUND_REST CELLS",
        CELLS,
        "run_cells v = v.rows ∷ v.probes ∷ v.area.metres ∷ v.area.rest ∷ v.ground.metres ∷ v.ground.rest ∷ []",
    ),
    ("ROW_", "LAYER AREA CELLS", CELLS, "row_cells v = v.layer ∷ v.area ∷ []"),
    ("COMMON_", "LEFT BOTTOM RIGHT TOP KIND CELLS", CELLS, "in r.left ∷ r.bottom ∷ r.right ∷ r.top ∷ pos v.kind ∷ []"),
    ("PAIR_", "LOWER HIGHER CELLS", CELLS, "pair_cells v = v.lower ∷ v.higher ∷ []"),
    ("HOURS_", "FROM TO CELLS", CELLS, "hours_cells v = v.from ∷ v.to ∷ []"),
    ("NEAR_", "FOUND PLACE GAP CELLS", NEAREST, "entry_cells (Some e) = 1 ∷ e.place ∷ e.gap ∷ []"),
    ("STRIP_", "LEFT RIGHT BOTTOM TOP STOPS", CELLS, "upward_in = strip_in (get_or kinds 1 0) (get_or stops 2 nan) (get_or stops 3 nan)"),
];

/// Whether each name has the number that the definitions, the code, the prototypes, the crate and the module give it; the names that have not.
fn astray(header: &str) -> Vec<String> {
    let mut numbers = Vec::new();
    assert!(NEAREST.contains("entry_cells None = 0 ∷ 0 ∷ 0 ∷ []"), "an entry with nothing found");
    for (prefix, names, text, definition) in ORDERS {
        assert!(text.contains(definition), "no {definition}");
        numbers.extend(names.split(' ').zip(0..).map(|(name, i)| (format!("{prefix}{name}"), i)));
    }
    numbers.extend(
        [("TICKET_NEXT", 9), ("TICKET_LOW", 10), ("TICKET_HIGH", 11)].map(|(name, n)| (name.to_string(), n)),
    );
    let given = [
        ("ENDED", CELLS, "stop_code Ended = "),
        ("FULL", CELLS, "stop_code Full = "),
        ("SPENT", CELLS, "stop_code Spent = "),
        ("REFUSED", CELLS, "stop_code (Refused cause) = "),
        ("ENDED", MODULE, "    ENDED = "),
        ("FULL", MODULE, "    FULL = "),
        ("SPENT", MODULE, "    SPENT = "),
        ("STRIP_FREE", RUST[1], "Strip::Free => ("),
        ("STRIP_FROM", RUST[1], "Strip::From(low) => ("),
        ("STRIP_TO", RUST[1], "Strip::To(high) => ("),
        ("STRIP_BETWEEN", RUST[1], "Strip::Between(low, high) => ("),
        ("KIND_GROUND", RECTANGLES, "letter_of Ground = "),
        ("KIND_EDGE", RECTANGLES, "letter_of Edge = "),
        ("KIND_POINT", RECTANGLES, "letter_of Point = "),
        ("CLASS_NO_ROW", CLASSES, "class_values (Ok None) = record { number = 0; class = "),
        ("CLASS_COUNTS", CLASSES, "upto (count_of ls rows) 0 "),
        ("MOST_LAYERS", LIMITS, "most_layers = "),
        ("MOST_SIZE", LIMITS, "most_size = "),
        ("MOST_RECTS", LIMITS, "most_rects = "),
        ("MOST_CELLS", LIMITS, "most_cells = "),
        ("MOST_COORDINATE", RECTANGLES, "reach = pos "),
        ("MOST_MARGIN", RECTANGLES, "most_margin = "),
        ("MOST_ROWS", PAGES, "most_rows = "),
        ("SQUARE_METRE", TOTALS, "metre = "),
        ("WEEK", WINDOWS, "week = "),
        ("WEEK", RUST[2], "WEEK: u32 = "),
        ("WEEK", MODULE, "\nWEEK = "),
        ("COMMAND_CELLS", PROGRAM, "table: &mut [u32; "),
        ("COMMAND_CELLS", PROGRAM, "work: &mut [i32; "),
        ("COMMAND_OUT", PROGRAM, "out: &mut [u8; "),
        ("COMMAND_ERR", PROGRAM, "err: &mut [u8; "),
        ("TICKET_CELLS", header, "uint32_t ticket["),
        ("PAGE_CELLS", header.split("overlay_fetch_page(").nth(1).expect("the page"), "answer["),
        ("RUN_CELLS", header.split("overlay_run_all(").nth(1).expect("the run"), "answer["),
        ("ROUND_TICKETS", header, "uint32_t tickets["),
        ("ROUND_PAGES", header.split("uint32_t tickets[").nth(1).expect("the round"), "answer["),
        ("NEAREST_CELLS", header.split("int32_t around[").nth(1).expect("nearest"), "answer["),
        ("CLASS_COUNTS", header, "uint32_t counts["),
        ("STRIP_KINDS", header, "uint32_t kinds["),
        ("STRIP_STOPS", header, "double stops["),
    ];
    numbers.extend(given.map(|(name, text, mark)| (name.to_string(), behind(text, mark))));
    for (i, stop) in [(1, "Ended"), (2, "Full"), (3, "Spent")] {
        assert!(RUST[0].contains(&format!("{i} => Stop::{stop},")), "the crate's {stop}");
        numbers.push((stop.to_uppercase(), i));
    }
    numbers.into_iter().filter(|(name, n)| number(header, name) != *n).map(|(name, _)| name).collect()
}

#[test]
fn every_number_is_as_stated() {
    let words: Vec<&str> = STATED.split_whitespace().collect();
    assert_eq!(named(HEADER), words.chunks(2).map(|pair| pair.join(" ")).collect::<Vec<_>>());
    assert_eq!(astray(HEADER), Vec::<String>::new());
}

#[test]
fn numbers_that_are_exchanged_are_noticed() {
    let pairs = [
        ("OVERLAY_FULL = 2, OVERLAY_SPENT = 3", "OVERLAY_FULL = 3, OVERLAY_SPENT = 2"),
        ("RUN_METRES = 2", "RUN_METRES = 3"),
        ("EDGE = 'E'", "EDGE = 'P'"),
    ];
    for (old, new) in pairs {
        assert_ne!(astray(&HEADER.replacen(old, new, 1)), Vec::<String>::new(), "{new}");
    }
}
