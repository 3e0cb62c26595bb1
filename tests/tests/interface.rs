//! The declarations of the C interface say the same: the header, of which the Rust crate makes its own, the library's exported functions, and the Python
//! module's table of calls. Header, manuals, Rust crate and Python module tell the causes in the same words, and have the same version and limits.

use overlay_tests::program::{cause_words, version, OWN_WORDS};

const HEADER: &str = include_str!("../../include/overlay.h");
const LIBRARY: &str = include_str!("../../crates/capi/src/lib.rt");
const CAUSES: &str = include_str!("../../rust/src/cause.rs");
const CRATE: &str = include_str!("../../rust/src/lib.rs");
const MODULE: &str = include_str!("../../python/overlay.py");
const PROGRAM: &str = include_str!("../../crates/outcomes/specs/Outcomes.antt");
const COMMANDS: &str = include_str!("../../crates/commands/specs/Commands.antt");
const MANUAL: &str = include_str!("../../docs/MANUAL.md");
const INTEGRATORS: &str = include_str!("../../docs/INTEGRATORS.md");

/// A function as a list: its name, each parameter as `name: type`, and the type that it returns. Types are spelled as in Rust; an
/// array behind a pointer has its length, as in `*const [u32; 6]`.
type Function = Vec<String>;

/// The text between the first two marks.
fn between<'a>(text: &'a str, open: &str, close: &str) -> &'a str {
    let start = text.find(open).unwrap_or_else(|| panic!("no {open:?} in {text:?}")) + open.len();
    let end = text[start..].find(close).unwrap_or_else(|| panic!("no {close:?} in {text:?}"));
    &text[start..start + end]
}

/// Parts at commas, without spaces around them and without empty ones; commas do not occur in types.
fn parts(list: &str) -> impl Iterator<Item = &str> {
    list.split(',').map(str::trim).filter(|part| !part.is_empty())
}

/// A scalar of C in Rust's words.
fn scalar(word: &str) -> &'static str {
    match word {
        "double" => "f64",
        "int32_t" => "i32",
        "uint8_t" => "u8",
        "uint32_t" => "u32",
        "uint64_t" => "u64",
        "size_t" => "usize",
        _ => panic!("{word} is no scalar of the interface"),
    }
}

/// A parameter of C: `const int32_t *cells`, `const uint32_t sizes[6]`, `uint32_t k`.
fn c_parameter(text: &str) -> String {
    let (constant, text) = text.strip_prefix("const ").map_or((false, text), |rest| (true, rest));
    let (word, name) = text.split_once(' ').expect("a type and a name");
    let pointer = if constant { "*const" } else { "*mut" };
    let word = scalar(word);
    if let Some(name) = name.strip_prefix('*') {
        return format!("{name}: {pointer} {word}");
    }
    if let Some((name, length)) = name.strip_suffix(']').and_then(|name| name.split_once('[')) {
        return format!("{name}: {pointer} [{word}; {length}]");
    }
    assert!(!constant, "{name}: a value that is constant");
    format!("{name}: {word}")
}

/// The prototypes of a header: what is marked as one in what is left without comments and directives.
fn in_header(header: &str) -> Vec<Function> {
    let mut code = String::new();
    for (i, part) in header.split("/*").enumerate() {
        code.push_str(if i == 0 { part } else { part.split_once("*/").expect("a comment that ends").1 });
    }
    let lines =
        code.lines().filter(|line| !line.starts_with('#') && !matches!(*line, "extern \"C\" {" | "}"));
    let code = lines.collect::<Vec<_>>().join(" ");
    let prototypes = code.split(';').filter_map(|text| text.trim().strip_prefix("OVERLAY_CHECKED "));
    let read = |text: &str| {
        let (result, rest) = text.split_once(' ').expect("a type and a function");
        let (name, list) = rest.strip_suffix(')').and_then(|rest| rest.split_once('(')).expect("parameters");
        let mut function = vec![name.to_string()];
        function.extend(parts(list).filter(|part| *part != "void").map(c_parameter));
        function.push(scalar(result).to_string());
        function
    };
    sorted(prototypes.map(read).collect())
}

/// A parameter of Rattle as the C interface passes it: a slice as a pointer and a length, a reference as a pointer. A counter is a run record there.
fn rattle_parameter(text: &str) -> Vec<String> {
    let (name, kind) = text.split_once(": ").expect("a name and a type");
    let name = name.replace("counter", "record");
    let Some(kind) = kind.strip_prefix('&') else { return vec![text.to_string()] };
    let (pointer, kind) = kind.strip_prefix("mut ").map_or(("*const", kind), |rest| ("*mut", rest));
    match kind.strip_prefix('[').and_then(|kind| kind.strip_suffix(']')) {
        Some(word) if !word.contains(';') => {
            vec![format!("{name}: {pointer} {word}"), format!("{name}_length: usize")]
        }
        _ => vec![format!("{name}: {pointer} {kind}")],
    }
}

/// The exported functions of the library.
fn in_library(text: &str) -> Vec<Function> {
    let read = |text: &str| {
        let (name, rest) = text.split_once('(').expect("parameters");
        let (list, rest) = rest.split_once(") -> ").expect("a result");
        let mut function = vec![name.to_string()];
        function.extend(parts(list).flat_map(rattle_parameter));
        function.push(rest.lines().next().expect("a result").to_string());
        function
    };
    sorted(text.split("pub extern \"C\" fn ").skip(1).map(read).collect())
}

/// By name.
fn sorted(mut functions: Vec<Function>) -> Vec<Function> {
    functions.sort();
    functions
}

/// Whether the two say the same.
fn agree(header: &str, library: &str) -> bool {
    in_header(header) == in_library(library)
}

#[test]
fn header_and_library_agree() {
    let functions = in_header(HEADER);
    assert_eq!(functions.len(), 21);
    assert_eq!(functions, in_library(LIBRARY));
}

/// The kinds of a call's parameters as the Python module names them, without its names for several.
fn kinds(types: &str) -> Vec<String> {
    let slice = "_POINTER, _LENGTH";
    let plan = format!("_U32, _POINTER, _POINTER, {slice}");
    let all = types.replace("*_PLAN", &plan).replace("*_SLICE", slice);
    parts(all.trim_matches(['(', ')'])).map(str::to_string).collect()
}

/// The calls of the Python module.
fn in_table(module: &str) -> Vec<Function> {
    let table = between(module, "_CALLS = {", "\n}");
    let read = |line: &str| {
        let (name, types) = line.trim().split_once(": ").expect("a call and its types");
        let mut function = vec![format!("overlay_{}", name.trim_matches('"'))];
        function.extend(kinds(
            types.trim_end_matches(',').replace("_PLAN", "*_PLAN").replace("**", "*").as_str(),
        ));
        function
    };
    sorted(table.lines().filter(|line| !line.trim().is_empty()).map(read).collect())
}

#[test]
fn header_and_module_agree() {
    let kind = |parameter: &String| match parameter.split_once(": ").expect("a name and a type").1 {
        "u32" => "_U32".to_string(),
        "u64" => "_U64".to_string(),
        "usize" => "_LENGTH".to_string(),
        other => if other.starts_with('*') { "_POINTER" } else { other }.to_string(),
    };
    let plain = |function: Function| {
        let (name, parameters) = (function[0].clone(), &function[1..function.len() - 1]);
        std::iter::once(name).chain(parameters.iter().map(kind)).collect::<Function>()
    };
    // overlay_version_14 is asked for by its name alone
    let functions =
        in_header(HEADER).into_iter().filter(|function| !function[0].starts_with("overlay_version_"));
    assert_eq!(functions.map(plain).collect::<Vec<_>>(), in_table(MODULE));
    assert_ne!(in_table(&changed(MODULE, "_U32, _U32, _U64", "_U32, _U64, _U32")), in_table(MODULE));
}

/// The text with the first occurrence of a part replaced.
fn changed(text: &str, old: &str, new: &str) -> String {
    assert!(text.contains(old), "no {old:?}");
    text.replacen(old, new, 1)
}

#[test]
fn every_change_is_noticed() {
    let header = [
        ("uint32_t overlay_row(", "uint32_t overlay_rows("),
        ("uint32_t overlay_version_14(", "uint32_t overlay_version_13("),
        ("OVERLAY_CHECKED uint32_t overlay_row(", "uint32_t overlay_row("),
        ("uint32_t overlay_row(", "uint64_t overlay_row("),
        ("const int32_t *cells", "int32_t *cells"),
        ("const int32_t *cells", "const uint32_t *cells"),
        ("const uint32_t sizes[6]", "const uint32_t sizes[5]"),
        ("const uint32_t sizes[6]", "uint32_t sizes[6]"),
        ("const uint32_t sizes[6], const uint32_t margins[6]", "const uint32_t sizes[6]"),
        ("const uint32_t margins[6]", "const int32_t margins[6]"),
        (
            "const uint32_t sizes[6], const uint32_t margins[6]",
            "const uint32_t margins[6], const uint32_t sizes[6]",
        ),
        ("uint32_t sizes[6], uint32_t margins[6])", "uint32_t sizes[6])"),
        ("uint64_t answer[6]", "uint32_t answer[6]"),
        (" uint32_t budget,", ""),
        ("uint32_t ticket[12]", "uint32_t ticket[10]"),
        ("uint64_t *record, size_t record_length", "uint64_t *record"),
        ("uint64_t *record", "uint32_t *record"),
        ("uint64_t *record", "const uint64_t *record"),
        ("int32_t *work, size_t work_length", "int32_t *work"),
        ("int32_t *work", "uint32_t *work"),
        ("int32_t answer[5]", "int32_t answer[4]"),
        ("int32_t answer[5]", "uint64_t answer[5]"),
        ("uint32_t counts[17]", "uint32_t counts[16]"),
        ("uint32_t budget,", "uint64_t budget,"),
        ("size_t *size", "uint32_t *size"),
        ("const double *corners", "const uint64_t *corners"),
        ("const double stops[4]", "const double stops[2]"),
        ("uint32_t *k, uint32_t sizes[6]", "uint32_t sizes[6], uint32_t *k"),
        ("const uint32_t *hours, size_t hours_length, ", ""),
        ("const uint32_t *hours", "uint32_t *hours"),
        ("const uint32_t *hours", "const uint64_t *hours"),
        ("uint32_t answer[2]", "uint32_t answer[3]"),
    ];
    let library = [
        ("fn overlay_row(", "fn overlay_rows("),
        ("fn overlay_version_14(", "fn overlay_version_13("),
        ("cells: &[i32]", "cells: &mut [i32]"),
        ("cells: &[i32]", "cells: &[i64]"),
        ("sizes: &[u32; 6]", "sizes: &[u32]"),
        ("margins: &[u32; 6]", "margins: &[u32; 5]"),
        ("margins: &mut [u32; 6]", "margins: &[u32; 6]"),
        ("answer: &mut [u64; 6]", "answer: &mut [u64; 4]"),
        ("    budget: u32,\n", ""),
        ("counter: &mut [u64]", "counter: &mut [u64; 1]"),
        ("counter: &mut [u64]", "counter: &[u64]"),
        ("ticket: &mut [u32; 12]", "ticket: &mut [u32; 10]"),
        ("work: &mut [i32]", "work: &mut [u32]"),
        ("answer: &mut [i32; 5]", "answer: &mut [i32; 4]"),
        ("fn overlay_row_common(", "fn overlay_row_ground("),
        ("    work: &mut [i32],\n", ""),
        ("k: &mut u32", "k: u32"),
        ("corners: &[f64]", "corners: &[u64]"),
        ("    hours: &[u32],\n", ""),
        ("hours: &[u32]", "hours: &mut [u32]"),
        ("#[unsafe(no_mangle)]\npub extern \"C\" fn overlay_row(", "fn overlay_row("),
    ];
    for (old, new) in header {
        assert!(!agree(&changed(HEADER, old, new), LIBRARY), "header: {old:?} as {new:?}");
    }
    for (old, new) in library {
        assert!(!agree(HEADER, &changed(LIBRARY, old, new)), "library: {old:?} as {new:?}");
    }
}

/// The words of each cause, from 1 on, by whoever tells them.
type Words = Vec<String>;

/// Each text between two marks, one after the other.
fn all_between(text: &str, open: &str, close: &str) -> Words {
    text.split(open).skip(1).map(|part| part.split(close).next().expect("a part").to_string()).collect()
}

/// The comments of the header's causes, without that of 0.
fn in_enum(header: &str) -> Words {
    all_between(between(header, "enum overlay_cause {", "};"), "/* ", " */").split_off(1)
}

/// What the header's function returns for each, without 0 and other numbers.
fn in_function(header: &str) -> Words {
    let body = between(header, "*overlay_cause_text(uint32_t number)", "default:");
    all_between(body, "return \"", "\";").split_off(1)
}

/// A manual's table of numbers, with which it ends, third column, spelled without its signs that are no plain characters.
fn in_manual(manual: &str) -> Words {
    let table = manual.split("## Numbers\n").nth(1).expect("the numbers");
    let rows = table.lines().filter(|line| line.starts_with("| ") && line.as_bytes()[2].is_ascii_digit());
    let cause = |line: &str| line.split(" | ").nth(2).expect("a cause").to_string();
    rows.map(|line| cause(line).replace('\u{2212}', "-").replace('\u{2264}', "<=")).skip(1).collect()
}

/// What the Rust crate and the Python module print for each.
fn in_crate(text: &str) -> Words {
    all_between(between(text, "fn text(self)", "impl fmt::Display"), "=> \"", "\",")
}
fn in_module(text: &str) -> Words {
    all_between(between(text, "_TEXTS = {", "\n}"), ": \"", "\",")
}

#[test]
fn causes_are_told_in_the_same_words() {
    let words = in_enum(HEADER);
    assert_eq!(words.len(), 24);
    assert_eq!(words, in_function(HEADER));
    assert_eq!(words, in_manual(MANUAL));
    assert_eq!(words, in_manual(INTEGRATORS));
    assert_eq!(words, in_crate(CAUSES));
    assert_eq!(words, in_module(MODULE));
}

/// The words of the program, a line each, from 1.
fn in_program(text: &str) -> Vec<String> {
    let list = between(text, "cause_lines = ", "\n\n");
    list.split('"').skip(3).step_by(2).map(|line| line.trim_end_matches("\\n").to_string()).collect()
}

#[test]
fn the_program_tells_causes_in_the_same_words_or_in_its_own() {
    let words = in_program(PROGRAM);
    assert_eq!(words, (1..25).map(cause_words).collect::<Vec<_>>());
    let other: Vec<u32> =
        (1..25).filter(|&n| words[n as usize - 1] != in_enum(HEADER)[n as usize - 1]).collect();
    assert_eq!(other, OWN_WORDS.map(|(number, _)| number));
    assert!(COMMANDS.contains(&format!("version_line = ascii \"overlay {}\\n\"", version())));
}

/// A name in capitals, its words parted: `FewLayers` and `FEW_LAYERS` are `FEW_LAYERS`.
fn capitals(name: &str) -> String {
    let mut told = String::new();
    for (i, c) in name.chars().enumerate() {
        if i > 0 && c.is_uppercase() && name.contains(char::is_lowercase) {
            told.push('_');
        }
        told.push(c.to_ascii_uppercase());
    }
    told
}

/// The names and numbers of lines such as `NAME = 7,`, each behind a prefix.
fn numbered(text: &str, prefix: &str) -> Vec<(String, u32)> {
    let read = |line: &str| {
        let (name, rest) = line.trim().strip_prefix(prefix)?.split_once(" = ")?;
        let digits: String = rest.chars().take_while(char::is_ascii_digit).collect();
        Some((capitals(name), digits.parse().ok()?))
    };
    text.lines().filter_map(read).collect()
}

#[test]
fn causes_have_the_same_names() {
    let header = numbered(between(HEADER, "enum overlay_cause {", "};"), "OVERLAY_CAUSE_").split_off(1);
    assert_eq!(header.iter().map(|named| named.1).collect::<Vec<_>>(), (1..25).collect::<Vec<_>>());
    assert_eq!(header, numbered(between(CAUSES, "pub enum Cause {", "\n}"), ""));
    assert_eq!(header, numbered(between(MODULE, "class Cause(", "@property"), ""));
}

/// The digits of a number.
fn digits(text: &str) -> String {
    text.chars().filter(char::is_ascii_digit).collect()
}

#[test]
fn versions_and_limits_agree() {
    let version = between(HEADER, "#define OVERLAY_VERSION ", "\n");
    for name in [format!("overlay_version_{version}"), "overlay_version".to_string()] {
        let contract = between(LIBRARY, &format!("fn {name}() -> u32\n"), "{\n");
        assert_eq!(digits(contract), version, "{name}");
    }
    assert_eq!(version, between(CRATE, "pub const VERSION: u32 = ", ";"));
    assert_eq!(version, between(MODULE, "\nVERSION = ", "\n"));
    for name in ["LAYERS", "SIZE", "COORDINATE", "MARGIN", "ROWS", "CLIENTS", "TEXT"] {
        let stated = between(HEADER, &format!("OVERLAY_MOST_{name} = "), "\n");
        let number = stated.split([',', ' ']).next().expect("a number");
        let constant = between(CRATE, &format!("pub const MOST_{name}: "), ";");
        assert_eq!(number, digits(constant.split(" = ").nth(1).expect("a number")), "{name}");
        assert_eq!(number, digits(between(MODULE, &format!("\nMOST_{name} = "), "\n")), "{name}");
    }
}
