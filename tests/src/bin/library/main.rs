//! Compares the library under test with the reference. The last line is `N cases, 0 differences`.

mod extras;
mod ffi;
mod program;
mod report;
mod typed;

use extras::compare_extras;
use ffi::{cover_records, Library};
use overlay_tests::compare::compare;
use overlay_tests::crossings::{compare_crossings, ByWords};
use overlay_tests::hours::{self, compare_hours};
use overlay_tests::laws::{try_laws, LAWS};
use overlay_tests::nearest::{compare_nearest, nearest};
use overlay_tests::reference::REFERENCE;
use overlay_tests::rounds::{self, compare_rounds};
use overlay_tests::surveys::{self, compare_surveys};
use program::compare_commands;
use report::compare_program;
use std::process::exit;
use typed::compare_types;

/// Shows the first difference and stops with an error.
fn stop(text: &str, cases: u64) -> ! {
    println!("{text}\n{cases} cases, 1 difference");
    exit(1);
}

/// The seven calls of 01 and the pair call first, then what only the C interface has, then the types of the Rust crate, then those of 02, then the report program and the program `overlay`.
fn main() {
    let mut tally = compare(&Library, &REFERENCE).unwrap_or_else(|found| stop(&found.text, found.cases));
    let extras = compare_extras().unwrap_or_else(|text| stop(&text, tally.cases()));
    tally.add("C interface alone", extras);
    let types = compare_types().unwrap_or_else(|text| stop(&text, tally.cases()));
    tally.add("types of the Rust crate", types);
    let near =
        compare_nearest(&ffi::nearest, &nearest).unwrap_or_else(|found| stop(&found.text, tally.cases()));
    tally.add("nearest", near);
    let surveys = compare_surveys(&cover_records, &surveys::cover_records);
    tally.add("surveys", surveys.unwrap_or_else(|found| stop(&found.text, tally.cases())));
    let crossings = compare_crossings(&Library, &ByWords(None));
    tally.add("crossings", crossings.unwrap_or_else(|found| stop(&found.text, tally.cases())));
    let rounds = compare_rounds(&ffi::round, &rounds::round);
    tally.add("rounds", rounds.unwrap_or_else(|found| stop(&found.text, tally.cases())));
    let hours = compare_hours(&Library, &hours::ByWords(None));
    tally.add("hours", hours.unwrap_or_else(|found| stop(&found.text, tally.cases())));
    let laws = try_laws(&Library, &LAWS).unwrap_or_else(|found| stop(&found.text, tally.cases()));
    tally.add("laws", laws);
    let reports = compare_program().unwrap_or_else(|found| stop(&found.text, tally.cases()));
    tally.add("report program", reports);
    let commands = compare_commands().unwrap_or_else(|found| stop(&found.text, tally.cases()));
    tally.add("program overlay", commands);
    print!("{tally}");
    println!("{} cases, 0 differences", tally.cases());
}
