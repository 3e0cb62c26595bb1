//! Compares the reference with wrong overlays, each of which must be caught, and with itself.

use overlay_tests::check::{check, compare_checks, ByWords as CheckByWords, SLIPS as CHECK_SLIPS};
use overlay_tests::compare::{compare, Tally};
use overlay_tests::crossings::{compare_crossings, ByWords, SLIPS as CROSSING_SLIPS};
use overlay_tests::hours::{compare_hours, ByWords as HoursByWords, SLIPS as HOURS_SLIPS};
use overlay_tests::laws::{try_laws, LAWLESS, LAWS, WRONG_LAWS};
use overlay_tests::nearest::{compare_nearest, nearest, WRONG_NEAREST};
use overlay_tests::picture::{compare_pictures, picture, SLIPS as PICTURE_SLIPS};
use overlay_tests::program::{answer, compare_programs, ByWords as ProgramByWords, SLIPS as PROGRAM_SLIPS};
use overlay_tests::reference::{report, REFERENCE};
use overlay_tests::report::slips::SLIPS as REPORT_SLIPS;
use overlay_tests::reports::compare_reports;
use overlay_tests::rounds::{compare_rounds, round, ByWords as RoundByWords, SLIPS as ROUND_SLIPS};
use overlay_tests::slips::slips;
use overlay_tests::surveys::{compare_surveys, cover_records, wrong_surveys};
use std::process::exit;

/// Prints a difference and stops with an error.
fn stop(text: &str) -> ! {
    println!("{text}");
    exit(1);
}

/// Every wrong overlay must differ from the reference somewhere.
fn catch_wrong_overlays() {
    for (wrong, name) in slips() {
        match compare(&wrong, &REFERENCE) {
            Err(found) => {
                println!("wrong overlay caught after {} cases ({}): {name}", found.cases, found.kind)
            }
            Ok(_) => stop(&format!("wrong overlay not caught: {name}")),
        }
    }
}

/// Every wrong report must differ from the right one somewhere.
fn catch_wrong_reports() {
    for (wrong, name) in REPORT_SLIPS {
        match compare_reports(&wrong, &report) {
            Err(found) => println!("wrong report caught after {} cases: {name}", found.cases),
            Ok(_) => stop(&format!("wrong report not caught: {name}")),
        }
    }
}

/// Every wrong search for what is nearest must differ from the right one somewhere.
fn catch_wrong_nearest() {
    for (wrong, name) in WRONG_NEAREST {
        match compare_nearest(&wrong, &nearest) {
            Err(found) => println!("wrong nearest caught after {} cases: {name}", found.cases),
            Ok(_) => stop(&format!("wrong nearest not caught: {name}")),
        }
    }
}

/// Every wrong call on survey records must differ from the right one somewhere.
fn catch_wrong_surveys() {
    for (wrong, name) in wrong_surveys() {
        match compare_surveys(&wrong, &cover_records) {
            Err(found) => println!("wrong survey caught after {} cases: {name}", found.cases),
            Ok(_) => stop(&format!("wrong survey not caught: {name}")),
        }
    }
}

/// Every wrong class call or crossing report must differ from the right one somewhere.
fn catch_wrong_crossings() {
    for (slip, name) in CROSSING_SLIPS {
        match compare_crossings(&ByWords(Some(slip)), &ByWords(None)) {
            Err(found) => {
                println!("wrong crossings caught after {} cases ({}): {name}", found.cases, found.kind)
            }
            Ok(_) => stop(&format!("wrong crossings not caught: {name}")),
        }
    }
}

/// Every wrong round must differ from the right one somewhere.
fn catch_wrong_rounds() {
    for (slip, name) in ROUND_SLIPS {
        match compare_rounds(&|lent| RoundByWords(Some(slip)).round(lent), &round) {
            Err(found) => println!("wrong round caught after {} cases: {name}", found.cases),
            Ok(_) => stop(&format!("wrong round not caught: {name}")),
        }
    }
}

/// Every wrong timed call must differ from the right one somewhere.
fn catch_wrong_hours() {
    for (slip, name) in HOURS_SLIPS {
        match compare_hours(&HoursByWords(Some(slip)), &HoursByWords(None)) {
            Err(found) => println!("wrong hours caught after {} cases: {name}", found.cases),
            Ok(_) => stop(&format!("wrong hours not caught: {name}")),
        }
    }
}

/// Every wrong check must differ from the right one somewhere.
fn catch_wrong_checks() {
    for (slip, name) in CHECK_SLIPS {
        match compare_checks(&|text| CheckByWords(slip).check(text), &check) {
            Err(found) => println!("wrong check caught after {} cases: {name}", found.cases),
            Ok(_) => stop(&format!("wrong check not caught: {name}")),
        }
    }
}

/// Every wrong program must differ from the right one somewhere.
fn catch_wrong_programs() {
    for (slip, name) in PROGRAM_SLIPS {
        match compare_programs(&|asked| ProgramByWords(slip).answer(asked), &answer) {
            Err(found) => println!("wrong program caught after {} cases: {name}", found.cases),
            Ok(_) => stop(&format!("wrong program not caught: {name}")),
        }
    }
}

/// Every wrong picture must differ from the right one somewhere.
fn catch_wrong_pictures() {
    for (wrong, name) in PICTURE_SLIPS {
        match compare_pictures(&|plan| wrong.picture(plan), &picture) {
            Err(found) => println!("wrong picture caught after {} cases: {name}", found.cases),
            Ok(_) => stop(&format!("wrong picture not caught: {name}")),
        }
    }
}

/// Every wrong statement must be shown wrong by the reference, and every lawless overlay by the laws.
fn catch_wrong_laws() {
    for (wrong, name) in WRONG_LAWS {
        match try_laws(&REFERENCE, &wrong) {
            Err(found) => println!("wrong law caught after {} cases ({}): {name}", found.cases, found.kind),
            Ok(_) => stop(&format!("wrong law not caught: {name}")),
        }
    }
    for (wrong, name) in slips().filter(|(_, name)| LAWLESS.contains(name)) {
        match try_laws(&wrong, &LAWS) {
            Err(found) => println!("law broken after {} cases ({}): {name}", found.cases, found.kind),
            Ok(_) => stop(&format!("no law broken: {name}")),
        }
    }
}

/// The reference must agree with itself.
fn compare_with_itself() -> Tally {
    let mut tally = compare(&REFERENCE, &REFERENCE).unwrap_or_else(|found| stop(&found.text));
    tally.add("reports", compare_reports(&report, &report).unwrap_or_else(|found| stop(&found.text)));
    tally.add("nearest", compare_nearest(&nearest, &nearest).unwrap_or_else(|found| stop(&found.text)));
    let surveys = compare_surveys(&cover_records, &cover_records);
    tally.add("surveys", surveys.unwrap_or_else(|found| stop(&found.text)));
    let crossings = compare_crossings(&ByWords(None), &ByWords(None));
    tally.add("crossings", crossings.unwrap_or_else(|found| stop(&found.text)));
    tally.add("rounds", compare_rounds(&round, &round).unwrap_or_else(|found| stop(&found.text)));
    let hours = compare_hours(&HoursByWords(None), &HoursByWords(None));
    tally.add("hours", hours.unwrap_or_else(|found| stop(&found.text)));
    tally.add("checks", compare_checks(&check, &check).unwrap_or_else(|found| stop(&found.text)));
    tally.add("program", compare_programs(&answer, &answer).unwrap_or_else(|found| stop(&found.text)));
    let pictures = compare_pictures(&picture, &picture);
    tally.add("pictures", pictures.unwrap_or_else(|found| stop(&found.text)));
    tally.add("laws", try_laws(&REFERENCE, &LAWS).unwrap_or_else(|found| stop(&found.text)));
    tally
}

/// The self-check first, then the counts.
fn main() {
    catch_wrong_overlays();
    catch_wrong_reports();
    catch_wrong_nearest();
    catch_wrong_surveys();
    catch_wrong_crossings();
    catch_wrong_rounds();
    catch_wrong_hours();
    catch_wrong_checks();
    catch_wrong_programs();
    catch_wrong_pictures();
    catch_wrong_laws();
    print!("{}", compare_with_itself());
}
