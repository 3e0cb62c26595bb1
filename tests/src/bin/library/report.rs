//! The report program under test, as a function from input to printed bytes.

use overlay_tests::compare::Difference;
use overlay_tests::reference::report;
use overlay_tests::reports::{compare_reports, inputs};
use std::io::{Read, Write};
use std::process::{Command, Stdio};
use std::thread;

/// What the program that OVERLAY_REPORT names prints for an input that comes in pieces of this length.
fn printed(input: &[u8], piece: usize) -> Vec<u8> {
    let program = std::env::var_os("OVERLAY_REPORT").expect("OVERLAY_REPORT names the report program");
    let mut child = Command::new(program)
        .stdin(Stdio::piped())
        .stdout(Stdio::piped())
        .spawn()
        .expect("the report program starts");
    let mut stdin = child.stdin.take().expect("a pipe to the program");
    let pieces: Vec<Vec<u8>> = input.chunks(piece).map(<[u8]>::to_vec).collect();
    // The program may stop reading before a long input ends: the pipe then breaks, which is no fault.
    let feeder = thread::spawn(move || pieces.iter().all(|bytes| stdin.write_all(bytes).is_ok()));
    let mut text = Vec::new();
    child.stdout.take().expect("a pipe from the program").read_to_end(&mut text).expect("what it prints");
    assert!(child.wait().expect("the report program ends").success());
    feeder.join().expect("the input is fed");
    text
}

/// Every input at once; and some byte by byte: each short one, and those about 65,536 bytes.
pub fn compare_program() -> Result<u64, Difference> {
    let mut cases = compare_reports(&|input| printed(input, 1 << 20), &report)?;
    let slow = |input: &[u8]| input.len() < 200 || (65_535..=65_538).contains(&input.len());
    for input in inputs().iter().filter(|input| slow(input)) {
        cases += 1;
        let (ours, theirs) = (printed(input, 1), report(input));
        if ours != theirs {
            let text = format!("DIFFERENCE in a report byte by byte\n{}\n", input.escape_ascii());
            return Err(Difference { cases, kind: "reports", text });
        }
    }
    Ok(cases)
}
