//! The program `overlay` under test, by the functions that `programs/overlay.c` calls (include/overlay.h), with one set of buffers for all calls.

use overlay_tests::call::Plan;
use overlay_tests::check::{check, compare_checks, Said};
use overlay_tests::compare::Difference;
use overlay_tests::picture::{compare_pictures, picture};
use overlay_tests::program::{answer, compare_programs, Answer, Asked};
use overlay_tests::seeds::text;
use std::cell::RefCell;

extern "C" {
    fn overlay_text_source(arguments: *const u8, arguments_length: usize) -> usize;
    fn overlay_second_source(arguments: *const u8, arguments_length: usize) -> usize;
    fn overlay_command(
        arguments: *const u8,
        arguments_length: usize,
        text: *const u8,
        text_length: usize,
        second: *const u8,
        second_length: usize,
        table: *mut u32,
        work: *mut i32,
        out: *mut u8,
        err: *mut u8,
        out_size: *mut usize,
        err_size: *mut usize,
    ) -> u32;
}

/// The lengths of the buffers that the header names.
const CELLS: usize = 524_288;
const OUT: usize = 167_772_160;
const ERR: usize = 65_536;

/// The buffers. What they hold before a call does not matter, so they are kept.
struct Buffers {
    table: Vec<u32>,
    work: Vec<i32>,
    out: Vec<u8>,
    err: Vec<u8>,
}

impl Buffers {
    /// What the program says.
    fn answer(&mut self, asked: &Asked) -> Answer {
        let mut given = asked.words.join(&0);
        given.extend(asked.words.iter().take(1).map(|_| 0));
        let (mut out_size, mut err_size) = (0, 0);
        // SAFETY: each buffer has as many cells as the header says, or as its length says, and they do not overlap.
        unsafe {
            let status = overlay_command(
                given.as_ptr(),
                given.len(),
                asked.text.as_ptr(),
                asked.text.len(),
                asked.second.as_ptr(),
                asked.second.len(),
                self.table.as_mut_ptr(),
                self.work.as_mut_ptr(),
                self.out.as_mut_ptr(),
                self.err.as_mut_ptr(),
                &mut out_size,
                &mut err_size,
            );
            let (out, err) = (self.out[..out_size].to_vec(), self.err[..err_size].to_vec());
            let text = overlay_text_source(given.as_ptr(), given.len());
            (Said { status, out, err }, text, overlay_second_source(given.as_ptr(), given.len()))
        }
    }
}

/// The program beside the rules, and its commands `check` and `picture` on texts of their own.
pub fn compare_commands() -> Result<u64, Difference> {
    let buffers = RefCell::new(Buffers {
        table: vec![7; CELLS],
        work: vec![7; CELLS],
        out: vec![0; OUT],
        err: vec![7; ERR],
    });
    let program = |asked: &Asked| buffers.borrow_mut().answer(asked);
    let checked = |text: &[u8]| {
        program(&Asked { words: vec![b"check".to_vec()], text: text.to_vec(), second: Vec::new() }).0
    };
    let drawn = |plan: &Plan| {
        program(&Asked { words: vec![b"picture".to_vec()], text: text(plan), second: Vec::new() }).0.out
    };
    let pictures = compare_pictures(&drawn, &picture)?;
    Ok(compare_programs(&program, &answer)? + compare_checks(&checked, &check)? + pictures)
}
