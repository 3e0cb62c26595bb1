//! Reads a plan text on standard input, fetches its table page by page, has its ground counted once, and prints what the report program prints.
//!
//!     cargo run --example report < ../examples/forecourt.plan

use overlay::{Cause, Plan};
use std::io::{self, Read, Write};

/// The report's limits: the longest input, and the cells of the table that all rows must fit.
const INPUT_BYTES: u64 = 65_536;
const TABLE_CELLS: usize = 12_288;

/// The report of a plan text, or what refuses it.
fn report(text: &[u8]) -> Result<String, Cause> {
    if text.len() as u64 > INPUT_BYTES {
        return Err(Cause::Input);
    }
    let plan = Plan::from_text(text)?;
    let run = plan.run(TABLE_CELLS / plan.layer_count())?;
    let (mut lines, mut rows, mut trials) = (String::new(), 0, 0);
    for page in plan.pages(100, 20) {
        for places in &page.rows {
            let row = plan.row(places).expect("a row of the table");
            let kind = plan.common(places).expect("a row of the table").kind.letter();
            let places: Vec<String> = places.iter().map(u32::to_string).collect();
            lines += &format!("ROW\t{}\t{}\t{}\t{kind}\n", row.layer, places.join("\t"), row.area);
        }
        rows += page.rows.len();
        trials += page.trials;
    }
    lines += &format!("TOTAL\t{rows}\t{trials}\t{}\n", run.ground);
    Ok(lines)
}

fn main() -> io::Result<()> {
    let mut text = Vec::new();
    io::stdin().take(INPUT_BYTES + 1).read_to_end(&mut text)?;
    let printed = report(&text).unwrap_or_else(|cause| {
        eprintln!("{cause}");
        format!("REFUSED\t{}\n", cause.number())
    });
    io::stdout().write_all(printed.as_bytes())
}
