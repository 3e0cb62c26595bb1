//! The report.

pub mod compare;
pub mod slips;

use crate::order::sweep_order;
use crate::overlay::{Overlay, Shape, Total};
use crate::pair::rects_at;
use crate::plan::{layers_of, total};
use crate::reference::{Rules, REFERENCE};
use crate::row::{row_of, Row};

/// The report's table, "12,288 cells", and the cells of the largest plan.
pub const REPORT_CELLS: usize = 12_288;

/// The report's longest input in bytes.
pub const REPORT_BYTES: usize = 65_536;

/// "plus 5,000, divided by 10,000 and rounded down, a count of hundredths".
pub fn square_metres(area: Total) -> String {
    let hundredths = (area.value() + 5_000) / 10_000;
    format!("{}.{:02}", hundredths / 100, hundredths % 100)
}

/// One ROW line: "the guard's layer, the k places, the area in square millimetres", and "the kind of the row's common ground as one more field".
pub fn row_line(row: &Row, k: usize, kind: u8) -> String {
    let places: Vec<String> = row.places[..k].iter().map(|place| place.to_string()).collect();
    format!("ROW\t{}\t{}\t{}\t{}\n", row.guard, places.join("\t"), row.area, char::from(kind))
}

/// "A refusal prints REFUSED and its number alone".
pub fn refused_line(number: u32) -> Vec<u8> {
    format!("REFUSED\t{number}\n").into_bytes()
}

/// The bytes that the report program prints for an input.
pub fn report(input: &[u8]) -> Vec<u8> {
    REFERENCE.report(input)
}

impl Rules {
    /// The bytes that the report program prints for an input; 13 comes "before all others".
    pub fn report(&self, input: &[u8]) -> Vec<u8> {
        if input.len() > REPORT_BYTES {
            return refused_line(13);
        }
        let mut cells = vec![0; REPORT_CELLS];
        let reading = self.read(input, &mut cells);
        if reading.number != 0 {
            return refused_line(reading.number);
        }
        let shape = reading.shape;
        cells.truncate(4 * total(&shape) as usize);
        self.report_plan(&shape, &cells)
    }

    /// The report of a sound plan: "The TOTAL line's square metres become those of the union of all rows' common ground".
    fn report_plan(&self, shape: &Shape, cells: &[i32]) -> Vec<u8> {
        let layers = layers_of(shape, cells);
        let (mut table, mut work) = (vec![0; REPORT_CELLS], vec![0; REPORT_CELLS]);
        let run = self.run(shape, cells, &sweep_order(&layers), &mut table, &mut work);
        if run.number != 0 {
            return refused_line(run.number);
        }
        let mut text = String::new();
        for places in table.chunks(layers.len()).take(run.rows as usize) {
            let row = row_of(&layers, places).expect("a row of the run");
            text += &row_line(&row, layers.len(), (self.kind)(&rects_at(&layers, places)));
        }
        text += &format!("TOTAL\t{}\t{}\t{}\n", run.rows, run.trials, (self.metres)(run.ground));
        text.into_bytes()
    }
}
