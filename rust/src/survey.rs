//! Corner records of the survey instrument.

use crate::{calls, Cause, Rect, MOST_SIZE};

/// Which records are wanted along one axis. The stops belong to the strip.
#[derive(Clone, Copy, Debug, PartialEq)]
pub enum Strip {
    /// All.
    Free,
    /// Those that reach up to this stop.
    From(f64),
    /// Those that begin up to this stop.
    To(f64),
    /// Those that meet what lies between the two, lower one first.
    Between(f64, f64),
}

impl Strip {
    /// Its kind and its two stops as the call takes them.
    fn cells(self) -> (u32, [f64; 2]) {
        match self {
            Strip::Free => (0, [0.0; 2]),
            Strip::From(low) => (1, [low, 0.0]),
            Strip::To(high) => (2, [0.0, high]),
            Strip::Between(low, high) => (3, [low, high]),
        }
    }
}

/// The smallest rectangles in whole millimetres that contain the records which meet both strips, in their order. A record is left, bottom, right and top in
/// millimetres; each has to be sound, kept or not.
///
/// ```
/// use overlay::{cover_records, Rect, Strip};
///
/// let records = [[1000.2, 500.0, 1250.7, 750.4], [20000.25, 100.0, 20300.0, 300.0]];
/// let layer = cover_records(Strip::Between(0.0, 20000.0), Strip::Free, &records)?;
/// assert_eq!(layer, [Rect::new(1000, 500, 1251, 751)]);
/// # Ok::<(), overlay::Cause>(())
/// ```
pub fn cover_records(across: Strip, upward: Strip, records: &[[f64; 4]]) -> Result<Vec<Rect>, Cause> {
    let ((a, [left, right]), (b, [bottom, top])) = (across.cells(), upward.cells());
    let (mut cells, mut kept) = (vec![0; 4 * MOST_SIZE], 0);
    let corners = records.as_flattened();
    Cause::check(calls::cover_records(&[a, b], &[left, right, bottom, top], corners, &mut cells, &mut kept))?;
    Ok(cells.chunks_exact(4).take(kept).map(|r| Rect::new(r[0], r[1], r[2], r[3])).collect())
}
