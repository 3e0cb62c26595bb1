//! Plans of two more kinds, on which few candidates are passed over.

use overlay_tests::call::Plan;
use overlay_tests::seeds::{shape_of, Seeds};

/// How far the plans reach.
const FAR: i32 = 1_000_000;

/// Long thin strips from the left edge to the right one: all lie over one another in x, few in y.
pub fn bands(seeds: &mut Seeds, k: usize, n: u32, thick: i32) -> Plan {
    let mut cells = Vec::new();
    for _ in 0..k as u32 * n {
        let (bottom, height) = (seeds.between(-FAR, FAR - thick), seeds.between(0, thick));
        let (left, right) = (seeds.between(-FAR, 50_000 - FAR), seeds.between(FAR - 50_000, FAR));
        cells.extend([left, bottom, right, bottom + height]);
    }
    Plan { shape: shape_of(&vec![n; k]), cells }
}

/// Layers whose rectangles all meet, but for those of the last, which meet none: no row, and a trial for nearly every combination.
pub fn trap(seeds: &mut Seeds, k: usize, n: u32) -> Plan {
    let mut cells = Vec::new();
    for _ in 0..(k as u32 - 1) * n {
        let mut side = || seeds.between(800_001, 900_000);
        cells.extend([-side(), -side(), side(), side()]);
    }
    for _ in 0..n {
        let corner = seeds.between(950_000, 990_000);
        cells.extend([corner, corner, FAR, FAR]);
    }
    Plan { shape: shape_of(&vec![n; k]), cells }
}

/// Layers of equal rectangles, and a last one that lies apart: as `trap`, with nothing to tell a combination from another.
pub fn equal(k: usize, n: u32) -> Plan {
    let mut cells = [-900_000, -900_000, 900_000, 900_000].repeat((k - 1) * n as usize);
    cells.extend([950_000, 950_000, FAR, FAR].repeat(n as usize));
    Plan { shape: shape_of(&vec![n; k]), cells }
}

/// A trap in which one rectangle of each layer reaches above the others, and the last `met` of the last layer meet these alone: a row for each of them.
pub fn trap_with_rows(seeds: &mut Seeds, k: usize, n: u32, met: u32) -> Plan {
    let mut plan = trap(seeds, k, n);
    let size = n as usize;
    for layer in 0..k - 1 {
        plan.cells[4 * layer * size + 3] = 960_000;
    }
    for place in 0..size {
        let bottom = if place + met as usize >= size { 945_000 } else { 970_000 };
        let at = 4 * ((k - 1) * size + place);
        plan.cells[at..at + 4].copy_from_slice(&[place as i32 - 700_000, bottom, -600_000, bottom + 10_000]);
    }
    plan
}

/// Layers whose rectangles all meet: a row for each combination.
pub fn all_meet(seeds: &mut Seeds, k: usize, n: u32) -> Plan {
    let mut cells = Vec::new();
    for _ in 0..k as u32 * n {
        let mut side = || seeds.between(800_001, 900_000);
        cells.extend([-side(), -side(), side(), side()]);
    }
    Plan { shape: shape_of(&vec![n; k]), cells }
}

/// The minutes of a week.
const WEEK: u32 = 10_080;

/// So many windows that all differ, and all share the middle of the week.
pub fn nested(n: u32) -> Vec<u32> {
    (0..n).flat_map(|i| [i, WEEK - i]).collect()
}

/// So many windows that all differ, each for most of the time that the others need to begin: one ends whenever one begins.
pub fn sliding(n: u32) -> Vec<u32> {
    (0..n).map(|i| i * 1_237 % n).flat_map(|i| [i, i + n / 2]).collect()
}

/// So many windows that all differ, one half long and the other short and one after the other.
pub fn long_and_short(n: u32) -> Vec<u32> {
    (0..n).flat_map(|i| if i % 2 == 0 { [i / 2, WEEK - i / 2] } else { [n / 2 + 2 * i, n / 2 + 2 * i + 4] }).collect()
}
