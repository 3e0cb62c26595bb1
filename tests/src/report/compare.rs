//! Compares two reports byte by byte over many inputs.

use crate::call::Plan;
use crate::compare::Difference;
use crate::known::known_reports;
use crate::reference::REACH;
use crate::seeds::{
    covered, equal_plan, grown_by, plan_d, plan_from, shape_of, spell, text, towers, Seeds, STYLES,
};

/// How many drawn texts are reported.
pub const DRAWN: u64 = 300;

/// Reports as functions from input to printed bytes, beside each other and beside what the paper gives; returns how
/// many cases were compared.
pub fn compare_reports(
    left: &dyn Fn(&[u8]) -> Vec<u8>,
    right: &dyn Fn(&[u8]) -> Vec<u8>,
) -> Result<u64, Difference> {
    let mut cases = 0;
    for input in inputs() {
        cases += 1;
        let (ours, theirs) = (left(&input), right(&input));
        if ours != theirs {
            return Err(Difference { cases, kind: "reports", text: show(&input, &ours, &theirs) });
        }
    }
    for known in known_reports() {
        for report in [left, right] {
            cases += 1;
            let printed = report(&known.input);
            if printed != known.printed {
                let shown = show(&known.input, &printed, &known.printed);
                let text = format!("{}: {shown}", known.name);
                return Err(Difference { cases, kind: "known reports", text });
            }
        }
    }
    Ok(cases)
}

/// The whole case.
pub fn show(input: &[u8], left: &[u8], right: &[u8]) -> String {
    let lines = [("input", input), ("left", left), ("right", right)];
    let shown = lines.map(|(name, bytes)| format!("{name}: \"{}\"", bytes.escape_ascii()));
    format!("DIFFERENCE in reports\n{}\n", shown.join("\n"))
}

/// Every input of the comparison.
pub fn inputs() -> Vec<Vec<u8>> {
    let mut all = vec![Vec::new(), spell("PLAN,2/"), spell("PLAN,2/LAYER,0,0/LAYER,0,0/"), text(&plan_d())];
    all.extend([spell("PLAN,2/LAYER,0/LAYER,0/"), spell("PLAN,2/LAYER,0,50000/LAYER,0,50001/")]);
    all.push(include_bytes!("../../../examples/forecourt.plan").to_vec());
    all.extend(rounding().iter().map(text));
    all.extend(full_tables().iter().map(text));
    all.extend(long_inputs());
    let mut seeds = Seeds(0x9E37_79B9_7F4A_7C15);
    for round in 0..DRAWN {
        let mut plan = seeds.plan(2 + (round % 5) as usize, (round / 5) % STYLES);
        if seeds.once_in(2) {
            plan = seeds.with_margins(plan);
        }
        let mut text = text(&plan);
        if seeds.once_in(6) {
            let at = seeds.below(text.len() as u64) as usize;
            text.remove(at);
        }
        all.push(text);
    }
    all
}

/// Ground about 4,999 and 5,000 square millimetres, in one row and in several, beside and over each other, and the largest.
pub fn rounding() -> Vec<Plan> {
    let mut plans: Vec<Plan> =
        [(1, 4_999), (1, 5_000), (1, 14_999), (1, 15_000), (3, 333_333), (100, 999_950), (1_000, 1_000_000)]
            .iter()
            .map(|&(width, height)| equal_plan(&[1, 1], [0, 0, width, height]))
            .collect();
    plans.push(equal_plan(&[2, 1], [0, 0, 1, 4_999]));
    plans.push(covered(&[[0, 0, 1, 4_999], [1, 0, 2, 4_999]], 2));
    plans.push(covered(&[[0, 0, 1, 4_999], [0, 4_998, 1, 5_000], [0, 0, 1, 2]], 3));
    plans.push(covered(&[[0, 0, 100, 100], [50, 50, 150, 150], [100, 0, 150, 50], [0, 100, 50, 150]], 4));
    plans.push(equal_plan(&[2, 2, 2], [0, 0, 50, 99]));
    let largest = equal_plan(&[64, 96], [-REACH, -REACH, REACH, REACH]);
    plans.push(grown_by(largest.clone(), &[50_000, 50_000]));
    plans.push(largest);
    // A point grown by 35 has 4,900 square millimetres, by 36 it has 5,184.
    plans.extend([35, 36].map(|margin| grown_by(equal_plan(&[1, 1], [0; 4]), &[margin, margin])));
    plans
}

/// As many rows as the report's table takes for each k, and one more; and many rows on many lines.
pub fn full_tables() -> Vec<Plan> {
    let sizes: [&[u32]; 5] =
        [&[64, 96], &[16, 16, 16], &[3, 4, 16, 16], &[3, 3, 3, 7, 13], &[2, 4, 4, 4, 4, 4]];
    let exact = sizes.map(|sizes| equal_plan(sizes, [0, 0, 2, 2]));
    let mut plans = exact.to_vec();
    plans.extend(exact.iter().map(one_more));
    plans.extend([towers(2, 512), towers(3, 200), towers(6, 80)]);
    plans
}

/// The plan with a point far off in every layer, which is one row more.
pub fn one_more(plan: &Plan) -> Plan {
    let k = plan.shape.k as usize;
    let sizes: Vec<u32> = plan.shape.sizes[..k].iter().map(|size| size + 1).collect();
    let mut rects = plan.cells.chunks(4);
    let mut cells = Vec::new();
    for size in &plan.shape.sizes[..k] {
        cells.extend(rects.by_ref().take(*size as usize).flatten());
        cells.extend([9, 9, 9, 9]);
    }
    Plan { shape: shape_of(&sizes), cells }
}

/// Inputs of 65,536 bytes and about it, good and not.
pub fn long_inputs() -> Vec<Vec<u8>> {
    let mut all: Vec<Vec<u8>> =
        [65_535, 65_536, 65_537, 65_600].iter().map(|&length| text(&plan_of_length(length))).collect();
    for length in [65_535, 65_536, 65_537, 200_000] {
        all.push(vec![b'x'; length]);
        let mut unfinished = text(&plan_from(&[&[[0, 0, 1, 1]], &[[0, 0, 1, 1]]]));
        unfinished.resize(length, b'\n');
        all.push(unfinished);
    }
    all
}

/// A plan of four layers of 512 narrow rectangles whose text has the given length.
pub fn plan_of_length(length: usize) -> Plan {
    const BOTTOMS: [i32; 8] = [0, -9, -99, -999, -9_999, -99_999, -999_999, -1_000_000];
    const TOPS: [i32; 7] = [0, 10, 100, 1_000, 10_000, 100_000, 1_000_000];
    let rects = 4 * 512;
    // Without bottom and top: PLAN line, four LAYER lines, and 21 bytes for each RECT line.
    let mut spare = length - 7 - 4 * 12 - rects * 21;
    let mut cells = Vec::new();
    for at in 0..rects {
        let share = spare / (rects - at);
        let bottom = BOTTOMS[(share / 2).clamp(1, 8) - 1];
        let used = bottom.to_string().len();
        let top = TOPS[(share - used).clamp(1, 7) - 1];
        let used = used + top.to_string().len();
        let left = 100_000 + 100 * (at as i32 % 512) + 40 * (at as i32 / 512);
        cells.extend([left, bottom, left + 50, top]);
        spare -= used;
    }
    let plan = Plan { shape: shape_of(&[512; 4]), cells };
    assert_eq!(text(&plan).len(), length);
    plan
}
