//! The comparison of two searches for what is nearest.

use crate::call::Plan;
use crate::compare::Difference;
use crate::nearest::{Near, Nearest, NearestTold};
use crate::overlay::Overlay;
use crate::reference::{layers_of, REACH, REFERENCE};
use crate::seeds::{grown_by, plan_from, Seeds, DAMAGES, STYLES};

/// How many plans are drawn.
pub const PLANS: u64 = 600;

/// Where the seeds start.
pub const SEED: u64 = 0xD1B5_4A32_D192_ED03;

/// Boxes about a rectangle: itself, points and segments of it, touching, corner to corner, one off, far away.
pub fn boxes_about(r: &[i32]) -> Vec<[i32; 4]> {
    let (left, bottom, right, top) = (r[0], r[1], r[2], r[3]);
    vec![
        [left, bottom, right, top],
        [left, bottom, left, bottom],
        [right, top, right, top],
        [right, bottom, right + 5, top],
        [right, top, right + 3, top + 4],
        [right + 1, top + 1, right + 2, top + 3],
        [right + 3, top + 4, right + 9, top + 9],
        [left - 7, bottom - 2, left - 1, bottom - 1],
        [left - 4, top + 3, left - 4, top + 3],
        [left, top + 1, right, top + 1],
        [-REACH, -REACH, -REACH, -REACH],
        [REACH, REACH, REACH, REACH],
        [-REACH, -REACH, REACH, REACH],
        [-REACH, top, 1 - REACH, top],
    ]
}

/// Boxes that are refused, and some at the ends of 32 bits.
pub const BAD: [[i32; 4]; 9] = [
    [1, 0, 0, 0],
    [0, 1, 0, 0],
    [-10_000_001, 0, 0, 0],
    [0, -10_000_001, 0, 0],
    [0, 0, 10_000_001, 0],
    [0, 0, 0, 10_000_001],
    [i32::MIN, i32::MIN, i32::MAX, i32::MAX],
    [i32::MAX, i32::MAX, i32::MIN, i32::MIN],
    [0, 0, i32::MAX, 0],
];

/// A box of two drawn corners.
pub fn drawn_box(seeds: &mut Seeds) -> [i32; 4] {
    let most = seeds.pick(&[4, 20, 200, 1_000_000, REACH]);
    let mut corner = || seeds.between(-most, most);
    let (a, b, c, d) = (corner(), corner(), corner(), corner());
    [a.min(b), c.min(d), a.max(b), c.max(d)]
}

/// Compares two calls on one plan with one box.
pub fn compare_one(
    cases: &mut u64,
    calls: (Nearest, Nearest),
    plan: &Plan,
    around: [i32; 4],
) -> Result<(), Difference> {
    *cases += 1;
    let left = calls.0(&plan.shape, &plan.cells, around);
    let right = calls.1(&plan.shape, &plan.cells, around);
    if left == right {
        return Ok(());
    }
    let text =
        format!("DIFFERENCE in nearest\n{plan:?}\nbox {around:?}\nleft:  {left:?}\nright: {right:?}\n");
    Err(Difference { cases: *cases, kind: "nearest", text })
}

/// The example of the manual: the forecourt, a plinth on it, and the place and squared gap of what lies nearest in each layer.
pub fn forecourt() -> (Plan, [i32; 4], [(u32, u64); 6]) {
    let mut cells = vec![0; 12_288];
    let shape = REFERENCE.read(include_bytes!("../../../examples/forecourt.plan"), &mut cells).shape;
    cells.truncate(4 * shape.sizes.iter().sum::<u32>() as usize);
    let due = [(1, 250_000), (0, 1_000_000), (2, 490_000), (1, 20_250_000), (0, 0), (3, 8_410_000)];
    (Plan { shape, cells }, [30_000, 11_500, 30_600, 12_100], due)
}

/// Compares two calls over many plans and boxes; returns how many cases were compared.
pub fn compare_nearest(left: Nearest, right: Nearest) -> Result<u64, Difference> {
    let (mut seeds, mut cases) = (Seeds(SEED), 0);
    let far = plan_from(&[&[[-REACH; 4], [0, 0, 3, 4]], &[[REACH; 4]], &[[REACH, -REACH, REACH, -REACH]]]);
    for around in [[-REACH; 4], [REACH; 4], [0, 0, 0, 0], [6, 8, 9, 9]] {
        compare_one(&mut cases, (left, right), &far, around)?;
        for margins in [[50_000; 3], [2, 3, 50_000], [3, 0, 1]] {
            compare_one(&mut cases, (left, right), &grown_by(far.clone(), &margins), around)?;
        }
    }
    let (plan, around, due) = forecourt();
    let layers = due.map(|(place, gap)| Near { found: true, place, gap });
    for call in [left, right] {
        compare_one(&mut cases, (call, &|_, _, _| NearestTold { number: 0, layers }), &plan, around)?;
    }
    for round in 0..PLANS {
        let mut plan = seeds.plan(2 + (round % 5) as usize, round % STYLES);
        if round % 2 == 1 {
            plan = seeds.with_margins(plan);
        }
        let mut boxes: Vec<[i32; 4]> = (0..6).map(|_| drawn_box(&mut seeds)).collect();
        let at = seeds.below(4) as usize;
        if let Some(rect) = plan.cells.chunks(4).nth(at) {
            boxes.extend(boxes_about(rect));
        }
        if let Some(r) = layers_of(&plan.shape, &plan.cells).concat().get(at).filter(|_| round % 2 == 1) {
            boxes.extend(boxes_about(&[r.left, r.bottom, r.right, r.top]));
        }
        boxes.extend(BAD);
        for &around in &boxes {
            compare_one(&mut cases, (left, right), &plan, around)?;
        }
        for way in 0..DAMAGES {
            let mut unsound = plan.clone();
            seeds.damage_plan(&mut unsound, way);
            for around in [drawn_box(&mut seeds), seeds.pick(&BAD)] {
                compare_one(&mut cases, (left, right), &unsound, around)?;
            }
        }
    }
    Ok(cases)
}
