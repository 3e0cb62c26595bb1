//! The comparison of two calls on survey records.

use crate::call::cells_i32;
use crate::compare::Difference;
use crate::seeds::Seeds;
use crate::surveys::{rank, Cover, Covered, Survey};
use std::panic::{catch_unwind, AssertUnwindSafe};

/// How many drawn surveys are compared.
pub const DRAWN: u64 = 60_000;

/// How many records of random bits are compared, four patterns each.
pub const PATTERNS: u64 = 50_000;

/// The two neighbours of a float.
pub fn neighbours(x: f64) -> [f64; 2] {
    [f64::from_bits(x.to_bits() - 1), f64::from_bits(x.to_bits() + 1)]
}

/// Floats of all kinds, each with its negative.
pub fn floats() -> Vec<f64> {
    let mut all = vec![
        0.0,
        5e-324,
        1e-310,
        f64::from_bits((1 << 52) - 1),
        f64::MIN_POSITIVE,
        1e-300,
        0.1,
        0.5,
        1.5,
        2.5,
        3.0,
        999_999.5,
        1_000_001.0,
        9_999_999.0,
        9_999_999.5,
        10_000_000.5,
        10_000_001.0,
        4_503_599_627_370_495.5,
        9_007_199_254_740_993.0,
        1e300,
        f64::MAX,
        f64::INFINITY,
        f64::NAN,
        f64::from_bits(0x7ff0_0000_0000_0001),
    ];
    for whole in [
        1.0,
        2.0,
        1_000_000.0,
        10_000_000.0,
        1_073_741_824.0,
        2_147_483_648.0,
        4_294_967_296.0,
        9_223_372_036_854_775_808.0,
    ] {
        all.push(whole);
        all.extend(neighbours(whole));
    }
    let negatives: Vec<f64> = all.iter().map(|x| -x).collect();
    all.extend(negatives);
    all
}

/// Every pair of floats as an extent, on either axis, against strips that stop at one of them.
pub fn pairs() -> Vec<Survey> {
    let floats = floats();
    let mut all = Vec::new();
    for (i, &low) in floats.iter().enumerate() {
        for (j, &high) in floats.iter().enumerate() {
            let axis = (i + j) % 2;
            let mut corners = vec![-1.5, -1.5, 1.5, 1.5];
            (corners[axis], corners[axis + 2]) = (low, high);
            let kind = (i + 3 * j) as u32 % 4;
            let stop = floats[(7 * i + 5 * j) % floats.len()];
            let mut survey = Survey { kinds: [0; 2], stops: [f64::NAN; 4], corners, room: 6 };
            for (kind, stops) in [
                (0, [stop, stop]),
                (1, [high, stop]),
                (2, [stop, low]),
                (3, [high, high]),
                (3, [low, low]),
                (kind, [stop, high]),
            ] {
                survey.kinds[axis] = kind;
                survey.stops[2 * axis..2 * axis + 2].copy_from_slice(&stops);
                all.push(survey.clone());
            }
        }
    }
    all
}

/// About 512 kept records, some more that are not, and buffers about what they need.
pub fn large() -> Vec<Survey> {
    let mut all = Vec::new();
    for kept in [511, 512, 513, 600] {
        for others in [0, 100] {
            for room in [4 * kept - 1, 4 * kept, 4 * kept + 1, 0] {
                let near = |i: usize| [i as f64 + 0.25, 0.25, i as f64 + 0.5, 0.5];
                let far = |i: usize| [i as f64, 9.5, i as f64, 9.5];
                let mut corners: Vec<f64> = (0..kept).flat_map(near).collect();
                corners.extend((0..others).flat_map(far));
                let survey = Survey { kinds: [0, 2], stops: [0.0, 0.0, 0.0, 1.0], corners, room };
                let mut unsound = survey.clone();
                unsound.corners[4 * kept - 2] = f64::NAN;
                all.extend([survey, unsound]);
            }
        }
    }
    all
}

/// A float: from a few whole numbers and halves, in range, any bits, or of all kinds.
pub fn float(seeds: &mut Seeds, floats: &[f64], style: u64) -> f64 {
    match style {
        0 => f64::from(seeds.between(-6, 6)) / 2.0,
        1 => {
            f64::from(seeds.between(-10_000_000, 10_000_000))
                + (seeds.draw() >> 11) as f64 / 9_007_199_254_740_992.0
        }
        2 => f64::from_bits(seeds.draw()),
        _ => seeds.pick(floats),
    }
}

/// A drawn survey.
pub fn drawn(seeds: &mut Seeds, floats: &[f64]) -> Survey {
    let style = if seeds.once_in(8) { seeds.below(4) } else { seeds.below(2) };
    let mut corners = Vec::new();
    for _ in 0..seeds.below(9) {
        let mut record = [0.0; 4].map(|_: f64| float(seeds, floats, style));
        if !seeds.once_in(40) {
            for axis in 0..2 {
                if rank(record[axis]) > rank(record[axis + 2]) {
                    record.swap(axis, axis + 2);
                }
            }
        }
        corners.extend(record);
    }
    let stop = |seeds: &mut Seeds| match seeds.below(4) {
        0 => float(seeds, floats, style),
        1 => float(seeds, floats, 0),
        2 if seeds.once_in(4) => float(seeds, floats, 3),
        _ if corners.is_empty() => 0.0,
        _ => seeds.pick(&corners),
    };
    let mut stops = [0.0; 4].map(|_: f64| stop(seeds));
    for axis in [0, 2] {
        if rank(stops[axis]) > rank(stops[axis + 1]) && !seeds.once_in(8) {
            stops.swap(axis, axis + 1);
        }
    }
    let kind = |seeds: &mut Seeds| {
        if seeds.once_in(60) {
            seeds.pick(&[4, 5, 7, 256, u32::MAX])
        } else {
            seeds.below(4) as u32
        }
    };
    let kinds = [kind(seeds), kind(seeds)];
    if seeds.once_in(30) {
        corners.push(float(seeds, floats, style));
    }
    if seeds.once_in(60) {
        corners.pop();
    }
    let room =
        if seeds.once_in(4) { seeds.below(40) as usize } else { corners.len() + seeds.below(3) as usize };
    Survey { kinds, stops, corners, room }
}

/// A record of random bits; in half of them the exponents are those of sizes below 2^21, so that many are accepted.
pub fn patterns(seeds: &mut Seeds) -> Survey {
    let near = seeds.once_in(2);
    let mut corners = [0.0; 4].map(|_: f64| {
        let (bits, field) = (seeds.draw(), seeds.between(960, 1043) as u64);
        f64::from_bits(if near { bits & !(0x7ff << 52) | field << 52 } else { bits })
    });
    for axis in 0..2 {
        if rank(corners[axis]) > rank(corners[axis + 2]) {
            corners.swap(axis, axis + 2);
        }
    }
    Survey { kinds: [0; 2], stops: [0.0; 4], corners: corners.to_vec(), room: 4 }
}

/// Every survey of the comparison.
pub fn surveys() -> Vec<Survey> {
    let floats = floats();
    let mut seeds = Seeds(0x9E37_79B9_7F4A_7C15);
    let mut all = pairs();
    all.extend(large());
    all.extend((0..DRAWN).map(|_| drawn(&mut seeds, &floats)));
    all.extend((0..PATTERNS).map(|_| patterns(&mut seeds)));
    all
}

/// Surveys whose answers the request gives, with the number, and the first cells where it is 0.
pub fn known_surveys() -> Vec<(&'static str, Survey, u32, Vec<i32>)> {
    let free =
        |corners: &[f64]| Survey { kinds: [0; 2], stops: [0.0; 4], corners: corners.to_vec(), room: 12 };
    let with = |kinds, stops, corners: &[f64]| Survey { kinds, stops, ..free(corners) };
    let short = |room, corners: &[f64]| Survey { room, ..free(corners) };
    let inf = f64::INFINITY;
    vec![
        ("down and up", free(&[-0.5, -1.5, 0.5, 1.5]), 0, vec![-1, -2, 1, 2]),
        ("whole corners stay", free(&[-3.0, 4.0, 5.0, 4.0]), 0, vec![-3, 4, 5, 4]),
        ("negative zero", free(&[-0.0, -0.0, -0.0, -0.0]), 0, vec![0, 0, 0, 0]),
        ("the smallest values", free(&[-5e-324, 5e-324, 5e-324, 5e-324]), 0, vec![-1, 0, 1, 1]),
        (
            "ten million",
            free(&[-1e7, -1e7, 1e7, 1e7]),
            0,
            vec![-10_000_000, -10_000_000, 10_000_000, 10_000_000],
        ),
        ("beyond ten million to the right", free(&[0.0, 0.0, 10_000_000.5, 0.0]), 20, vec![]),
        ("beyond ten million at the bottom", free(&[0.0, -10_000_000.000_000_1, 0.0, 0.0]), 20, vec![]),
        ("beyond a million", free(&[0.0, 0.0, 1_000_000.5, 0.0]), 0, vec![0, 0, 1_000_001, 0]),
        ("no number", free(&[0.0, f64::NAN, 0.0, 0.0]), 20, vec![]),
        ("infinite", free(&[-inf, 0.0, 0.0, 0.0]), 20, vec![]),
        ("out of order", free(&[0.5, 0.0, 0.25, 0.0]), 20, vec![]),
        ("five corners", free(&[0.0, 0.0, 0.0, 0.0, 0.0]), 20, vec![]),
        (
            "the example of the manual",
            Survey {
                room: 16,
                ..with(
                    [3, 0],
                    [0.0, 20000.0, 0.0, 0.0],
                    &[
                        1000.2, 500.0, 1250.7, 750.4, 19999.9, -0.3, 20400.0, 80.0, 20000.25, 100.0, 20300.0,
                        300.0, -250.5, 10.0, 0.0, 20.0,
                    ],
                )
            },
            0,
            vec![1000, 500, 1251, 751, 19999, -1, 20400, 80, -251, 10, 0, 20],
        ),
        ("no corners", free(&[]), 0, vec![]),
        (
            "a stop at the edge",
            with([1, 2], [0.5, 0.0, 0.0, 0.25], &[0.0, 0.25, 0.5, 1.0]),
            0,
            vec![0, 0, 1, 1],
        ),
        (
            "past the stop, but not its cover",
            with([1, 0], [0.75, 0.0, 0.0, 0.0], &[0.0, 0.0, 0.5, 1.0]),
            0,
            vec![],
        ),
        (
            "an extent around the strip",
            with([3, 0], [0.25, 0.5, 0.0, 0.0], &[0.0, 0.0, 1.0, 1.0]),
            0,
            vec![0, 0, 1, 1],
        ),
        (
            "in their order",
            with([2, 0], [9.0, 1.0, 0.0, 0.0], &[1.0, 0.5, 2.0, 1.0, 1.5, 0.0, 2.0, 0.0, 0.0, 0.0, 0.0, 0.0]),
            0,
            vec![1, 0, 2, 1, 0, 0, 0, 0],
        ),
        (
            "not kept, and beyond ten million",
            with([2, 0], [0.0, 1.0, 0.0, 0.0], &[2.0, 0.0, 1e8, 0.0]),
            20,
            vec![],
        ),
        ("an infinite stop", with([2, 0], [0.0, inf, 0.0, 0.0], &[0.0, 0.0, 0.0]), 21, vec![]),
        ("lower above upper", with([0, 3], [0.0, 0.0, 0.5, 0.25], &[]), 21, vec![]),
        ("a kind of 4", with([4, 0], [0.0, 1.0, 0.0, 0.0], &[]), 21, vec![]),
        (
            "stops that are not there",
            with([0, 1], [inf, f64::NAN, 0.0, f64::NAN], &[0.0, 0.0, 0.0, 0.0]),
            0,
            vec![0, 0, 0, 0],
        ),
        ("three cells", short(3, &[0.0, 0.0, 0.0, 0.0]), 11, vec![]),
        ("512", short(2048, &[1.0; 2048]), 0, vec![1; 2048]),
        ("513 and no cells", short(0, &[1.0; 2052]), 2, vec![]),
    ]
}

/// The answer and the cells afterwards; none where the call panics.
pub fn asked(cover: &Cover, survey: &Survey) -> Option<(Covered, Vec<i32>)> {
    let mut cells = cells_i32(survey.room);
    let covered = catch_unwind(AssertUnwindSafe(|| cover(survey, &mut cells))).ok()?;
    Some((covered, cells))
}

/// Two versions beside each other and beside the known answers; returns how many cases were compared.
pub fn compare_surveys(left: &Cover, right: &Cover) -> Result<u64, Difference> {
    let mut cases = 0;
    let differs = |cases, text| Err(Difference { cases, kind: "surveys", text });
    for survey in surveys() {
        cases += 1;
        let (ours, theirs) = (asked(left, &survey), asked(right, &survey));
        if ours.is_none() || ours != theirs {
            return differs(
                cases,
                format!("DIFFERENCE in surveys\n{survey:?}\nleft:  {ours:?}\nright: {theirs:?}\n"),
            );
        }
    }
    for (name, survey, number, layer) in known_surveys() {
        let mut cells = cells_i32(survey.room);
        cells[..layer.len()].copy_from_slice(&layer);
        let told = Some((Covered { number, kept: layer.len() / 4 }, cells));
        for cover in [left, right] {
            cases += 1;
            let answer = asked(cover, &survey);
            if answer != told {
                return differs(cases, format!("{name}: {survey:?}\n{answer:?}\nknown: {told:?}\n"));
            }
        }
    }
    Ok(cases)
}
