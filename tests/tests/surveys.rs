//! The reference for survey records is exact, and every outcome occurs often enough among the compared surveys.

use overlay_tests::call::cells_i32;
use overlay_tests::seeds::Seeds;
use overlay_tests::surveys::{cover_records, down, floats, is_finite, rank, surveys, up};
use std::collections::BTreeMap;

/// Floats of all kinds, and of any bits.
fn many() -> Vec<f64> {
    let mut seeds = Seeds(0x9E37_79B9_7F4A_7C15);
    let mut all = floats();
    all.extend((0..20_000).map(|_| f64::from_bits(seeds.draw())));
    // With exponents about those of whole numbers.
    all.extend(
        (0..20_000).map(|_| f64::from_bits(seeds.draw() & !(0x7ff << 52) | (1000 + seeds.below(90)) << 52)),
    );
    all
}

#[test]
fn whole_numbers_are_those_of_the_standard_library() {
    let values = many();
    for &x in values.iter().filter(|x| is_finite(**x) && x.abs() < 1.8e19) {
        assert_eq!((down(x), up(x)), (x.floor() as i128, x.ceil() as i128), "{x:?}");
    }
    for x in values {
        assert_eq!(is_finite(x), x.is_finite(), "{x:?}");
    }
}

#[test]
fn the_order_is_that_of_the_processor() {
    let values: Vec<f64> = many().into_iter().filter(|&x| is_finite(x)).collect();
    for pair in values.windows(2).chain(floats().windows(2)).filter(|pair| pair.iter().all(|&x| is_finite(x)))
    {
        assert_eq!(
            rank(pair[0]).cmp(&rank(pair[1])),
            pair[0].partial_cmp(&pair[1]).expect("values"),
            "{pair:?}"
        );
    }
    assert_eq!(rank(-0.0), rank(0.0));
}

#[test]
fn every_outcome_occurs_often() {
    let mut outcomes: BTreeMap<String, u64> = BTreeMap::new();
    for survey in surveys() {
        let covered = cover_records(&survey, &mut cells_i32(survey.room));
        let some = if covered.number == 0 { covered.kept.min(2).to_string() } else { String::new() };
        *outcomes.entry(format!("{} {some}", covered.number)).or_default() += 1;
        for kind in survey.kinds.iter().filter(|_| covered.number == 0) {
            *outcomes.entry(format!("accepted kind {kind}")).or_default() += 1;
        }
    }
    let least = [
        ("0 0", 1000),
        ("0 1", 1000),
        ("0 2", 1000),
        ("2 ", 10),
        ("11 ", 500),
        ("20 ", 1000),
        ("21 ", 1000),
        ("accepted kind 0", 1000),
        ("accepted kind 1", 1000),
        ("accepted kind 2", 1000),
        ("accepted kind 3", 1000),
    ];
    for (outcome, times) in least {
        let counted = outcomes.get(outcome).copied().unwrap_or(0);
        assert!(counted >= times, "{outcome:?} occurs {counted} times: {outcomes:?}");
    }
}
