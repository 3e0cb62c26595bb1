//! Slips of the pair call.

use crate::overlay::{Overlay, PairTold, Shape};
use crate::reference::{
    bad_places, intersection, is_empty, layers_of, pairs, rects_at, refused_pair, ungrown, Layers, Rect,
    REFERENCE,
};
use crate::slips::{Calls, Slip, RIGHT};

/// The first of these pairs of layers whose rectangles share no points, or none that are inner to both where touching does not count.
fn pair_among(rects: &[Rect], among: Vec<(usize, usize)>, touching: bool) -> PairTold {
    let apart = |&(i, j): &(usize, usize)| {
        let common = intersection(rects[i], rects[j]);
        is_empty(common) || (!touching && (common.left == common.right || common.bottom == common.top))
    };
    let (lower, higher) = among.into_iter().find(apart).map_or((0, 0), |(i, j)| (i as u32 + 1, j as u32 + 1));
    PairTold { number: 0, lower, higher }
}

/// The pair call that looks at each place only when a pair has it.
fn pair_before_places(shape: &Shape, cells: &[i32], places: &[u32]) -> PairTold {
    let layers = layers_of(shape, cells);
    let k = (0..places.len()).take_while(|&j| !bad_places(&layers[..=j].to_vec(), &places[..=j])).count();
    let told = pair_among(&rects_at(&layers, &places[..k]), pairs(k), true);
    if told.higher == 0 {
        refused_pair(23)
    } else {
        told
    }
}

/// Pairs of layers, the wanted ones first.
type Among = fn(usize) -> Vec<(usize, usize)>;

/// The pair call over other layers and among other pairs.
fn among(
    (shape, cells): (&Shape, &[i32]),
    places: &[u32],
    layers: fn(&Shape, &[i32]) -> Layers,
    pairs: Among,
    touching: bool,
) -> PairTold {
    let told = REFERENCE.pair(shape, cells, places);
    if told.number != 0 {
        return told;
    }
    pair_among(&rects_at(&layers(shape, cells), places), pairs(shape.k as usize), touching)
}

/// The pair call with other pairs.
fn by(shape: &Shape, cells: &[i32], places: &[u32], pairs: Among) -> PairTold {
    among((shape, cells), places, layers_of, pairs, true)
}

pub const SLIPS: &[Slip] = &[
    (
        Calls { pair: |_, s, c, places| by(s, c, places, |k| pairs(k).into_iter().rev().collect()), ..RIGHT },
        "the last pair of layers and not the first",
    ),
    (
        Calls {
            pair: |_, s, c, places| {
                by(s, c, places, |k| {
                    let mut all = pairs(k);
                    all.sort_by_key(|&(lower, higher)| (higher, lower));
                    all
                })
            },
            ..RIGHT
        },
        "the first pair of layers by its higher layer and then its lower",
    ),
    (
        Calls {
            pair: |_, s, c, places| {
                by(s, c, places, |k| {
                    pairs(k).into_iter().filter(|(lower, higher)| *higher == lower + 1).collect()
                })
            },
            ..RIGHT
        },
        "a pair sought among neighbouring layers alone",
    ),
    (
        Calls { pair: |_, s, c, places| among((s, c), places, layers_of, pairs, false), ..RIGHT },
        "two rectangles that only touch told as a pair that does not meet",
    ),
    (
        Calls { pair: |_, s, c, places| among((s, c), places, ungrown, pairs, true), ..RIGHT },
        "the pair of rectangles as they are drawn",
    ),
    (
        Calls {
            pair: |rules, s, c, places| {
                let told = rules.pair(s, c, places);
                PairTold {
                    lower: told.lower.saturating_sub(1),
                    higher: told.higher.saturating_sub(1),
                    ..told
                }
            },
            ..RIGHT
        },
        "the layers of a pair counted from 0",
    ),
    (
        Calls {
            pair: |rules, s, c, places| match rules.pair(s, c, places) {
                told if matches!(told.number, 1..=4 | 17) && places.len() != s.k.min(6) as usize => {
                    refused_pair(23)
                }
                told => told,
            },
            ..RIGHT
        },
        "23 before the causes of the plan",
    ),
    (
        Calls {
            pair: |rules, s, c, places| match rules.pair(s, c, places) {
                told if told.number == 23 && places.len() == s.k as usize => pair_before_places(s, c, places),
                told => told,
            },
            ..RIGHT
        },
        "23 only where no pair is found among the places that are there",
    ),
    (
        Calls {
            pair: |rules, s, c, places| match rules.pair(s, c, places) {
                told if told.number == 23 && places.len() > s.k as usize => {
                    rules.pair(s, c, &places[..s.k as usize])
                }
                told => told,
            },
            ..RIGHT
        },
        "more than k places read as the first k",
    ),
    (
        Calls {
            pair: |rules, s, c, places| {
                let told = rules.pair(s, c, places);
                let last = |(&place, &size): (&u32, &u32)| place - u32::from(place == size && size > 0);
                let held: Vec<u32> = places.iter().zip(&s.sizes).map(last).collect();
                if told.number == 23 && held.len() == places.len() {
                    rules.pair(s, c, &held)
                } else {
                    told
                }
            },
            ..RIGHT
        },
        "a place one past the last read as the last",
    ),
];
