//! The comparison: pair calls.

use crate::call::{Call, Plan};
use crate::compare::{Bench, Outcome, MOST_COMBINATIONS};
use crate::reference::{each_tuple, layers_of, pairs};
use crate::seeds::shape_of;

/// One rectangle a layer, all of which have a common point but for two pairs of layers, which may be one and the same: the first is parted along x,
/// the second along y, by this gap; with no gap they touch.
pub fn parted(k: usize, along: [(usize, usize); 2], flipped: [bool; 2], gap: i32) -> Plan {
    let extent = |layer: usize, axis: usize| {
        let (low, high) = ((-500, 0), (gap, 500 + gap));
        let (first, second) = if flipped[axis] { (high, low) } else { (low, high) };
        match layer {
            _ if layer == along[axis].0 => first,
            _ if layer == along[axis].1 => second,
            _ => (-500, 500 + gap),
        }
    };
    let rect = |layer: usize| {
        let ((left, right), (bottom, top)) = (extent(layer, 0), extent(layer, 1));
        [left, bottom, right, top]
    };
    Plan { shape: shape_of(&[1; 6][..k]), cells: (0..k).flat_map(rect).collect() }
}

impl Bench<'_> {
    /// One pair call.
    pub fn ask_pair(&mut self, kind: &'static str, plan: &Plan, places: &[u32]) -> Outcome {
        self.ask(kind, Call::Pair { plan: plan.clone(), places: places.to_vec() }).map(drop)
    }

    /// Every combination of a small plan and some of a larger one, places outside, and lengths other than k.
    pub fn pair_calls(&mut self, plan: &Plan) -> Outcome {
        let (kind, k) = ("pair calls", plan.shape.k as usize);
        let sizes = &plan.shape.sizes[..k];
        let mut tuples = Vec::new();
        if sizes.iter().product::<u32>() <= MOST_COMBINATIONS {
            let layers = layers_of(&plan.shape, &plan.cells);
            each_tuple(&layers, &mut Vec::new(), &mut |places| tuples.push(places.to_vec()));
        } else {
            tuples.extend((0..64).map(|_| self.tuple(plan, 0)));
        }
        for places in &tuples {
            self.ask_pair(kind, plan, places)?;
        }
        let good = tuples.first().cloned().unwrap_or_else(|| vec![0; k]);
        for layer in 0..k {
            for place in [sizes[layer], sizes[layer] + 1, 512, 1 << 31, u32::MAX] {
                let mut places = good.clone();
                places[layer] = place;
                self.ask_pair(kind, plan, &places)?;
            }
        }
        for length in (0..=8).filter(|&length| length != k) {
            let mut places = good.clone();
            places.resize(length, 0);
            self.ask_pair(kind, plan, &places)?;
        }
        for _ in 0..4 {
            let places = self.tuple(plan, 2);
            self.ask_pair(kind, plan, &places)?;
        }
        Ok(())
    }

    /// Every two pairs of layers as the only ones that do not meet, and the same two touching.
    pub fn pair_box(&mut self) -> Outcome {
        let flips = [[false, false], [false, true], [true, false], [true, true]];
        for k in 2..=6 {
            for along in
                pairs(k).iter().flat_map(|&first| pairs(k).into_iter().map(move |second| [first, second]))
            {
                for gap in [0, 1, 2, 9, 999, 900_000] {
                    for flipped in flips {
                        self.ask_pair("pair calls", &parted(k, along, flipped, gap), &[0; 6][..k])?;
                    }
                }
            }
        }
        Ok(())
    }
}
