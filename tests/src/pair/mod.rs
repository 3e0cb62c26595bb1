//! The pair call.

pub mod compare;
pub mod slips;

use crate::overlay::PairTold;
use crate::plan::{Layers, Rect};

/// Some point lies in every one of the rectangles. If one does, then so does one whose x is a left and whose y is a bottom.
pub fn share_a_point(rects: &[Rect]) -> bool {
    let holds = |r: &Rect, x: i32, y: i32| r.left <= x && x <= r.right && r.bottom <= y && y <= r.top;
    rects.iter().any(|a| rects.iter().any(|b| rects.iter().all(|r| holds(r, a.left, b.bottom))))
}

/// All pairs of layers from 0, "by its lower layer and then its higher".
pub fn pairs(k: usize) -> Vec<(usize, usize)> {
    (0..k).flat_map(|lower| (lower + 1..k).map(move |higher| (lower, higher))).collect()
}

/// "not k places, or a place not in its layer".
pub fn bad_places(layers: &Layers, places: &[u32]) -> bool {
    places.len() != layers.len()
        || layers.iter().zip(places).any(|(rects, &place)| place as usize >= rects.len())
}

/// The rectangles at good places.
pub fn rects_at(layers: &Layers, places: &[u32]) -> Vec<Rect> {
    layers.iter().zip(places).map(|(rects, &place)| rects[place as usize]).collect()
}

/// A refused pair call.
pub fn refused_pair(number: u32) -> PairTold {
    PairTold { number, lower: 0, higher: 0 }
}
