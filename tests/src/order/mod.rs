//! The order maker, and orders that are brought.

pub mod compare;
pub mod slips;

use crate::plan::Layers;

/// All rectangles as (left, layer, place) with layer from 0, sorted "by left, then layer, then place".
pub fn sweep(layers: &Layers) -> Vec<(i32, usize, usize)> {
    let mut all = Vec::new();
    for (layer, rects) in layers.iter().enumerate() {
        for (place, rect) in rects.iter().enumerate() {
            all.push((rect.left, layer, place));
        }
    }
    all.sort();
    all
}

/// "the rectangles' numbers, 0 to n - 1 as they lie in the cells, in sweep order".
pub fn sweep_order(layers: &Layers) -> Vec<u32> {
    let before = |layer: usize| layers[..layer].iter().map(Vec::len).sum::<usize>();
    sweep(layers).iter().map(|&(_, layer, place)| (before(layer) + place) as u32).collect()
}
