//! Slips of the order maker, and of the calls that take an order.

use crate::overlay::{Overlay, Shape};
use crate::reference::{layers_of, plan_fault, sweep_order, ungrown, Rules, REFERENCE};
use crate::slips::{fetch, Calls, Fetch, Slip, RIGHT};

/// The order by left, place, layer.
fn place_before_layer(shape: &Shape, cells: &[i32], order: &mut [u32]) {
    let layers = layers_of(shape, cells);
    let mut all = Vec::new();
    for (layer, rects) in layers.iter().enumerate() {
        for (place, rect) in rects.iter().enumerate() {
            all.push((rect.left, place, layer, all.len() as u32));
        }
    }
    all.sort();
    for (cell, rect) in order.iter_mut().zip(all) {
        *cell = rect.3;
    }
}

/// An order of all rectangles, sorted by left but not by layer and place.
fn only_by_left(shape: &Shape, cells: &[i32], order: &[u32]) -> bool {
    let mut sorted = order.to_vec();
    sorted.sort();
    if plan_fault(shape, cells) != 0 || !sorted.iter().copied().eq(0..cells.len() as u32 / 4) {
        return false;
    }
    let rects = layers_of(shape, cells).concat();
    order.windows(2).all(|pair| rects[pair[0] as usize].left <= rects[pair[1] as usize].left)
}

pub const SLIPS: &[Slip] = &[
    (
        Calls {
            order: |rules, shape, cells, order| {
                let number = rules.make_order(shape, cells, order);
                if number == 0 {
                    place_before_layer(shape, cells, order);
                }
                number
            },
            ..RIGHT
        },
        "sweep order by left, place, layer",
    ),
    (
        Calls {
            order: |rules, shape, cells, order| {
                let number = rules.make_order(shape, cells, order);
                if number == 8 {
                    order.iter_mut().zip(0..).for_each(|(cell, number)| *cell = number);
                }
                number
            },
            ..RIGHT
        },
        "an order buffer written before refusal 8",
    ),
    (
        Calls { rules: Rules { sorted: ungrown, ..REFERENCE }, ..RIGHT },
        "the sweep order by lefts that are not grown",
    ),
    (
        Calls {
            fresh: |rules, shape, cells, order, record| match plan_fault(shape, cells) {
                0 => rules.fresh(shape, cells, &order[..order.len().min(cells.len() / 4)], record),
                _ => rules.fresh(shape, cells, order, record),
            },
            ..RIGHT
        },
        "cells after a good order not looked at",
    ),
    (
        Calls {
            page: |rules, f| {
                if !only_by_left(f.shape, f.cells, f.order) {
                    return fetch(rules, f);
                }
                let order = sweep_order(&layers_of(f.shape, f.cells));
                let (record, table) = (&mut *f.record, &mut *f.table);
                fetch(rules, &mut Fetch { order: &order, record, table, ..*f })
            },
            ..RIGHT
        },
        "an order accepted when it is by left alone",
    ),
];
