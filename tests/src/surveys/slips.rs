//! Wrong calls on survey records.

use crate::surveys::{down, is_finite, rank, stops_of, up, Cover, Meets, Rules, Stops, Survey, RIGHT};

/// Every wrong version with its description.
pub fn wrong_surveys() -> Vec<(Box<Cover<'static>>, &'static str)> {
    let wrong = |rules: Rules| -> Box<Cover<'static>> {
        Box::new(move |survey: &Survey, cells: &mut [i32]| rules.covered(survey, cells))
    };
    let toward_zero = |x: f64| if x.is_sign_negative() { up(x) } else { down(x) };
    let nearest = |x: f64| x.round() as i128;
    let flushed = |x: f64| if x.is_subnormal() { 0 } else { up(x) };
    let open: Meets = |(lower, upper), low, high| {
        lower.is_none_or(|stop| rank(stop) < rank(high)) && upper.is_none_or(|stop| rank(low) < rank(stop))
    };
    let open_below: Meets = |(lower, upper), low, high| {
        lower.is_none_or(|stop| rank(stop) < rank(high)) && upper.is_none_or(|stop| rank(low) <= rank(stop))
    };
    let inside: Meets = |(lower, upper), low, high| {
        lower.is_none_or(|stop| rank(stop) <= rank(low)) && upper.is_none_or(|stop| rank(high) <= rank(stop))
    };
    let signed_zero: Meets = |(lower, upper), low, high| {
        let bits = |x: f64| if x.is_sign_negative() { rank(x) - 1 } else { rank(x) };
        lower.is_none_or(|stop| bits(stop) <= bits(high)) && upper.is_none_or(|stop| bits(low) <= bits(stop))
    };
    let corners: Meets = |(lower, upper), low, high| {
        let within = |x: f64| {
            lower.is_none_or(|stop| rank(stop) <= rank(x)) && upper.is_none_or(|stop| rank(x) <= rank(stop))
        };
        within(low) || within(high)
    };
    let all_stops: fn(&Survey, usize) -> Stops = |survey, axis| {
        let stops = (survey.stops[2 * axis], survey.stops[2 * axis + 1]);
        stops_of(survey, axis).filter(|_| is_finite(stops.0) && is_finite(stops.1))
    };
    let other_axis: fn(&Survey, usize) -> Stops = |survey, axis| stops_of(survey, 1 - axis);
    let any_kind: fn(&Survey, usize) -> Stops =
        |survey, axis| Some(stops_of(survey, axis).unwrap_or((None, None)));
    let infinite: fn(Option<f64>, Option<f64>) -> bool = |lower, upper| {
        lower.iter().chain(&upper).all(|stop| !stop.is_nan()) && lower.zip(upper).is_none_or(|(a, b)| a <= b)
    };
    let any_order: fn(Option<f64>, Option<f64>) -> bool =
        |lower, upper| lower.iter().chain(&upper).all(|&stop| is_finite(stop));
    let free: Meets = |_, _, _| true;
    let [strips, records, many, room] = RIGHT.checks;
    vec![
        (wrong(Rules { down: toward_zero, up: toward_zero, ..RIGHT }), "corners taken toward zero"),
        (wrong(Rules { down: nearest, up: nearest, ..RIGHT }), "corners taken to the nearest whole number"),
        (wrong(Rules { up: |x| down(x) + 1, ..RIGHT }), "whole rights and tops taken up by one"),
        (wrong(Rules { up: flushed, ..RIGHT }), "the smallest values taken as 0"),
        (
            wrong(Rules { meets: open, meets_upward: open, ..RIGHT }),
            "stops that do not belong to their strips",
        ),
        (
            wrong(Rules { meets_upward: open_below, ..RIGHT }),
            "lower stops upward that do not belong to their strips",
        ),
        (
            wrong(Rules { meets: inside, meets_upward: inside, ..RIGHT }),
            "records kept only inside the strips",
        ),
        (
            wrong(Rules { meets: corners, meets_upward: corners, ..RIGHT }),
            "records kept only by their corners",
        ),
        (wrong(Rules { meets: signed_zero, meets_upward: signed_zero, ..RIGHT }), "negative zero below zero"),
        (wrong(Rules { meets_upward: free, ..RIGHT }), "the strip upward not looked at"),
        (wrong(Rules { stops: other_axis, ..RIGHT }), "the strips of the axes exchanged"),
        (wrong(Rules { covers_first: true, ..RIGHT }), "records kept by their covers"),
        (wrong(Rules { judges_kept_only: true, ..RIGHT }), "records that are not kept not judged"),
        (wrong(Rules { loose_length: true, ..RIGHT }), "corners behind the last whole record not judged"),
        (wrong(Rules { reach: 9_999_999, ..RIGHT }), "ten million refused"),
        (wrong(Rules { reach: 1_000_000, ..RIGHT }), "covers of the old range alone"),
        (wrong(Rules { reach: 10_000_001, ..RIGHT }), "covers beyond ten million"),
        (wrong(Rules { most: 511, ..RIGHT }), "512 refused"),
        (wrong(Rules { most: 513, ..RIGHT }), "513 kept"),
        (wrong(Rules { room_a_record: 5, ..RIGHT }), "an exact fit refused"),
        (wrong(Rules { checks: [records, strips, many, room], ..RIGHT }), "check 20 before 21"),
        (wrong(Rules { checks: [strips, records, room, many], ..RIGHT }), "check 11 before 2"),
        (wrong(Rules { checks: [strips, many, records, room], ..RIGHT }), "check 2 before 20"),
        (wrong(Rules { stops: all_stops, ..RIGHT }), "stops judged that the kind has not"),
        (wrong(Rules { stops: any_kind, ..RIGHT }), "a kind above 3 taken as free"),
        (wrong(Rules { judges_stops: infinite, ..RIGHT }), "infinite stops accepted"),
        (wrong(Rules { judges_stops: any_order, ..RIGHT }), "a lower stop accepted above the upper"),
        (wrong(Rules { writes_early: true, ..RIGHT }), "cells written before refusal 11"),
        (wrong(Rules { clears_rest: true, ..RIGHT }), "the other cells cleared"),
        (wrong(Rules { counts_refused: true, ..RIGHT }), "a refusal telling how many would be kept"),
    ]
}
