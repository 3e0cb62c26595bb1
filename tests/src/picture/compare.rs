//! Compares two pictures byte by byte over many plans, and what each shows, read back, with the plan.

use super::Picture;
use crate::call::Plan;
use crate::compare::Difference;
use crate::crossings;
use crate::pair::rects_at;
use crate::plan::{grow, layers_of, ungrown, Rect};
use crate::reference::{REACH, REFERENCE};
use crate::report::{compare::full_tables, row_line};
use crate::row::{count_rows, join};
use crate::seeds::{covered, equal_plan, grown_by, plan_d, plan_from, text, Seeds, STYLES};

/// How many plans are drawn.
const DRAWN: u64 = 300;

/// Where the seeds start.
const SEED: u64 = 0xA24B_AED4_963E_E407;

/// What is shown of a plan, where it is seen, x to the right and y downward from the corner of the ground: of each rectangle layer, place and its four sides, and
/// those of the grown one where its layer has a margin; of each row its line, its kind and its ground, of which a cross has the point alone; and how much
/// some viewers would not draw: rectangles all of whose lines have length 0, and lines of 32,768 or more.
#[derive(Debug, PartialEq)]
pub struct Shown {
    rects: Vec<(usize, usize, Vec<i64>)>,
    rows: Vec<(String, u8, Vec<i64>)>,
    unseen: usize,
}

/// What a picture of a plan has to show: the left and the top of all grown rectangles are at 0, and north is up.
pub fn wanted(plan: &Plan) -> Shown {
    let grown = layers_of(&plan.shape, &plan.cells);
    let origin = |side: fn(&Rect) -> i64| grown.iter().flatten().map(side).min().unwrap_or(0);
    let (west, north) = (origin(|r| r.left.into()), -origin(|r| -i64::from(r.top)));
    let seen = |r: Rect| {
        let [left, bottom, right, top] = [r.left, r.bottom, r.right, r.top].map(i64::from);
        vec![left - west, north - bottom, right - west, north - top]
    };
    let mut shown = Shown { rects: Vec::new(), rows: Vec::new(), unseen: 0 };
    for (at, rects) in ungrown(&plan.shape, &plan.cells).iter().enumerate() {
        let margin = plan.shape.margins[at];
        let around = |r: Rect| if margin > 0 { seen(grow(r, margin)) } else { Vec::new() };
        let each = rects.iter().enumerate();
        shown.rects.extend(each.map(|(place, &r)| (at + 1, place, [seen(r), around(r)].concat())));
    }
    for row in join(&grown) {
        let kind = (REFERENCE.kind)(&rects_at(&grown, &row.places[..grown.len()]));
        let mut ground = seen(row.common);
        ground.truncate(if kind == b'P' { 2 } else { 4 });
        shown.rows.push((row_line(&row, grown.len(), kind), kind, ground));
    }
    shown
}

/// The whole numbers of a text, whatever parts them.
fn numbers(text: &str) -> Vec<i64> {
    let parts = text.split(|c: char| !c.is_ascii_digit() && c != '-');
    parts.filter_map(|part| part.parse().ok()).collect()
}

/// The sides of each rectangle that is a closed path in a text: left, bottom, right and top.
fn paths(text: &str) -> Vec<i64> {
    let closed = text.split(" d='").skip(1).filter_map(|behind| behind.split('\'').next()?.strip_suffix('Z'));
    closed.flat_map(|path| numbers(path).into_iter().take(4).collect::<Vec<i64>>()).collect()
}

/// Whether the outline and the hatching of a rectangle have only one point.
fn no_length(text: &str) -> bool {
    let hatching = text.split("class='h' d='").nth(1).and_then(|behind| behind.split('\'').next());
    let points = numbers(hatching.unwrap_or(""));
    let outline: Vec<i64> = paths(text).into_iter().take(4).collect();
    let all: Vec<&[i64]> = outline.chunks(2).chain(points.chunks(2)).collect();
    all.windows(2).all(|two| two[0] == two[1])
}

/// How many widths of lines are 32,768 or more.
fn too_wide(text: &str) -> usize {
    let widths = text.split("stroke-width:").skip(1).filter_map(|behind| behind.split("px").next());
    widths.filter(|width| width.parse::<f64>().map_or(true, |width| width >= 32_768.0)).count()
}

/// What a picture shows, read from its bytes: its ground is moved and turned over, and each shape has a title.
pub fn read_back(picture: &[u8]) -> Option<Shown> {
    let text = std::str::from_utf8(picture).ok()?;
    let mut shown = Shown { rects: Vec::new(), rows: Vec::new(), unseen: 0 };
    shown.unseen += too_wide(text);
    for group in text.split("<g transform='scale(1 -1) translate(").skip(1) {
        let (moved, ground) = group.split_once(")'>\n")?;
        let moved = numbers(moved);
        let seen = |sides: Vec<i64>| -> Vec<i64> {
            let axes = [(1, moved[0]), (-1, moved[1])];
            sides.iter().zip(axes.iter().cycle()).map(|(side, (sign, by))| sign * (side + by)).collect()
        };
        for shape in ground.split("</g>\n</g>").next()?.split("<g><title>").skip(1) {
            let (title, drawn) = shape.split_once("</title>")?;
            let drawn = drawn.split("</g>").next()?;
            match (title.strip_prefix("layer "), drawn.strip_prefix("<path class='")) {
                (Some(named), _) => {
                    let (layer, place) = named.split_once(", place ")?;
                    shown.unseen += usize::from(no_length(drawn));
                    shown.rects.push((layer.parse().ok()?, place.parse().ok()?, seen(paths(drawn))));
                }
                (None, Some(mark)) => {
                    let kind = mark.as_bytes()[0].to_ascii_uppercase();
                    let cross = || mark.split("translate(").nth(1).map(|at| numbers(at)[..2].to_vec());
                    let at = if kind == b'P' { cross()? } else { paths(mark) };
                    shown.rows.push((title.to_string(), kind, seen(at)));
                }
                _ => return None,
            }
        }
    }
    Some(shown)
}

/// Every plan that is drawn.
fn plans() -> Vec<Plan> {
    let mut all = vec![plan_d(), equal_plan(&[0, 0], [0; 4]), equal_plan(&[1, 0, 1], [7, -7, 7, -7])];
    // One row of each kind, margins that make two rectangles touch, rows over each other, and the ends of the range.
    all.push(plan_from(&[&[[0, 0, 9, 9], [9, 20, 30, 30]], &[[9, 9, 20, 20]]]));
    all.push(grown_by(plan_from(&[&[[0, 0, 10, 10]], &[[20, 0, 30, 10]]]), &[4, 6]));
    all.push(grown_by(
        plan_from(&[&[[0, 0, 1000, 1000], [1500, 2000, 1500, 2000]], &[[1100, 1100, 2000, 1500]]]),
        &[100],
    ));
    all.push(covered(&[[0, 0, 100, 100], [50, 50, 150, 150], [100, 0, 150, 50]], 6));
    all.push(grown_by(equal_plan(&[2, 3], [-REACH, -REACH, REACH, REACH]), &[50_000, 50_000]));
    all.push(equal_plan(&[1, 1], [REACH, -REACH, REACH, -REACH]));
    // About each length of the scale bar: a unit is a two hundredth of width and height together, and 1.
    for unit in [1, 2, 3, 24, 25, 249, 250, 2_499, 2_500, 24_999, 25_000, 99_999] {
        all.push(equal_plan(&[1, 1], [-5, 3, 100 * (unit - 1) - 5, 100 * (unit - 1) + 3]));
        all.push(equal_plan(&[1, 1], [0, -100 * (unit - 1), 199, 100 * (unit - 1)]));
    }
    let mut seeds = Seeds(SEED);
    for round in 0..DRAWN {
        let plan = seeds.plan(2 + (round % 5) as usize, (round / 5) % STYLES);
        all.push(if round % 2 == 1 { seeds.with_margins(plan) } else { plan });
        if round % 4 == 0 {
            all.push(crossings::compare::drawn(&mut seeds, 3 + (round / 4 % 4) as usize));
        }
        if round % 10 == 0 {
            all.push(seeds.sparse(&[40, 30, 20], 100_000));
        }
    }
    let fit =
        |plan: &Plan| count_rows(&layers_of(&plan.shape, &plan.cells)) <= 12_288 / u64::from(plan.shape.k);
    all.extend(full_tables().into_iter().filter(fit).take(3));
    all
}

/// Compares two pictures; returns how many cases were compared.
pub fn compare_pictures(left: Picture, right: Picture) -> Result<u64, Difference> {
    let mut cases = 0;
    for plan in plans() {
        cases += 1;
        let (ours, theirs) = (left(&plan), right(&plan));
        let found = |what: &str| {
            let lines = [("left", &ours), ("right", &theirs), ("plan", &text(&plan))];
            let shown = lines.map(|(name, bytes)| format!("{name}: \"{}\"", bytes.escape_ascii()));
            let text = format!("DIFFERENCE in pictures: {what}\n{}\n", shown.join("\n"));
            Err(Difference { cases, kind: "pictures", text })
        };
        if ours != theirs {
            return found("their bytes");
        }
        if read_back(&ours).as_ref() != Some(&wanted(&plan)) {
            return found("what is shown is not the plan's");
        }
    }
    Ok(cases)
}
