//! Layers in any order (02, Q-8): the laws, tried on one overlay's own answers. The reference is not asked.

use crate::call::Plan;
use crate::compare::Difference;
use crate::overlay::{Overlay, Run, Shape};
use crate::seeds::{grown_by, shape_of, Seeds, STYLES};
use std::collections::BTreeMap;

/// How many small plans are drawn.
const PLANS: u64 = 500;

/// Where the seeds start.
const SEED: u64 = 0xA076_1D64_78BD_642F;

/// The cells of every table: enough for each plan that is tried.
const TABLE: usize = 200_000;

// ---------------------------------------------------------------- plans

/// The cells of each layer.
fn cells_of(plan: &Plan) -> Vec<Vec<i32>> {
    let mut rest = plan.cells.as_slice();
    let sizes = &plan.shape.sizes[..plan.shape.k as usize];
    let layer = |&size: &u32| {
        let (layer, behind) = rest.split_at(4 * size as usize);
        rest = behind;
        layer.to_vec()
    };
    sizes.iter().map(layer).collect()
}

/// The plan of these layers, as cells and margin.
fn plan_of(layers: &[(Vec<i32>, u32)]) -> Plan {
    let sizes: Vec<u32> = layers.iter().map(|(cells, _)| cells.len() as u32 / 4).collect();
    let margins: Vec<u32> = layers.iter().map(|&(_, margin)| margin).collect();
    let cells = layers.iter().flat_map(|(cells, _)| cells.clone()).collect();
    grown_by(Plan { shape: shape_of(&sizes), cells }, &margins)
}

/// The layers of a plan, as cells and margin.
fn layers_of(plan: &Plan) -> Vec<(Vec<i32>, u32)> {
    cells_of(plan).into_iter().zip(plan.shape.margins).collect()
}

/// "Exchanging two layers with their margins".
fn exchanged(plan: &Plan, i: usize, j: usize) -> Plan {
    let mut layers = layers_of(plan);
    layers.swap(i, j);
    plan_of(&layers)
}

/// "Cutting a layer's list in two": two plans that are equal but for that layer.
fn cut(plan: &Plan, layer: usize, at: usize) -> [Plan; 2] {
    let (mut first, mut second) = (layers_of(plan), layers_of(plan));
    second[layer].0 = first[layer].0.split_off(4 * at);
    [plan_of(&first), plan_of(&second)]
}

// ---------------------------------------------------------------- what an overlay says

/// What an overlay tells of a row: the guard's layer, the area, the sides of its common ground, and their kind.
#[derive(Clone, Copy, Debug, PartialEq)]
struct Facts {
    guard: u32,
    area: u64,
    sides: [i32; 4],
    kind: u8,
}

/// What an overlay tells of a plan: its whole run, the rows in the table's order, and what it tells of each.
struct Told {
    run: Run,
    table: Vec<Vec<u32>>,
    rows: BTreeMap<Vec<u32>, Facts>,
}

/// Makes the order, does the whole run, and asks for each row. Nothing may be refused, and each row stands in the table once.
fn told(of: &dyn Overlay, plan: &Plan) -> Result<Told, String> {
    let (shape, cells) = (&plan.shape, plan.cells.as_slice());
    let (mut order, mut table, mut work) = (vec![0; cells.len() / 4], vec![0; TABLE], vec![0; TABLE]);
    let number = of.make_order(shape, cells, &mut order);
    let run = of.run(shape, cells, &order, &mut table, &mut work);
    if (number, run.number) != (0, 0) {
        return Err(format!("order maker {number}, whole run {run:?}"));
    }
    let table: Vec<Vec<u32>> =
        table.chunks(shape.k as usize).take(run.rows as usize).map(<[u32]>::to_vec).collect();
    let mut rows = BTreeMap::new();
    for places in &table {
        let (row, common) = (of.row(shape, cells, places), of.common(shape, cells, places));
        let facts = Facts { guard: row.layer, area: row.area, sides: common.sides, kind: common.kind };
        if (row.number, common.number) != (0, 0) || row.layer == 0 || common.kind == 0 {
            return Err(format!("{places:?} is in the table and yet no row: {row:?} {common:?}"));
        }
        if rows.insert(places.clone(), facts).is_some() {
            return Err(format!("{places:?} is in the table twice"));
        }
    }
    Ok(Told { run, table, rows })
}

// ---------------------------------------------------------------- the laws

/// The laws as statements, each in one field, so that wrong ones can be tried too.
pub struct Laws {
    /// The plan with two layers exchanged.
    exchanged: fn(&Plan, usize, usize) -> Plan,
    /// A row with those two columns exchanged.
    columns: fn(&mut Vec<u32>, usize, usize),
    /// What both plans have in common beside their rows.
    same: fn(&Told, &Told, usize, usize) -> bool,
    /// The plans of the two parts of a layer that is cut at a place.
    cut: fn(&Plan, usize, usize) -> [Plan; 2],
    /// A place of the second part in the whole layer, by the size of the first.
    counted_on: fn(u32, u32) -> u32,
    /// What the two parts make together beside their rows.
    together: fn(&Told, &Told, &Told) -> bool,
}

/// "the same set of rows with those two columns exchanged, and the same area sum"; the union too. "sets of rows that share nothing and together make the old
/// one, the places of the second part counted on from the first"; "The area sums of the two parts add up to the old one".
pub const LAWS: Laws = Laws {
    exchanged,
    columns: |row, i, j| row.swap(i, j),
    same: |old, new, _, _| (old.run.area, old.run.ground) == (new.run.area, new.run.ground),
    cut,
    counted_on: |place, first| place + first,
    together: |old, first, second| {
        let (a, b) = (first.run, second.run);
        // Ground of the whole lies in one of the parts, and each of them has no more than the whole.
        let [whole, first, second] = [old.run, a, b].map(|run| run.ground.value());
        let ground = whole <= first + second && first.max(second) <= whole;
        a.area.value() + b.area.value() == old.run.area.value() && ground
    },
};

/// Statements that are no laws, each with its description; some plan must show it of each.
pub const WRONG_LAWS: [(Laws, &str); 10] = [
    (Laws { columns: |_, _, _| {}, ..LAWS }, "the columns not exchanged"),
    (
        Laws {
            exchanged: |plan, i, j| {
                grown_by(exchanged(plan, i, j), &plan.shape.margins[..plan.shape.k as usize])
            },
            ..LAWS
        },
        "margins left behind in an exchange",
    ),
    (
        Laws { same: |old, new, _, _| old.run.trials == new.run.trials, ..LAWS },
        "the same trials after an exchange",
    ),
    (
        Laws {
            same: |old, new, i, j| {
                let mut rows = old.table.clone();
                rows.iter_mut().for_each(|row| row.swap(i, j));
                rows == new.table
            },
            ..LAWS
        },
        "the same order of the rows after an exchange",
    ),
    (
        Laws {
            same: |old, new, i, j| {
                let moved = |guard: u32| match guard as usize - 1 {
                    layer if layer == i => j as u32 + 1,
                    layer if layer == j => i as u32 + 1,
                    _ => guard,
                };
                old.rows.iter().all(|(row, facts)| {
                    let mut places = row.clone();
                    places.swap(i, j);
                    new.rows.get(&places).is_some_and(|other| other.guard == moved(facts.guard))
                })
            },
            ..LAWS
        },
        "the guard exchanged like a column",
    ),
    (Laws { counted_on: |place, _| place, ..LAWS }, "the places of the second part not counted on"),
    (
        Laws { counted_on: |place, first| place + first + 1, ..LAWS },
        "the places of the second part counted on by one more",
    ),
    (
        Laws {
            cut: |plan, layer, at| {
                let [first, mut second] = cut(plan, layer, at);
                second.shape.margins[layer] = 0;
                [first, second]
            },
            ..LAWS
        },
        "the margin left behind by the second part",
    ),
    (
        Laws {
            cut: |plan, layer, at| {
                let [first, _] = cut(plan, layer, at);
                let [_, second] = cut(plan, layer, at.saturating_sub(1));
                [first, second]
            },
            counted_on: |place, first| place + first.saturating_sub(1),
            ..LAWS
        },
        "a rectangle in both parts",
    ),
    (
        Laws {
            together: |old, first, second| {
                first.run.ground.value() + second.run.ground.value() == old.run.ground.value()
            },
            ..LAWS
        },
        "the ground of the two parts added up to the old one",
    ),
];

/// Wrong overlays that break a law, whatever the reference says, by what is wrong with them.
pub const LAWLESS: [&str; 7] = [
    "guards chosen with <= on both sides, so ties list a row twice",
    "the margin of the neighbour layer",
    "the ground of the guards",
    "ground taken off only where it lies under the row before",
    "the kind of what the first two rectangles have in common",
    "the kind of what the last two rectangles have in common",
    "the sides of the guard",
];

/// Laws under trial, and what was seen so far.
struct Trial<'a> {
    of: &'a dyn Overlay,
    laws: &'a Laws,
    cases: u64,
    seen: BTreeMap<&'static str, u64>,
}

impl Trial<'_> {
    /// A law that does not hold of a plan.
    fn broken(&self, law: &'static str, plan: &Plan, shown: String) -> Difference {
        let text = format!("A LAW BROKEN: {law}, case {}\n{plan:?}\n{shown}", self.cases);
        Difference { cases: self.cases, kind: law, text }
    }

    /// Counts what makes a case worth while.
    fn saw(&mut self, what: &'static str, occurs: bool) {
        *self.seen.entry(what).or_default() += u64::from(occurs);
    }

    /// What the overlay tells of a plan.
    fn ask(&mut self, law: &'static str, plan: &Plan) -> Result<Told, Difference> {
        self.cases += 1;
        told(self.of, plan).map_err(|text| self.broken(law, plan, text))
    }

    /// Two layers exchanged.
    fn exchange(&mut self, plan: &Plan, old: &Told, (i, j): (usize, usize)) -> Result<(), Difference> {
        let (law, other) = ("exchange", (self.laws.exchanged)(plan, i, j));
        let new = self.ask(law, &other)?;
        let rows: BTreeMap<Vec<u32>, Facts> = old
            .rows
            .iter()
            .map(|(row, facts)| {
                let mut places = row.clone();
                (self.laws.columns)(&mut places, i, j);
                // Which layer the guard is in may change among equal lefts.
                let guard = new.rows.get(&places).map_or(0, |other| other.guard);
                (places, Facts { guard, ..*facts })
            })
            .collect();
        if rows != new.rows || !(self.laws.same)(old, &new, i, j) {
            let shown = format!("layers {} and {}\nold {:?}\nnew {:?}", i + 1, j + 1, old.run, new.run);
            return Err(self.broken(law, plan, shown));
        }
        let shape = &plan.shape;
        self.saw("exchange of rows", !old.rows.is_empty());
        self.saw("exchange of sizes", shape.sizes[i] != shape.sizes[j]);
        self.saw("exchange of margins", shape.margins[i] != shape.margins[j]);
        self.saw("exchange over shared ground", old.run.ground.value() < old.run.area.value());
        self.saw("exchange of neighbours alone", j == i + 1 && !old.rows.is_empty());
        self.saw("exchange across others", j > i + 1 && !old.rows.is_empty());
        Ok(())
    }

    /// A layer cut in two.
    fn cut(&mut self, plan: &Plan, old: &Told, layer: usize, at: usize) -> Result<(), Difference> {
        let law = "cut";
        let [first, second] = (self.laws.cut)(plan, layer, at);
        let (a, b) = (self.ask(law, &first)?, self.ask(law, &second)?);
        let counted_on = self.laws.counted_on;
        let moved = b.rows.iter().map(|(row, facts)| {
            let mut places = row.clone();
            places[layer] = counted_on(places[layer], at as u32);
            (places, *facts)
        });
        let moved: BTreeMap<Vec<u32>, Facts> = moved.collect();
        let nothing_shared = a.rows.keys().all(|row| !moved.contains_key(row));
        let mut both = a.rows.clone();
        both.extend(moved);
        if !nothing_shared || both != old.rows || !(self.laws.together)(old, &a, &b) {
            let runs = format!("old {:?}\nfirst {:?}\nsecond {:?}", old.run, a.run, b.run);
            return Err(self.broken(law, plan, format!("layer {} at {at}\n{runs}", layer + 1)));
        }
        self.saw("cut with rows of both parts", !a.rows.is_empty() && !b.rows.is_empty());
        self.saw("cut into nothing and all", at == 0 && !old.rows.is_empty());
        self.saw("cut into all and nothing", at == plan.shape.sizes[layer] as usize && !old.rows.is_empty());
        self.saw("cut of a layer with a margin", plan.shape.margins[layer] > 0 && !b.rows.is_empty());
        self.saw(
            "cut through shared ground",
            old.run.ground.value() < a.run.ground.value() + b.run.ground.value(),
        );
        Ok(())
    }

    /// Every exchange of two layers, and a layer cut at every place, or at some where it is long.
    fn plan(&mut self, seeds: &mut Seeds, plan: &Plan) -> Result<(), Difference> {
        let (k, old) = (plan.shape.k as usize, self.ask("a whole run", plan)?);
        for i in 0..k {
            for j in i + 1..k {
                self.exchange(plan, &old, (i, j))?;
            }
        }
        let layer = seeds.below(k as u64) as usize;
        let size = plan.shape.sizes[layer] as usize;
        for at in (0..=size).filter(|&at| size < 20 || [0, 1, size / 2, size - 1, size].contains(&at)) {
            self.cut(plan, &old, layer, at)?;
        }
        self.rearrange(seeds, plan, &old)
    }

    /// Layers in any order: the rows of the plan with all of them rearranged are its rows with the columns rearranged.
    fn rearrange(&mut self, seeds: &mut Seeds, plan: &Plan, old: &Told) -> Result<(), Difference> {
        let (law, k) = ("rearrangement", plan.shape.k as usize);
        let mut from: Vec<usize> = (0..k).collect();
        for last in (1..k).rev() {
            from.swap(last, seeds.below(last as u64 + 1) as usize);
        }
        let layers = layers_of(plan);
        let new = self.ask(law, &plan_of(&from.iter().map(|&j| layers[j].clone()).collect::<Vec<_>>()))?;
        let rows = old.rows.keys().map(|row| from.iter().map(|&j| row[j]).collect::<Vec<u32>>());
        let mut rows: Vec<Vec<u32>> = rows.collect();
        rows.sort();
        let sums = |told: &Told| (told.run.area, told.run.ground);
        if !rows.iter().eq(new.rows.keys()) || sums(old) != sums(&new) {
            return Err(self.broken(law, plan, format!("{from:?}\nold {:?}\nnew {:?}", old.run, new.run)));
        }
        Ok(())
    }
}

// ---------------------------------------------------------------- common ground

/// The common ground of some rectangles, by the overlay: one in each layer. Nothing where they are no row.
fn common(of: &dyn Overlay, rects: &[[i32; 4]]) -> Option<([i32; 4], u8)> {
    let shape: Shape = shape_of(&vec![1; rects.len()]);
    let told = of.common(&shape, &rects.concat(), &vec![0; rects.len()]);
    assert_eq!(told.number, 0);
    (told.kind != 0).then_some((told.sides, told.kind))
}

impl Trial<'_> {
    /// "Taking common ground is commutative, associative, and unchanged by the same rectangle again."
    fn ground(&mut self, [a, b, c]: [[i32; 4]; 3]) -> Result<(), Difference> {
        let of = self.of;
        let sides = |rects: &[[i32; 4]]| common(of, rects).map(|(sides, _)| sides);
        let with =
            |first: Option<[i32; 4]>, second: [i32; 4]| first.and_then(|first| common(of, &[first, second]));
        let after = |first: [i32; 4], second: Option<[i32; 4]>| {
            second.and_then(|second| common(of, &[first, second]))
        };
        let all = common(of, &[a, b, c]);
        let holds = [
            common(of, &[a, b]) == common(of, &[b, a]),
            with(sides(&[a, b]), c) == all,
            after(a, sides(&[b, c])) == all,
            sides(&[a, a]) == Some(a),
            common(of, &[a, b, b]) == common(of, &[a, b]),
            with(sides(&[a, b]), b) == common(of, &[a, b]),
        ];
        self.cases += 1;
        self.saw("common ground of three", all.is_some());
        self.saw("common ground of two alone", all.is_none() && sides(&[a, b]).is_some());
        match holds.iter().position(|&holds| !holds) {
            None => Ok(()),
            Some(at) => {
                let plan = Plan { shape: shape_of(&[1; 3]), cells: [a, b, c].concat() };
                Err(self.broken("common ground", &plan, format!("equation {at}")))
            }
        }
    }
}

/// Tries all laws on what an overlay answers; how many whole runs and triples of rectangles were looked at, or the first that breaks one.
pub fn try_laws(of: &dyn Overlay, laws: &Laws) -> Result<u64, Difference> {
    let mut seeds = Seeds(SEED);
    let mut trial = Trial { of, laws, cases: 0, seen: BTreeMap::new() };
    for round in 0..PLANS {
        let plan = seeds.plan(2 + (round % 5) as usize, round % STYLES);
        let plan = if round % 2 == 0 { plan } else { seeds.with_margins(plan) };
        trial.plan(&mut seeds, &plan)?;
    }
    for (sizes, side) in
        [(vec![512, 300], 60_000), (vec![200, 512, 90], 150_000), (vec![60, 30, 64, 20], 400_000)]
    {
        let plan = seeds.sparse(&sizes, side);
        trial.plan(&mut seeds, &plan)?;
        trial.plan(&mut seeds, &grown_by(plan, &[500, 0, 3_000, 700][..sizes.len()]))?;
    }
    for round in 0..3_000 {
        let rects = seeds.plan_of(&[3], round % STYLES).cells;
        trial.ground([0, 4, 8].map(|at| [rects[at], rects[at + 1], rects[at + 2], rects[at + 3]]))?;
    }
    assert!(trial.seen.values().all(|&times| times > 20), "what was seen: {:?}", trial.seen);
    Ok(trial.cases)
}
