//! Seeded plans, orders, tickets and texts, good and damaged.

use crate::call::Plan;
use crate::overlay::{Shape, Ticket};
use crate::reference::{layers_of, passes, sweep_order, text_of, trials_by, walk_length, REACH};

/// A xorshift generator; everything below is drawn from it.
pub struct Seeds(pub u64);

/// How many styles of plan there are.
pub const STYLES: u64 = 11;

/// How many ways there are to damage a plan.
pub const DAMAGES: u64 = 11;

/// How many fields of a ticket there are to damage.
pub const FIELDS: u64 = 11;

/// Coordinates at the ends of the range and about 0.
const EXTREMES: [i32; 11] =
    [-REACH, 1 - REACH, 2 - REACH, -1_000_001, -1, 0, 1, 1_000_001, REACH - 2, REACH - 1, REACH];

/// Coordinates outside the range.
const OUTSIDE: [i32; 6] = [REACH + 1, -REACH - 1, i32::MAX, i32::MIN, 2 * REACH, -10 * REACH];

/// Numbers that no size may be.
const TOO_LARGE: [u32; 8] = [513, 514, 1024, 65_536, 1 << 30, 1 << 31, u32::MAX - 1, u32::MAX];

/// Numbers that no margin may be.
const TOO_WIDE: [u32; 9] =
    [50_001, 50_002, 65_536, 100_000, 1_000_000, 1 << 30, 1 << 31, u32::MAX - 49_999, u32::MAX];

impl Seeds {
    /// The next number.
    pub fn draw(&mut self) -> u64 {
        self.0 ^= self.0 << 13;
        self.0 ^= self.0 >> 7;
        self.0 ^= self.0 << 17;
        self.0
    }

    /// A number from 0 to limit - 1.
    pub fn below(&mut self, limit: u64) -> u64 {
        (self.draw() >> 11) % limit
    }

    /// A number between two ends, both included.
    pub fn between(&mut self, low: i32, high: i32) -> i32 {
        low + self.below((i64::from(high) - i64::from(low) + 1) as u64) as i32
    }

    /// One of a few.
    pub fn pick<T: Copy>(&mut self, of: &[T]) -> T {
        of[self.below(of.len() as u64) as usize]
    }

    /// Yes once in so many times.
    pub fn once_in(&mut self, times: u64) -> bool {
        self.below(times) == 0
    }

    /// A lower and an upper coordinate.
    fn pair(&mut self, low: i32, high: i32) -> (i32, i32) {
        let (a, b) = (self.between(low, high), self.between(low, high));
        (a.min(b), a.max(b))
    }

    /// A rectangle on a grid.
    fn on_grid(&mut self, low: i32, high: i32) -> [i32; 4] {
        let (left, right) = self.pair(low, high);
        let (bottom, top) = self.pair(low, high);
        [left, bottom, right, top]
    }

    /// A rectangle with corners at the ends of the range.
    fn extreme(&mut self) -> [i32; 4] {
        let (a, b, c, d) =
            (self.pick(&EXTREMES), self.pick(&EXTREMES), self.pick(&EXTREMES), self.pick(&EXTREMES));
        [a.min(b), c.min(d), a.max(b), c.max(d)]
    }

    /// A rectangle of a fixed side on a raster, so that neighbours touch.
    fn tile(&mut self) -> [i32; 4] {
        let (x, y) = (10 * self.between(-2, 2), 10 * self.between(-1, 1));
        [x, y, x + 10, y + 10]
    }

    /// A rectangle that holds the point 0, 0; all of this style have common points.
    fn about_zero(&mut self, most: i32) -> [i32; 4] {
        [self.between(-most, 0), self.between(-most, 0), self.between(0, most), self.between(0, most)]
    }

    /// A segment or a point.
    fn thin(&mut self) -> [i32; 4] {
        let mut rect = self.on_grid(0, 2);
        let kind = self.below(3);
        if kind != 0 {
            rect[2] = rect[0];
        }
        if kind != 1 {
            rect[3] = rect[1];
        }
        rect
    }

    /// A rectangle of the given style.
    fn rect(&mut self, style: u64, few: &[[i32; 4]]) -> [i32; 4] {
        match style {
            0 => self.on_grid(0, 3),
            1 => self.on_grid(-4, 5),
            2 => self.pick(few),
            3 => self.extreme(),
            4 => self.on_grid(-REACH, REACH),
            5 => self.thin(),
            6 => self.tile(),
            7 => [0, self.between(-2, 0), self.between(0, 2), self.between(0, 2)],
            8 => self.about_zero(100),
            9 => self.about_zero(REACH),
            _ => {
                let other = self.pick(&[0, 2, 5, 6, 7]);
                self.rect(other, few)
            }
        }
    }

    /// A sound plan of the given sizes and style.
    pub fn plan_of(&mut self, sizes: &[u32], style: u64) -> Plan {
        let few = [self.on_grid(0, 4), self.on_grid(0, 4), self.on_grid(-1, 1)];
        let n: u32 = sizes.iter().sum();
        let cells = (0..n).flat_map(|_| self.rect(style, &few)).collect();
        Plan { shape: shape_of(sizes), cells }
    }

    /// A sound plan of k layers, small enough for the product.
    pub fn plan(&mut self, k: usize, style: u64) -> Plan {
        let most = if self.once_in(6) { [40, 14, 7, 5, 4][k - 2] } else { [8, 5, 3, 3, 2][k - 2] };
        let sizes: Vec<u32> =
            (0..k).map(|_| if self.once_in(12) { 0 } else { 1 + self.below(most) as u32 }).collect();
        self.plan_of(&sizes, style)
    }

    /// A sound plan of small rectangles far apart, with sides up to the given one.
    pub fn sparse(&mut self, sizes: &[u32], side: i32) -> Plan {
        let n: u32 = sizes.iter().sum();
        let mut cells = Vec::new();
        for _ in 0..n {
            let (x, y) = (self.between(-900_000, 900_000), self.between(-900_000, 900_000));
            let (right, top) = (x + self.between(0, side), y + self.between(0, side));
            cells.extend([x, y, right.min(1_000_000), top.min(1_000_000)]);
        }
        Plan { shape: shape_of(sizes), cells }
    }

    /// The plan with margins: small, lifelike, at the limits, in one layer alone, or such that two of its rectangles just touch, just do not, or have the
    /// same left.
    pub fn with_margins(&mut self, mut plan: Plan) -> Plan {
        let k = plan.shape.k as usize;
        let way = self.below(8);
        for margin in &mut plan.shape.margins[..k] {
            *margin = match way {
                0 => self.below(4) as u32,
                1 if self.once_in(3) => 0,
                1 => self.between(500, 5_000) as u32,
                2 => self.pick(&[0, 1, 49_999, 50_000]),
                _ => 0,
            };
        }
        match way {
            0..=2 => {}
            3 => plan.shape.margins[self.below(k as u64) as usize] = self.pick(&[1, 2, 700, 50_000]),
            4..=5 => self.just_touch(&mut plan),
            _ => self.same_left(&mut plan),
        }
        plan
    }

    /// A rectangle of each of two layers, as layer and cells; nothing where fewer than two have any.
    fn two_rects(&mut self, plan: &Plan) -> Option<[(usize, [i32; 4]); 2]> {
        let mut all = Vec::new();
        let mut rects = plan.cells.chunks(4);
        for (layer, &size) in plan.shape.sizes.iter().enumerate() {
            all.extend(rects.by_ref().take(size as usize).map(|r| (layer, [r[0], r[1], r[2], r[3]])));
        }
        let first = *all.get(self.below(all.len().max(1) as u64) as usize)?;
        all.retain(|&(layer, _)| layer != first.0);
        let second = *all.get(self.below(all.len().max(1) as u64) as usize)?;
        Some([first, second])
    }

    /// Margins of two layers that close the gap between two of their rectangles, or leave a millimetre of it.
    fn just_touch(&mut self, plan: &mut Plan) {
        let Some([(i, a), (j, b)]) = self.two_rects(plan) else { return };
        let gaps = [b[0] - a[2], a[0] - b[2], b[1] - a[3], a[1] - b[3]];
        let gap = gaps.into_iter().max().unwrap_or(0).max(self.pick(&[0, 3]));
        let gap = (gap - self.pick(&[0, 0, 1])).clamp(0, 100_000) as u32;
        let share =
            (self.below(u64::from(gap) + 1) as u32).clamp(gap.saturating_sub(50_000), 50_000.min(gap));
        plan.shape.margins[i] = share;
        plan.shape.margins[j] = gap - share;
    }

    /// Margins of two layers that give two of their rectangles the same left, or lefts a millimetre apart.
    fn same_left(&mut self, plan: &mut Plan) {
        let Some([(i, a), (j, b)]) = self.two_rects(plan) else { return };
        let (low, high, apart) = if a[0] < b[0] { (i, j, b[0] - a[0]) } else { (j, i, a[0] - b[0]) };
        let least = self.below(3) as i32;
        let more = (least + apart + self.pick(&[0, 0, 0, 1, -1])).clamp(0, 50_000);
        plan.shape.margins[low] = least as u32;
        plan.shape.margins[high] = more as u32;
    }

    /// Any k that is none.
    pub fn wrong_k(&mut self) -> u32 {
        self.pick(&[0, 1, 7, 8, 6 + 256, 1 << 31, u32::MAX])
    }

    /// Damages a plan in one way; some ways leave another sound plan.
    pub fn damage_plan(&mut self, plan: &mut Plan, way: u64) {
        let k = plan.shape.k.clamp(2, 6) as u64;
        match way {
            0 => plan.shape.k = self.wrong_k(),
            1 => plan.shape.k = plan.shape.k.wrapping_add(self.pick(&[1, u32::MAX])),
            2 => plan.shape.sizes[self.below(k) as usize] = self.pick(&TOO_LARGE),
            3 => {
                let past = k + self.below((6 - k).max(1));
                plan.shape.sizes[past.min(5) as usize] = self.pick(&[1, 2, 512, 513, u32::MAX]);
            }
            4 => self.damage_length(&mut plan.cells),
            5 => self.set_cell(&mut plan.cells),
            6 => self.reverse_sides(&mut plan.cells, 0),
            7 => self.reverse_sides(&mut plan.cells, 1),
            8 => plan.shape.margins[self.below(k) as usize] = self.pick(&TOO_WIDE),
            9 => {
                let past = k + self.below((6 - k).max(1));
                plan.shape.margins[past.min(5) as usize] = self.pick(&[1, 500, 50_000, 50_001, u32::MAX]);
            }
            _ => plan.shape.margins[self.below(k) as usize] = self.pick(&[0, 1, 49_999, 50_000, 50_001]),
        }
    }

    /// Makes the cells fewer or more.
    fn damage_length(&mut self, cells: &mut Vec<i32>) {
        match self.below(5) {
            0 => cells.clear(),
            1 => cells.truncate(cells.len().saturating_sub(1)),
            2 => cells.truncate(cells.len().saturating_sub(4)),
            3 => cells.push(0),
            _ => cells.extend([0, 0, 1, 1]),
        }
    }

    /// Puts one coordinate out of range.
    fn set_cell(&mut self, cells: &mut [i32]) {
        if !cells.is_empty() {
            let at = if self.once_in(3) { cells.len() - 1 } else { self.below(cells.len() as u64) as usize };
            cells[at] = self.pick(&OUTSIDE);
        }
    }

    /// Makes left > right (side 0) or bottom > top (side 1) in one rectangle.
    fn reverse_sides(&mut self, cells: &mut [i32], side: usize) {
        let rects = cells.len() / 4;
        if rects > 0 {
            let at = 4 * self.below(rects as u64) as usize + side;
            cells[at] = cells[at + 2].saturating_add(1);
        }
    }

    /// A budget: none, one, some or all.
    pub fn budget(&mut self, length: u64) -> u32 {
        match self.below(8) {
            0 => 0,
            1 => 1,
            2 => 1 + self.below(9) as u32,
            3 => length as u32,
            4 => u32::MAX,
            _ => self.below(length / 4 + 3) as u32,
        }
    }

    /// The length of a table: none, less than a row, not a whole number of rows, or large.
    pub fn table_length(&mut self, k: usize) -> usize {
        match self.below(7) {
            0 => 0,
            1 => k - 1,
            2 => k,
            3 => k + 1,
            4 => self.below(50) as usize,
            5 => k * self.below(60) as usize,
            _ => 3_000 + self.below(10) as usize,
        }
    }

    /// A number near another, or far from all.
    fn near(&mut self, number: u32) -> u32 {
        match self.below(6) {
            0 => number.wrapping_sub(1),
            1 => number.wrapping_add(1),
            2 => number.wrapping_add(2),
            3 => 0,
            4 => self.below(8) as u32,
            _ => self.pick(&[5, 6, 7, 511, 512, 513, 1 << 16, 1 << 31, u32::MAX]),
        }
    }

    /// A count near another, far from it, about 2^57, or the same but for one half of its bits.
    pub fn near_count(&mut self, count: u64) -> u64 {
        match self.below(7) {
            0 => count.wrapping_sub(1),
            1 => count.wrapping_add(1),
            2 => 0,
            3 => count ^ 1 << 32,
            4 => count << 32 | count >> 32,
            5 => self.below(40),
            _ => self.pick(&[(1 << 57) - 1, 1 << 57, 1 << 63, u64::MAX, 1 << 32, (1 << 32) - 1]),
        }
    }

    /// A run record that is not the ticket's: of another length, or with another count.
    pub fn other_record(&mut self, ticket: &Ticket) -> Vec<u64> {
        let count = ticket.count;
        match self.below(5) {
            0 => Vec::new(),
            1 => vec![count; 2],
            2 => vec![count, 0, 0],
            _ => vec![self.near_count(count)],
        }
    }

    /// Changes one field of a ticket: 0 Ended, 1 layer, 2 place, 3 filled, 4 next, 5 to 9 chosen, 10 the count.
    pub fn damage_ticket(&mut self, ticket: &Ticket, field: u64) -> Ticket {
        let mut out = *ticket;
        match field {
            0 => out.ended = !out.ended,
            1 => out.layer = self.near(out.layer),
            2 => out.place = self.near(out.place),
            3 => out.filled = self.near(out.filled),
            4 => out.next = self.near(out.next),
            10 => out.count = self.near_count(out.count),
            _ => out.chosen[field as usize - 5] = self.near(out.chosen[field as usize - 5]),
        }
        out
    }

    /// A ticket of small numbers without regard to any plan.
    pub fn any_ticket(&mut self) -> Ticket {
        let mut ticket = Ticket {
            ended: self.once_in(8),
            layer: self.below(4) as u32,
            place: self.below(3) as u32,
            filled: self.below(3) as u32,
            chosen: [0; 5],
            next: self.below(3) as u32,
            count: self.pick(&[0, 0, 1, 2, 5, 1 << 40]),
        };
        for cell in ticket.chosen.iter_mut().take(ticket.filled as usize) {
            *cell = self.below(3) as u32;
        }
        ticket
    }
}

/// k and the six sizes; the margins are 0.
pub fn shape_of(sizes: &[u32]) -> Shape {
    let mut shape = Shape { k: sizes.len() as u32, ..Shape::NONE };
    shape.sizes[..sizes.len()].copy_from_slice(sizes);
    shape
}

/// A plan from its rectangles layer by layer.
pub fn plan_from(layers: &[&[[i32; 4]]]) -> Plan {
    let sizes: Vec<u32> = layers.iter().map(|rects| rects.len() as u32).collect();
    Plan { shape: shape_of(&sizes), cells: layers.concat().concat() }
}

/// A plan in which all rectangles are equal.
pub fn equal_plan(sizes: &[u32], rect: [i32; 4]) -> Plan {
    let n = sizes.iter().sum::<u32>() as usize;
    Plan { shape: shape_of(sizes), cells: rect.repeat(n) }
}

/// A plan of k layers whose rows have just these rectangles as their ground: they are layer 1, and each other layer holds one that covers all.
pub fn covered(rects: &[[i32; 4]], k: usize) -> Plan {
    let all: &[[i32; 4]] = &[[-REACH, -REACH, REACH, REACH]];
    let layers: Vec<&[[i32; 4]]> = (0..k).map(|j| if j == 0 { rects } else { all }).collect();
    plan_from(&layers)
}

/// A plan of k layers of a size, with many rows on many lines. Each layer has towers in a field of its own, no two with a bottom or a top in common; each other
/// layer has one rectangle that covers that field, and one of them has two, so that each tower is in two rows.
pub fn towers(k: usize, size: usize) -> Plan {
    let each = size - k;
    let (wide, count) = (2_000_000 / k as i32, (k * each) as i32);
    let field = |j: usize| -1_000_000 + wide * j as i32;
    let tower = |j: usize, i: usize| {
        let (step, number) = (wide / (each as i32 + 8), (j * each + i) as i32);
        // Numbers in another order: 7,919 is a prime.
        let (left, mixed) =
            (field(j) + step * i as i32, (i64::from(number) * 7_919 % i64::from(count)) as i32);
        [left, -500_000 + 100 * mixed, left + 7 * step, 500_000 - 130 * number]
    };
    let layer = |j: usize| -> Vec<[i32; 4]> {
        let fields = (0..k).filter(|&other| other != j).chain([(j + 1) % k]);
        let cover = |other: usize| [field(other), -1_000_000, field(other) + wide - 2, 1_000_000];
        fields.map(cover).chain((0..each).map(|i| tower(j, i))).collect()
    };
    let layers: Vec<Vec<[i32; 4]>> = (0..k).map(layer).collect();
    plan_from(&layers.iter().map(Vec::as_slice).collect::<Vec<_>>())
}

/// The plan with these margins of its first layers.
pub fn grown_by(mut plan: Plan, margins: &[u32]) -> Plan {
    plan.shape.margins[..margins.len()].copy_from_slice(margins);
    plan
}

/// The plan D of the report.
pub fn plan_d() -> Plan {
    plan_from(&[&[[0, 0, 1000, 1000], [1000, 0, 2000, 500]], &[[500, 500, 1500, 1500]]])
}

/// The sweep order of a sound plan.
pub fn order(plan: &Plan) -> Vec<u32> {
    sweep_order(&layers_of(&plan.shape, &plan.cells))
}

/// The length of a sound plan's walk.
pub fn length(plan: &Plan) -> u64 {
    walk_length(&layers_of(&plan.shape, &plan.cells))
}

/// The tickets of a sound plan's trials in turn, each with the count that a run has when the trial is due.
pub fn tickets(plan: &Plan) -> Vec<Ticket> {
    let trials = trials_by(&layers_of(&plan.shape, &plan.cells), passes);
    trials.iter().zip(0..).map(|(trial, count)| trial.ticket.after(count)).collect()
}

/// The text of a sound plan.
pub fn text(plan: &Plan) -> Vec<u8> {
    text_of(&plan.shape, &plan.cells)
}

/// Bytes from a spelling in which the comma stands for the tab and the slash for the line end.
pub fn spell(spelling: &str) -> Vec<u8> {
    spelling
        .bytes()
        .map(|byte| match byte {
            b',' => 9,
            b'/' => 10,
            other => other,
        })
        .collect()
}

/// Orders that are not the sweep order of the plan, and some that may be.
pub fn other_orders(seeds: &mut Seeds, good: &[u32]) -> Vec<Vec<u32>> {
    let n = good.len();
    let mut all = vec![Vec::new(), (0..n as u32).collect(), vec![0; n], good.iter().rev().copied().collect()];
    all.push([good, &[n as u32]].concat());
    all.push([good, &[0]].concat());
    all.push([good, good].concat());
    if n > 0 {
        all.push(good[..n - 1].to_vec());
        all.push(good[1..].to_vec());
        for value in [n as u32, u32::MAX, good[0], good[n - 1], good[n / 2] ^ 1] {
            let mut order = good.to_vec();
            order[seeds.below(n as u64) as usize] = value;
            all.push(order);
        }
    }
    if n > 1 {
        for at in [0, n - 2, seeds.below(n as u64 - 1) as usize] {
            let mut order = good.to_vec();
            order.swap(at, at + 1);
            all.push(order);
        }
    }
    all
}
