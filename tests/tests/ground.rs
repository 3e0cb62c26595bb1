//! Every example of the paper's "Ground to check" and "The report", and facts that tie the parts together.

use overlay_tests::call::Plan;
use overlay_tests::overlay::{Overlay, Page, Reading, Run, Shape, Stop, Ticket, Total, Writing};
use overlay_tests::reference::{
    area, each_row_by_loops, each_row_by_product, each_tuple, intersection, is_empty, join, kind_of,
    layers_of, passes, rects_at, report, row_of, share_a_point, square_metres, trials_by, union_by_lines,
    union_by_squares, union_of, walk_length, Rect, REFERENCE,
};
use overlay_tests::seeds::{
    covered, equal_plan, grown_by, order, plan_d, plan_from, shape_of, spell, text, towers, Seeds, STYLES,
};

/// A whole run into so many cells.
fn run(plan: &Plan, cells: usize) -> (Run, Vec<u32>) {
    let (mut table, mut work) = (vec![77; cells], vec![77; cells]);
    (REFERENCE.run(&plan.shape, &plan.cells, &order(plan), &mut table, &mut work), table)
}

/// The fresh ticket.
fn fresh(plan: &Plan) -> Ticket {
    let mut record = [77];
    let (number, ticket) = REFERENCE.fresh(&plan.shape, &plan.cells, &order(plan), &mut record);
    assert_eq!((number, ticket.count, record), (0, 0, [0]));
    ticket
}

/// A page into so many cells, by the ticket that its run was given last.
fn page(plan: &Plan, ticket: &Ticket, budget: u32, cells: usize) -> (Page, Vec<u32>) {
    let mut record = [ticket.count];
    let (told, table) = page_in(plan, ticket, &mut record, budget, cells);
    assert_eq!(record, [told.ticket.count]);
    (told, table)
}

/// A page into so many cells, with a run record.
fn page_in(plan: &Plan, ticket: &Ticket, record: &mut [u64], budget: u32, cells: usize) -> (Page, Vec<u32>) {
    let mut table = vec![77; cells];
    (REFERENCE.page(&plan.shape, &plan.cells, &order(plan), ticket, record, budget, &mut table), table)
}

/// The number of a reading, and the cells after it.
fn read(text: &[u8], cells: usize) -> (Reading, Vec<i32>) {
    let mut lent = vec![77; cells];
    (REFERENCE.read(text, &mut lent), lent)
}

/// Plan D's text with its first right replaced.
fn number_with(right: &str) -> u32 {
    read(&spell(&format!("PLAN,2/LAYER,1,0/RECT,0,0,{right},1000/LAYER,0,0/")), 4).0.number
}

#[test]
fn d_has_two_rows_and_four_trials() {
    let (told, table) = run(&plan_d(), 6);
    assert_eq!(
        told,
        Run { number: 0, rows: 2, trials: 4, area: Total::of(250_000), ground: Total::of(250_000) }
    );
    assert_eq!(table, [0, 0, 1, 0, 77, 77]);
    let rows = join(&layers_of(&plan_d().shape, &plan_d().cells));
    assert_eq!((rows[0].guard, rows[0].area, rows[1].guard, rows[1].area), (2, 250_000, 1, 0));
}

#[test]
fn d_walks_as_said() {
    let tickets: Vec<Ticket> = trials_by(&layers_of(&plan_d().shape, &plan_d().cells), passes)
        .iter()
        .map(|trial| trial.ticket)
        .collect();
    let of =
        |layer, place, next| Ticket { ended: false, layer, place, filled: 0, chosen: [0; 5], next, count: 0 };
    assert_eq!(tickets, [of(1, 0, 0), of(2, 0, 0), of(2, 0, 1), of(1, 1, 0)]);
    assert_eq!(fresh(&plan_d()), of(1, 0, 0));
}

#[test]
fn d_by_budget_two() {
    let (first, table) = page(&plan_d(), &fresh(&plan_d()), 2, 10);
    assert_eq!((first.stop, first.rows, first.trials, first.area.value()), (Stop::Spent, 1, 2, 250_000));
    assert_eq!(table, [0, 0, 77, 77, 77, 77, 77, 77, 77, 77]);
    let (second, table) = page(&plan_d(), &first.ticket, 2, 10);
    assert_eq!((second.stop, second.rows, second.trials, second.area.value()), (Stop::Ended, 1, 2, 0));
    assert_eq!((second.ticket, &table[..3]), (Ticket::ENDED.after(4), &[1, 0, 77][..]));
}

#[test]
fn d_by_a_table_of_two_cells() {
    let (first, table) = page(&plan_d(), &fresh(&plan_d()), 9, 2);
    assert_eq!((first.stop, first.rows, first.trials), (Stop::Full, 1, 2));
    assert_eq!(table, [0, 0]);
    let (second, table) = page(&plan_d(), &first.ticket, 9, 2);
    assert_eq!((second.stop, second.rows, second.trials), (Stop::Ended, 1, 2));
    assert_eq!(table, [1, 0]);
}

#[test]
fn d_without_budget_and_cells_is_full() {
    let (told, _) = page(&plan_d(), &fresh(&plan_d()), 0, 0);
    assert_eq!(
        told,
        Page { stop: Stop::Full, rows: 0, trials: 0, area: Total::NONE, ticket: fresh(&plan_d()) }
    );
}

#[test]
fn equal_rectangles_have_one_row_with_the_guard_in_layer_1() {
    let plan = equal_plan(&[1, 1], [3, 4, 5, 6]);
    assert_eq!(
        run(&plan, 2).0,
        Run { number: 0, rows: 1, trials: 2, area: Total::of(4), ground: Total::of(4) }
    );
    let told = REFERENCE.row(&plan.shape, &plan.cells, &[0, 0]);
    assert_eq!((told.number, told.layer, told.area), (0, 1, 4));
}

#[test]
fn sizes_1_and_0_have_no_trials() {
    let plan = equal_plan(&[1, 0], [3, 4, 5, 6]);
    assert_eq!(
        run(&plan, 0).0,
        Run { number: 0, rows: 0, trials: 0, area: Total::of(0), ground: Total::of(0) }
    );
    assert_eq!(fresh(&plan), Ticket::ENDED);
}

#[test]
fn sizes_1_1_0_have_two_trials_and_no_row() {
    let plan = equal_plan(&[1, 1, 0], [3, 4, 5, 6]);
    assert_eq!(
        run(&plan, 0).0,
        Run { number: 0, rows: 0, trials: 2, area: Total::of(0), ground: Total::of(0) }
    );
}

#[test]
fn touching_is_meeting() {
    for (right, rows) in [(9, 0), (10, 1)] {
        for swapped in [false, true] {
            let (a, b) = ([0, 0, right, 5], [10, 0, 20, 5]);
            let plan = if swapped { plan_from(&[&[b], &[a]]) } else { plan_from(&[&[a], &[b]]) };
            assert_eq!(run(&plan, 9).0.rows, rows);
        }
    }
}

#[test]
fn spellings_of_a_number() {
    assert_eq!(["-0", "07", "10000001", "1000000", "1000001"].map(number_with), [9, 9, 10, 0, 0]);
    let (reading, cells) = read(&spell("PLAN,2/LAYER,1,0/RECT,0,0,1000000,1000/LAYER,0,0/"), 5);
    assert_eq!(reading, Reading { number: 0, shape: shape_of(&[1, 0]) });
    assert_eq!(cells, [0, 0, 1_000_000, 1000, 77]);
}

#[test]
fn size_512_and_not_513() {
    for (size, number) in [(512, 0), (513, 2)] {
        let plan = equal_plan(&[size, 1], [0, 0, 1, 1]);
        let mut order = vec![9; size as usize + 1];
        assert_eq!(REFERENCE.make_order(&plan.shape, &plan.cells, &mut order), number);
        let number = if number == 2 { 10 } else { 0 };
        assert_eq!(read(&text(&plan), 5000).0.number, number);
    }
}

#[test]
fn empty_and_unfinished_texts() {
    assert_eq!(read(b"", 9).0.number, 9);
    let whole = text(&plan_d());
    assert_eq!(read(&whole[..whole.len() - 1], 20).0.number, 9);
    assert_eq!(read(&whole, 20).0.number, 0);
    assert_eq!(read(&whole, 11).0.number, 11);
    assert_eq!(read(&whole, 11).1, [77; 11]);
}

#[test]
fn texts_that_10_and_9_part() {
    let number = |spelling: &str| read(&spell(spelling), 0).0.number;
    assert_eq!(number("PLAN,-2/"), 10);
    assert_eq!(number("PLAN,2/"), 10);
    assert_eq!(number("PLAN,99999999/"), 10);
    assert_eq!(number("PLAN,100000000/"), 9);
    assert_eq!(number("PLAN,9/LAYER,00,0/"), 9);
    assert_eq!(number("PLAN,2/PLAN,2/LAYER,0,0/LAYER,0,0/"), 9);
    assert_eq!(number("PLAN,2/RECT,0,0,0,0/LAYER,1,0/LAYER,0,0/"), 10);
}

#[test]
fn causes_come_in_the_order_of_the_lines() {
    let mut cells = vec![0, 0, 0, 0];
    let number = |k, sizes: [u32; 6], cells: &[i32]| {
        REFERENCE.make_order(&Shape { k, sizes, margins: [0; 6] }, cells, &mut [0; 9])
    };
    assert_eq!(number(1, [u32::MAX; 6], &[1]), 1);
    assert_eq!(number(7, [0; 6], &[]), 1);
    assert_eq!(number(2, [513, 0, 0, 0, 0, 0], &[1]), 2);
    assert_eq!(number(2, [1, 0, 1, 0, 0, 0], &[1]), 2);
    assert_eq!(number(2, [2, 0, 0, 0, 0, 0], &[20_000_000, 0, 0, 0]), 3);
    assert_eq!(number(2, [1, 0, 0, 0, 0, 0], &cells), 8);
    cells[0] = 1;
    assert_eq!(number(2, [1, 0, 0, 0, 0, 0], &cells), 4);
}

#[test]
fn cause_17_stands_behind_2_and_before_3() {
    let number = |k, sizes: [u32; 6], margins: [u32; 6], cells: &[i32]| {
        REFERENCE.make_order(&Shape { k, sizes, margins }, cells, &mut [0; 9])
    };
    let (one, wide, past) = ([1, 0, 0, 0, 0, 0], [0, 50_001, 0, 0, 0, 0], [0, 0, 1, 0, 0, 0]);
    assert_eq!(number(1, one, wide, &[]), 1);
    assert_eq!(number(2, [513, 0, 0, 0, 0, 0], wide, &[]), 2);
    assert_eq!(number(2, one, wide, &[]), 17);
    assert_eq!(number(2, one, past, &[1, 0, 0, 0]), 17);
    assert_eq!(number(3, one, past, &[]), 3);
    assert_eq!(number(2, one, [50_000, 50_000, 0, 0, 0, 0], &[1, 0, 0, 0]), 4);
    assert_eq!(number(2, one, [50_000, 50_000, 0, 0, 0, 0], &[-10_000_000; 4]), 8);
    assert_eq!(number(6, one, [50_000; 6], &[0; 4]), 8);
}

#[test]
fn margins_in_texts() {
    let number = |spelling: &str| read(&spell(spelling), 0).0.number;
    assert_eq!(number("PLAN,2/LAYER,0,50000/LAYER,0,1/"), 0);
    assert_eq!(number("PLAN,2/LAYER,0,50001/LAYER,0,1/"), 10);
    assert_eq!(number("PLAN,2/LAYER,0,-1/LAYER,0,1/"), 10);
    assert_eq!(number("PLAN,2/LAYER,0/LAYER,0,1/"), 9);
    assert_eq!(number("PLAN,2/LAYER,0,50001/LAYER,0/"), 9);
    let told = read(&spell("PLAN,2/LAYER,0,50000/LAYER,0,1/"), 0).0;
    assert_eq!(told.shape, Shape { margins: [50_000, 1, 0, 0, 0, 0], ..shape_of(&[0, 0]) });
}

#[test]
fn report_of_d() {
    assert_eq!(report(&text(&plan_d())), spell("ROW,2,0,0,250000,G/ROW,1,1,0,0,E/TOTAL,2,4,0.25/"));
    let spelling =
        "PLAN,2/LAYER,2,0/RECT,0,0,1000,1000/RECT,1000,0,2000,500/LAYER,1,0/RECT,500,500,1500,1500/";
    assert_eq!(text(&plan_d()), spell(spelling));
    let mut buffer = vec![1; 100];
    let length = spelling.len();
    assert_eq!(REFERENCE.write(&plan_d().shape, &plan_d().cells, &mut buffer), Writing { number: 0, length });
    assert_eq!((&buffer[..length], &buffer[length..]), (&spell(spelling)[..], &vec![1; 100 - length][..]));
}

#[test]
fn square_metres_are_rounded_once() {
    assert_eq!(
        [4_999, 5_000, 250_000, 999_995_000].map(|sum| square_metres(Total::of(sum))),
        ["0.00", "0.01", "0.25", "1000.00"]
    );
    let beside = covered(&[[0, 0, 1, 4_999], [1, 0, 2, 4_999]], 2);
    assert_eq!(report(&text(&beside)), spell("ROW,1,0,0,4999,G/ROW,1,1,0,4999,G/TOTAL,2,4,0.01/"));
    let over = equal_plan(&[2, 1], [0, 0, 1, 4_999]);
    assert_eq!(report(&text(&over)), spell("ROW,1,0,0,4999,G/ROW,1,1,0,4999,G/TOTAL,2,4,0.00/"));
}

#[test]
fn report_refusals() {
    assert_eq!(report(b""), spell("REFUSED,9/"));
    assert_eq!(report(&spell("PLAN,2/")), spell("REFUSED,10/"));
    assert_eq!(report(&vec![b'x'; 65_536]), spell("REFUSED,9/"));
    assert_eq!(report(&vec![b'x'; 65_537]), spell("REFUSED,13/"));
    assert_eq!(report(&text(&equal_plan(&[64, 97], [0, 0, 0, 0]))), spell("REFUSED,7/"));
    let fits = report(&text(&equal_plan(&[64, 96], [0, 0, 0, 0])));
    assert!(fits.ends_with(&spell("TOTAL,6144,12288,0.00/")));
    assert_eq!(report(&spell("PLAN,2/LAYER,0,0/LAYER,0,0/")), spell("TOTAL,0,0,0.00/"));
}

/// Plans of every k and style, without margins and with.
fn plans() -> Vec<Plan> {
    let mut seeds = Seeds(99);
    let mut plan = |at| {
        let plan = seeds.plan(2 + (at % 5) as usize, (at / 5) % STYLES);
        if at % 2 == 0 {
            plan
        } else {
            seeds.with_margins(plan)
        }
    };
    (0..5 * STYLES * 12).map(&mut plan).collect()
}

/// The rows of a plan by places and area, in no order.
fn rows_of(plan: &Plan) -> Vec<([u32; 6], u64)> {
    let mut rows: Vec<_> =
        join(&layers_of(&plan.shape, &plan.cells)).iter().map(|row| (row.places, row.area)).collect();
    rows.sort();
    rows
}

#[test]
fn a_plan_drawn_larger_is_the_plan_with_margins() {
    for plan in plans().iter().filter(|plan| plan.cells.iter().all(|cell| cell.abs() <= 950_000)) {
        let grown = layers_of(&plan.shape, &plan.cells).concat();
        let cells: Vec<i32> = grown.iter().flat_map(|r| [r.left, r.bottom, r.right, r.top]).collect();
        let larger = Plan { shape: Shape { margins: [0; 6], ..plan.shape }, cells };
        let k = plan.shape.k as usize;
        let places = vec![0; k];
        assert_eq!(order(plan), order(&larger));
        assert_eq!(run(plan, 9_000), run(&larger, 9_000));
        assert_eq!(fresh(plan), fresh(&larger));
        assert_eq!(page(plan, &fresh(plan), 7, 3 * k), page(&larger, &fresh(plan), 7, 3 * k));
        let told = |plan: &Plan| {
            let (shape, cells) = (&plan.shape, &plan.cells);
            (REFERENCE.row(shape, cells, &places), REFERENCE.pair(shape, cells, &places))
        };
        assert_eq!(told(plan), told(&larger));
    }
}

#[test]
fn a_larger_margin_loses_no_row() {
    let mut seeds = Seeds(11);
    for plan in plans() {
        let mut wider = plan.clone();
        for margin in &mut wider.shape.margins[..plan.shape.k as usize] {
            *margin = (*margin + seeds.below(5) as u32).min(50_000);
        }
        let (before, after) = (rows_of(&plan), rows_of(&wider));
        let kept =
            |&(places, area): &([u32; 6], u64)| after.iter().any(|row| row.0 == places && row.1 >= area);
        assert!(before.iter().all(kept));
    }
}

#[test]
fn no_area_is_above_the_largest() {
    let most = equal_plan(&[1, 1], [-10_000_000, -10_000_000, 10_000_000, 10_000_000]);
    let most = grown_by(most, &[50_000, 50_000]);
    assert_eq!(REFERENCE.row(&most.shape, &most.cells, &[0, 0]).area, 404_010_000_000_000);
    assert!(plans().iter().flat_map(rows_of).all(|(_, area)| area <= 404_010_000_000_000));
}

#[test]
fn sums_are_metres_and_a_rest() {
    for sum in [0, 1, 999_999, 1_000_000, 1_000_001, 1 << 63, 404_010_000_000_000 * 1_000_000] {
        let total = Total::of(sum);
        assert_eq!((total.value(), total.rest < 1_000_000), (sum, true));
    }
    let printed = [994_999, 995_000, 999_999, 1_000_000].map(|sum| square_metres(Total::of(sum)));
    assert_eq!(printed, ["0.99", "1.00", "1.00", "1.00"]);
    let wide = equal_plan(&[256, 256], [-10_000_000, -10_000_000, 10_000_000, 10_000_000]);
    let (told, _) = run(&wide, 200_000);
    assert_eq!(
        (told.area, told.area.value() > 1 << 64),
        (Total { metres: 65_536 * 400_000_000, rest: 0 }, true)
    );
}

/// The ground of each row of a plan.
fn grounds(plan: &Plan) -> Vec<Rect> {
    join(&layers_of(&plan.shape, &plan.cells)).iter().map(|row| row.common).collect()
}

/// The union by areas alone: those of all rectangles, less those of each two in common, with those of each three, and so on.
fn by_inclusion(rects: &[Rect]) -> i64 {
    let mut sum = 0;
    for chosen in 1..1u32 << rects.len() {
        let some = rects.iter().enumerate().filter(|(at, _)| chosen >> at & 1 == 1).map(|(_, r)| *r);
        let common = some.reduce(intersection).filter(|&r| !is_empty(r)).map_or(0, area) as i64;
        sum += if chosen.count_ones() % 2 == 1 { common } else { -common };
    }
    sum
}

#[test]
fn squares_lines_and_areas_count_the_same_ground() {
    let (mut by_squares, mut by_areas) = (0, 0);
    for plan in plans() {
        let rects = grounds(&plan);
        if rects.iter().all(|r| r.left >= -60 && r.right <= 60 && r.bottom >= -60 && r.top <= 60) {
            assert_eq!(union_by_squares(&rects), union_by_lines(&rects), "{plan:?}");
            by_squares += 1;
        }
        if rects.len() <= 12 {
            assert_eq!(union_by_lines(&rects) as i64, by_inclusion(&rects), "{plan:?}");
            by_areas += 1;
        }
    }
    assert!(by_squares > 200 && by_areas > 200, "{by_squares} and {by_areas} plans");
}

#[test]
fn ground_lies_between_the_largest_row_and_the_sum() {
    let mut apart = 0;
    for plan in plans() {
        let (rects, told) = (grounds(&plan), run(&plan, 9_000).0);
        let over = |a: &Rect, b: &Rect| {
            let common = intersection(*a, *b);
            !is_empty(common) && area(common) > 0
        };
        let (area_sum, ground) = (told.area.value(), told.ground.value());
        assert!(ground <= area_sum && rects.iter().all(|&r| u128::from(area(r)) <= ground));
        let shared = (0..rects.len()).any(|i| rects[..i].iter().any(|r| over(r, &rects[i])));
        assert_eq!(told.ground == told.area, !shared, "{plan:?}");
        apart += u64::from(!shared && rects.len() > 1);
    }
    assert!(apart > 20, "{apart} plans whose rows share no square");
}

#[test]
fn towers_have_as_many_rows_and_lines_as_said() {
    for (k, size) in [(2, 512), (3, 60), (6, 512)] {
        let rects = grounds(&towers(k, size));
        assert_eq!(rects.len(), 2 * k * (size - k));
        let mut lines: Vec<i32> = rects.iter().flat_map(|r| [r.bottom, r.top]).collect();
        lines.sort_unstable();
        lines.dedup();
        assert_eq!(lines.len(), rects.len());
    }
}

#[test]
fn a_work_buffer_of_two_cells_a_row() {
    let number = |table: usize, work: usize| {
        let (mut cells, mut lent) = (vec![77; table], vec![77; work]);
        let told = REFERENCE.run(&plan_d().shape, &plan_d().cells, &order(&plan_d()), &mut cells, &mut lent);
        if told.number != 0 {
            assert_eq!((told.ground, cells, lent), (Total::NONE, vec![77; table], vec![77; work]));
        }
        told.number
    };
    assert_eq!([number(4, 4), number(4, 3), number(4, 0), number(3, 0), number(3, 4)], [0, 19, 19, 7, 7]);
}

#[test]
fn the_ground_of_the_forecourt_is_counted_once() {
    let text = include_bytes!("../../examples/forecourt.plan");
    let mut cells = vec![0; 12_288];
    let shape = REFERENCE.read(text, &mut cells).shape;
    cells.truncate(4 * shape.sizes.iter().sum::<u32>() as usize);
    let plan = Plan { shape, cells };
    let told = run(&plan, 1_000).0;
    assert_eq!((told.rows, told.trials, told.area.value()), (7, 232, 1_340_000));
    assert_eq!(told.ground, Total::of(union_of(&grounds(&plan)).into()));
    let printed = format!("TOTAL\t7\t232\t{}\n", square_metres(told.ground));
    assert!(report(text).ends_with(printed.as_bytes()));
}

/// How many whole points a rectangle holds along each axis.
fn points(r: Rect) -> [i64; 2] {
    [i64::from(r.right) - i64::from(r.left) + 1, i64::from(r.top) - i64::from(r.bottom) + 1]
}

#[test]
fn a_row_is_ground_an_edge_or_a_point() {
    let mut seen = [0; 3];
    for plan in plans() {
        let (layers, k) = (layers_of(&plan.shape, &plan.cells), plan.shape.k as usize);
        for row in join(&layers) {
            let places = &row.places[..k];
            let told = REFERENCE.common(&plan.shape, &plan.cells, places);
            let Rect { left, bottom, right, top } = row.common;
            assert_eq!((told.number, told.sides), (0, [left, bottom, right, top]));
            let due = match points(row.common) {
                [1, 1] => b'P',
                [1, _] | [_, 1] => b'E',
                _ => b'G',
            };
            assert_eq!(told.kind, due);
            assert_eq!(told.kind == b'G', row.area > 0);
            // In whichever order the rectangles are taken.
            let mut rects = rects_at(&layers, places);
            rects.rotate_left(k / 2);
            assert_eq!(rects.into_iter().reduce(intersection).map(kind_of), Some(due));
            seen[usize::from(due == b'E') + 2 * usize::from(due == b'P')] += 1;
        }
    }
    assert!(seen.iter().all(|&times| times > 500), "{seen:?}");
}

#[test]
fn the_rows_of_the_walk_are_the_table_in_its_order() {
    for plan in plans() {
        let rows = join(&layers_of(&plan.shape, &plan.cells));
        let k = plan.shape.k as usize;
        let (told, table) = page(&plan, &fresh(&plan), u32::MAX, rows.len() * k + k);
        let expected: Vec<u32> = rows.iter().flat_map(|row| row.places[..k].to_vec()).collect();
        assert_eq!(table[..rows.len() * k], expected);
        assert_eq!((told.stop, told.rows as usize), (Stop::Ended, rows.len()));
        let (run, same) = run(&plan, rows.len() * k + k);
        assert_eq!(
            (run.rows, run.trials, run.area, same),
            (told.rows, u64::from(told.trials), told.area, table)
        );
    }
}

#[test]
fn product_and_loops_find_the_same_rows() {
    for plan in plans() {
        let layers = layers_of(&plan.shape, &plan.cells);
        let (mut a, mut b) = (Vec::new(), Vec::new());
        each_row_by_product(&layers, &mut |row| a.push(row.to_vec()));
        each_row_by_loops(&layers, &mut |row| b.push(row.to_vec()));
        assert_eq!(a, b);
    }
}

#[test]
fn a_pair_is_told_exactly_where_there_is_no_row() {
    for plan in plans() {
        let layers = layers_of(&plan.shape, &plan.cells);
        each_tuple(&layers, &mut Vec::new(), &mut |places| {
            let told = REFERENCE.pair(&plan.shape, &plan.cells, places);
            assert_eq!(told.number, 0);
            assert_eq!(told.higher == 0, row_of(&layers, places).is_some());
        });
    }
}

#[test]
fn a_common_point_is_found_where_any_point_is_common() {
    let mut seeds = Seeds(7);
    for at in 0..200 {
        // Style 1 has coordinates from -4 to 5.
        let plan = seeds.plan_of(&[1; 6][..2 + at % 5], 1);
        let rects: Vec<Rect> = layers_of(&plan.shape, &plan.cells).concat();
        let inside = |x, y| rects.iter().all(|r| r.left <= x && x <= r.right && r.bottom <= y && y <= r.top);
        assert_eq!(share_a_point(&rects), (-4..=5).any(|x| (-4..=5).any(|y| inside(x, y))));
    }
}

#[test]
fn pages_in_any_list_hand_out_the_first_rows() {
    let mut seeds = Seeds(7);
    for plan in plans() {
        let layers = layers_of(&plan.shape, &plan.cells);
        let (length, k) = (walk_length(&layers), plan.shape.k as usize);
        let expected: Vec<u32> = join(&layers).iter().flat_map(|row| row.places[..k].to_vec()).collect();
        let (mut ticket, mut rows, mut trials) = (fresh(&plan), Vec::<u32>::new(), 0);
        loop {
            let (told, table) = page(&plan, &ticket, seeds.budget(length), seeds.table_length(k));
            rows.extend(&table[..told.rows as usize * k]);
            trials += u64::from(told.trials);
            ticket = told.ticket;
            assert_eq!(rows, expected[..rows.len()]);
            assert_eq!(told.stop == Stop::Ended, trials == length);
            if told.stop == Stop::Ended {
                break;
            }
        }
        assert_eq!(rows, expected);
    }
}

#[test]
fn a_tablet_goes_back_a_screen_on_d() {
    let (fresh, mut record) = (fresh(&plan_d()), [0]);
    let (first, _) = page_in(&plan_d(), &fresh, &mut record, 2, 10);
    assert_eq!((first.ticket.count, record), (2, [2]));
    let (again, table) = page_in(&plan_d(), &fresh, &mut record, 2, 10);
    assert_eq!((again.stop, again.ticket, record), (Stop::Refused(18), fresh, [2]));
    assert_eq!(table, [77; 10]);
    let (second, _) = page_in(&plan_d(), &first.ticket, &mut record, 9, 10);
    assert_eq!((second.stop, second.ticket, record), (Stop::Ended, Ticket::ENDED.after(4), [4]));
    for (ticket, number) in
        [(fresh, 18), (first.ticket, 18), (Ticket::ENDED, 18), (Ticket::ENDED.after(3), 18)]
    {
        assert_eq!(page_in(&plan_d(), &ticket, &mut record, 9, 10).0.stop, Stop::Refused(number));
    }
    assert_eq!(page_in(&plan_d(), &second.ticket, &mut record, 0, 0).0.stop, Stop::Ended);
}

/// "A list of page calls may from then on bring any ticket of its run": what demand 3 says of lists holds of these too.
#[test]
fn lists_with_any_ticket_of_their_run_hand_out_the_first_rows() {
    let (mut seeds, mut stale) = (Seeds(17), 0);
    for plan in plans() {
        let layers = layers_of(&plan.shape, &plan.cells);
        let (length, k) = (walk_length(&layers), plan.shape.k as usize);
        let expected: Vec<u32> = join(&layers).iter().flat_map(|row| row.places[..k].to_vec()).collect();
        let (mut given, mut record, mut rows) = (vec![fresh(&plan)], [0], Vec::<u32>::new());
        let (mut trials, mut working) = (0, 0);
        for _ in 0..40 {
            let last = given[given.len() - 1];
            let ticket = if seeds.once_in(2) { seeds.pick(&given) } else { last };
            let (budget, cells) = (seeds.budget(length), seeds.table_length(k));
            let before = record;
            let (told, table) = page_in(&plan, &ticket, &mut record, budget, cells);
            if ticket.count != last.count {
                assert_eq!((told.stop, told.ticket, record), (Stop::Refused(18), ticket, before));
                stale += 1;
                continue;
            }
            assert_eq!(ticket, last);
            assert!(!matches!(told.stop, Stop::Refused(_)));
            rows.extend(&table[..told.rows as usize * k]);
            trials += u64::from(told.trials);
            working += u64::from(budget > 0 && cells >= k);
            given.push(told.ticket);
            assert_eq!((rows.as_slice(), record), (&expected[..rows.len()], [trials]));
            assert_eq!(told.ticket.count, trials);
            assert_eq!(told.stop == Stop::Ended, trials == length);
            assert!(told.stop == Stop::Ended || working <= length);
        }
    }
    assert!(stale > 1000, "{stale} stale tickets");
}

#[test]
fn a_text_is_accepted_exactly_when_it_is_written_for_a_plan() {
    let mut seeds = Seeds(5);
    for plan in plans() {
        let good = text(&plan);
        assert_eq!(
            read(&good, plan.cells.len()),
            (Reading { number: 0, shape: plan.shape }, plan.cells.clone())
        );
        for _ in 0..200 {
            let mut other = good.clone();
            let at = seeds.below(other.len() as u64) as usize;
            other[at] = seeds.pick(b"0123456789-\t\n");
            let (reading, mut cells) = read(&other, 12_288);
            if reading.number == 0 {
                cells.truncate(4 * reading.shape.sizes.iter().sum::<u32>() as usize);
                assert_eq!(text(&Plan { shape: reading.shape, cells }), other);
            }
        }
    }
}
