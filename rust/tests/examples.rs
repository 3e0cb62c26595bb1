//! The answers that the manual shows, by the types of this crate.

use overlay::{
    calls, cover_records, Cause, Class, Common, End, Kind, Layer, Near, Plan, Record, Rect, Row, Stop, Strip,
    Ticket, Total, Window, CAUSES, VERSION,
};

const FORECOURT: &[u8] = include_bytes!("../../examples/forecourt.plan");
const STAND: &[u8] = include_bytes!("../../examples/stand.plan");
const PIPES: &[u8] = include_bytes!("../../examples/pipes.plan");
const D: &[u8] = include_bytes!("../../examples/d.plan");

/// The plan of a text that is accepted.
fn plan(text: &[u8]) -> Plan {
    Plan::from_text(text).expect("a plan")
}

#[test]
fn the_library_has_this_version() {
    assert_eq!(calls::version(), VERSION);
}

#[test]
fn causes_have_their_numbers() {
    for (cause, number) in CAUSES.into_iter().zip(1..) {
        assert_eq!((cause.number(), Cause::of(number)), (number, Some(cause)));
        assert_eq!(Cause::check(number), Err(cause));
    }
    assert_eq!((Cause::of(0), Cause::of(25), Cause::check(0)), (None, None, Ok(())));
}

#[test]
fn a_plan_is_its_text_and_its_layers() {
    let forecourt = plan(FORECOURT);
    assert_eq!(forecourt.to_text(), FORECOURT);
    assert_eq!((forecourt.layer_count(), forecourt.layers()[0].margin), (6, 1500));
    assert_eq!(Plan::new(&forecourt.layers()).as_ref(), Ok(&forecourt));
}

#[test]
fn plans_are_refused() {
    let zone = Layer::new([Rect::new(0, 0, 9, 9)]);
    let layers = |count| vec![zone.clone(); count];
    assert_eq!(Plan::new(&layers(1)), Err(Cause::Layers));
    assert_eq!(Plan::new(&layers(7)), Err(Cause::Layers));
    assert_eq!(Plan::new(&[zone.clone(), Layer::new([Rect::new(1, 0, 0, 0)])]), Err(Cause::Rect));
    assert_eq!(Plan::new(&[zone.clone(), Layer::new(vec![zone.rects[0]; 513])]), Err(Cause::Sizes));
    assert_eq!(Plan::new(&[zone.clone(), zone.clone().with_margin(50_001)]), Err(Cause::Margins));
    assert_eq!(Plan::from_cells(2, [1, 1, 0, 0, 0, 0], [0; 6], vec![0; 7]), Err(Cause::Cells));
}

#[test]
fn a_run_and_its_pages() {
    let forecourt = plan(FORECOURT);
    let run = forecourt.run(100).expect("a run");
    assert_eq!((run.rows.len(), run.trials), (7, 232));
    assert_eq!((run.area, run.ground.to_string()), (Total { metres: 1, rest: 340_000 }, "0.80".to_string()));
    assert_eq!(forecourt.run(6), Err(Cause::Rows));
    for (budget, rows) in [(1, 1), (7, 100), (1000, 2), (1000, 100), (0, 0)] {
        let pages: Vec<_> = forecourt.pages(budget, rows).collect();
        let cells: Vec<u32> = pages.iter().flat_map(|page| page.rows.cells()).copied().collect();
        assert_eq!(cells, run.rows.cells());
        assert_eq!(pages.iter().map(|page| page.trials).sum::<u64>(), run.trials);
        assert_eq!(pages.iter().map(|page| page.area).sum::<Total>(), run.area);
    }
}

#[test]
fn a_run_is_kept_and_goes_on() {
    let forecourt = plan(FORECOURT);
    let mut pages = forecourt.pages(50, 100);
    let first = pages.next().expect("a page");
    let (mut ticket, mut record) =
        (Ticket::from_cells(pages.ticket().cells()), Record::from_count(pages.record().count()));
    assert_eq!((first.stop, ticket.count(), record.count()), (Stop::Spent, 50, 50));
    let earlier = ticket;
    let rest = forecourt.page(&mut ticket, &mut record, 1000, 100).expect("the rest");
    assert_eq!((rest.stop, rest.trials, ticket.ended()), (Stop::Ended, 182, true));
    assert_eq!(forecourt.page(&mut earlier.clone(), &mut record, 1000, 100), Err(Cause::Stale));
    assert_eq!(plan(D).page(&mut Ticket::from_cells([9; 12]), &mut record, 1, 1), Err(Cause::Ticket));
}

#[test]
fn one_row() {
    let d = plan(D);
    assert_eq!(d.row(&[0, 0]), Some(Row { layer: 2, area: 250_000 }));
    assert_eq!(d.common(&[1, 0]), Some(Common { rect: Rect::new(1000, 500, 1500, 500), kind: Kind::Edge }));
    assert_eq!((d.row(&[2, 0]), d.common(&[0])), (None, None));
    let forecourt = plan(FORECOURT);
    assert_eq!(forecourt.apart_pair(&[3, 1, 1, 2, 1, 2]), Ok(None));
    assert_eq!(forecourt.apart_pair(&[0, 0, 0, 0, 0, 3]), Ok(Some((1, 6))));
    assert_eq!(forecourt.apart_pair(&[0, 0, 0, 0, 0, 4]), Err(Cause::Places));
}

#[test]
fn what_lies_nearest() {
    let near = plan(FORECOURT).nearest(Rect::new(30000, 11500, 30600, 12100)).expect("a good box");
    let gaps: Vec<_> =
        near.into_iter().map(|near| near.map(|Near { squared_gap, .. }| squared_gap)).collect();
    assert_eq!(gaps, [250_000, 1_000_000, 490_000, 20_250_000, 0, 8_410_000].map(Some));
}

#[test]
fn classes_of_segments() {
    let pipes = plan(PIPES);
    let report = pipes.crossing_report(100).expect("a report");
    assert_eq!((report.run.rows.len(), &report.counts[..5]), (4, &[1, 2, 0, 0, 1][..]));
    assert_eq!(pipes.class(&[0, 0, 0]), Ok(Some(Class::Crossed)));
    assert_eq!(pipes.class(&[0, 0, 1]), Ok(Some(Class::Ends(1, End::Top))));
    assert_eq!(pipes.class(&[0, 0, 2]), Ok(None));
    assert_eq!(plan(D).class(&[0, 0]), Err(Cause::FewLayers));
    for number in 0..17 {
        assert_eq!(Class::of(number).map(Class::number), Some(number));
    }
}

#[test]
fn hours_of_the_stand() {
    let stand = plan(STAND);
    let windows = [(480, 600), (0, 10_080), (600, 720), (540, 660)].map(|(from, to)| Window::new(from, to));
    let timed = stand.timed(&windows).expect("good windows");
    let run = timed.run(10).expect("a run");
    assert_eq!((run.rows.cells(), run.trials), (&[0, 0, 0][..], 8));
    assert_eq!(timed.hours(&[0, 0, 0]), Some(Window::new(540, 600)));
    assert_eq!((timed.hours(&[0, 1, 0]), timed.hours(&[0])), (None, None));
    assert_eq!(timed.pages(3, 10).map(|page| page.trials).sum::<u64>(), 8);
    assert_eq!(stand.timed(&[Window::ALWAYS; 4]).and_then(|timed| timed.run(10)), stand.run(10));
    assert_eq!(stand.timed(&windows[..3]).err(), Some(Cause::Hours));
}

#[test]
fn rounds_of_two_clients() {
    let d = plan(D);
    let mut clients = d.clients(2).expect("two clients");
    let told = |clients: &mut overlay::Clients| {
        let served = clients.round(5, 2).expect("a round");
        let told =
            served.into_iter().map(|served| (served.page.stop, served.page.rows.len(), served.page.trials));
        told.collect::<Vec<_>>()
    };
    assert_eq!(told(&mut clients), [(Stop::Spent, 1, 2), (Stop::Spent, 1, 3)]);
    assert_eq!(clients.first(), 2);
    assert_eq!(told(&mut clients), [(Stop::Ended, 1, 2), (Stop::Ended, 1, 1)]);
    assert_eq!(clients.round(1 << 32, 2), Err(Cause::Round));
    assert_eq!(d.clients(17).err(), Some(Cause::Round));
}

#[test]
fn covers_of_records() {
    let records = [[1000.2, 500.0, 1250.7, 750.4], [-250.5, 10.0, -0.0, 20.0]];
    let covers = [Rect::new(1000, 500, 1251, 751), Rect::new(-251, 10, 0, 20)];
    assert_eq!(cover_records(Strip::Free, Strip::Free, &records).as_deref(), Ok(&covers[..]));
    assert_eq!(cover_records(Strip::To(0.0), Strip::From(15.0), &records).as_deref(), Ok(&covers[1..]));
    assert_eq!(cover_records(Strip::Between(1.0, 0.0), Strip::Free, &records), Err(Cause::Strip));
    assert_eq!(cover_records(Strip::Free, Strip::Free, &[[f64::NAN; 4]]), Err(Cause::Record));
    assert_eq!(cover_records(Strip::Free, Strip::Free, &[]).as_deref(), Ok(&[][..]));
}
