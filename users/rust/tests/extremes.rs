//! No function panics, whatever it is given: every parameter of every public function at its largest and strangest values. In a debug build sums that
//! wrap would panic too.
mod books;

use keldurap::*;

const FLOATS: [f64; 12] = [
    0.0,
    -0.0,
    5e-324,
    -5e-324,
    1.0,
    1e9,
    f64::MAX,
    f64::MIN,
    f64::EPSILON,
    f64::INFINITY,
    f64::NEG_INFINITY,
    f64::NAN,
];
const SIZES: [usize; 9] = [0, 1, 2, 65_535, 65_536, u32::MAX as usize, usize::MAX / 106, usize::MAX / 2, usize::MAX];

/// Bytes that are no book, and two that are.
fn books_of_all_kinds() -> Vec<Vec<u8>> {
    let mut all: Vec<Vec<u8>> = [0, 1, 23, 24, 28, 44, 4_096].into_iter().flat_map(|n| [vec![0; n], vec![255; n]]).collect();
    let mut huge_counts = books::worked().bytes();
    huge_counts[24..28].fill(255);
    all.extend([huge_counts, books::worked().bytes(), books::sidings(1).bytes()]);
    all
}

/// Work space of no units, of too few and of as many as can be asked for.
fn work_spaces() -> Vec<WorkSpace> {
    vec![WorkSpace::default(), WorkSpace::new(1), WorkSpace::new(usize::MAX), WorkSpace::for_nodes(usize::MAX), WorkSpace::try_new(usize::MAX).unwrap()]
}

fn node(kind: Kind, index: u32, float: f64) -> Node {
    Node { kind, link: index, next: index, next_alt: index, prev: index, prev_alt: index, time: float, time_to_next: float, dist_to_next: float, speed: float }
}

/// Empty tables and tables of strange nodes.
fn tables() -> Vec<Table> {
    let mut all = vec![Table::default(), Table::new(0), Table::new(1), Table::new(usize::MAX), Table::try_new(usize::MAX).unwrap()];
    for kind in [Kind::Arrive, Kind::Clear, Kind::Fake] {
        for index in [0, 1, u32::MAX] {
            all.extend(FLOATS.map(|float| [node(kind, index, float); 5].into_iter().collect()));
        }
    }
    all
}

#[test]
fn roots_of_all_kinds() {
    for x in FLOATS {
        assert_eq!(root(x).is_nan(), x.is_nan() || x < 0.0, "{x}");
    }
}

#[test]
fn books_with_everything() {
    for book in books_of_all_kinds() {
        for work in &mut work_spaces() {
            for places in SIZES {
                let _ = check_book(&book, places, work);
                let _ = units_for_book(&book, places);
            }
            for mut table in [Table::default(), Table::new(8), Table::new(usize::MAX)] {
                let grown = grow_network(&book, &mut table, work);
                assert!(table.len() == grown.unwrap_or_default().nodes && work.is_zero());
                let made = make_est_times(&book, &mut table, work);
                assert!(table.len() == made.unwrap_or_default().nodes && work.is_zero());
                assert!(made.is_ok() || table.is_zero());
            }
        }
        assert!(WorkSpace::for_book(&book, usize::MAX).units() <= UNITS_MAX);
    }
    assert_eq!((units_for_nodes(usize::MAX), WorkSpace::new(usize::MAX).units()), (576 + 65_535, UNITS_MAX));
}

#[test]
fn tables_with_everything() {
    for table in tables() {
        for departure in FLOATS {
            let (mut timed, mut work) = (table.clone(), WorkSpace::for_nodes(table.len()));
            let answer = update_times(&mut timed, departure, &mut work);
            assert!(answer.is_err() && timed.is_empty() && work.is_zero());
            let _ = update_times(&mut table.clone(), departure, &mut WorkSpace::default());
        }
        for i in SIZES {
            assert_eq!(table.node(i).is_some(), i < table.len());
        }
        assert!(table.nodes().rev().count() == table.len() && table.len() <= table.places() && table.places() <= PLACES_MAX);
    }
}

/// More nodes than a table may have: one of them is taken, and the table refused.
#[test]
fn an_endless_table() {
    let mut table: Table = std::iter::repeat(node(Kind::Fake, 0, 0.0)).collect();
    assert_eq!(table.len(), PLACES_MAX + 1);
    assert!(listing(&table, &Report { nodes: usize::MAX, ..Report::default() }).is_err());
    assert!(listing(&table, &Report { nodes: table.len(), ..Report::default() }).is_ok());
    assert_eq!(update_times(&mut table, 1.0, &mut WorkSpace::for_nodes(usize::MAX)).unwrap_err().number(), 3);
    assert!(table.is_empty() && table.is_zero());
}

#[test]
fn listings_with_everything() {
    for table in tables() {
        for nodes in SIZES {
            for other in SIZES {
                let report = Report { nodes, added: other, splits: other, joined: other, finished: other };
                assert_eq!(listing(&table, &report).is_ok(), nodes <= table.len());
                for size in [0, 1, 140, 1_000] {
                    let mut out = vec![7; size];
                    let _ = list_sheet(&table, &report, &mut out);
                }
            }
        }
    }
}

#[test]
fn a_listing_of_all_memory() {
    assert_eq!((listing_max(0), listing_max(1), listing_max(PLACES_MAX)), (65, 171, 6_946_775));
    assert_eq!((listing_max(usize::MAX), listing_max(usize::MAX / 106 + 1)), (usize::MAX, usize::MAX));
}

#[test]
fn event_lists_with_everything() {
    let sample = |time, offset, speed| Sample { time, offset, speed };
    let good = [sample(0.0, 10.0, 0.0), sample(4.0, 18.0, 4.0), sample(8.0, 34.0, 4.0)];
    let path = [Point { offset: 0.0, link: u32::MAX }, Point { offset: 12.0, link: 2 }, Point { offset: 112.0, link: 0 }];
    for places in SIZES {
        let number = make_events(10.0, &good, &path, places).map(|events| events.len()).map_err(Refusal::number);
        assert_eq!(number, if places < 2 { Err(12) } else { Ok(2) }, "{places} places");
        assert!(make_events(10.0, &[], &path, places).is_err());
        assert!(make_events(10.0, &good, &[], places).is_err());
    }
    for x in FLOATS {
        for y in FLOATS {
            let samples = [sample(x, y, x), sample(y, x, y)];
            let points = [Point { offset: x, link: 0 }, Point { offset: y, link: u32::MAX }];
            let _ = make_events(x, &samples, &points, usize::MAX);
            let _ = make_events(y, &good, &points, usize::MAX);
            let _ = make_events(x, &samples, &path, usize::MAX);
        }
    }
}

/// As many events as there can be, two at each point but the last; one sample or point more than there may be.
#[test]
fn event_lists_at_their_limits() {
    let sample = |time, offset| Sample { time, offset, speed: 10.0 };
    let point = |i: usize| Point { offset: i as f64, link: 1 };
    let points: Vec<Point> = (0..POINTS_MAX).map(point).collect();
    let run = [sample(0.0, 0.0), sample(6_553.4, 65_534.0)];
    let events = make_events(0.5, &run, &points, usize::MAX).unwrap();
    assert!(events.len() > 131_000 && events.len() <= EVENTS_MAX, "{}", events.len());
    assert!(make_events(0.5, &run, &points, EVENTS_MAX).is_ok());
    let number = |samples: &[Sample], points: &[Point]| make_events(0.5, samples, points, usize::MAX).map_err(Refusal::number);
    assert_eq!(number(&run, &(0..POINTS_MAX + 9).map(point).collect::<Vec<_>>()), Err(3));
    assert_eq!(number(&vec![run[0]; SAMPLES_MAX + 9], &points), Err(3));
}

#[test]
fn every_refusal_has_a_meaning() {
    for number in 1..=16 {
        let book = std::fs::read(format!("../../examples/refused/{number:02}.book")).unwrap();
        let places = if number == 12 { 7 } else { 192 };
        let refusal = make_est_times(&book, &mut Table::new(places), &mut WorkSpace::new(usize::MAX)).unwrap_err();
        assert_eq!(refusal.to_string(), format!("refused {number}: {}", refusal.meaning()));
        assert_ne!(refusal.meaning(), "no row has this number");
    }
    assert_ne!(NotListed::Short.to_string(), NotListed::Unfilled.to_string());
}
