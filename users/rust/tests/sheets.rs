//! Sheets of books, and their listings.
mod books;

use books::worked;
use keldurap::*;
use std::fs;

/// Document 01's listing of its book.
const LISTING: &str = "\
nodes 8 added 4 splits 0 joined 0 finished 1
0 F 0 1 0 0 0 0 0 0 0
1 F 0 2 0 0 0 0 0 0 0
2 A 1 3 0 1 0 0 0 4024 0
3 C 1 4 0 2 0 0 4 4 0
4 A 2 5 0 3 0 4 4008 4024 4
5 C 2 6 0 4 0 4014 0 0 401
6 F 0 7 0 5 0 4014 0 0 0
7 F 0 0 0 6 0 4014 0 0 0
";

const REPORT: Report = Report { nodes: 8, added: 4, splits: 0, joined: 0, finished: 1 };

/// A book's table and report, on so many places.
fn sheet(book: &[u8], places: usize) -> Result<(Table, Report), Refusal> {
    let mut table = Table::new(places);
    let mut work = WorkSpace::for_book(book, places);
    let report = make_est_times(book, &mut table, &mut work);
    assert!(work.is_zero());
    Ok((table, report?))
}

#[test]
fn the_worked_book_has_its_listing() {
    for places in [8, 9, 192, PLACES_MAX, usize::MAX] {
        let (table, report) = sheet(&worked().bytes(), places).unwrap();
        assert_eq!(report, REPORT);
        assert_eq!(listing(&table, &report).unwrap(), LISTING);
    }
}

#[test]
fn the_worked_book_has_its_nodes() {
    let (table, _) = sheet(&worked().bytes(), 192).unwrap();
    let node = Node { kind: Kind::Arrive, link: 2, next: 5, next_alt: 0, prev: 3, prev_alt: 0, time: 2.0, time_to_next: 3.0, dist_to_next: 10.0, speed: 2.0 };
    assert_eq!(table.node(4), Some(node));
    assert_eq!((table.node(8), table.len(), table.places()), (None, 8, 192));
    let kinds: Vec<Kind> = table.nodes().map(|node| node.kind).collect();
    let (a, c, f) = (Kind::Arrive, Kind::Clear, Kind::Fake);
    assert_eq!(kinds, [f, f, a, c, a, c, f, f]);
    assert_eq!(table.nodes().next_back(), table.node(7));
    assert_eq!(table.nodes().len(), 8);
}

#[test]
fn the_examples_have_their_sheets() {
    let mut found = 0;
    for file in fs::read_dir("../../examples").unwrap().map(|entry| entry.unwrap().path()) {
        let stored = fs::read_to_string(file.with_extension("sheet"));
        if let (Some("book"), Ok(stored)) = (file.extension().and_then(|e| e.to_str()), stored) {
            let (table, report) = sheet(&fs::read(&file).unwrap(), PLACES_MAX).unwrap();
            assert_eq!(listing(&table, &report).unwrap(), stored, "{}", file.display());
            found += 1;
        }
    }
    assert!(found >= 2);
}

#[test]
fn the_builder_makes_the_stored_books() {
    assert_eq!(worked().bytes(), fs::read("../../examples/worked.book").unwrap());
    assert_eq!(books::sidings(1).bytes(), fs::read("../../examples/siding.book").unwrap());
}

#[test]
fn table_and_work_space_serve_again() {
    let siding = books::sidings(1).bytes();
    let (mut table, mut work) = (Table::new(192), WorkSpace::new(UNITS_MAX));
    let first = make_est_times(&siding, &mut table, &mut work).unwrap();
    let kept = table.clone();
    make_est_times(&worked().bytes(), &mut table, &mut work).unwrap();
    assert_eq!(listing(&table, &REPORT).unwrap(), LISTING);
    assert_eq!(make_est_times(&siding, &mut table, &mut work), Ok(first));
    assert_eq!(table, kept);
}

#[test]
fn a_listing_needs_its_length() {
    let (table, report) = sheet(&worked().bytes(), 192).unwrap();
    let mut out = vec![7; LISTING.len() + 3];
    assert_eq!(list_sheet(&table, &report, &mut out), Ok(LISTING));
    assert_eq!(out[LISTING.len()..], [0; 3]);
    assert_eq!(list_sheet(&table, &report, &mut out[..LISTING.len()]), Ok(LISTING));
    for length in [0, 1, LISTING.len() - 1] {
        let mut out = vec![7; length];
        assert_eq!(list_sheet(&table, &report, &mut out), Err(NotListed::Short));
        assert_eq!(out, vec![0; length]);
    }
}

#[test]
fn a_listing_needs_its_nodes() {
    let (table, report) = sheet(&worked().bytes(), 192).unwrap();
    for nodes in [9, 193, usize::MAX] {
        let mut out = [7; 600];
        assert_eq!(list_sheet(&table, &Report { nodes, ..report }, &mut out), Err(NotListed::Unfilled));
        assert_eq!(out, [0; 600]);
        assert_eq!(listing(&table, &Report { nodes, ..report }), Err(NotListed::Unfilled));
    }
    assert_eq!(listing(&table, &Report::default()).unwrap(), "nodes 0 added 0 splits 0 joined 0 finished 0\n");
}

#[test]
fn the_longest_numbers_are_listed() {
    let node = Node { kind: Kind::Clear, link: u32::MAX, next: u32::MAX, next_alt: u32::MAX, prev: u32::MAX, prev_alt: u32::MAX, time: -0.1, time_to_next: 0.1, dist_to_next: 0.3, speed: 0.7 };
    let table: Table = [node; 3].into_iter().collect();
    let most = usize::MAX;
    let text = listing(&table, &Report { nodes: 3, added: most, splits: most, joined: most, finished: most }).unwrap();
    assert_eq!(text.lines().last().unwrap(), "2 C 4294967295 4294967295 4294967295 4294967295 4294967295 bfb999999999999a 3fb999999999999a 3fd3333333333333 3fe6666666666666");
}

#[test]
fn a_network_grows_before_its_times() {
    let (mut table, mut work) = (Table::new(192), WorkSpace::for_book(&worked().bytes(), 192));
    assert_eq!(grow_network(&worked().bytes(), &mut table, &mut work), Ok(REPORT));
    assert!(table.nodes().all(|node| node.time == 0.0));
    assert_eq!(table.node(4).unwrap().time_to_next, 3.0);
}
