//! Books at the limits.
mod books;

use books::{sidings, worked};
use keldurap::*;

/// A line with 7,281 sidings fills a table of 65,535 places to the last; each siding is a split and a join.
#[test]
fn a_full_table() {
    let book = sidings(7_281).bytes();
    let mut table = Table::new(PLACES_MAX);
    let mut work = WorkSpace::for_book(&book, PLACES_MAX);
    let report = make_est_times(&book, &mut table, &mut work).unwrap();
    assert_eq!(report, Report { nodes: 65_535, added: 7 * 7_281 + 2, splits: 7_281, joined: 7_281, finished: 1 });
    assert!(work.is_zero());
    let events = table.nodes().filter(|node| node.kind != Kind::Fake).count();
    assert_eq!(events, report.added);
    let mut out = vec![0; listing_max(report.nodes)];
    let text = list_sheet(&table, &report, &mut out).unwrap();
    assert_eq!(text.lines().count(), 65_536);
    assert_eq!(listing(&table, &report).unwrap(), text);
}

#[test]
fn one_siding_too_many() {
    let book = sidings(7_282).bytes();
    let mut table = Table::new(PLACES_MAX);
    let mut work = WorkSpace::for_book(&book, PLACES_MAX);
    assert_eq!(make_est_times(&book, &mut table, &mut work).unwrap_err().number(), 12);
    assert!(table.is_zero() && work.is_zero());
}

/// The worked book with links, destinations and samples that change nothing, up to the limits of their counts.
#[test]
fn counts_at_their_limits() {
    let mut book = worked();
    book.links.resize(LINKS_MAX, (1.0, [0; 4]));
    book.destinations = vec![2; DESTINATIONS_MAX];
    let standing = (0..SAMPLES_MAX - 4).map(|step| [9.0 + step as f64 / 1_024.0, 34.0, 0.0]);
    book.legs[1].2.extend(standing);
    let answer = |book: &books::Book| {
        let bytes = book.bytes();
        let mut table = Table::new(8);
        make_est_times(&bytes, &mut table, &mut WorkSpace::for_book(&bytes, 8)).map_err(Refusal::number).map(|report| report.nodes)
    };
    assert_eq!(answer(&book), Ok(8));
    book.links.push((1.0, [0; 4]));
    assert_eq!(answer(&book), Err(3));
}

#[test]
fn the_largest_sizes() {
    assert_eq!((BOOK_MAX, UNITS_MAX, listing_max(PLACES_MAX)), (26_379_304, 199_181, 6_946_775));
}
