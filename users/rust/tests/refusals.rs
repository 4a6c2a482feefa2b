//! Each refusal by document 01's example of it.
mod books;

use books::{changed, worked, Book};
use keldurap::*;

/// The answer to a book on a table that holds another sheet: a number, and then table and report are gone.
fn number_on(places: usize, bytes: &[u8]) -> u32 {
    let (mut table, mut work) = (Table::new(places), WorkSpace::new(UNITS_MAX));
    let _ = make_est_times(&books::sidings(1).bytes(), &mut table, &mut work);
    let refusal = make_est_times(bytes, &mut table, &mut work).unwrap_err();
    assert!(table.is_zero() && table.is_empty() && work.is_zero());
    refusal.number()
}

fn number(bytes: &[u8]) -> u32 {
    number_on(192, bytes)
}

fn number_with(change: impl FnOnce(&mut Book)) -> u32 {
    number(&changed(change).bytes())
}

#[test]
fn row_1_the_empty_book_and_every_prefix() {
    let whole = worked().bytes();
    for length in 0..whole.len() {
        assert_eq!(number(&whole[..length]), 1, "{length} bytes");
    }
}

#[test]
fn row_2_one_byte_more() {
    assert_eq!(number(&[worked().bytes(), vec![0]].concat()), 2);
}

#[test]
fn row_3_no_links() {
    assert_eq!(number_with(|book| book.links.clear()), 3);
    assert_eq!(number_with(|book| book.legs[0].2.clear()), 3);
    assert_eq!(number_with(|book| book.origins = vec![(1, 0.0, 0); 1_001]), 3);
}

#[test]
fn row_3_work_space() {
    let book = worked().bytes();
    let asked = 576 + 3 + 1 + 1 + 2 + 192;
    assert_eq!(units_for_book(&book, 192), asked);
    for (units, is_enough) in [(0, false), (asked - 1, false), (asked, true), (asked + 1, true)] {
        let (mut table, mut work) = (Table::new(192), WorkSpace::new(units));
        let answer = make_est_times(&book, &mut table, &mut work).map_err(Refusal::number).map(|report| report.nodes);
        assert_eq!(answer, if is_enough { Ok(8) } else { Err(3) });
    }
}

/// A count however large asks for no more than its limit.
#[test]
fn row_3_counts_that_are_too_large() {
    let mut bytes = worked().bytes();
    bytes[24..28].fill(255);
    assert_eq!(units_for_book(&bytes, 192), 576 + 65_535 + 192);
    assert_eq!(number(&bytes), 1);
    assert_eq!(units_for_book(&[255; 28], usize::MAX), 576 + 65_535 + 65_535);
    assert_eq!(units_for_book(&[], 0), 576);
}

#[test]
fn row_4_j_is_nan() {
    assert_eq!(number_with(|book| book.head[0] = f64::NAN), 4);
    assert_eq!(number_with(|book| book.origins[0].2 = 2), 4);
}

#[test]
fn row_5_two_links_origin_2() {
    let two_links = |book: &mut Book| {
        book.links.truncate(2);
        book.origins[0].0 = 2;
    };
    assert_eq!(number_with(two_links), 5);
}

#[test]
fn row_6_offset_1() {
    assert_eq!(number_with(|book| book.origins[0].1 = 1.0), 6);
}

#[test]
fn row_7_leg_1_parent_1() {
    assert_eq!(number_with(|book| book.legs[0].1 = 1), 7);
}

#[test]
fn row_8_destination_0() {
    assert_eq!(number_with(|book| book.destinations[0] = 0), 8);
}

#[test]
fn rows_1_to_8_by_the_check() {
    let mut work = WorkSpace::for_book(&worked().bytes(), 192);
    let mut number = |bytes: &[u8]| check_book(bytes, 192, &mut work).map_err(Refusal::number);
    assert_eq!(number(&worked().bytes()), Ok(()));
    assert_eq!(number(&[]), Err(1));
    assert_eq!(number(&changed(|book| book.destinations[0] = 0).bytes()), Err(8));
    assert_eq!(number(&changed(|book| book.legs.truncate(1)).bytes()), Ok(()));
}

#[test]
fn row_9_lone_link_as_origin_and_destination() {
    let lone = |book: &mut Book| {
        book.links = vec![(0.0, [0; 4]), (12.0, [0; 4])];
        book.destinations[0] = 1;
        book.legs.truncate(1);
    };
    assert_eq!(number_with(lone), 9);
}

#[test]
fn row_10_leg_2_missing() {
    assert_eq!(number_with(|book| book.legs.truncate(1)), 10);
}

#[test]
fn row_11_offset_12() {
    let at_12 = |book: &mut Book| {
        book.legs[0].2[0][1] = 12.0;
        book.legs[1].2[0][1] = 12.0;
    };
    assert_eq!(number_with(at_12), 11);
}

#[test]
fn row_12_tables_up_to_7_nodes() {
    for places in 0..8 {
        assert_eq!(number_on(places, &worked().bytes()), 12, "{places} places");
    }
}

/// Links 1 and 2 both lead to 3; the run of origin 1 has no events.
#[test]
fn row_13_two_origins_the_first_adds_nothing() {
    let two_origins = |book: &mut Book| {
        book.links = vec![(0.0, [0; 4]), (12.0, [3, 0, 0, 0]), (12.0, [3, 0, 0, 0]), (100.0, [0, 0, 2, 1])];
        book.origins = vec![(1, 0.0, 0), (2, 0.0, 0)];
        book.destinations = vec![3];
        let samples = book.legs[1].2.clone();
        let start = samples[..1].to_vec();
        book.legs = vec![(1, 0, start.clone()), (3, 1, start.clone()), (2, 0, start), (3, 3, samples)];
    };
    assert_eq!(number_with(two_origins), 13);
}

#[test]
fn row_16_departure_0_no_events() {
    assert_eq!(number_with(|book| book.legs[1].2.truncate(1)), 16);
}

#[test]
fn a_refusal_says_its_row() {
    let refusal = check_book(&[], 0, &mut WorkSpace::new(0)).unwrap_err();
    assert_eq!(refusal.to_string(), "refused 1: the bytes end before the last field does");
}
