//! The table of refusals: each row's example gives its number.

mod common;
use common::{table, text, worked, Book, Node};

fn refused(book: &Book, number: u32) {
    assert_eq!(book.answer(), format!("refused {number}\n"));
}

fn table_refused(departure: f64, nodes: &[Node], number: u32) {
    assert_eq!(text(plain::table(&table(departure, nodes))), format!("refused {number}\n"));
}

#[test]
fn row_1_empty_book_and_every_shorter_one() {
    let bytes = worked().bytes();
    for size in 0..bytes.len() {
        assert_eq!(text(plain::book(&bytes[..size], 192, None)), "refused 1\n");
    }
}

#[test]
fn row_2_one_byte_left_over() {
    let mut bytes = worked().bytes();
    bytes.push(0);
    assert_eq!(text(plain::book(&bytes, 192, None)), "refused 2\n");
}

#[test]
fn row_3() {
    let mut book = worked();
    book.links.clear();
    refused(&book, 3);
    let mut book = worked();
    book.legs.push((2, 2, vec![]));
    refused(&book, 3);
    // links + origins + destinations + legs + places: 3 + 1 + 1 + 2 + 192
    let asked = 36_864 + 64 * 199;
    let bytes = worked().bytes();
    assert_eq!(text(plain::book(&bytes, 192, Some(asked - 1))), "refused 3\n");
    assert_eq!(text(plain::book(&bytes, 192, Some(asked))), worked().answer());
    table_refused(0.0, &[(2, [0; 4], 0, 0.0, 0.0); 2], 3);
}

#[test]
fn row_4() {
    for bad in [f64::NAN, f64::INFINITY, 1_000_000_000.5, -1.0, -0.0] {
        let mut book = worked();
        book.head[0] = bad;
        refused(&book, 4);
    }
    let mut book = worked();
    book.origins[0].2 = 2;
    refused(&book, 4);
    table_refused(1_000_000_000.5, &[(2, [0; 4], 0, 0.0, 0.0); 3], 4);
    table_refused(-1.0, &[(3, [0; 4], 0, 0.0, 0.0); 3], 4);
    table_refused(-1.0, &[(2, [0; 4], 0, -1.0, -0.0); 3], 14);
}

#[test]
fn row_5() {
    let mut book = worked();
    book.links.pop();
    book.links[1].1 = [0; 4];
    book.origins[0].0 = 2;
    refused(&book, 5);
    let mut book = worked();
    book.links[0].1[3] = 1;
    refused(&book, 5);
    let mut book = worked();
    book.links[2].0 = 0.0;
    refused(&book, 5);
    let mut book = worked();
    book.links[1].1[1] = 2;
    refused(&book, 5);
    let mut book = worked();
    book.legs[0].1 = 3;
    refused(&book, 5);
    table_refused(0.0, &[(2, [3, 0, 0, 0], 0, 0.0, 0.0); 3], 5);
    table_refused(0.0, &[(2, [0; 4], 9, 0.0, 0.0); 3], 14);
}

#[test]
fn row_6() {
    for origin in [(1, 1.0, 0), (1, 0.0, 1)] {
        let mut book = worked();
        book.origins[0] = origin;
        refused(&book, 6);
    }
    let mut book = worked();
    book.origins.push((1, 0.0, 0));
    refused(&book, 6);
}

#[test]
fn row_7() {
    let mut book = worked();
    book.legs[0].1 = 1;
    refused(&book, 7);
    let mut book = worked();
    book.legs[0].0 = 0;
    refused(&book, 7);
    let mut book = worked();
    book.legs.push(book.legs[1].clone());
    refused(&book, 7);
    let mut book = worked();
    book.legs[1].2[2][0] = 4.0;
    refused(&book, 7);
    let mut book = worked();
    book.legs[1].2[2][1] = 17.0;
    refused(&book, 7);
    let mut book = worked();
    book.legs[1].2[0][2] = 1.0;
    refused(&book, 7);
    let mut book = worked();
    book.head[1] = 1.0;
    refused(&book, 7);
}

#[test]
fn row_8() {
    let mut book = worked();
    book.destinations[0] = 0;
    refused(&book, 8);
    let mut book = worked();
    book.links[2].1[2] = 0;
    refused(&book, 8);
}

/// "Of 1 to 8 the lowest wins", wherever it stands in the book.
#[test]
fn the_lowest_wins() {
    let mut book = worked();
    book.destinations[0] = 0;
    book.legs[0].1 = 1;
    refused(&book, 7);
    book.origins[0].1 = 1.0;
    refused(&book, 6);
    book.legs[1].0 = 3;
    refused(&book, 5);
    book.legs[1].2[2][2] = -1.0;
    refused(&book, 4);
    book.legs[0].2.clear();
    refused(&book, 3);
}

#[test]
fn row_9_lone_link_as_origin_and_destination() {
    let book = Book {
        head: [1.0, 0.0, 10.0],
        links: vec![(0.0, [0; 4]), (12.0, [0; 4])],
        origins: vec![(1, 0.0, 0)],
        destinations: vec![1],
        legs: vec![(1, 0, vec![[0.0, 10.0, 0.0]])],
    };
    refused(&book, 9);
}

#[test]
fn row_10_leg_2_missing() {
    let mut book = worked();
    book.legs.pop();
    refused(&book, 10);
    assert_eq!(plain::wanted_leg(&book.bytes(), 192), Some((1, 2)));
    book.legs[0].0 = 2;
    refused(&book, 10);
    assert_eq!(plain::wanted_leg(&book.bytes(), 192), Some((0, 1)));
}

#[test]
fn row_11() {
    let mut book = worked();
    book.legs[0].2[0][1] = 12.0;
    book.legs[1].2[0][1] = 12.0;
    refused(&book, 11);
    // v·v − (v − v′)/(t − t′)·d below zero: 1 − 1/4·12 = −2
    let mut book = worked();
    book.legs[1].2[1][2] = 1.0;
    refused(&book, 11);
}

#[test]
fn row_12_table_of_7_nodes() {
    for places in 0..8 {
        assert_eq!(text(plain::book(&worked().bytes(), places, None)), "refused 12\n");
    }
}

/// Links 1 and 2 lead to 3, both are origins; 2 is kept first, its run popped last.
#[test]
fn row_13_two_origins_the_first_adds_nothing() {
    let still = || vec![[0.0, 10.0, 0.0]];
    let book = Book {
        head: [1.0, 0.0, 10.0],
        links: vec![(0.0, [0; 4]), (12.0, [3, 0, 0, 0]), (12.0, [3, 0, 0, 0]), (100.0, [0, 0, 1, 2])],
        origins: vec![(1, 0.0, 0), (2, 0.0, 0)],
        destinations: vec![3],
        legs: vec![(1, 0, still()), (2, 0, still()), (3, 1, still()), (3, 2, still())],
    };
    refused(&book, 13);
}

#[test]
fn row_14_three_nodes_all_indices_0() {
    table_refused(0.0, &[(2, [0; 4], 0, 0.0, 0.0); 3], 14);
}

#[test]
fn row_15_2_and_3_linked_only_to_each_other() {
    let fake = |next, prev| (2, [next, 0, prev, 0], 0, 0.0, 0.0);
    let nodes = [fake(1, 0), fake(4, 0), fake(3, 3), fake(2, 2), fake(5, 1), fake(0, 4)];
    table_refused(1.0, &nodes, 15);
}

#[test]
fn row_16_departure_0_no_events_in_the_run() {
    let mut book = worked();
    book.legs[1].2.truncate(1);
    refused(&book, 16);
}
