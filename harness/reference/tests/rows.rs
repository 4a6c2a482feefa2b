//! The example of each row of document 01's table gives the row's number.

mod make;

use make::{table, text, worked, Book, Node};

fn refused(number: u32) -> String {
    format!("refused {number}\n")
}

fn with(change: impl FnOnce(&mut Book)) -> String {
    let mut book = worked();
    change(&mut book);
    book.answer()
}

#[test]
fn row_1_empty_book() {
    assert_eq!(text(reference::book(&[], 192, None)), refused(1));
    let whole = worked().bytes();
    for count in 0..whole.len() {
        assert_eq!(text(reference::book(&whole[..count], 192, None)), refused(1));
    }
}

#[test]
fn row_2_one_byte_more() {
    let mut bytes = worked().bytes();
    bytes.push(0);
    assert_eq!(text(reference::book(&bytes, 192, None)), refused(2));
}

#[test]
fn row_3_counts() {
    assert_eq!(with(|book| book.links.clear()), refused(3));
    assert_eq!(with(|book| book.origins.clear()), refused(3));
    assert_eq!(with(|book| book.origins = vec![(1, 0.0, 0); 1_001]), refused(3));
    assert_eq!(with(|book| book.destinations.clear()), refused(3));
    assert_eq!(with(|book| book.legs.clear()), refused(3));
    assert_eq!(with(|book| book.legs[0].2.clear()), refused(3));
}

#[test]
fn row_3_leg_sums_differ() {
    let mut bytes = worked().bytes();
    let last_count = bytes.len() - 4 * 24 - 4 - 4;
    assert_eq!(bytes[last_count], 3);
    bytes[last_count] = 2;
    assert_eq!(text(reference::book(&bytes, 192, None)), refused(3));
}

#[test]
fn row_3_work_space() {
    // 3 links, 1 origin, 1 destination, 2 legs, 192 places.
    let least = 36_864 + 64 * (3 + 1 + 1 + 2 + 192);
    let bytes = worked().bytes();
    assert_eq!(text(reference::book(&bytes, 192, Some(least - 1))), refused(3));
    assert!(text(reference::book(&bytes, 192, Some(least))).starts_with("nodes 8 "));
    let most = 36_864 + 64 * (3 + 1 + 1 + 2 + 65_535);
    assert!(text(reference::book(&bytes, 70_000, Some(most))).starts_with("nodes 8 "));
}

#[test]
fn row_4_floats_and_flag() {
    assert_eq!(with(|book| book.head[0] = f64::NAN), refused(4));
    assert_eq!(with(|book| book.head[1] = -0.0), refused(4));
    assert_eq!(with(|book| book.head[2] = 1_000_000_001.0), refused(4));
    assert_eq!(with(|book| book.origins[0].2 = 2), refused(4));
    assert_eq!(with(|book| book.legs[1].2[2][1] = f64::INFINITY), refused(4));
}

#[test]
fn row_5_indices() {
    let two_links = |book: &mut Book| {
        book.links.truncate(2);
        book.origins[0].0 = 2;
    };
    assert_eq!(with(two_links), refused(5));
    assert_eq!(with(|book| book.links[0].1[1] = 1), refused(5));
    assert_eq!(with(|book| book.links[1].0 = 0.0), refused(5));
    assert_eq!(with(|book| book.links[1].1[1] = 2), refused(5));
    assert_eq!(with(|book| book.links[1].1[3] = 3), refused(5));
    assert_eq!(with(|book| book.legs[1].1 = 3), refused(5));
}

#[test]
fn row_6_origins() {
    assert_eq!(with(|book| book.origins[0].1 = 1.0), refused(6));
    assert_eq!(with(|book| book.origins[0].2 = 1), refused(6));
    assert_eq!(with(|book| book.origins.push((1, 0.0, 0))), refused(6));
}

#[test]
fn row_7_legs() {
    assert_eq!(with(|book| book.legs[0].1 = 1), refused(7));
    assert_eq!(with(|book| book.legs[0].0 = 0), refused(7));
    assert_eq!(with(|book| book.legs.push((2, 1, book.legs[1].2.clone()))), refused(7));
    assert_eq!(with(|book| book.legs[1].2[1][0] = 0.0), refused(7));
    assert_eq!(with(|book| book.legs[1].2[2][1] = 17.0), refused(7));
    assert_eq!(with(|book| book.legs[1].2[0][2] = 1.0), refused(7));
    assert_eq!(with(|book| book.head[1] = 1.0), refused(7));
}

#[test]
fn row_8_destinations() {
    assert_eq!(with(|book| book.destinations[0] = 0), refused(8));
    assert_eq!(with(|book| book.origins[0].0 = 0), refused(8));
}

#[test]
fn row_9_lone_link() {
    let lone = |book: &mut Book| {
        book.links = vec![(0.0, [0; 4]), (12.0, [0; 4])];
        book.destinations[0] = 1;
        book.legs.truncate(1);
    };
    assert_eq!(with(lone), refused(9));
}

#[test]
fn row_10_leg_2_missing() {
    assert_eq!(with(|book| book.legs.truncate(1)), refused(10));
    assert_eq!(with(|book| book.legs[0].0 = 2), refused(10));
}

#[test]
fn row_11_sample_at_the_last_point() {
    let at_12 = |book: &mut Book| {
        book.legs[0].2[0][1] = 12.0;
        book.legs[1].2[0][1] = 12.0;
    };
    assert_eq!(with(at_12), refused(11));
    assert_eq!(with(|book| book.legs[1].2[2][1] = 112.0), refused(11));
}

#[test]
fn row_12_seven_nodes() {
    for places in 0..8 {
        assert_eq!(worked().answer_on(places), refused(12));
    }
}

/// Links 1 and 2 both lead to 3. The run of origin 1 has no events.
fn two_origins() -> Book {
    let mut book = worked();
    book.links =
        vec![(0.0, [0; 4]), (12.0, [3, 0, 0, 0]), (12.0, [3, 0, 0, 0]), (100.0, [0, 0, 2, 1])];
    book.origins = vec![(1, 0.0, 0), (2, 0.0, 0)];
    book.destinations = vec![3];
    let samples = book.legs[1].2.clone();
    let start = samples[..1].to_vec();
    book.legs = vec![(1, 0, start.clone()), (3, 1, start.clone()), (2, 0, start), (3, 3, samples)];
    book
}

#[test]
fn row_13_first_origin_adds_nothing() {
    assert_eq!(two_origins().answer(), refused(13));
}

#[test]
fn row_14_all_indices_0() {
    let node: Node = ([0.0; 4], [0; 6]);
    assert_eq!(table(0.0, &[node; 3]), refused(14));
}

const FAKE: u32 = 2;

#[test]
fn row_15_two_apart() {
    let nodes: [Node; 6] = [
        ([0.0; 4], [1, 0, 0, 0, 0, FAKE]),
        ([0.0; 4], [4, 0, 0, 0, 0, FAKE]),
        ([0.0; 4], [3, 0, 3, 0, 1, 0]),
        ([0.0; 4], [2, 0, 2, 0, 1, 1]),
        ([0.0; 4], [5, 0, 1, 0, 1, 0]),
        ([0.0; 4], [0, 0, 4, 0, 0, FAKE]),
    ];
    assert_eq!(table(1.0, &nodes), refused(15));
}

/// A walk over Fakes that goes round: 1 leads to 2, and 2, 3 and 4 to each other.
#[test]
fn row_15_relink_walk_goes_round() {
    let nodes: [Node; 6] = [
        ([0.0; 4], [1, 0, 0, 0, 0, FAKE]),
        ([0.0; 4], [2, 0, 0, 0, 0, FAKE]),
        ([0.0; 4], [3, 0, 1, 4, 0, FAKE]),
        ([0.0; 4], [4, 0, 2, 0, 0, FAKE]),
        ([0.0; 4], [2, 5, 3, 0, 0, FAKE]),
        ([0.0; 4], [0, 0, 4, 0, 0, FAKE]),
    ];
    assert_eq!(table(1.0, &nodes), refused(15));
}

#[test]
fn row_16_departure_0_no_events() {
    assert_eq!(with(|book| book.legs[1].2.truncate(1)), refused(16));
}

#[test]
fn table_rows() {
    let good: [Node; 4] = [
        ([0.0; 4], [1, 0, 0, 0, 0, FAKE]),
        ([0.0; 4], [2, 0, 0, 0, 0, FAKE]),
        ([0.0; 4], [3, 0, 1, 0, 0, FAKE]),
        ([0.0; 4], [0, 0, 2, 0, 0, FAKE]),
    ];
    let with = |change: fn(&mut Node)| {
        let mut nodes = good;
        change(&mut nodes[2]);
        table(0.0, &nodes)
    };
    assert_eq!(table(0.0, &good[..2]), refused(3));
    assert_eq!(table(f64::INFINITY, &good), refused(4));
    assert_eq!(with(|node| node.0[0] = f64::NAN), refused(4));
    assert_eq!(with(|node| node.1[5] = 3), refused(4));
    assert_eq!(with(|node| node.1[3] = 4), refused(5));
    assert_eq!(with(|node| node.1[4] = 4), refused(16));
    assert_eq!(table(-0.0, &good), refused(16));
    let expected = "\
nodes 4
0 F 0 1 0 0 0 4 0 0 0
1 F 0 2 0 0 0 4 0 0 0
2 F 0 3 0 1 0 4 0 0 0
3 F 0 0 0 2 0 4 0 0 0
";
    assert_eq!(table(2.0, &good), expected);
}
