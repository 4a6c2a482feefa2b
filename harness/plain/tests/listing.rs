//! Listings that were worked out by hand.

mod common;
use common::{text, worked, Book};

#[test]
fn worked_listing_line_by_line() {
    let answer = worked().answer();
    let expected = [
        "nodes 8 added 4 splits 0 joined 0 finished 1",
        "0 F 0 1 0 0 0 0 0 0 0",
        "1 F 0 2 0 0 0 0 0 0 0",
        "2 A 1 3 0 1 0 0 0 4024 0",
        "3 C 1 4 0 2 0 0 4 4 0",
        "4 A 2 5 0 3 0 4 4008 4024 4",
        "5 C 2 6 0 4 0 4014 0 0 401",
        "6 F 0 7 0 5 0 4014 0 0 0",
        "7 F 0 0 0 6 0 4014 0 0 0",
    ];
    assert_eq!(answer.lines().collect::<Vec<_>>(), expected);
    assert!(answer.ends_with("0\n"));
}

#[test]
fn eight_places_are_enough() {
    assert_eq!(text(plain::book(&worked().bytes(), 8, None)), worked().answer());
}

/// Links 1 to 2 or 3, both to 4, then 5; at a steady speed of 2.
fn two_ways() -> Book {
    Book {
        head: [1.0, 0.0, 10.0],
        links: vec![
            (0.0, [0; 4]),
            (20.0, [2, 3, 0, 0]),
            (20.0, [4, 0, 1, 0]),
            (30.0, [4, 0, 1, 0]),
            (100.0, [5, 0, 2, 3]),
            (100.0, [0, 0, 4, 0]),
        ],
        origins: vec![(1, 0.0, 0)],
        destinations: vec![5],
        legs: vec![
            (1, 0, vec![[0.0, 10.0, 2.0]]),
            (2, 1, vec![[0.0, 10.0, 2.0], [10.0, 30.0, 2.0]]),
            (3, 1, vec![[0.0, 10.0, 2.0], [15.0, 40.0, 2.0]]),
            (4, 2, vec![[10.0, 30.0, 2.0], [40.0, 90.0, 2.0]]),
            (4, 3, vec![[15.0, 40.0, 2.0], [45.0, 100.0, 2.0]]),
            (5, 4, vec![[40.0, 90.0, 2.0], [80.0, 170.0, 2.0]]),
        ],
    }
}

/// The saved run splits off behind the origin's Clear (node 3, Fake 10) and joins at
/// the Clear of link 4 (node 7, Fake 14), 5 s late: its times are moved by 5.
#[test]
fn split_and_join() {
    let expected = "\
nodes 17 added 11 splits 1 joined 1 finished 1
0 F 0 1 0 0 0 0 0 0 0
1 F 0 2 0 0 0 0 0 0 0
2 A 1 3 0 1 0 0 0 4024 0
3 C 1 4 10 2 0 0 4014 4024 0
4 A 2 5 0 3 0 4014 4014 4024 4
5 C 2 6 0 4 0 4024 4014 4024 4
6 A 4 7 0 5 0 402e 4014 4024 4
7 C 4 8 0 6 14 4034 40468 40568 4
8 A 5 9 0 7 0 40504 4014 4024 4
9 C 5 15 0 8 0 40518 0 0 4
10 F 0 11 0 3 0 c014 4014 4024 0
11 A 3 12 0 10 0 0 4014 4024 4
12 C 3 13 0 11 0 4014 4024 4034 4
13 A 4 14 0 12 0 402e 4014 4024 4
14 F 0 7 0 13 0 4034 0 0 0
15 F 0 16 0 9 0 40518 0 0 0
16 F 0 0 0 15 0 40518 0 0 0
";
    assert_eq!(two_ways().answer(), expected);
}

/// "gap J (no join)": with J 0 no gap is below it, so the run goes on to link 5, for
/// which leg 5 has no leg.
#[test]
fn no_join_at_gap_j_and_the_leg_that_is_wanted() {
    let mut book = two_ways();
    book.head[0] = 0.0;
    assert_eq!(book.answer(), "refused 10\n");
    assert_eq!(plain::wanted_leg(&book.bytes(), 192), Some((5, 5)));
    assert_eq!(plain::wanted_leg(&two_ways().bytes(), 192), None);
    book.legs.push((5, 5, vec![[45.0, 100.0, 2.0], [85.0, 180.0, 2.0]]));
    let first = book.answer().lines().next().map(str::to_string);
    assert_eq!(first.as_deref(), Some("nodes 20 added 14 splits 1 joined 0 finished 2"));
}
