//! Document 01's worked listing, and its marked cases that an answer shows.

mod make;

use make::{events, table, text, worked};

#[test]
fn listing() {
    let expected = "\
nodes 8 added 4 splits 0 joined 0 finished 1
0 F 0 1 0 0 0 0 0 0 0
1 F 0 2 0 0 0 0 0 0 0
2 A 1 3 0 1 0 0 0 4024 0
3 C 1 4 0 2 0 0 4 4 0
4 A 2 5 0 3 0 4 4008 4024 4
5 C 2 6 0 4 0 4014 0 0 401
6 F 0 7 0 5 0 4014 0 0 0
7 F 0 0 0 6 0 4014 0 0 0
";
    assert_eq!(worked().answer(), expected);
    assert_eq!(text(reference::book(&worked().bytes(), 192, Some(65_536))), expected);
    assert_eq!(worked().answer_on(8), expected);
}

#[test]
fn network_before_the_passes() {
    let expected = "\
nodes 8 added 4 splits 0 joined 0 finished 1
0 F 0 1 0 0 0 - 0 0 0
1 F 0 2 0 0 0 - 0 0 0
2 A 1 3 0 1 0 - 0 4024 0
3 C 1 4 0 2 0 - 4 4 0
4 A 2 5 0 3 0 - 4008 4024 4
5 C 2 6 0 4 0 - 0 0 401
6 F 0 7 0 5 0 - 0 0 0
7 F 0 0 0 6 0 - 0 0 0
";
    assert_eq!(text(reference::grown(&worked().bytes(), 192, None)), expected);
}

/// Link 1 leads over 2 or 3 to 4. The run over 3 meets the first one's events on link 4.
fn siding() -> make::Book {
    let (half, whole, end) = ([10.0, 50.0, 10.0], [20.0, 150.0, 10.0], [30.0, 250.0, 10.0]);
    make::Book {
        links: vec![
            (0.0, [0; 4]),
            (100.0, [2, 3, 0, 0]),
            (100.0, [4, 0, 1, 0]),
            (100.0, [4, 0, 1, 0]),
            (100.0, [0, 0, 2, 3]),
        ],
        destinations: vec![4],
        legs: vec![
            (1, 0, vec![[0.0, 10.0, 0.0], half]),
            (2, 1, vec![half, whole]),
            (3, 1, vec![half, whole]),
            (4, 3, vec![whole, end]),
            (4, 2, vec![whole, end]),
        ],
        ..worked()
    }
}

/// The run over 2 adds nodes 4 to 7 and finishes. The other one splits from node 3 by Fake 8,
/// adds 9 to 11, and joins node 7 through Fake 12, where its speed is the same. The backward
/// pass takes 9 before 4, of equal times the greater, and exchanges what 3 and 8 lead to.
#[test]
fn split_and_join() {
    let expected = "\
nodes 15 added 9 splits 1 joined 1 finished 1
0 F 0 1 0 0 0 0 0 0 0
1 F 0 2 0 0 0 0 0 0 0
2 A 1 3 0 1 0 0 0 4024 0
3 C 1 9 8 2 0 0 402e 40568 0
4 A 2 5 0 8 0 402e 3ff 4024 4024
5 C 2 6 0 4 0 403 4022 40568 4024
6 A 4 7 0 5 0 4039 3ff 4024 4024
7 C 4 13 0 6 12 403a 0 0 4024
8 F 0 4 0 3 0 0 402e 40568 0
9 A 3 10 0 3 0 402e 3ff 4024 4024
10 C 3 11 0 9 0 403 4022 40568 4024
11 A 4 12 0 10 0 4039 3ff 4024 4024
12 F 0 7 0 11 0 403a 0 0 0
13 F 0 14 0 7 0 403a 0 0 0
14 F 0 0 0 13 0 403a 0 0 0
";
    assert_eq!(siding().answer(), expected);
}

/// A gap of J itself joins nothing: both runs finish.
#[test]
fn gap_of_j() {
    let mut book = siding();
    book.head[0] = 0.0;
    let answer = book.answer();
    assert_eq!(answer.lines().next(), Some("nodes 16 added 10 splits 1 joined 0 finished 2"));
}

#[test]
fn roots() {
    let root = |value: f64| reference::root(value.to_bits());
    assert_eq!(root(0.0), 0);
    assert_eq!(root(4.0), 2f64.to_bits());
    assert_eq!(root(2.0), 0x3ff6a09e667f3bcd);
    assert_eq!(root(-0.0), (-0f64).to_bits());
    assert_eq!(root(-1.0), 0x7ff8000000000000);
    assert_eq!(reference::root(0xfff8000000000001), 0x7ff8000000000000);
}

/// Leg 2's events of the worked book: Arrive on 2 at (4, 12), Clear of 2 at (5, 22).
const SAMPLES: [[f64; 3]; 3] = [[0.0, 10.0, 0.0], [4.0, 18.0, 4.0], [8.0, 34.0, 4.0]];
const POINTS: [(f64, u32); 3] = [(0.0, 1), (12.0, 2), (112.0, 0)];

#[test]
fn event_list() {
    // At 12: d = 12, speed = root(16 - 4/4 * 12) = 2, time = 4 - 12/(4 + 2) = 2.
    // At 22: d = 24, speed = root(16 - 0 * 24) = 4, time = 8 - 24/8 = 5.
    let expected = "events 2\nA 2 4 4028 4\nC 2 4014 4036 401\n";
    assert_eq!(events(10.0, &SAMPLES, &POINTS, 2), expected);
    assert_eq!(events(10.0, &SAMPLES, &POINTS, 1), "refused 12\n");
}

#[test]
fn back_and_length_at_the_front_is_an_arrive() {
    // The back stands on 10 - 10 = 0, so its point is 12; 12 + 10 = 22 is the front point, too.
    // The back point 22 is cleared at 32: d = 4, time = 8 - 4/8 = 7.5.
    let points = [(0.0, 1), (12.0, 2), (22.0, 3), (112.0, 0)];
    let expected = "\
events 4
A 2 4 4028 4
A 3 4014 4036 401
C 2 4014 4036 401
C 3 401e 404 401
";
    assert_eq!(events(10.0, &SAMPLES, &points, 9), expected);
}

#[test]
fn back_index_becoming_1_emits_nothing() {
    // The back stands before 0, its point is 0; at 0 + 10 nothing is emitted, at 12 an Arrive.
    let samples = [[0.0, 8.0, 0.0], [4.0, 16.0, 4.0]];
    // At 12: d = 8, speed = root(16 - 1 * 8) = root(8), time = 4 - 8/(4 + root(8)).
    let speed = 8f64.sqrt();
    let time = 4.0 - 8.0 / (4.0 + speed);
    let expected = format!("events 1\nA 2 {} 4028 {}\n", hex(time), hex(speed));
    assert_eq!(events(10.0, &samples, &POINTS, 9), expected);
}

fn hex(value: f64) -> String {
    format!("{:016x}", value.to_bits()).trim_end_matches('0').to_string()
}

#[test]
fn event_list_refusals() {
    assert_eq!(events(10.0, &[], &POINTS, 9), "refused 3\n");
    assert_eq!(events(10.0, &SAMPLES, &[], 9), "refused 3\n");
    assert_eq!(events(-0.0, &SAMPLES, &POINTS, 9), "refused 4\n");
    assert_eq!(events(10.0, &[[0.0, 1.0, f64::NAN]], &POINTS, 9), "refused 4\n");
    assert_eq!(events(10.0, &[[0.0, 1.0, 0.0], [0.0, 2.0, 0.0]], &POINTS, 9), "refused 7\n");
    assert_eq!(events(10.0, &[[0.0, 2.0, 0.0], [1.0, 1.0, 0.0]], &POINTS, 9), "refused 7\n");
    assert_eq!(events(10.0, &SAMPLES, &[(9.0, 1), (8.0, 0)], 9), "refused 7\n");
    // A sample at the last point.
    assert_eq!(events(10.0, &SAMPLES, &[(0.0, 1), (12.0, 2), (34.0, 0)], 9), "refused 11\n");
    assert_eq!(events(10.0, &SAMPLES[..1], &[(0.0, 1), (10.0, 0)], 9), "refused 11\n");
    // v = v' = 0 with d above 0: the time is no number. 11 comes before 12.
    assert_eq!(events(10.0, &[[0.0, 10.0, 0.0], [4.0, 14.0, 0.0]], &POINTS, 0), "refused 11\n");
    // A stop in so little time that (v - v')/(t - t') overflows: the speed is no number.
    let in_no_time = [[0.0, 10.0, 2.0], [f64::from_bits(1), 12.0, 0.0]];
    assert_eq!(events(10.0, &in_no_time, &POINTS, 9), "refused 11\n");
}

/// Start, one event of a link that no book has, the end. The lent times are not looked at.
#[test]
fn table_of_one_event() {
    let nodes = [
        ([9.0, 0.0, 0.0, 0.0], [1, 0, 0, 0, 0, 2]),
        ([9.0, 0.0, 0.0, 0.0], [2, 0, 0, 0, 0, 2]),
        ([9.0, 2.0, 4.0, 0.0], [3, 0, 1, 0, 77, 0]),
        ([9.0, 0.0, 0.0, 0.0], [4, 0, 2, 0, 0, 2]),
        ([9.0, 0.0, 0.0, 0.0], [0, 0, 3, 0, 0, 2]),
    ];
    let expected = "\
nodes 5
0 F 0 1 0 0 0 bff 0 0 0
1 F 0 2 0 0 0 bff 0 0 0
2 A 77 3 0 1 0 bff 4 401 0
3 F 0 4 0 2 0 3ff 0 0 0
4 F 0 0 0 3 0 3ff 0 0 0
";
    assert_eq!(table(-1.0, &nodes), expected);
}
