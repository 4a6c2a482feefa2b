//! The passes alone, worked out by hand: one relink of each kind.

mod common;
use common::{table, text, Node};

const A: u32 = 0;
const F: u32 = 2;

/// The way over the join Fake (3, 5, 6) reaches node 4 at 12, before the one over
/// node 2 at 15: they change places, and node 2 leaves 3 s later.
#[test]
fn forward_relink() {
    let nodes: [Node; 9] = [
        (F, [1, 0, 0, 0], 0, 0.0, 0.0),
        (F, [2, 3, 0, 0], 0, 0.0, 0.0),
        (A, [4, 0, 1, 0], 1, 5.0, 0.0),
        (F, [5, 0, 1, 0], 0, 0.0, 0.0),
        (A, [7, 0, 2, 6], 3, 0.0, 0.0),
        (A, [6, 0, 3, 0], 2, 2.0, 0.0),
        (F, [4, 0, 5, 0], 0, 0.0, 0.0),
        (F, [8, 0, 4, 0], 0, 0.0, 0.0),
        (F, [0, 0, 7, 0], 0, 0.0, 0.0),
    ];
    let expected = "\
nodes 9
0 F 0 1 0 0 0 401c 0 0 0
1 F 0 2 3 0 0 401c 0 0 0
2 A 1 6 0 1 0 401c 4014 0 0
3 F 0 5 0 1 0 4024 0 0 0
4 A 3 7 0 5 6 4028 0 0 0
5 A 2 4 0 3 0 4024 4 0 0
6 F 0 4 0 2 0 4028 0 0 0
7 F 0 8 0 4 0 4028 0 0 0
8 F 0 0 0 7 0 4028 0 0 0
";
    assert_eq!(text(plain::table(&table(10.0, &nodes))), expected);
}

/// Both ways from node 2 to node 7 take 5 s. Forward, the smaller index goes first;
/// backward, of equal times and differences the greater one: node 5 takes node 2, and
/// time and distance to next go with it.
#[test]
fn backward_relink() {
    let nodes: [Node; 10] = [
        (F, [1, 0, 0, 0], 0, 0.0, 0.0),
        (F, [2, 0, 0, 0], 0, 0.0, 0.0),
        (A, [4, 3, 1, 0], 1, 3.0, 30.0),
        (F, [5, 0, 2, 0], 0, 1.0, 11.0),
        (A, [7, 0, 2, 0], 2, 2.0, 20.0),
        (A, [6, 0, 3, 0], 3, 4.0, 40.0),
        (F, [7, 0, 5, 0], 0, 0.0, 0.0),
        (A, [8, 0, 4, 6], 4, 0.0, 0.0),
        (F, [9, 0, 7, 0], 0, 0.0, 0.0),
        (F, [0, 0, 8, 0], 0, 0.0, 0.0),
    ];
    let expected = "\
nodes 10
0 F 0 1 0 0 0 4024 0 0 0
1 F 0 2 0 0 0 4024 0 0 0
2 A 1 5 3 1 0 4024 3ff 4026 0
3 F 0 4 0 2 0 4024 4008 403e 0
4 A 2 7 0 3 0 402a 4 4034 0
5 A 3 6 0 2 0 4026 401 4044 0
6 F 0 7 0 5 0 402e 0 0 0
7 A 4 8 0 4 6 402e 0 0 0
8 F 0 9 0 7 0 402e 0 0 0
9 F 0 0 0 8 0 402e 0 0 0
";
    assert_eq!(text(plain::table(&table(10.0, &nodes))), expected);
}

/// Departure 0 and no time anywhere: 16; a departure below zero is none.
#[test]
fn all_times_zero() {
    let nodes: [Node; 4] = [
        (F, [1, 0, 0, 0], 0, 0.0, 0.0),
        (F, [2, 0, 0, 0], 0, 0.0, 0.0),
        (F, [3, 0, 1, 0], 0, 0.0, 0.0),
        (F, [0, 0, 2, 0], 0, 0.0, 0.0),
    ];
    assert_eq!(text(plain::table(&table(0.0, &nodes))), "refused 16\n");
    assert_eq!(text(plain::table(&table(-0.0, &nodes))), "refused 16\n");
    let expected = "\
nodes 4
0 F 0 1 0 0 0 bff 0 0 0
1 F 0 2 0 0 0 bff 0 0 0
2 F 0 3 0 1 0 bff 0 0 0
3 F 0 0 0 2 0 bff 0 0 0
";
    assert_eq!(text(plain::table(&table(-1.0, &nodes))), expected);
}
