//! Node tables of one's own, event lists, roots.
use keldurap::*;

/// A node that stands for nothing, by its indices.
fn fake(next: u32, prev: u32) -> Node {
    Node { kind: Kind::Fake, link: 0, next, next_alt: 0, prev, prev_alt: 0, time: 0.0, time_to_next: 0.0, dist_to_next: 0.0, speed: 0.0 }
}

fn event(kind: Kind, next: u32, prev: u32) -> Node {
    Node { kind, link: 1, ..fake(next, prev) }
}

/// The table after its passes, or its number; a refused table is zero.
fn timed(nodes: &[Node], departure: f64) -> Result<Table, u32> {
    let mut table: Table = nodes.iter().copied().collect();
    let mut work = WorkSpace::for_nodes(nodes.len());
    let answer = update_times(&mut table, departure, &mut work).map_err(Refusal::number);
    assert!(work.is_zero());
    assert!(answer.is_ok() || table.is_zero() && table.is_empty());
    answer.map(|()| table)
}

const CHAIN: [(u32, u32); 4] = [(1, 0), (2, 0), (3, 1), (0, 2)];

fn chain() -> Vec<Node> {
    CHAIN.iter().map(|&(next, prev)| fake(next, prev)).collect()
}

#[test]
fn a_chain_gets_its_times() {
    let table = timed(&chain(), 2.0).unwrap();
    let expected: Vec<Node> = chain().into_iter().map(|node| Node { time: 2.0, ..node }).collect();
    assert_eq!(table.nodes().collect::<Vec<_>>(), expected);
}

#[test]
fn rows_3_to_5_of_a_table() {
    assert_eq!(timed(&[], 1.0), Err(3));
    assert_eq!(timed(&chain()[..2], 1.0), Err(3));
    assert_eq!(timed(&vec![fake(0, 0); 65_536], 1.0), Err(3));
    assert_eq!(timed(&chain(), f64::INFINITY), Err(4));
    let mut nodes = chain();
    nodes[2].prev_alt = 4;
    assert_eq!(timed(&nodes, 1.0), Err(5));
}

#[test]
fn row_3_of_a_tables_work_space() {
    let mut table: Table = chain().into_iter().collect();
    let refusal = update_times(&mut table, 2.0, &mut WorkSpace::new(units_for_nodes(4) - 1)).unwrap_err();
    assert_eq!((refusal.number(), table.len()), (3, 0));
}

#[test]
fn row_14_all_indices_0() {
    assert_eq!(timed(&[event(Kind::Arrive, 0, 0); 3], 0.0), Err(14));
}

#[test]
fn row_15_two_nodes_linked_only_to_each_other() {
    let (arrive, clear) = (Kind::Arrive, Kind::Clear);
    let nodes = [fake(1, 0), fake(4, 0), event(arrive, 3, 3), event(clear, 2, 2), event(arrive, 5, 1), fake(0, 4)];
    assert_eq!(timed(&nodes, 1.0), Err(15));
}

/// A stored table: the departure, then of each node four floats, four indices, link and kind.
fn stored(file: &str) -> (f64, Vec<Node>) {
    let bytes = std::fs::read(file).unwrap();
    let (departure, nodes) = bytes.split_at(8);
    (f64::from_le_bytes(departure.try_into().unwrap()), nodes.chunks_exact(56).map(stored_node).collect())
}

fn stored_node(bytes: &[u8]) -> Node {
    let float = |i: usize| f64::from_le_bytes(bytes[8 * i..8 * i + 8].try_into().unwrap());
    let number = |i: usize| u32::from_le_bytes(bytes[32 + 4 * i..36 + 4 * i].try_into().unwrap());
    let kind = [Kind::Arrive, Kind::Clear, Kind::Fake][number(5) as usize];
    let [time, time_to_next, dist_to_next, speed] = [0, 1, 2, 3].map(float);
    let [next, next_alt, prev, prev_alt, link] = [0, 1, 2, 3, 4].map(number);
    Node { kind, link, next, next_alt, prev, prev_alt, time, time_to_next, dist_to_next, speed }
}

#[test]
fn the_stored_tables_have_their_numbers() {
    for (number, count) in [(14, 3), (15, 6)] {
        let (departure, nodes) = stored(&format!("../../examples/refused/{number}.table"));
        assert_eq!(nodes.len(), count);
        assert_eq!(timed(&nodes, departure), Err(number));
    }
}

/// The stored table of 15 with its two nodes put between 1 and 4.
#[test]
fn the_stored_table_of_row_15_mended() {
    let (departure, mut nodes) = stored("../../examples/refused/15.table");
    (nodes[1].next, nodes[2].prev, nodes[3].next, nodes[4].prev) = (2, 1, 4, 3);
    assert!(timed(&nodes, departure).is_ok());
}

#[test]
fn row_16_of_a_table() {
    assert_eq!(timed(&chain(), 0.0), Err(16));
    assert_eq!(timed(&chain(), -0.0), Err(16));
}

const SAMPLES: [Sample; 3] = [
    Sample { time: 0.0, offset: 10.0, speed: 0.0 },
    Sample { time: 4.0, offset: 18.0, speed: 4.0 },
    Sample { time: 8.0, offset: 34.0, speed: 4.0 },
];
const POINTS: [Point; 3] = [Point { offset: 0.0, link: 1 }, Point { offset: 12.0, link: 2 }, Point { offset: 112.0, link: 0 }];

/// Leg 2 of document 01's book. At 12 m: d = 12, speed = root(16 - 12) = 2, time = 4 - 12 / 6 = 2. At 22 m: d = 24, speed = 4, time = 8 - 24 / 8 = 5.
#[test]
fn the_worked_leg_has_its_events() {
    let events = [
        Event { kind: Kind::Arrive, link: 2, time: 2.0, offset: 12.0, speed: 2.0 },
        Event { kind: Kind::Clear, link: 2, time: 5.0, offset: 22.0, speed: 4.0 },
    ];
    for places in [2, 3, 192] {
        assert_eq!(make_events(10.0, &SAMPLES, &POINTS, places).unwrap(), events);
    }
}

#[test]
fn event_lists_are_refused() {
    let number = |length, samples: &[Sample], points: &[Point], places| make_events(length, samples, points, places).unwrap_err().number();
    assert_eq!(number(10.0, &[], &POINTS, 9), 3);
    assert_eq!(number(10.0, &SAMPLES, &[], 9), 3);
    assert_eq!(number(f64::NAN, &SAMPLES, &POINTS, 9), 4);
    assert_eq!(number(10.0, &[SAMPLES[1], SAMPLES[0]], &POINTS, 9), 7);
    assert_eq!(number(10.0, &SAMPLES, &POINTS[..2], 9), 11);
    assert_eq!(number(10.0, &SAMPLES, &POINTS, 1), 12);
    assert_eq!(number(10.0, &SAMPLES, &POINTS, 0), 12);
}

#[test]
fn roots() {
    assert_eq!(root(0.0).to_bits(), 0);
    assert_eq!(root(-0.0).to_bits(), 1 << 63);
    assert_eq!(root(4.0), 2.0);
    assert_eq!(root(2.0).to_bits(), 0x3ff6_a09e_667f_3bcd);
    assert!(root(-1.0).is_nan() && root(f64::NAN).is_nan());
    assert_eq!(root(f64::INFINITY), f64::INFINITY);
}
