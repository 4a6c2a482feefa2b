//! Node tables for the table entry: networks of accepted books with small changes, and networks
//! made from nothing.

use crate::books;
use crate::random::Random;

#[derive(Clone, Copy, Default, Debug, PartialEq)]
pub struct Node {
    /// Time, time to next, distance to next, speed.
    pub floats: [f64; 4],
    /// Next, next alternative, previous, previous alternative.
    pub indices: [u32; 4],
    pub link: u32,
    /// Arrive 0, Clear 1, Fake 2.
    pub kind: u32,
}

const NEXT: usize = 0;
const NEXT_ALT: usize = 1;
const PREV: usize = 2;
const PREV_ALT: usize = 3;
const FAKE: u32 = 2;

/// So many tables in a row are made from one book.
const SHARED: u64 = 32;

/// Makes tables by number; keeps the network of the last book.
pub struct Tables {
    seed: u64,
    base: Option<(u64, Vec<Node>, f64)>,
}

impl Tables {
    pub fn new(seed: u64) -> Tables {
        Tables { seed, base: None }
    }

    /// Item `number`: a departure and nodes.
    pub fn table(&mut self, number: u64) -> Vec<u8> {
        let r = &mut Random::new(self.seed, number ^ 1 << 40);
        let from_nothing = r.chance(55);
        let (mut nodes, mut departure) =
            if from_nothing { (network(r), 0.0) } else { self.base(number / SHARED) };
        if from_nothing || r.chance(40) {
            departure = draw_departure(r);
        }
        for _ in 0..[0, 1, 2, 4][r.weighted(&[45, 35, 15, 5])] {
            change(r, &mut nodes);
        }
        item(departure, &nodes)
    }

    fn base(&mut self, group: u64) -> (Vec<Node>, f64) {
        if self.base.as_ref().is_none_or(|base| base.0 != group) {
            let (nodes, departure) = accepted(&mut Random::new(self.seed, group ^ 1 << 41));
            self.base = Some((group, nodes, departure));
        }
        let base = self.base.as_ref().unwrap();
        (base.1.clone(), base.2)
    }
}

/// The sheet of an accepted book, and its departure.
fn accepted(r: &mut Random) -> (Vec<Node>, f64) {
    loop {
        let book = books::grown(r);
        let listing = plain::book(&book.bytes(), 4_096, None);
        if let Some(nodes) = parse(&listing) {
            return (nodes, book.departure);
        }
    }
}

/// The bytes of a departure and nodes.
pub fn item(departure: f64, nodes: &[Node]) -> Vec<u8> {
    let mut bytes = departure.to_le_bytes().to_vec();
    for node in nodes {
        bytes.extend(node.floats.iter().flat_map(|float| float.to_le_bytes()));
        bytes.extend(node.indices.iter().flat_map(|index| index.to_le_bytes()));
        bytes.extend(node.link.to_le_bytes());
        bytes.extend(node.kind.to_le_bytes());
    }
    bytes
}

/// The nodes of a listing, if it is one.
fn parse(listing: &[u8]) -> Option<Vec<Node>> {
    let text = std::str::from_utf8(listing).ok()?;
    let mut lines = text.lines();
    lines.next()?.strip_prefix("nodes ")?;
    lines.map(parse_node).collect()
}

fn parse_node(line: &str) -> Option<Node> {
    let fields: Vec<&str> = line.split(' ').collect();
    let mut node = Node { link: fields.get(2)?.parse().ok()?, ..Node::default() };
    node.kind = "ACF".find(fields[1])? as u32;
    for (index, field) in node.indices.iter_mut().zip(&fields[3..]) {
        *index = field.parse().ok()?;
    }
    for (float, field) in node.floats.iter_mut().zip(fields.get(7..)?) {
        *float = f64::from_bits(u64::from_str_radix(&format!("{field:0<16}"), 16).ok()?);
    }
    Some(node)
}

fn draw_departure(r: &mut Random) -> f64 {
    match r.below(12) {
        0 => -0.0,
        1..=3 => 0.0,
        4 => -(r.below(100) as f64),
        5 => r.pick(&[1e9, -1e9, 1e9f64.next_up(), f64::NAN, f64::INFINITY, 1e9 - 10.0]),
        6 => r.unit() * 1_000.0,
        _ => r.below(100) as f64,
    }
}

/// A time to next: few values, so that ties come up.
fn draw_time(r: &mut Random, style: u64) -> f64 {
    match style {
        0 => r.below(3) as f64,
        1 => r.below(40) as f64 / 4.0,
        2 => r.unit() * 100.0,
        3 => r.below(9) as f64 - 4.0,
        _ => 0.0,
    }
}

/// A network of its own: chains of events that split, join and end, mostly as growth makes them.
struct Growing {
    nodes: Vec<Node>,
    ends: Vec<u32>,
    links: u64,
}

impl Growing {
    fn push(&mut self, node: Node) -> u32 {
        self.nodes.push(node);
        self.nodes.len() as u32 - 1
    }

    fn event(&mut self, r: &mut Random, behind: u32) -> u32 {
        let link = 1 + r.below(self.links) as u32;
        let mut node = Node { link, kind: r.below(2) as u32, ..Node::default() };
        node.indices[PREV] = behind;
        let new = self.push(node);
        self.nodes[behind as usize].indices[NEXT] = new;
        new
    }

    /// The last of a node's alternatives (or of its previous alternatives).
    fn last_of(&self, mut at: u32, field: usize) -> u32 {
        while self.nodes[at as usize].indices[field] != 0 {
            at = self.nodes[at as usize].indices[field];
        }
        at
    }

    /// A new Fake at the end of the node's alternatives.
    fn split(&mut self, from: u32) -> u32 {
        let last = self.last_of(from, NEXT_ALT);
        let mut fake = Node { kind: FAKE, ..Node::default() };
        fake.indices[PREV] = last;
        let new = self.push(fake);
        self.nodes[last as usize].indices[NEXT_ALT] = new;
        new
    }

    /// Links the place through a new Fake to the target.
    fn join(&mut self, place: u32, target: u32) {
        let last = self.last_of(target, PREV_ALT);
        let mut fake = Node { kind: FAKE, ..Node::default() };
        fake.indices[NEXT] = last;
        fake.indices[PREV] = place;
        let new = self.push(fake);
        self.nodes[last as usize].indices[PREV_ALT] = new;
        self.nodes[place as usize].indices[NEXT] = new;
    }

    fn run(&mut self, r: &mut Random, start: u32, longest: u64) {
        let mut place = self.event(r, start);
        for _ in 0..r.below(longest + 1) {
            place = self.event(r, place);
        }
        let targets: Vec<u32> =
            (2..self.nodes.len() as u32 - 1).filter(|at| self.nodes[*at as usize].kind != FAKE).collect();
        if !self.ends.is_empty() && !targets.is_empty() && r.chance(70) {
            let low = if r.chance(85) { targets.len() / 2 } else { 0 };
            self.join(place, targets[low + r.index(targets.len() - low)]);
        } else {
            self.ends.push(place);
        }
    }

    fn close(&mut self) {
        let mut above = 0;
        for end in self.ends.clone().into_iter().rev() {
            let mut fake = Node { kind: FAKE, ..Node::default() };
            fake.indices = [self.nodes.len() as u32 + 1, 0, end, above];
            above = self.push(fake);
            self.nodes[end as usize].indices[NEXT] = above;
        }
        let mut last = Node { kind: FAKE, ..Node::default() };
        last.indices[PREV] = self.nodes.len() as u32 - 1;
        self.push(last);
    }
}

fn network(r: &mut Random) -> Vec<Node> {
    if r.one_in(40) {
        return loose(r);
    }
    let mut net = Growing { nodes: vec![], ends: vec![], links: r.pick(&[1, 3, 10]) };
    let mut first = Node { kind: FAKE, ..Node::default() };
    first.indices[NEXT] = 1;
    net.push(first);
    net.push(Node { kind: FAKE, ..Node::default() });
    let longest = r.pick(&[0, 1, 3, 6]);
    net.run(r, 1, 2 * longest);
    for _ in 0..r.below(7) {
        let bases: Vec<u32> = (1..net.nodes.len() as u32)
            .filter(|at| {
                net.nodes[*at as usize].indices[NEXT] != 0 && net.nodes[*at as usize].kind != FAKE || *at == 1
            })
            .collect();
        let from = bases[r.index(bases.len())];
        let start = net.split(from);
        net.run(r, start, longest);
    }
    net.close();
    let style = r.below(6);
    for node in &mut net.nodes {
        node.floats = [draw_time(r, style), draw_time(r, style), draw_time(r, 1), draw_time(r, 1)];
    }
    net.nodes
}

/// A bare chain of so many nodes: a start, events and an end, each a second after the other.
pub(crate) fn chain(count: u32) -> Vec<u8> {
    let node = |at: u32| {
        let is_end = at < 2 || at + 2 >= count;
        let next = if at + 1 < count { at + 1 } else { 0 };
        Node {
            floats: [0.0, 1.0, 1.0, 1.0],
            indices: [next, 0, at.saturating_sub(1), 0],
            link: 1,
            kind: if is_end { FAKE } else { 0 },
        }
    };
    item(5.0, &(0..count).map(node).collect::<Vec<Node>>())
}

/// Nodes with any small indices, or a bare chain.
fn loose(r: &mut Random) -> Vec<Node> {
    let count = r.below(12);
    let is_chain = r.chance(50);
    let node = |at: u64| {
        let mut node = Node { kind: r.below(3) as u32, link: r.below(3) as u32, ..Node::default() };
        if is_chain {
            node.kind = FAKE;
            node.indices[NEXT] = if at + 1 < count { at as u32 + 1 } else { 0 };
            node.indices[PREV] = at.saturating_sub(1) as u32;
        } else {
            node.indices = node.indices.map(|_| r.below(count) as u32);
        }
        node
    };
    (0..count).map(node).collect()
}

fn change(r: &mut Random, nodes: &mut Vec<Node>) {
    if nodes.is_empty() {
        return;
    }
    let count = nodes.len();
    let (one, two) = (r.index(count), r.index(count));
    let near = (one + r.index(5)).saturating_sub(2).min(count - 1);
    let field = r.index(4);
    match r.below(15) {
        0 => nodes[one].indices[field] = two as u32,
        1 => nodes[one].indices[field] = near as u32,
        2 => nodes[one].indices[field] = r.pick(&[count as u32, count as u32 - 1, 0, u32::MAX]),
        3 => nodes[one].kind = r.pick(&[0, 1, 2, 2, 3, u32::MAX]),
        4 => nodes[one].link = r.pick(&[0, 1, 65_535, u32::MAX]),
        5 => nodes[one].floats[field] = bad_float(r),
        6..=8 => nodes[one].floats[1] = draw_time(r, one as u64 % 4),
        9 => exchange(nodes, one, two, NEXT),
        10 => exchange(nodes, one, two, NEXT_ALT),
        11 => exchange(nodes, one, two, PREV),
        12 => exchange(nodes, one, two, PREV_ALT),
        13 => reroute(nodes, one, two),
        _ => {
            nodes.truncate(count - r.below(2).min(count as u64) as usize);
        }
    }
}

fn exchange(nodes: &mut [Node], one: usize, two: usize, field: usize) {
    let kept = nodes[one].indices[field];
    nodes[one].indices[field] = nodes[two].indices[field];
    nodes[two].indices[field] = kept;
}

/// Exchanges what follows two nodes, and what goes before those: both ways stay whole.
fn reroute(nodes: &mut [Node], one: usize, two: usize) {
    let (after_one, after_two) = (nodes[one].indices[NEXT] as usize, nodes[two].indices[NEXT] as usize);
    if after_one < nodes.len() && after_two < nodes.len() {
        exchange(nodes, one, two, NEXT);
        exchange(nodes, after_one, after_two, PREV);
    }
}

fn bad_float(r: &mut Random) -> f64 {
    let bits = r.bits();
    r.pick(&[
        f64::NAN,
        f64::INFINITY,
        f64::NEG_INFINITY,
        1e9,
        -1e9,
        1e9f64.next_up(),
        -(1e9f64.next_up()),
        -0.0,
        5e8,
        f64::from_bits(1),
        f64::from_bits(bits),
    ])
}
