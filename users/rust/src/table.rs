//! Node tables.
use crate::PLACES_MAX;
use std::collections::TryReserveError;

/// 4 floats and 6 numbers to a node.
const FLOATS: usize = 4;
const NUMBERS: usize = 6;

/// What a node stands for: the train's front arrives at a link, its end clears one, or neither.
#[derive(Clone, Copy, Debug, PartialEq, Eq, Hash)]
pub enum Kind {
    Arrive,
    Clear,
    Fake,
}

impl Kind {
    pub(crate) fn of(number: u32) -> Kind {
        match number {
            0 => Kind::Arrive,
            1 => Kind::Clear,
            _ => Kind::Fake,
        }
    }
}

/// A node: times in s, distances in m, speeds in m/s; an index of 0 is none.
#[derive(Clone, Copy, Debug, PartialEq)]
pub struct Node {
    pub kind: Kind,
    pub link: u32,
    pub next: u32,
    pub next_alt: u32,
    pub prev: u32,
    pub prev_alt: u32,
    pub time: f64,
    pub time_to_next: f64,
    pub dist_to_next: f64,
    pub speed: f64,
}

/// Places for nodes, the first of which may be filled: a sheet, or a node table of one's own.
#[derive(Clone, Debug, Default, PartialEq)]
pub struct Table {
    pub(crate) floats: Vec<f64>,
    pub(crate) numbers: Vec<u32>,
    pub(crate) nodes: usize,
}

impl Table {
    /// So many places, at most 65,535, none filled.
    pub fn new(places: usize) -> Table {
        Table::try_new(places).expect("memory for a table")
    }

    /// The same, or that there is no memory for it.
    pub fn try_new(places: usize) -> Result<Table, TryReserveError> {
        let places = places.min(PLACES_MAX);
        Ok(Table { floats: zeros(FLOATS * places)?, numbers: zeros(NUMBERS * places)?, nodes: 0 })
    }

    /// How many nodes there are places for.
    pub fn places(&self) -> usize {
        (self.floats.len() / FLOATS).min(self.numbers.len() / NUMBERS)
    }

    /// How many nodes there are.
    pub fn len(&self) -> usize {
        self.nodes
    }

    pub fn is_empty(&self) -> bool {
        self.nodes == 0
    }

    /// A node by its number.
    pub fn node(&self, i: usize) -> Option<Node> {
        (i < self.nodes).then(|| self.read(i))
    }

    /// The nodes by their numbers.
    pub fn nodes(&self) -> impl DoubleEndedIterator<Item = Node> + ExactSizeIterator + '_ {
        (0..self.nodes).map(|i| self.read(i))
    }

    /// Whether every bit of every place is zero, as after a refusal.
    pub fn is_zero(&self) -> bool {
        self.floats.iter().all(|x| x.to_bits() == 0) && self.numbers.iter().all(|&n| n == 0)
    }

    /// The slices of the nodes alone.
    pub(crate) fn filled(&self) -> (&[f64], &[u32]) {
        (&self.floats[..FLOATS * self.nodes], &self.numbers[..NUMBERS * self.nodes])
    }

    /// The same, to be written.
    pub(crate) fn filled_mut(&mut self) -> (&mut [f64], &mut [u32]) {
        (&mut self.floats[..FLOATS * self.nodes], &mut self.numbers[..NUMBERS * self.nodes])
    }

    fn read(&self, i: usize) -> Node {
        let floats = &self.floats[FLOATS * i..][..FLOATS];
        let numbers = &self.numbers[NUMBERS * i..][..NUMBERS];
        Node {
            kind: Kind::of(numbers[5]),
            link: numbers[4],
            next: numbers[0],
            next_alt: numbers[1],
            prev: numbers[2],
            prev_alt: numbers[3],
            time: floats[0],
            time_to_next: floats[1],
            dist_to_next: floats[2],
            speed: floats[3],
        }
    }
}

/// A table of one's own: just as many places as nodes. One node more than a table may have is still taken, so that [`update_times`](crate::update_times)
/// refuses such a table with 3; what comes behind it is not.
impl FromIterator<Node> for Table {
    fn from_iter<I: IntoIterator<Item = Node>>(nodes: I) -> Table {
        let mut table = Table::default();
        for node in nodes.into_iter().take(PLACES_MAX + 1) {
            table.floats.extend([node.time, node.time_to_next, node.dist_to_next, node.speed]);
            table.numbers.extend([node.next, node.next_alt, node.prev, node.prev_alt, node.link, node.kind as u32]);
            table.nodes += 1;
        }
        table
    }
}

/// So many zeros, or that there is no memory for them.
pub(crate) fn zeros<T: Clone + Default>(len: usize) -> Result<Vec<T>, TryReserveError> {
    let mut all = Vec::new();
    all.try_reserve_exact(len)?;
    all.resize(len, T::default());
    Ok(all)
}
