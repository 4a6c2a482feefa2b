//! Books out of their rows.
#![allow(dead_code)]

/// A book row by row, as its format lists the fields.
#[derive(Clone)]
pub struct Book {
    /// J, departure, train length.
    pub head: [f64; 3],
    /// Length; next, next alternative, previous, previous alternative.
    pub links: Vec<(f64, [u32; 4])>,
    /// Link, offset, front flag.
    pub origins: Vec<(u32, f64, u32)>,
    pub destinations: Vec<u32>,
    /// Link, parent; samples of time, offset, speed.
    pub legs: Vec<(u32, u32, Vec<[f64; 3]>)>,
}

impl Book {
    pub fn bytes(&self) -> Vec<u8> {
        let mut out = Bytes(vec![]);
        out.floats(&self.head);
        out.count(self.links.len());
        for (length, indices) in &self.links {
            out.floats(&[*length]);
            out.numbers(indices);
        }
        out.count(self.origins.len());
        for (link, offset, front) in &self.origins {
            out.numbers(&[*link]);
            out.floats(&[*offset]);
            out.numbers(&[*front]);
        }
        out.count(self.destinations.len());
        out.numbers(&self.destinations);
        self.put_legs(&mut out);
        out.0
    }

    fn put_legs(&self, out: &mut Bytes) {
        out.count(self.legs.len());
        for (link, parent, samples) in &self.legs {
            out.numbers(&[*link, *parent, samples.len() as u32]);
        }
        out.count(self.legs.iter().map(|leg| leg.2.len()).sum());
        for sample in self.legs.iter().flat_map(|leg| &leg.2) {
            out.floats(sample);
        }
    }
}

struct Bytes(Vec<u8>);

impl Bytes {
    fn floats(&mut self, floats: &[f64]) {
        self.0.extend(floats.iter().flat_map(|x| x.to_le_bytes()));
    }

    fn numbers(&mut self, numbers: &[u32]) {
        self.0.extend(numbers.iter().flat_map(|n| n.to_le_bytes()));
    }

    fn count(&mut self, count: usize) {
        self.numbers(&[count as u32]);
    }
}

/// Document 01's book: two links, one origin, two legs.
pub fn worked() -> Book {
    Book {
        head: [1.0, 0.0, 10.0],
        links: vec![(0.0, [0; 4]), (12.0, [2, 0, 0, 0]), (100.0, [0, 0, 1, 0])],
        origins: vec![(1, 0.0, 0)],
        destinations: vec![2],
        legs: vec![(1, 0, vec![[0.0, 10.0, 0.0]]), (2, 1, vec![[0.0, 10.0, 0.0], [4.0, 18.0, 4.0], [8.0, 34.0, 4.0]])],
    }
}

/// The worked book with a change.
pub fn changed(change: impl FnOnce(&mut Book)) -> Book {
    let mut book = worked();
    change(&mut book);
    book
}

/// Each link of a line with sidings is so long, and the train so fast.
const LENGTH: f64 = 100.0;
const SPEED: f64 = 10.0;

/// The samples of a leg over the path's link p, up to a metre before its end, so many seconds later than at full speed.
fn samples(p: u32, before: [f64; 3], late: f64) -> Vec<[f64; 3]> {
    let end = LENGTH * f64::from(p + 1) - 1.0;
    vec![before, [before[0] + (end - before[1]) / SPEED + late, end, SPEED]]
}

/// A line with so many sidings: link 1, then for each siding its two ways, 3 k + 2 and 3 k + 3, and the link behind them, 3 k + 4.
/// A run splits off into each siding and joins again behind it: 9 nodes a siding, and 6.
pub fn sidings(count: u32) -> Book {
    let mut links = vec![(0.0, [0; 4])];
    for i in 1..3 * count + 2 {
        let is_last = i == 3 * count + 1;
        let indices = match i % 3 {
            1 => [if is_last { 0 } else { i + 1 }, if is_last { 0 } else { i + 2 }, i.saturating_sub(2), i - 1],
            2 => [i + 2, 0, i - 1, 0],
            _ => [i + 1, 0, i - 2, 0],
        };
        links.push((LENGTH, if i == 1 { [2, 3, 0, 0] } else { indices }));
    }
    Book { head: [1.0, 0.0, 10.0], links, origins: vec![(1, 0.0, 0)], destinations: vec![3 * count + 1], legs: siding_legs(count) }
}

/// The line's own legs, then for each siding its leg and the one behind it, in which the run joins.
fn siding_legs(count: u32) -> Vec<(u32, u32, Vec<[f64; 3]>)> {
    let mut legs = vec![(1, 0, samples(0, [0.0, 10.0, SPEED], 0.0))];
    for p in 1..=2 * count {
        let link = if p % 2 == 1 { 3 * (p / 2) + 2 } else { 3 * (p / 2) + 1 };
        let before = legs[p as usize - 1].2[1];
        legs.push((link, p, samples(p, before, 0.0)));
    }
    for k in 0..count {
        let siding = samples(2 * k + 1, legs[2 * k as usize].2[1], 1.5);
        let behind = samples(2 * k + 2, siding[1], 0.0);
        legs.push((3 * k + 3, 2 * k + 1, siding));
        legs.push((3 * k + 4, legs.len() as u32, behind));
    }
    legs
}
