//! Builds the bytes of books, tables and event lists; document 01's worked book.

#![allow(dead_code)]

/// A book row by row, as document 01 lists the fields.
#[derive(Clone)]
pub struct Book {
    /// J, departure, length.
    pub head: [f64; 3],
    /// Length; next, next alternative, previous, previous alternative.
    pub links: Vec<(f64, [u32; 4])>,
    /// Link, offset, front flag.
    pub origins: Vec<(u32, f64, u32)>,
    pub destinations: Vec<u32>,
    /// Link, parent; samples of time, offset, speed.
    pub legs: Vec<(u32, u32, Vec<[f64; 3]>)>,
}

impl Book {
    pub fn bytes(&self) -> Vec<u8> {
        let mut out = Bytes::default();
        out.floats(&self.head);
        out.number(self.links.len() as u32);
        for (length, indices) in &self.links {
            out.float(*length);
            out.numbers(indices);
        }
        out.number(self.origins.len() as u32);
        for (link, offset, flag) in &self.origins {
            out.number(*link);
            out.float(*offset);
            out.number(*flag);
        }
        out.number(self.destinations.len() as u32);
        out.numbers(&self.destinations);
        self.leg_bytes(&mut out);
        out.0
    }

    fn leg_bytes(&self, out: &mut Bytes) {
        out.number(self.legs.len() as u32);
        for (link, parent, samples) in &self.legs {
            out.numbers(&[*link, *parent, samples.len() as u32]);
        }
        let samples: Vec<_> = self.legs.iter().flat_map(|leg| &leg.2).collect();
        out.number(samples.len() as u32);
        for sample in samples {
            out.floats(sample);
        }
    }

    pub fn answer(&self) -> String {
        self.answer_on(192)
    }

    pub fn answer_on(&self, places: usize) -> String {
        text(reference::book(&self.bytes(), places, None))
    }
}

/// "A book and its listing".
pub fn worked() -> Book {
    Book {
        head: [1.0, 0.0, 10.0],
        links: vec![(0.0, [0; 4]), (12.0, [2, 0, 0, 0]), (100.0, [0, 0, 1, 0])],
        origins: vec![(1, 0.0, 0)],
        destinations: vec![2],
        legs: vec![
            (1, 0, vec![[0.0, 10.0, 0.0]]),
            (2, 1, vec![[0.0, 10.0, 0.0], [4.0, 18.0, 4.0], [8.0, 34.0, 4.0]]),
        ],
    }
}

/// Time, time to next, distance to next, speed; next, next alternative, previous, previous
/// alternative, link, kind.
pub type Node = ([f64; 4], [u32; 6]);

pub fn table(departure: f64, nodes: &[Node]) -> String {
    let mut out = Bytes::default();
    out.float(departure);
    for (floats, numbers) in nodes {
        out.floats(floats);
        out.numbers(numbers);
    }
    text(reference::table(&out.0))
}

pub fn events(length: f64, samples: &[[f64; 3]], points: &[(f64, u32)], places: u32) -> String {
    let mut out = Bytes::default();
    out.float(length);
    out.number(samples.len() as u32);
    samples.iter().for_each(|sample| out.floats(sample));
    out.number(points.len() as u32);
    for (offset, link) in points {
        out.float(*offset);
        out.number(*link);
    }
    out.number(places);
    text(reference::events(&out.0))
}

pub fn text(bytes: Vec<u8>) -> String {
    String::from_utf8(bytes).unwrap()
}

#[derive(Default)]
struct Bytes(Vec<u8>);

impl Bytes {
    fn float(&mut self, value: f64) {
        self.0.extend(value.to_le_bytes())
    }
    fn floats(&mut self, values: &[f64]) {
        values.iter().for_each(|value| self.float(*value))
    }
    fn number(&mut self, value: u32) {
        self.0.extend(value.to_le_bytes())
    }
    fn numbers(&mut self, values: &[u32]) {
        values.iter().for_each(|value| self.number(*value))
    }
}
