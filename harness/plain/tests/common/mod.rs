//! Books and tables in words, and their bytes.
#![allow(dead_code)]

#[derive(Clone)]
pub struct Book {
    pub head: [f64; 3],
    /// length; next, next alternative, previous, previous alternative
    pub links: Vec<(f64, [u32; 4])>,
    /// link, offset, front flag
    pub origins: Vec<(u32, f64, u32)>,
    pub destinations: Vec<u32>,
    /// link, parent, samples of (time, offset, speed)
    pub legs: Vec<(u32, u32, Vec<[f64; 3]>)>,
}

impl Book {
    pub fn bytes(&self) -> Vec<u8> {
        let mut out = Vec::new();
        floats(&mut out, &self.head);
        numbers(&mut out, &[self.links.len() as u32]);
        for (length, ways) in &self.links {
            floats(&mut out, &[*length]);
            numbers(&mut out, ways);
        }
        numbers(&mut out, &[self.origins.len() as u32]);
        for &(link, offset, flag) in &self.origins {
            numbers(&mut out, &[link]);
            floats(&mut out, &[offset]);
            numbers(&mut out, &[flag]);
        }
        numbers(&mut out, &[self.destinations.len() as u32]);
        numbers(&mut out, &self.destinations);
        numbers(&mut out, &[self.legs.len() as u32]);
        for (link, parent, samples) in &self.legs {
            numbers(&mut out, &[*link, *parent, samples.len() as u32]);
        }
        numbers(&mut out, &[self.legs.iter().map(|leg| leg.2.len() as u32).sum()]);
        for sample in self.legs.iter().flat_map(|leg| &leg.2) {
            floats(&mut out, sample);
        }
        out
    }

    /// The answer on a table of 192 places, as text.
    pub fn answer(&self) -> String {
        text(plain::book(&self.bytes(), 192, None))
    }
}

pub fn floats(out: &mut Vec<u8>, floats: &[f64]) {
    floats.iter().for_each(|x| out.extend(x.to_le_bytes()));
}

pub fn numbers(out: &mut Vec<u8>, numbers: &[u32]) {
    numbers.iter().for_each(|n| out.extend(n.to_le_bytes()));
}

pub fn text(answer: Vec<u8>) -> String {
    String::from_utf8(answer).unwrap()
}

/// The book of document 01, "A book and its listing".
pub fn worked() -> Book {
    Book {
        head: [1.0, 0.0, 10.0],
        links: vec![(0.0, [0; 4]), (12.0, [2, 0, 0, 0]), (100.0, [0, 0, 1, 0])],
        origins: vec![(1, 0.0, 0)],
        destinations: vec![2],
        legs: vec![
            (1, 0, vec![[0.0, 10.0, 0.0]]),
            (2, 1, vec![[0.0, 10.0, 0.0], [4.0, 18.0, 4.0], [8.0, 34.0, 4.0]]),
        ],
    }
}

/// A node of a table: kind; next, next alternative, previous, previous alternative;
/// link; time to next; distance to next.
pub type Node = (u32, [u32; 4], u32, f64, f64);

pub fn table(departure: f64, nodes: &[Node]) -> Vec<u8> {
    let mut out = Vec::new();
    floats(&mut out, &[departure]);
    for &(kind, ways, link, to_next, distance) in nodes {
        floats(&mut out, &[0.0, to_next, distance, 0.0]);
        numbers(&mut out, &ways);
        numbers(&mut out, &[link, kind]);
    }
    out
}
