//! The listing: "Fields: node, kind (A, C, F), link, next, its alternative, previous,
//! its alternative, in decimal; time, time to next, distance to next, speed, each the
//! 16 hexadecimal digits of its bits, closing zeros dropped, one digit kept."

use crate::growth::Grown;
use crate::node::{Kind, Node, Timed};
use crate::options::Options;

/// "Refused: `refused N`."
pub fn refused(number: u32) -> Vec<u8> {
    let mut out = Vec::new();
    word(&mut out, b"refused ", number as usize, b'\n');
    out
}

/// The report of a book, then its nodes.
pub fn sheet(grown: &Grown) -> Vec<u8> {
    whole(grown, true)
}

/// The same before the passes: each time is `-`.
pub fn grown(grown: &Grown) -> Vec<u8> {
    whole(grown, false)
}

fn whole(grown: &Grown, is_timed: bool) -> Vec<u8> {
    let mut out = Vec::with_capacity(64 + 64 * grown.nodes.len());
    word(&mut out, b"nodes ", grown.nodes.len(), b' ');
    word(&mut out, b"added ", grown.added, b' ');
    word(&mut out, b"splits ", grown.splits, b' ');
    word(&mut out, b"joined ", grown.joined, b' ');
    word(&mut out, b"finished ", grown.finished, b'\n');
    lines(&mut out, &grown.nodes, is_timed);
    out
}

/// A line of the set's links, rising, and one of the kept origins' links in their order.
pub fn options(options: &Options) -> Vec<u8> {
    let set = (0..).zip(&options.set).filter(|(_, is_in)| **is_in).map(|(link, _)| link);
    let mut out = Vec::with_capacity(64 + 6 * options.set.len());
    row(&mut out, b"set", set);
    row(&mut out, b"kept", options.kept.iter().map(|&link| link as usize));
    out
}

/// A name and numbers on a line.
fn row(out: &mut Vec<u8>, name: &[u8], numbers: impl Iterator<Item = usize>) {
    out.extend(name);
    for number in numbers {
        out.push(b' ');
        digits(out, number);
    }
    out.push(b'\n');
}

/// "Its report: nodes alone."
pub fn table(nodes: &[Node]) -> Vec<u8> {
    let mut out = Vec::with_capacity(64 + 64 * nodes.len());
    word(&mut out, b"nodes ", nodes.len(), b'\n');
    lines(&mut out, nodes, true);
    out
}

/// The count, then kind, link, time, offset, speed of each event.
pub fn events(events: &[Timed]) -> Vec<u8> {
    let mut out = Vec::with_capacity(64 + 64 * events.len());
    word(&mut out, b"events ", events.len(), b'\n');
    for timed in events {
        out.extend([letter(timed.event.kind), b' ']);
        decimal(&mut out, timed.event.link as usize, b' ');
        float(&mut out, timed.time, b' ');
        float(&mut out, timed.offset, b' ');
        float(&mut out, timed.speed, b'\n');
    }
    out
}

fn lines(out: &mut Vec<u8>, nodes: &[Node], is_timed: bool) {
    for (own, node) in nodes.iter().enumerate() {
        decimal(out, own, b' ');
        out.extend([letter(node.event.kind), b' ']);
        decimal(out, node.event.link as usize, b' ');
        for index in [node.next, node.next_alt, node.prev, node.prev_alt] {
            decimal(out, index, b' ');
        }
        if is_timed {
            float(out, node.time, b' ');
        } else {
            out.extend(b"- ");
        }
        float(out, node.to_next, b' ');
        float(out, node.distance, b' ');
        float(out, node.speed, b'\n');
    }
}

fn letter(kind: Kind) -> u8 {
    match kind {
        Kind::Arrive => b'A',
        Kind::Clear => b'C',
        Kind::Fake => b'F',
    }
}

fn word(out: &mut Vec<u8>, name: &[u8], number: usize, close: u8) {
    out.extend(name);
    decimal(out, number, close);
}

fn decimal(out: &mut Vec<u8>, number: usize, close: u8) {
    digits(out, number);
    out.push(close);
}

fn digits(out: &mut Vec<u8>, mut number: usize) {
    let start = out.len();
    loop {
        out.push(b'0' + (number % 10) as u8);
        number /= 10;
        if number == 0 {
            break;
        }
    }
    out[start..].reverse();
}

fn float(out: &mut Vec<u8>, x: f64, close: u8) {
    let mut rest = x.to_bits();
    loop {
        out.push(b"0123456789abcdef"[(rest >> 60) as usize]);
        rest <<= 4;
        if rest == 0 {
            break;
        }
    }
    out.push(close);
}
