//! Bytes of the listing.

use crate::meet_pass::disp_structs::EstType;
use crate::meet_pass::est_times::EstTime;
use crate::shims::track::LinkIdx;

/// One line for each node: number, event, indices, floats.
pub fn nodes(out: &mut Vec<u8>, nodes: &[EstTime]) {
    for (number, node) in nodes.iter().enumerate() {
        decimal(out, number as u32);
        event(out, node);
        for index in [node.idx_next, node.idx_next_alt, node.idx_prev, node.idx_prev_alt] {
            field(out);
            decimal(out, index);
        }
        floats(out, [node.time_sched, node.time_to_next, node.dist_to_next, node.speed]);
        out.push(b'\n');
    }
}

/// One line for each event: kind, link, time, offset, speed.
pub fn events(out: &mut Vec<u8>, events: &[EstTime]) {
    for event in events {
        out.push(kind(event));
        field(out);
        decimal(out, event.link_event.link_idx.0);
        floats(out, [event.time_to_next, event.dist_to_next, event.speed]);
        out.push(b'\n');
    }
}

pub fn line(out: &mut Vec<u8>, words: &[(&str, usize)]) {
    let words: Vec<String> = words.iter().map(|(word, count)| format!("{word} {count}")).collect();
    out.extend_from_slice(words.join(" ").as_bytes());
    out.push(b'\n');
}

/// One line: a word and the links' numbers.
pub fn row<'a>(out: &mut Vec<u8>, word: &str, links: impl Iterator<Item = &'a LinkIdx>) {
    out.extend_from_slice(word.as_bytes());
    for link in links {
        field(out);
        decimal(out, link.0);
    }
    out.push(b'\n');
}

pub fn refused(number: u32) -> Vec<u8> {
    format!("refused {number}\n").into_bytes()
}

fn event(out: &mut Vec<u8>, node: &EstTime) {
    field(out);
    out.push(kind(node));
    field(out);
    decimal(out, node.link_event.link_idx.0);
}

fn kind(node: &EstTime) -> u8 {
    match node.link_event.est_type {
        EstType::Arrive => b'A',
        EstType::Clear => b'C',
        EstType::Fake => b'F',
    }
}

fn field(out: &mut Vec<u8>) {
    out.push(b' ')
}

fn decimal(out: &mut Vec<u8>, mut number: u32) {
    let start = out.len();
    loop {
        out.push(b'0' + (number % 10) as u8);
        number /= 10;
        if number == 0 {
            break;
        }
    }
    out[start..].reverse()
}

fn floats<const N: usize>(out: &mut Vec<u8>, values: [f64; N]) {
    for value in values {
        field(out);
        float(out, value);
    }
}

/// The digits of the bits, closing zeros dropped, one kept; an untimed node's time is `-`.
fn float(out: &mut Vec<u8>, value: f64) {
    if value.is_nan() {
        return out.push(b'-');
    }
    let mut bits = value.to_bits();
    loop {
        out.push(b"0123456789abcdef"[(bits >> 60) as usize]);
        bits <<= 4;
        if bits == 0 {
            break;
        }
    }
}
