//! Damaged books: changed bytes, fields, counts and rows.

use crate::book::{Book, Link, Origin};
use crate::random::Random;

/// The bytes of the book after one to three changes.
pub fn damaged(r: &mut Random, book: &Book) -> Vec<u8> {
    let mut book = book.clone();
    if r.chance(60) {
        for _ in 0..1 + r.one_in(6) as usize {
            change_rows(r, &mut book);
        }
        if !r.one_in(10) {
            return book.bytes();
        }
    }
    let mut bytes = book.bytes();
    change_bytes(r, &mut bytes, &book);
    bytes
}

fn change_bytes(r: &mut Random, bytes: &mut Vec<u8>, book: &Book) {
    match r.below(6) {
        0 => {
            for _ in 0..r.between(1, 3) {
                let place = r.index(bytes.len());
                bytes[place] = match r.below(3) {
                    0 => 0,
                    1 => 255,
                    _ => bytes[place] ^ 1 << r.below(8),
                };
            }
        }
        1 => bytes.truncate(r.index(bytes.len())),
        2 => bytes.truncate(bytes.len() - 1),
        3 => {
            for _ in 0..r.pick(&[1, 1, 4, 24]) {
                bytes.push(r.pick(&[0, 255, 7]));
            }
        }
        4 => {
            let place = r.pick(&counts(book));
            let value = r.pick(&[0, 1, 1_000, 1_001, 65_535, 65_536, 1_000_000, 1_000_001, u32::MAX]);
            bytes[place..place + 4].copy_from_slice(&value.to_le_bytes());
        }
        _ => {
            let place = r.pick(&counts(book));
            let old = u32::from_le_bytes(bytes[place..place + 4].try_into().unwrap());
            let new = if r.chance(50) { old.wrapping_sub(1) } else { old + 1 };
            bytes[place..place + 4].copy_from_slice(&new.to_le_bytes());
        }
    }
}

/// Where the five counts stand, and the sample counts of the first legs.
fn counts(book: &Book) -> Vec<usize> {
    let links = 24;
    let origins = links + 4 + 24 * book.links.len();
    let destinations = origins + 4 + 16 * book.origins.len();
    let legs = destinations + 4 + 4 * book.destinations.len();
    let samples = legs + 4 + 12 * book.legs.len();
    let mut places = vec![links, origins, destinations, legs, samples];
    places.extend((0..book.legs.len().min(3)).map(|leg| legs + 12 + 12 * leg));
    places
}

fn bad_float(r: &mut Random) -> f64 {
    let bits = r.bits();
    r.pick(&[
        f64::NAN,
        f64::INFINITY,
        -f64::INFINITY,
        -0.0,
        -1.0,
        1e9,
        1e9f64.next_up(),
        -1e9,
        f64::MAX,
        f64::from_bits(1),
        f64::from_bits(1 << 63 | 1),
        f64::from_bits(bits),
        0.0,
    ])
}

fn change_rows(r: &mut Random, book: &mut Book) {
    match r.weighted(&[14, 22, 22, 16, 30, 10]) {
        0 => drop_rows(r, book),
        1 => change_float(r, book),
        2 => change_index(r, book),
        3 => change_origin(r, book),
        4 => change_leg(r, book),
        _ => change_ends(r, book),
    }
}

/// Row 3: a section without rows, a leg without samples.
fn drop_rows(r: &mut Random, book: &mut Book) {
    match r.below(5) {
        0 => book.links.clear(),
        1 => book.origins.clear(),
        2 => book.destinations.clear(),
        3 => book.legs.clear(),
        _ => some_leg(r, book, |_, leg| leg.samples.clear()),
    }
}

/// Row 4: a float anywhere, or a front flag.
fn change_float(r: &mut Random, book: &mut Book) {
    let bad = bad_float(r);
    match r.below(7) {
        0 => book.gap = bad,
        1 => book.departure = bad,
        2 => book.length = bad,
        3 => some_link(r, book, |_, _, link| link.length = bad),
        4 => some_origin(r, book, |_, _, origin| origin.offset = bad),
        5 => some_origin(r, book, |r, _, origin| origin.front = r.pick(&[2, 256, u32::MAX])),
        _ => some_leg(r, book, |r, leg| {
            if !leg.samples.is_empty() {
                let place = r.index(leg.samples.len());
                leg.samples[place][r.index(3)] = bad;
            }
        }),
    }
}

/// Row 5: an index near the count, link 0 not zero, a length 0, next twice.
fn change_index(r: &mut Random, book: &mut Book) {
    let links = book.links.len() as u32;
    let legs = book.legs.len() as u32;
    let index = r.pick(&[links, links.wrapping_sub(1), links + 1, u32::MAX, 0, 1]);
    match r.below(9) {
        0 => some_link(r, book, |_, _, link| link.next = index),
        1 => some_link(r, book, |_, _, link| link.next_alt = index),
        2 => some_link(r, book, |_, _, link| link.prev = index),
        3 => some_link(r, book, |_, _, link| link.prev_alt = index),
        4 => some_link(r, book, |_, _, link| link.next_alt = link.next),
        5 => some_origin(r, book, |_, _, origin| origin.link = index),
        6 => {
            let place = r.index(book.destinations.len().max(1));
            book.destinations.splice(place.min(book.destinations.len()).., [index]);
        }
        7 => some_leg(r, book, |r, leg| match r.below(2) {
            0 => leg.link = index,
            _ => leg.parent = r.pick(&[legs, legs + 1, u32::MAX]),
        }),
        _ => some_link(r, book, |r, number, link| match number {
            0 => *link = odd_link_0(r),
            _ => link.length = 0.0,
        }),
    }
}

fn odd_link_0(r: &mut Random) -> Link {
    let mut link = Link::default();
    match r.below(5) {
        0 => link.length = 1.0,
        1 => link.next = 1,
        2 => link.next_alt = 1,
        3 => link.prev = 1,
        _ => link.prev_alt = 1,
    }
    link
}

/// Row 6, and origins that are no refusal.
fn change_origin(r: &mut Random, book: &mut Book) {
    match r.below(4) {
        0 => some_origin(r, book, |r, _, origin| origin.offset = r.pick(&[1.0, f64::from_bits(1), 1e9])),
        1 => some_origin(r, book, |_, _, origin| origin.front = 1),
        2 if !book.origins.is_empty() => {
            let again = r.pick(&book.origins);
            let place = r.index(book.origins.len() + 1);
            book.origins.insert(place, again);
        }
        _ => {
            let link = r.index(book.links.len().max(1)) as u32;
            book.origins.push(Origin { link, ..Origin::default() });
        }
    }
}

/// Row 7.
fn change_leg(r: &mut Random, book: &mut Book) {
    let Some(count) = book.legs.len().checked_sub(1) else {
        return;
    };
    let number = r.between(0, count as u64) as usize;
    let twin = book.legs[r.index(count + 1)].clone();
    let parents_last = book.legs.get(book.legs[number].parent.wrapping_sub(1) as usize);
    let parents_last = parents_last.and_then(|leg| leg.samples.last().copied());
    let leg = &mut book.legs[number];
    let size = leg.samples.len();
    let field = r.index(3);
    match r.below(9) {
        0 => leg.link = 0,
        1 => leg.parent = number as u32 + 1 + r.below(2) as u32,
        2 => (leg.parent, leg.link) = (twin.parent, twin.link),
        3 if size > 1 => leg.samples[size - 1][0] = leg.samples[size - 2][0],
        4 if size > 1 => leg.samples[size - 1][1] = leg.samples[size - 2][1].next_down(),
        5 if size > 1 => leg.samples[size - 1][1] = leg.samples[size - 2][1],
        6 if size > 0 => leg.samples[0][field] = leg.samples[0][field].next_up(),
        7 if size > 0 && parents_last.is_some() => leg.samples[size - 1] = parents_last.unwrap(),
        _ if size > 0 => leg.samples[size - 1][field] += 1.0,
        _ => leg.parent = 0,
    }
}

/// Row 8: a destination 0, or ways that lead back to no origin.
fn change_ends(r: &mut Random, book: &mut Book) {
    match r.below(4) {
        0 => book.destinations.push(0),
        1 => book.destinations.insert(0, 0),
        2 => some_link(r, book, |_, _, link| (link.prev, link.prev_alt) = (0, link.prev)),
        _ => {
            book.origins.truncate(1);
            let link = r.index(book.links.len().max(1)) as u32;
            some_origin(r, book, |_, _, origin| origin.link = link);
        }
    }
}

fn some_link(r: &mut Random, book: &mut Book, change: impl Fn(&mut Random, usize, &mut Link)) {
    if !book.links.is_empty() {
        let place = r.index(book.links.len());
        change(r, place, &mut book.links[place]);
    }
}

fn some_origin(r: &mut Random, book: &mut Book, change: impl Fn(&mut Random, usize, &mut Origin)) {
    if !book.origins.is_empty() {
        let place = r.index(book.origins.len());
        change(r, place, &mut book.origins[place]);
    }
}

fn some_leg(r: &mut Random, book: &mut Book, change: impl Fn(&mut Random, &mut crate::book::Leg)) {
    if !book.legs.is_empty() {
        let place = r.index(book.legs.len());
        change(r, &mut book.legs[place]);
    }
}
