//! A book for each refusal, an accepted one with a change; node tables for 14 and 15.

use crate::{accepted, PLACES};
use generator::{table_item, Book, Node};

/// A refused book, and the table places on which it is refused.
pub struct Refused {
    pub number: u32,
    pub bytes: Vec<u8>,
    pub places: usize,
}

/// A book for each number.
pub fn refused() -> Vec<Refused> {
    let row = |number| Refused { number, bytes: bytes(number), places: if number == 12 { 7 } else { PLACES } };
    (1..=16).map(row).collect()
}

fn bytes(number: u32) -> Vec<u8> {
    let worked = base("worked").bytes();
    match number {
        // The last sample is missing.
        1 => worked[..worked.len() - 24].to_vec(),
        // A line end behind the last sample.
        2 => [&worked, &b"\n"[..]].concat(),
        3 => changed("worked", |book| book.links.clear()),
        4 => changed("worked", |book| book.gap = f64::NAN),
        5 => changed("worked", |book| book.origins[0].link = 3),
        6 => changed("worked", |book| book.origins[0].offset = 1.0),
        7 => changed("worked", |book| book.legs[0].parent = 1),
        8 => changed("worked", |book| book.destinations[0] = 0),
        9 => changed("worked", |book| book.links[1].next = 0),
        10 => changed("worked", |book| book.legs.truncate(1)),
        // The front stands at the end of link 1.
        11 => changed("worked", |book| book.legs.iter_mut().for_each(|leg| leg.samples[0][1] = 12.0)),
        // Refused for its table alone.
        12 => worked,
        13 => changed("two_origins", never_leaves),
        14 => changed("ring", |book| book.links.iter_mut().for_each(|link| link.next_alt = 0)),
        15 => changed("ring", |book| book.links[2].next_alt = 0),
        // Leg 2 has its first sample alone.
        16 => changed("worked", |book| book.legs[1].samples.truncate(1)),
        _ => unreachable!(),
    }
}

fn base(name: &str) -> Book {
    accepted().into_iter().find(|book| book.0 == name).unwrap().1
}

fn changed(name: &str, change: impl FnOnce(&mut Book)) -> Vec<u8> {
    let mut book = base(name);
    change(&mut book);
    book.bytes()
}

/// The train of origin 1, legs 1 to 3, stands where it departs.
fn never_leaves(book: &mut Book) {
    let first = book.legs[0].samples[0];
    book.legs[..3].iter_mut().for_each(|leg| leg.samples = vec![first]);
}

/// Document 01's node tables for 14 and 15, with their departures.
pub fn refused_tables() -> [(u32, Vec<u8>); 2] {
    let node = |kind, next, prev| Node { kind, indices: [next, 0, prev, 0], ..Node::default() };
    let (arrive, clear, fake) = (0, 1, 2);
    let unlinked = [node(fake, 0, 0); 3];
    let apart = [
        node(fake, 1, 0),
        node(fake, 4, 0),
        node(arrive, 3, 3),
        node(clear, 2, 2),
        node(arrive, 5, 1),
        node(fake, 0, 4),
    ];
    [(14, table_item(0.0, &unlinked)), (15, table_item(1.0, &apart))]
}
