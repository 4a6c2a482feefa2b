//! Books: a network and the legs that the driver asks for, one after the other.

use crate::book::{work_asked, Book, Leg, Origin};
use crate::damage::damaged;
use crate::driving::{Driving, Grain, Speeds, Stops, Way};
use crate::hostile;
use crate::limits;
use crate::networks::{self, Lengths, Network};
use crate::random::Random;

/// A book with the table places and the work space (`None`: what row 3 asks for) lent to it.
#[derive(Clone)]
pub struct BookItem {
    pub bytes: Vec<u8>,
    pub places: usize,
    pub work: Option<u64>,
}

/// Places that are always enough for the small books of this file.
const PLENTY: usize = 4_096;

/// Item `number` of a seed.
pub fn book(seed: u64, number: u64) -> BookItem {
    let r = &mut Random::new(seed, number);
    if r.one_in(2_500) {
        return limits::near_limit(r);
    }
    match r.weighted(&[775, 110, 50, 20, 30, 15]) {
        0 => {
            let book = grown(r);
            with_room(r, book)
        }
        1 => {
            let book = grown(r);
            let bytes = damaged(r, &book);
            let places = r.pick(&[65_535, 192, 12]);
            BookItem { bytes, places, work: None }
        }
        2 => {
            let book = special(r);
            with_room(r, book)
        }
        3 => waiting(r),
        4 => {
            let book = fan(r);
            with_room(r, book)
        }
        _ => {
            let book = hostile(r);
            with_room(r, book)
        }
    }
}

/// A book of a random shape, with its legs.
pub(crate) fn grown(r: &mut Random) -> Book {
    let grain = Grain::draw(r);
    let lengths = lengths(r, grain);
    let mut driving = driving(r, grain);
    let size = if r.one_in(50) { 12 } else { 4 };
    let mut net = match r.weighted(&[30, 26, 16, 12, 8, 8]) {
        0 => networks::sidings(r, lengths, size),
        1 => networks::forward(r, lengths, 2 * size),
        2 => networks::meeting(r, lengths, size),
        3 => networks::ring(r, lengths),
        4 => networks::trap(r, lengths),
        _ => networks::line(r, lengths),
    };
    if r.one_in(7) {
        networks::tweak(r, &mut net);
    }
    if r.chance(50) {
        networks::renumber(r, &mut net);
    }
    if net.origins.len() > 1 && r.one_in(12) {
        driving.resting.push(r.pick(&net.origins));
    }
    let mut book = blank(r, &net, lengths, &driving);
    let budget = if r.one_in(25) { r.between(1, 8) } else { 64 };
    begin(r, &mut book, &driving);
    supply(r, &mut book, &driving, budget as usize);
    if r.one_in(20) {
        add_unasked(r, &mut book, &driving);
    }
    if r.one_in(20) {
        shuffle_legs(r, &mut book);
    }
    book
}

fn lengths(r: &mut Random, grain: Grain) -> Lengths {
    let (low, high) = r.pick(&[(1, 4), (5, 20), (10, 12), (50, 200), (100, 1_000)]);
    Lengths { grain, low, high, equal: r.chance(35) }
}

fn driving(r: &mut Random, grain: Grain) -> Driving {
    let speeds = [
        (Speeds::Even, 36),
        (Speeds::ByLink, 17),
        (Speeds::ByWay, 14),
        (Speeds::Rising, 17),
        (Speeds::Drawn, 12),
        (Speeds::Crawling, 1),
        (Speeds::Wild, 3),
        (Speeds::Standing, 1),
    ];
    let drawn = r.weighted(&speeds.map(|(_, weight)| weight));
    let speed = match r.below(4) {
        0 => r.pick(&[1.0, 2.0, 4.0, 8.0]),
        1 => 0.1 + r.unit() * 30.0,
        _ => r.between(1, 30) as f64,
    };
    Driving {
        grain,
        speeds: speeds[drawn].0,
        speed,
        stops: stops(r),
        lag: [0, 1, 2, 3][r.weighted(&[70, 18, 8, 4])],
        part: r.pick(&[0.25, 0.5, 0.5, 0.75, 0.9, 1.0]),
        steps: r.pick(&[1, 2, 3, 3, 5]),
        rests: if r.one_in(8) { r.pick(&[5, 20, 60]) } else { 0 },
        overruns: if r.one_in(20) { 1_500 } else { 0 },
        resting: vec![],
    }
}

/// Where trains stop: nowhere in about half of the books.
fn stops(r: &mut Random) -> Stops {
    match r.below(100) {
        0..=44 => Stops::Nowhere,
        45..=69 => Stops::Drawn(r.pick(&[20, 50, 90])),
        _ => Stops::ByLink(r.pick(&[1, 2, 3])),
    }
}

/// The book of a network, without legs.
fn blank(r: &mut Random, net: &Network, lengths: Lengths, driving: &Driving) -> Book {
    let typical = lengths.high as f64;
    let length = match r.below(12) {
        0 => 0.0,
        1 => typical * 2.5,
        2 => typical * 5.0,
        3 => r.pick(&[1e6, 1e9]),
        4 => typical,
        5..=8 => lengths.grain.value(r, 0, lengths.high / 2),
        9 => r.pick(&net.links[1..]).length,
        _ => lengths.grain.value(r, lengths.low, lengths.high),
    };
    let mut links = net.links.clone();
    if length < 1e6 && r.chance(70) {
        for origin in &net.origins {
            let link = &mut links[*origin as usize];
            link.length = if *origin == 0 { 0.0 } else { length + link.length };
        }
    }
    Book {
        gap: gap(r, driving),
        departure: departure(r, driving.grain),
        length,
        links,
        origins: net.origins.iter().map(|link| Origin { link: *link, ..Origin::default() }).collect(),
        destinations: net.destinations.clone(),
        legs: vec![],
    }
}

fn gap(r: &mut Random, driving: &Driving) -> f64 {
    match r.below(20) {
        0 => 0.0,
        1 => 1e9,
        2 => f64::from_bits(1),
        3 => driving.speed,
        4 => r.unit() * 10.0,
        5..=6 => 0.25,
        7..=8 => 5.0,
        9 => 0.1,
        10..=11 => 1.5,
        _ => 1.0,
    }
}

fn departure(r: &mut Random, grain: Grain) -> f64 {
    match r.below(40) {
        0 => 1e9 - grain.value(r, 1, 200),
        1 => 1e9,
        2..=3 => grain.value(r, 100_000, 10_000_000),
        4..=24 => 0.0,
        _ => grain.value(r, 0, 1_000),
    }
}

/// The leg of an origin: without one a book has too few.
fn begin(r: &mut Random, book: &mut Book, driving: &Driving) {
    let real = book.origins.iter().find(|origin| origin.link != 0);
    let first = real.map_or(1, |origin| origin.link);
    append(r, book, driving, 0, first);
}

/// Appends the leg that is asked for until none is, or `budget` legs are there.
fn supply(r: &mut Random, book: &mut Book, driving: &Driving, budget: usize) {
    while book.legs.len() < budget {
        let Some((parent, link)) = plain::wanted_leg(&book.bytes(), PLENTY) else {
            return;
        };
        append(r, book, driving, parent, link);
    }
}

fn append(r: &mut Random, book: &mut Book, driving: &Driving, parent: u32, link: u32) {
    let first = match parent {
        0 => driving.start(r, book.departure, book.length, book.links[link as usize].length),
        _ => {
            let samples = &book.legs[parent as usize - 1].samples;
            samples[samples.len() - 1]
        }
    };
    book.legs.push(Leg { link, parent, samples: vec![] });
    let (path, end) = book.path(book.legs.len() as u32);
    let is_last = book.destinations.contains(&link);
    let way = Way { path: &path, end, length: book.length, is_last };
    let samples = driving.leg(r, first, &way);
    book.legs.last_mut().unwrap().samples = samples;
}

/// A leg that nobody asks for.
fn add_unasked(r: &mut Random, book: &mut Book, driving: &Driving) {
    let parent = r.index(book.legs.len() + 1) as u32;
    let link = r.index(book.links.len()) as u32;
    if link != 0 && book.legs.iter().all(|leg| (leg.parent, leg.link) != (parent, link)) {
        append(r, book, driving, parent, link);
    }
}

/// Puts the legs in another order, each still behind its parent.
fn shuffle_legs(r: &mut Random, book: &mut Book) {
    let count = book.legs.len();
    let mut new = vec![0u32; count + 1];
    let mut order = Vec::with_capacity(count);
    while order.len() < count {
        let ready: Vec<usize> = (1..=count)
            .filter(|old| new[*old] == 0)
            .filter(|old| book.legs[old - 1].parent == 0 || new[book.legs[old - 1].parent as usize] != 0)
            .collect();
        let old = ready[r.index(ready.len())];
        order.push(old);
        new[old] = order.len() as u32;
    }
    let legs = order.iter().map(|old| {
        let leg = &book.legs[old - 1];
        Leg { parent: new[leg.parent as usize], ..leg.clone() }
    });
    book.legs = legs.collect();
}

/// Books for the rarer refusals: runs that add nothing (13, 16), rings without a way out (14, 15).
fn special(r: &mut Random) -> Book {
    let grain = Grain::draw(r);
    let lengths = lengths(r, grain);
    let mut driving = driving(r, grain);
    driving.overruns = 0;
    driving.rests = 0;
    driving.stops = Stops::Nowhere;
    let kind = r.below(4);
    let net = match kind {
        0 => networks::meeting(r, lengths, 4),
        1 => networks::line(r, lengths),
        _ => networks::trap(r, lengths),
    };
    match kind {
        0 => driving.resting.push(r.pick(&net.origins)),
        1 => driving.speeds = Speeds::Standing,
        _ => driving.speeds = Speeds::Even,
    }
    let mut book = blank(r, &net, lengths, &driving);
    if kind == 1 {
        book.departure = r.pick(&[0.0, 0.0, 0.0, f64::from_bits(1), 1.0]);
    } else {
        book.gap = book.gap.max(0.25);
        book.departure = book.departure.min(1e6);
        book.length = book.length.min(3.0 * lengths.high as f64);
    }
    begin(r, &mut book, &driving);
    supply(r, &mut book, &driving, 64);
    book
}

/// Runs that leave one node at speeds of their own (or at few), and another way that meets them all,
/// often half-way between two speeds: lists with many entries and equal gaps.
fn fan(r: &mut Random) -> Book {
    let (short, runs) = (r.index(4), r.between(2, 7) as usize);
    let first = r.index(runs);
    let between = r.between(2, 2 * runs as u64) as f64 / 2.0;
    let few = r.one_in(5);
    let speed = |run: usize| match run {
        0 => between,
        _ if few => (run % 3 + 1) as f64,
        _ => ((run + first) % runs + 1) as f64,
    };
    let mut book = limits::fan(short, runs, true, speed);
    let goal = book.destinations[0];
    for leg in book.legs.iter_mut().filter(|leg| leg.link == goal) {
        if short > 0 && r.chance(40) {
            turn_late(leg, 1.5 + r.index(short) as f64);
        }
    }
    book.gap = r.pick(&[0.0, 0.25, 0.5, 1.0, 1.0, 1.0, 1.5]);
    let mut driving = driving(r, Grain::Whole);
    driving.speed = r.between(1, runs as u64) as f64;
    supply(r, &mut book, &driving, 64);
    book
}

/// A small one of the hostile books: lists with equal entries, one after the other and in turns, strands that meet.
fn hostile(r: &mut Random) -> Book {
    let mut book = hostile::small(r);
    let mut driving = driving(r, Grain::Quarter);
    driving.speed = r.between(1, 4) as f64;
    let budget = book.legs.len() + 16;
    supply(r, &mut book, &driving, budget);
    book
}

/// Keeps the leg's first speed until so many metres behind its first event, then takes its own.
fn turn_late(leg: &mut Leg, metres: f64) {
    let [time, from, first] = leg.samples[0];
    let [_, to, speed] = leg.samples[leg.samples.len() - 1];
    let turn = limits::FIRST_CLEAR - 1.0 + metres;
    let at_turn = time + (turn - from) / first;
    let to_goal = (to - turn) / speed;
    leg.samples.truncate(1);
    leg.samples.push([at_turn, turn, first]);
    leg.samples.push([at_turn + 1.0, turn, speed]);
    leg.samples.push([at_turn + 1.0 + to_goal, to, speed]);
}

/// Table places and work space: often enough, often just so.
fn with_room(r: &mut Random, book: Book) -> BookItem {
    let bytes = book.bytes();
    let places = match r.below(100) {
        0..=67 => 65_535,
        68..=74 => 192,
        75..=94 => {
            let needed = needed(&bytes);
            match r.below(12) {
                0 => r.index(needed + 1),
                1 => needed.saturating_sub(2),
                2..=4 => needed.saturating_sub(1),
                5..=9 => needed,
                _ => needed + 1,
            }
        }
        95..=96 => r.index(48),
        97 => r.index(4),
        _ => 65_536 + r.index(3),
    };
    let asked = work_asked(&book, places);
    let work = match r.below(100) {
        0..=3 => Some(asked),
        4..=5 => Some(asked - 1),
        6 => Some(r.below(asked + 100)),
        _ => None,
    };
    BookItem { bytes, places, work }
}

/// The fewest places with which the book is not refused with 12.
pub fn needed(bytes: &[u8]) -> usize {
    if let Some(nodes) = nodes(&plain::book(bytes, PLENTY, None)) {
        return nodes;
    }
    let (mut low, mut high) = (0, 64);
    while low < high {
        let middle = (low + high) / 2;
        if plain::book(bytes, middle, None) == b"refused 12\n" {
            low = middle + 1;
        } else {
            high = middle;
        }
    }
    low
}

/// The node count of a listing, if it is one.
pub(crate) fn nodes(listing: &[u8]) -> Option<usize> {
    let digits = listing.strip_prefix(b"nodes ")?;
    let size = digits.iter().take_while(|byte| byte.is_ascii_digit()).count();
    std::str::from_utf8(&digits[..size]).ok()?.parse().ok()
}

/// A ring with many turns: the waiting runs' entries outgrow the table before its nodes do.
fn waiting(r: &mut Random) -> BookItem {
    let turns = r.between(6, 15) as usize;
    let book = limits::turns(turns);
    let entries = turns * (turns - 1) / 2;
    let places = match r.below(4) {
        0 => entries,
        1 => entries.saturating_sub(1),
        2 => r.between(2 * turns as u64, 6 * turns as u64 + 10) as usize,
        _ => 65_535,
    };
    BookItem { bytes: book.bytes(), places, work: None }
}

#[cfg(test)]
mod tests {
    use super::*;

    #[test]
    fn hostile_books_are_mostly_accepted() {
        let books = (0..1_000).map(|number| hostile(&mut Random::new(1, number)).bytes());
        let accepted = books.filter(|bytes| nodes(&plain::book(bytes, PLENTY, None)).is_some()).count();
        assert!(accepted > 700, "{accepted} of 1,000");
    }
}
