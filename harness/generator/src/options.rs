//! Books for the options search: previous pointers of every shape, origins and destinations anywhere. One leg of one
//! sample lets rows 1 to 7 pass; whether the book could grow is left open.

use crate::book::{work_asked, Book, Leg, Link, Origin};
use crate::books::BookItem;
use crate::damage::damaged;
use crate::networks::{renumber, Network};
use crate::random::Random;

/// The most origins and destinations that a book may have (row 3).
const MOST: usize = 1_000;

/// Item `number` of a seed.
pub fn options(seed: u64, number: u64) -> BookItem {
    let r = &mut Random::new(seed, number ^ 1 << 45);
    let count = match r.below(300) {
        0 => r.between(1_500, 6_000),
        1..=9 => 2,
        _ => r.between(2, 30),
    };
    let mut net = Network { links: links(r, count as usize), origins: vec![], destinations: vec![] };
    destine(r, &mut net);
    originate(r, &mut net);
    if r.chance(50) {
        renumber(r, &mut net);
    }
    arrange(r, &mut net.origins);
    let book = book(r, net);
    let bytes = if r.chance(7) { damaged(r, &book) } else { book.bytes() };
    with_room(r, &book, bytes)
}

/// The book of a network, with a leg over any link.
fn book(r: &mut Random, net: Network) -> Book {
    let departure = r.pick(&[0.0, 0.0, 1.0, 1e9]);
    let leg = Leg { link: real(r, net.links.len()), parent: 0, samples: vec![[departure, 10.0, 0.0]] };
    Book {
        gap: 1.0,
        departure,
        length: 10.0,
        links: net.links,
        origins: net.origins.into_iter().map(|link| Origin { link, ..Origin::default() }).collect(),
        destinations: net.destinations,
        legs: vec![leg],
    }
}

/// Few places in most cases, since the work space grows with them; sometimes just as much of it as row 3 asks for.
fn with_room(r: &mut Random, book: &Book, bytes: Vec<u8>) -> BookItem {
    let places = match r.below(200) {
        0 => 65_536 + r.index(3),
        1 => 65_535,
        2..=20 => 192,
        _ => r.index(40),
    };
    let asked = work_asked(book, places);
    let work = match r.below(100) {
        0..=7 => Some(asked),
        8..=9 => Some(asked - 1),
        10 => Some(r.below(asked + 100)),
        _ => None,
    };
    BookItem { bytes, places, work }
}

/// A link other than 0.
fn real(r: &mut Random, count: usize) -> u32 {
    1 + r.index(count - 1) as u32
}

/// So many links with link 0, and what each has before and behind it.
fn links(r: &mut Random, count: usize) -> Vec<Link> {
    let mut links = vec![Link { length: 12.0, ..Link::default() }; count];
    links[0] = Link::default();
    match r.weighted(&[18, 10, 26, 16, 14, 16]) {
        0 => lead_back(&mut links, |own| [r.index(own), if r.chance(40) { r.index(own) } else { 0 }]),
        1 => lead_back(&mut links, |own| [own - 1, if r.one_in(4) { r.index(own) } else { 0 }]),
        2 => circles(r, &mut links),
        3 => star(r, &mut links),
        4 => lead_back(&mut links, |_| [r.index(count), r.index(count)]),
        _ => lead_back(&mut links, |own| [2 * own, 2 * own + 1].map(|to| if to < count { to } else { 0 })),
    }
    let share = r.pick(&[0, 0, 10, 30]);
    for own in 1..count as u32 {
        if r.chance(share) {
            let other = real(r, count);
            change(r, &mut links[own as usize], own, other);
        }
        lead_on(r, &mut links, own as usize);
    }
    links
}

/// Previous and previous alternative of each link by its number.
fn lead_back(links: &mut [Link], mut way: impl FnMut(usize) -> [usize; 2]) {
    for (own, link) in links.iter_mut().enumerate().skip(1) {
        [link.prev, link.prev_alt] = way(own).map(|to| to as u32);
    }
}

/// The previous pointers go round in circles; an alternative leads anywhere, or where the previous does.
fn circles(r: &mut Random, links: &mut [Link]) {
    let count = links.len();
    let mut first = 1;
    while first < count {
        let any = 1 + r.index(12);
        let length = r.pick(&[1, 2, any, any, any, count]).min(count - first);
        for own in first..first + length {
            let prev = first + (own + 1 - first) % length;
            let prev_alt = [0, prev, r.index(count)][r.weighted(&[45, 5, 50])];
            (links[own].prev, links[own].prev_alt) = (prev as u32, prev_alt as u32);
        }
        first += length;
    }
}

/// Nearly all links share one previous.
fn star(r: &mut Random, links: &mut [Link]) {
    let count = links.len();
    let middle = r.between(1, count as u64 - 1) as usize;
    lead_back(links, |own| match own {
        _ if own == middle || r.one_in(10) => [r.index(count), r.index(count)],
        _ => [middle, if r.one_in(5) { r.index(count) } else { 0 }],
    });
}

/// One of the forms that the shapes seldom have.
fn change(r: &mut Random, link: &mut Link, own: u32, other: u32) {
    match r.below(6) {
        0 => link.prev = own,
        1 => link.prev_alt = own,
        2 => link.prev_alt = link.prev,
        3 | 4 => (link.prev, link.prev_alt) = (0, other),
        _ => link.prev = 0,
    }
}

/// Next and next alternative anywhere: the search looks at neither.
fn lead_on(r: &mut Random, links: &mut [Link], own: usize) {
    let [next, next_alt] = [r.index(links.len()) as u32, r.index(links.len()) as u32];
    links[own].next = next;
    links[own].next_alt = if next_alt == next { 0 } else { next_alt };
}

/// Of some links the one with the longest way back, as far as 40 links.
fn far(r: &mut Random, links: &[Link]) -> u32 {
    let previous = |own: &u32| Some(links[*own as usize].prev).filter(|prev| *prev != 0);
    let way = |own: &u32| std::iter::successors(Some(*own), previous).take(40).count();
    let drawn = [real(r, links.len()), real(r, links.len()), real(r, links.len())];
    drawn.into_iter().max_by_key(way).unwrap()
}

/// Destinations: one, some, as many as links, all links, one again and again, 1,000; link 0 among them now and then.
fn destine(r: &mut Random, net: &mut Network) {
    let count = net.links.len();
    let many = match r.below(100) {
        _ if count > MOST => MOST,
        0..=39 => 1,
        40..=74 => r.between(2, 6) as usize,
        75..=98 => count,
        _ => MOST,
    };
    let one = far(r, &net.links);
    net.destinations = match r.below(6) {
        0 => vec![one; many],
        1 => (0..many).map(|row| 1 + (row % (count - 1)) as u32).collect(),
        2 => (0..many).map(|_| real(r, count)).collect(),
        _ => (0..many).map(|_| far(r, &net.links)).collect(),
    };
    if r.one_in(20) {
        let row = r.index(many);
        net.destinations[row] = 0;
    }
}

/// Origins: one, some, half of the links or all, those without a previous, those of destinations; mostly with some that
/// destinations lead back to; link 0 among them now and then. Where there are links enough they are 1,000.
fn originate(r: &mut Random, net: &mut Network) {
    let mut origins = chosen(r, net);
    if origins.is_empty() || r.chance(60) {
        origins.extend((0..r.between(1, 5)).map(|_| behind(r, net)));
    }
    if r.one_in(8) {
        origins.push(0);
    }
    if net.links.len() > MOST {
        origins.extend((0..2 * MOST).map(|_| real(r, net.links.len())));
    }
    origins.sort_unstable();
    origins.dedup();
    while origins.len() > MOST {
        let row = r.index(origins.len());
        origins.swap_remove(row);
    }
    net.origins = origins;
}

fn chosen(r: &mut Random, net: &Network) -> Vec<u32> {
    let all = 0..net.links.len() as u32;
    let some = |r: &mut Random, share: u64| all.clone().filter(|_| r.chance(share)).collect();
    match r.weighted(&[20, 40, 6, 4, 24, 6]) {
        0 => vec![],
        1 => some(r, 15),
        2 => some(r, 50),
        3 => all.collect(),
        4 => all.skip(1).filter(|link| net.links[*link as usize].prev == 0).collect(),
        _ => net.destinations.iter().copied().filter(|_| r.chance(60)).collect(),
    }
}

/// A link that a destination leads back to.
fn behind(r: &mut Random, net: &Network) -> u32 {
    let mut at = r.pick(&net.destinations);
    for _ in 0..r.between(1, net.links.len() as u64) {
        let Link { prev, prev_alt, .. } = net.links[at as usize];
        if prev == 0 {
            break;
        }
        at = if prev_alt != 0 && r.chance(50) { prev_alt } else { prev };
    }
    at
}

/// Rising, falling or in any order.
fn arrange(r: &mut Random, origins: &mut [u32]) {
    origins.sort_unstable();
    match r.below(6) {
        0 => {}
        1 => origins.reverse(),
        _ => (1..origins.len()).for_each(|row| origins.swap(row, r.index(row + 1))),
    }
}
