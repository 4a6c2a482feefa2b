//! Books that are small for the work they ask for: each is named after the counts whose product grows.
//!
//! What they share: a run's `next` leads to the goal, where it ends, and its next alternative to one more leg without
//! an event, behind which the same choice is met again. So runs of any number leave one place with the same list, while
//! only one of them waits at a time. The link of these legs follows itself, and the last of such runs joins in it.

use crate::book::{Book, Link};
use crate::random::Random;
use crate::writer::{link, origins, Writer};

/// The speed at which runs join, one at which they don't, and the first of those that runs have for themselves.
const EVEN: f64 = 1.0;
const OTHER: f64 = 2.0;
const OWN: f64 = 3.0;

/// Links of every book here: the goal, where runs finish, and the one that follows itself.
const GOAL: usize = 1;
const AGAIN: usize = 2;

/// How far the front goes, and at which speed.
type Piece = (f64, f64);

/// A book under way; each speed is what `speed` makes of it.
struct Ways<S> {
    book: Writer,
    speed: S,
}

impl<S: FnMut(f64) -> f64> Ways<S> {
    /// No legs yet. The origins are the links from `first` on. They are destinations too: so each is kept, whatever
    /// leads to it, and they run in this order.
    fn new(length: f64, links: Vec<Link>, first: usize, speed: S) -> Ways<S> {
        let starts = first..links.len();
        let destinations = starts.clone().chain([GOAL]).map(|link| link as u32).collect();
        let origins = origins(starts);
        let book = Writer(Book { gap: 0.5, length, links, origins, destinations, ..Book::default() });
        Ways { book, speed }
    }

    /// The leg of an origin, where the train stands.
    fn start(&mut self, link: usize) -> usize {
        let length = self.book.0.length;
        self.book.leg(link, 0, &[[0.0, length, EVEN]])
    }

    /// A leg without an event.
    fn stand(&mut self, link: usize, parent: usize) -> usize {
        self.book.leg(link, parent, &[])
    }

    /// A leg on which the front goes on, piece by piece.
    fn go(&mut self, link: usize, parent: usize, pieces: &[Piece]) -> usize {
        let [mut time, mut from, mut before] = *self.book.0.legs[parent - 1].samples.last().unwrap();
        let mut samples = vec![];
        for &(offset, speed) in pieces {
            let speed = (self.speed)(speed);
            if speed != before {
                time += 1.0;
                samples.push([time, from, speed]);
            }
            time += (offset - from) / speed;
            samples.push([time, offset, speed]);
            (from, before) = (offset, speed);
        }
        self.book.leg(link, parent, &samples)
    }

    /// Runs that leave one place behind a leg, each with the pieces of its own speed, and one that ends in `AGAIN`.
    fn fan(&mut self, parent: usize, runs: usize, pieces: impl Fn(f64) -> Vec<Piece>, last: &[Piece]) {
        let mut at = parent;
        for run in 0..runs {
            at = self.stand(AGAIN, at);
            self.go(GOAL, at, &pieces(OWN + run as f64));
        }
        self.go(AGAIN, at, last);
    }

    /// A run that finishes, from its place in front of the Clear of the link before `AGAIN` on, which is at `clear`;
    /// that link is a metre longer than the train. The run saved in `AGAIN` joins it.
    fn finish(&mut self, parent: usize, clear: f64) {
        let end = clear + self.book.0.length + 1.5;
        let at = self.stand(AGAIN, parent);
        self.go(GOAL, at, &[(end, EVEN)]);
        self.go(AGAIN, at, &[(clear + 1.25, OTHER), (end, EVEN)]);
    }
}

/// How many there are of what `equal_entries` is made of.
#[derive(Clone, Copy)]
pub struct Equal {
    /// Nodes that the entries name in turns; 1: the entries are all equal.
    pub turns: usize,
    /// Runs that join these nodes.
    pub joined: usize,
    /// Runs that have split at these nodes, all together.
    pub split: usize,
    /// Runs saved with the list.
    pub saved: usize,
    /// Whether the first of these nodes leads to two nodes with the event that the runs look for, so that each entry
    /// gives two; else to one.
    pub is_doubled: bool,
}

/// The smallest of them.
const ONE: Equal = Equal { turns: 1, joined: 0, split: 0, saved: 0, is_doubled: false };

/// A list of `turns + joined` entries (0, S), S one of `turns` Clears, each with `split / turns` next alternatives.
/// `saved` runs have it, and look through it at their second event: `(turns + joined) * split / turns * saved` nexts.
/// There are about `7 * joined + 3 * split + 3 * saved` nodes.
pub fn equal_entries(of: Equal) -> Book {
    equal_entries_at(of, |speed| speed)
}

/// The links of `equal_entries` behind `AGAIN`; behind them the origins.
const BEFORE: usize = 3;
const SHORT: usize = 4;
const MATCH: usize = 5;
const FIRST: usize = 6;

/// The same with speeds to choose. Each run passes `FIRST` and then `MATCH`, whose Arrive lets it append what has
/// arrived there before, whose Clear it joins or adds. `MATCH` leads to `BEFORE`, or over `SHORT` to it.
pub fn equal_entries_at(of: Equal, speed: impl FnMut(f64) -> f64) -> Book {
    let mut links = vec![Link::default(), link(9.0, 0, 0, AGAIN), link(9.0, GOAL, AGAIN, BEFORE)];
    links.push(link(2.0, AGAIN, 0, SHORT));
    links.push(link(0.5, BEFORE, 0, MATCH));
    links.push(link(2.0, BEFORE, SHORT, FIRST));
    links.push(link(2.0, MATCH, 0, 0));
    let start = links.len();
    let ways = of.turns + of.joined + 1;
    links.resize(start + ways, link(2.0, FIRST, 0, 0));
    let mut made = Ways::new(1.0, links, start, speed);
    for way in 0..ways {
        let kind = if way + 1 == ways { of.turns } else { way % of.turns };
        let clear = OTHER + kind as f64;
        let at = made.start(start + way);
        let at = made.go(FIRST, at, &[(3.5, clear)]);
        let at = made.go(MATCH, at, &[(5.5, clear)]);
        if way < of.turns {
            split(&mut made, at, of, way == 0);
        } else if way + 1 == ways {
            made.go(BEFORE, at, &[(6.5, EVEN)]);
            short(&mut made, at, of.saved, |own| vec![(6.25, own), (6.75, EVEN)], false);
        }
    }
    made.book.0
}

/// A run that has added its Clear of `MATCH`: it goes on, and others leave that place over `SHORT`, an event each.
fn split<S: FnMut(f64) -> f64>(ways: &mut Ways<S>, parent: usize, of: Equal, is_first: bool) {
    let stands = is_first && of.is_doubled;
    let at = if stands { ways.stand(BEFORE, parent) } else { ways.go(BEFORE, parent, &[(6.5, EVEN)]) };
    if is_first {
        ways.finish(at, 7.0);
    }
    short(ways, parent, of.split / of.turns, |own| vec![(6.25, own)], is_first);
}

/// Runs over `SHORT`. The last of them joins at the Arrive of `BEFORE`; the first origin's has no list, and joins at
/// the Clear.
fn short<S: FnMut(f64) -> f64>(
    ways: &mut Ways<S>,
    parent: usize,
    runs: usize,
    pieces: impl Fn(f64) -> Vec<Piece>,
    is_first: bool,
) {
    let at = ways.stand(SHORT, parent);
    let at = ways.stand(BEFORE, at);
    let own = OWN + runs as f64;
    let joins = if is_first { vec![(6.25, own), (7.25, OTHER), (8.0, EVEN)] } else { vec![(6.25, own), (6.75, EVEN)] };
    ways.fan(at, runs, pieces, &joins);
}

/// Speeds that the runs of a place have for themselves, rising or falling: each run is sooner than the one before, or
/// later.
fn ordered(runs: usize, is_sooner: bool) -> impl FnMut(f64) -> f64 {
    let both = OWN + OWN + runs as f64;
    move |speed| if is_sooner || speed < OWN { speed } else { both - speed }
}

/// So many runs join one target one after the other: each seeks the end of its previous alternatives, and before that
/// splits behind all runs before it. `n * n / 2` of each, `3 * n` nodes. If each is sooner than the one before, the
/// forward pass walks over all Fakes that are left for each.
pub fn chain_ends(n: usize, is_sooner: bool) -> Book {
    equal_entries_at(Equal { saved: n, ..ONE }, ordered(n, is_sooner))
}

/// So many runs split one after the other at one node and finish: `n * n / 2` next alternatives, `3 * n` nodes. The
/// backward pass walks over Fakes that are left, by the order of their times.
pub fn splits_at_one_place(n: usize, is_sooner: bool) -> Book {
    equal_entries_at(Equal { split: n, ..ONE }, ordered(n, is_sooner))
}

/// `saved` runs are saved and taken up with `joined` entries each: as many copies as the product, twice. There are
/// `7 * joined + 3 * saved` nodes. Before that each run that joins walks the Fakes of those before it for each of them:
/// a sixth of the cube of `joined`.
pub fn saved_lists(joined: usize, saved: usize) -> Book {
    equal_entries(Equal { joined, saved, ..ONE })
}

/// How many there are of what `shared_strands` is made of.
#[derive(Clone, Copy)]
pub struct Shared {
    /// Tails, in which the strands end in turns, at least 1.
    pub turns: usize,
    /// Clears that a tail has, at least 1.
    pub tail: usize,
    /// How long each of their links is, in metres.
    pub metres: usize,
    /// Runs with an Arrive of their own that join in front of a tail, at least 1.
    pub entries: usize,
    /// Links that the later run passes before it arrives where those have, at least 1.
    pub before: usize,
    /// Runs saved with the list, and one that is not.
    pub saved: usize,
    /// Whether an Arrive stands in front of each tail: then the entries are led to it, and are equal or come in turns.
    pub is_met: bool,
    /// Whether another run has split in front of the tail and clears it too, so that each strand has two ends.
    pub is_branched: bool,
}

/// A list of `entries + turns` entries (m, e), m not 0, whose strands meet in a tail of Clears. `saved` runs have it,
/// and walk all strands at their second event: `entries * (tail + entries / 2) * saved` nexts. There are about
/// `(2 * turns + 1) * tail + 4 * entries + 3 * saved` nodes. With one tail the longest walk reads `tail + entries + 2`
/// nexts.
pub fn shared_strands(of: Shared) -> Book {
    shared_strands_at(of, |speed| speed)
}

/// The links of `shared_strands` behind `AGAIN`; behind them the tail's, those before, and the origins.
const BEHIND: usize = 3;
const WHERE: usize = 4;
const CLEARED: usize = 5;
const COMMON: usize = 6;
const TAIL: usize = 7;

/// The same with speeds to choose. Runs pass `CLEARED`, `COMMON` and the tail's links, then arrive at `WHERE`: `turns`
/// runs that clear them at speeds of their own, then `entries` that leave one place and join those at the Clear of
/// `COMMON`. The last run comes over other links to `WHERE`.
pub fn shared_strands_at(of: Shared, speed: impl FnMut(f64) -> f64) -> Book {
    let links = shared_links(of);
    let train = (of.tail * of.metres) as f64 + 2.5;
    let start = links.len() - of.turns - 2;
    let mut made = Ways::new(train, links, start, speed);
    let common = train + 3.0;
    let place = common + train - 1.5;
    let even = |turn: usize| if turn == 0 { EVEN } else { OTHER + turn as f64 };
    for way in 0..=of.turns {
        let mut at = made.start(start + way);
        at = made.go(CLEARED, at, &[(train + 1.5, EVEN)]);
        at = made.go(COMMON, at, &[(common + 0.25, EVEN)]);
        for k in 0..of.tail {
            at = made.go(TAIL + k, at, &[(common + (k * of.metres) as f64 + 1.25, EVEN)]);
        }
        if way < of.turns {
            let end = place + made.book.0.links[WHERE].length;
            let stops = if of.is_branched { [place + 1.75, end + 0.25] } else { [end - 0.25, end + train - 0.25] };
            at = made.go(WHERE, at, &[(stops[0], even(way))]);
            let stands = of.is_branched && !of.is_met;
            at = if stands { made.stand(BEHIND, at) } else { made.go(BEHIND, at, &[(stops[1], even(way))]) };
            made.finish(at, end + train);
        } else {
            at = made.stand(WHERE, at);
            at = made.stand(BEHIND, at);
            let turn = |own| (own - OWN) as usize % of.turns;
            let pieces = |own| vec![(place - 0.25, own), (place + 1.0, OTHER), (place + 1.75, even(turn(own)))];
            made.fan(at, of.entries - 1, pieces, &pieces(OWN + of.entries as f64 - 1.0));
        }
    }
    later(&mut made, of, start + of.turns + 1);
    made.book.0
}

/// The last run of `shared_strands`: its list is made at the Arrive of `WHERE`, or follows to that of `BEHIND`. Each
/// run saved has a Clear at its own speed, then those that are left and that of `WHERE`.
fn later<S: FnMut(f64) -> f64>(made: &mut Ways<S>, of: Shared, start: usize) {
    let train = made.book.0.length;
    let mut at = made.start(start);
    for k in 0..of.before {
        at = made.go(TAIL + of.tail + k, at, &[(train + k as f64 + 1.25, EVEN)]);
    }
    let here = train + 1.0 + of.before as f64;
    at = made.go(WHERE, at, &[(here + 0.25, EVEN)]);
    at = if of.is_met { made.go(BEHIND, at, &[(here + 2.25, EVEN)]) } else { made.stand(BEHIND, at) };
    let pieces = |own| vec![(here + train - 0.75, own), (here + train + 0.25, EVEN)];
    made.fan(at, of.saved, pieces, &pieces(OWN + of.saved as f64));
}

/// The links of `shared_strands`.
fn shared_links(of: Shared) -> Vec<Link> {
    let train = (of.tail * of.metres) as f64 + 2.5;
    let (own, other) = (TAIL + of.tail, TAIL + of.tail + of.before);
    let mut links = vec![Link::default(), link(9.0, 0, 0, AGAIN), link(2.0 * train, GOAL, AGAIN, BEHIND)];
    links.push(link(train + 1.0, AGAIN, 0, WHERE));
    links.push(link(if of.is_met { 2.0 } else { train + 2.0 }, BEHIND, 0, own - 1));
    links[WHERE].prev_alt = other as u32 - 1;
    links.push(link(2.0, COMMON, 0, 0));
    links.push(link(1.0, TAIL, 0, CLEARED));
    for at in TAIL..other {
        let next = if at + 1 == own || at + 1 == other { WHERE } else { at + 1 };
        let length = if at < own { of.metres as f64 } else { 1.0 };
        links.push(link(length, next, 0, if at == own { 0 } else { at - 1 }));
    }
    links.resize(other + of.turns + 1, link(train + 1.0, CLEARED, 0, 0));
    links.push(link(train + 1.0, own, 0, 0));
    links
}

/// `runs` runs clear `events` links each while their list has `entries` entries that they keep: the product of all
/// three, and about `events * (runs + 1) + 4 * entries` nodes.
pub fn long_lists(entries: usize, events: usize, runs: usize) -> Book {
    shared_strands(Shared {
        turns: 1,
        tail: 1,
        metres: events + 1,
        entries,
        before: events,
        saved: runs - 1,
        is_met: false,
        is_branched: false,
    })
}

/// So many runs move over the Arrives of so many links that another run has added: their product of events, and
/// `links + 3 * runs` nodes.
pub fn moved_over(count: usize, runs: usize) -> Book {
    moved_over_at(count, runs, |speed| speed)
}

/// The same with speeds to choose.
fn moved_over_at(count: usize, runs: usize, speed: impl FnMut(f64) -> f64) -> Book {
    let first = 2 + count;
    let last = first + runs - 1;
    let train = count as f64 + 2.0;
    let mut links = vec![Link::default(), link(9.0, 0, 0, last)];
    for at in 2..=last {
        let next_alt = if at < first || at == last { 0 } else { at + 1 };
        let next = if at < first { at + 1 } else { GOAL };
        links.push(link(1.0, next, next_alt, if at == 2 { 0 } else { at - 1 }));
    }
    links.push(link(train + 1.0, 2, 0, 0));
    let mut made = Ways::new(train, links, last + 1, speed);
    let mut at = made.start(last + 1);
    for link in 2..first {
        at = made.stand(link, at);
    }
    for run in 0..runs {
        at = made.stand(first + run, at);
        let end = train + 1.0 + count as f64;
        made.go(GOAL, at, &[(end - 0.25, EVEN), (end + 0.5, OWN + run as f64)]);
    }
    made.book.0
}

/// So many runs join at their second event, in a leg that has `2 * count` events more, which are looked at for row 11:
/// `2 * count * runs` events, `3 * runs` nodes and `2 * count + 2 * runs` legs. There are at least 2 links.
pub fn events_left(count: usize, runs: usize) -> Book {
    events_left_at(count, runs, |speed| speed)
}

/// The links of `events_left` behind `AGAIN`; behind them the other links left, and two origins. One leads to `PLACE`,
/// the other over `WAY` to it.
const PLACE: usize = 3;
const WAY: usize = 4;
const LEFT: usize = 5;

/// The links of `events_left`.
fn links_left(count: usize) -> Vec<Link> {
    let start = LEFT + count;
    let mut links = vec![Link::default(), link(9.0, 0, 0, AGAIN), link(9.0, GOAL, AGAIN, start - 1)];
    links.push(link(2.0, LEFT, 0, WAY));
    links.push(link(0.5, PLACE, 0, 0));
    for at in LEFT..start {
        let next = if at + 1 == start { AGAIN } else { at + 1 };
        links.push(link(2.0, next, 0, if at == LEFT { PLACE } else { at - 1 }));
    }
    links.push(link(2.0, PLACE, 0, 0));
    links.push(link(2.0, WAY, 0, 0));
    links
}

/// The same with speeds to choose.
fn events_left_at(count: usize, runs: usize, speed: impl FnMut(f64) -> f64) -> Book {
    let start = LEFT + count;
    let mut made = Ways::new(1.0, links_left(count), start, speed);
    let first = made.start(start);
    let first = made.go(PLACE, first, &[(3.5, EVEN)]);
    let first = made.go(LEFT, first, &[(4.5, EVEN)]);
    let first = (LEFT + 1..start).fold(first, |at, link| made.stand(link, at));
    made.finish(first, 5.0);
    let other = made.start(start + 1);
    let other = made.go(WAY, other, &[(2.25, EVEN)]);
    let other = made.go(PLACE, other, &[(2.75, EVEN)]);
    let other = (LEFT..start).fold(other, |at, link| made.stand(link, at));
    let pieces = |own| vec![(3.25, own), (4.25 + 2.0 * count as f64, EVEN)];
    made.fan(other, runs, pieces, &pieces(OWN + runs as f64));
    made.book.0
}

/// So many legs in a chain, and so many destinations that each leg's link is compared with: their product, and 7 nodes.
/// There are at least 3 legs.
pub fn destinations(legs: usize, count: usize) -> Book {
    let last = legs - 1;
    let mut links = vec![Link::default(), link(9.0, 0, 0, last)];
    for at in 2..=last {
        links.push(link(9.0, if at == last { GOAL } else { at + 1 }, 0, if at == 2 { 0 } else { at - 1 }));
    }
    links.push(link(9.0, 2, 0, 0));
    let mut made = Ways::new(1.0, links, last + 1, |speed| speed);
    made.book.0.destinations.resize(count, GOAL as u32);
    let first = made.start(last + 1);
    let at = (2..=last).fold(first, |at, link| made.stand(link, at));
    made.go(GOAL, at, &[(9.5, EVEN)]);
    made.book.0
}

/// One of these books at a small size. Some speeds are others than at full size, so that some runs join that would
/// not, and some don't that would; then legs may be missing.
pub fn small(r: &mut Random) -> Book {
    let most = if r.one_in(3) { 12 } else { 5 };
    let [a, b, c, d] = [(); 4].map(|()| r.between(1, most) as usize);
    let kind = r.weighted(&[50, 30, 8, 4, 4, 4]);
    let (is_met, is_doubled, is_branched) = (r.chance(50), r.chance(30), r.chance(30));
    let turns = r.pick(&[1, 1, 2, 2, 3, 4]);
    let mut drawn = Random::new(r.bits(), 0);
    let others = r.pick(&[0, 0, 0, 2, 5, 15]);
    let speed = |speed: f64| match drawn.chance(others) {
        false => speed,
        true => drawn.pick(&[EVEN, EVEN, OTHER, OWN, speed + 0.25, speed + 1.0]),
    };
    let mut book = match kind {
        0 => equal_entries_at(Equal { turns, joined: a, split: b, saved: c, is_doubled }, speed),
        1 => {
            let before = d.min(a);
            let of = Shared { turns, tail: a, metres: 1, entries: b, before, saved: c, is_met, is_branched };
            shared_strands_at(of, speed)
        }
        2 => moved_over_at(a, b, speed),
        3 => events_left_at(a + 1, b, speed),
        4 => long_lists(a, b, c),
        _ => destinations(a + 2, b),
    };
    book.gap = r.pick(&[0.25, 0.5, 0.5, 0.5, 0.5, 0.5, 1.0, 1.0, 1.0, 1.5]);
    book
}

#[cfg(test)]
mod tests {
    use super::*;

    /// The counts of a listing: nodes, added, splits, joined and finished.
    fn counts(book: &Book) -> Vec<usize> {
        let answer = String::from_utf8(plain::book(&book.bytes(), 65_535, None)).unwrap();
        let head = answer.lines().next().unwrap();
        head.split(' ').filter_map(|word| word.parse().ok()).collect()
    }

    #[test]
    fn equal_entries_have_their_runs() {
        for (turns, joined, split, saved) in [(1, 0, 0, 0), (1, 5, 4, 6), (2, 3, 8, 2), (3, 7, 6, 5)] {
            for is_doubled in [false, true] {
                let counts = counts(&equal_entries(Equal { turns, joined, split, saved, is_doubled }));
                let nodes = 23 + 11 * turns + 7 * joined + 3 * split + 3 * saved + is_doubled as usize;
                assert_eq!((counts[0], counts[3]), (nodes, joined + 2 * turns + saved + 2), "{turns} in turns");
                assert_eq!(counts[4], split + 1);
            }
        }
    }

    #[test]
    fn strands_have_their_runs() {
        let is_branched = false;
        for (turns, tail, entries, saved) in [(1, 1, 1, 0), (1, 5, 4, 6), (2, 5, 4, 6), (3, 4, 7, 5)] {
            for is_met in [false, true] {
                let of = Shared { turns, tail, metres: 1, entries, before: 1, saved, is_met, is_branched };
                let counts = counts(&shared_strands(of));
                let nodes = 16 + 15 * turns + (2 * turns + 1) * tail + 4 * entries + 3 * saved + is_met as usize;
                assert_eq!((counts[0], counts[3]), (nodes, 2 * turns - 1 + entries + saved + 1));
            }
        }
    }

    #[test]
    fn branched_strands_have_a_tail_more() {
        let is_branched = true;
        for (tail, entries, saved) in [(1, 1, 0), (5, 4, 6), (4, 7, 5)] {
            for is_met in [false, true] {
                let of = Shared { turns: 1, tail, metres: 1, entries, before: 1, saved, is_met, is_branched };
                let counts = counts(&shared_strands(of));
                assert_eq!((counts[0], counts[3]), (33 + 4 * tail + 4 * entries + 3 * saved, 2 + entries + saved));
            }
        }
    }

    #[test]
    fn others_have_their_nodes() {
        let books = [
            (chain_ends(5, false), 49),
            (chain_ends(5, true), 49),
            (splits_at_one_place(5, false), 49),
            (splits_at_one_place(5, true), 49),
            (saved_lists(5, 6), 87),
            (long_lists(5, 6, 2), 72),
            (moved_over(6, 5), 25),
            (events_left(6, 5), 38),
            (destinations(6, 5), 7),
        ];
        for (number, (book, nodes)) in books.iter().enumerate() {
            assert_eq!(counts(book)[0], *nodes, "book {number}");
        }
    }
}
