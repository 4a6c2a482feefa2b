//! Single books on each limit of rows 3 and 12, from both sides; trains that stand on points; the options search at the
//! largest counts.

use crate::book::{work_asked, Book, Leg, Link};
use crate::books::BookItem;
use crate::hostile::{self, Equal, Shared};
use crate::random::Random;
use crate::writer::{link, origins, Writer};
use crate::{events, tables};

/// A named case, with the answer that its construction leads one to expect (how it begins).
pub struct Limit {
    /// What kind of item it is: books, tables or events.
    pub kind: &'static str,
    pub name: String,
    pub item: BookItem,
    pub expected: &'static str,
    /// Whether it takes more than a moment.
    pub is_slow: bool,
    /// Whether a train stands on a point, so that the reference has no answer (document 02, Ask 1).
    pub stands: bool,
}

/// The book of document 01.
pub fn example() -> Book {
    let mut book = Writer(Book {
        gap: 1.0,
        length: 10.0,
        links: vec![Link::default(), link(12.0, 2, 0, 0), link(100.0, 0, 0, 1)],
        origins: origins(1..2),
        destinations: vec![2],
        ..Book::default()
    });
    book.leg(1, 0, &[[0.0, 10.0, 0.0]]);
    book.leg(2, 1, &[[4.0, 18.0, 4.0], [8.0, 34.0, 4.0]]);
    book.0
}

/// A link that follows itself, taken `turns` times at speeds of their own, then once more at the
/// first speed, which joins. Each turn lets an alternative wait; turn i leaves it i − 1 entries,
/// `turns · (turns − 1) / 2` in all, while there are only `5 · turns + 7` nodes.
pub fn turns(turns: usize) -> Book {
    let mut book = Writer(Book {
        gap: 0.5,
        length: 1.0,
        links: vec![Link::default(), link(10.0, 2, 0, 0), link(10.0, 2, 3, 1), link(10.0, 0, 0, 2)],
        origins: origins(1..2),
        destinations: vec![3],
        ..Book::default()
    });
    let mut at = book.leg(1, 0, &[[0.0, 1.0, 1.0]]);
    for turn in 1..=turns {
        at = book.run(2, at, 10.0 * turn as f64 + 5.0, turn as f64);
        book.run(3, at, 10.0 * turn as f64 + 10.5, turn as f64);
    }
    book.run(2, at, 10.0 * turns as f64 + 15.0, 1.0);
    book.0
}

/// A link that follows itself, under a train that clears nothing; J is 0. At its n-th Arrive the
/// run appends n − 1 nodes. There is no way out: the book ends with 10, or with 12 at a list.
pub fn arrivals(turns: usize) -> Book {
    let mut book = Writer(Book {
        length: 1e6,
        links: vec![Link::default(), link(10.0, 2, 0, 0), link(1.0, 2, 0, 1), link(10.0, 0, 0, 2)],
        origins: origins(1..2),
        destinations: vec![3],
        ..Book::default()
    });
    let mut at = book.leg(1, 0, &[[0.0, 9.0, 1.0]]);
    for turn in 0..turns {
        at = book.run(2, at, 10.5 + turn as f64, 1.0);
    }
    book.0
}

/// How long the train of a fan is, and where it clears its first link.
const TRAIN: f64 = 1_000.0;
pub const FIRST_CLEAR: f64 = 2.0 * TRAIN + 1.0;

/// A train passes `short` links of length 1 and stands in a long link while its path goes on over
/// `runs - 1` links more; the destination is an alternative to each. So `runs` runs leave one
/// node, each at a speed of its own, and clear the short links and the long one: `runs` strands of
/// `short + 1` nexts. With `is_met`, another way from the origin arrives at the long link later and
/// clears it: its entry's walk reads `runs * (short + 1)` nexts and gives `runs` entries, of which
/// one is joined. Without, there are `5 + short + runs * (short + 3)` nodes.
pub fn strands(short: usize, runs: usize, is_met: bool) -> Book {
    fan(short, runs, is_met, |run| run.max(1) as f64)
}

/// The same with speeds to choose: of runs 1, 2, .. and, as 0, of the other way.
pub fn fan(short: usize, runs: usize, is_met: bool, mut speed: impl FnMut(usize) -> f64) -> Book {
    let train = TRAIN;
    let long = short + 2;
    let goal = long + runs;
    let other = goal + 1;
    let mut links = vec![Link::default(), link(train + 1.0, 2, if is_met { other } else { 0 }, 0)];
    for at in 2..goal {
        let length = if at == long { 10.0 * train } else { 1.0 };
        let next_alt = if at < long || at + 1 == goal { 0 } else { goal };
        links.push(link(length, at + 1, next_alt, at - 1));
    }
    links.push(link(1.0, 0, 0, goal - 1));
    links.push(link(1.0, long, 0, 1));
    links[long].prev_alt = other as u32;
    let mut book = Writer(Book {
        gap: 0.5,
        length: train,
        links,
        origins: origins(1..2),
        destinations: vec![goal as u32],
        ..Book::default()
    });
    let first = book.leg(1, 0, &[[0.0, train, 1.0]]);
    let mut at = first;
    for passed in 2..=long {
        at = book.run(passed, at, train + passed as f64 - 0.5, 1.0);
    }
    for run in 1..=runs {
        if run > 1 {
            at = book.leg(long + run - 1, at, &[]);
        }
        book.run(goal, at, 2.0 * train + short as f64 + 1.5, speed(run));
    }
    let second = book.run(other, first, train + 1.5, 1.0);
    book.run(long, second, 2.0 * train + 2.5, speed(0));
    book.0
}

/// As `strands`, but the long link is just as long as the train, so that the other way arrives at the
/// link behind it before it clears it. No node has that event: nothing is walked, however long the
/// strands are. The book ends with 10, since the leg after that is missing.
fn unseen(short: usize, runs: usize) -> Book {
    let mut book = Writer(strands(short, runs, true));
    let long = short + 2;
    book.0.links[long].length = TRAIN;
    for leg in book.0.legs.iter_mut().filter(|leg| leg.link as usize == long + runs) {
        leg.samples.last_mut().unwrap()[1] -= 1.0;
    }
    let other = book.0.legs.len();
    book.0.legs[other - 1].samples.last_mut().unwrap()[1] -= 1.0;
    book.leg(long + runs, other, &[]);
    book.run(long + 1, other, FIRST_CLEAR + 1.5, 1.0);
    book.0
}

/// The example with `count` links, of which only the first three are used.
fn many_links(count: usize) -> Book {
    let mut book = example();
    book.links.resize(count, link(1.0, 0, 0, 0));
    book
}

/// The example with legs that nobody asks for, `count` in all: from each link at no parent.
fn many_legs(count: usize) -> Book {
    let mut book = many_links(count.min(65_535));
    let unasked = (2..count.min(65_535) as u32).map(|link| (link, 0)).chain([(1, 1)]);
    for (link, parent) in unasked.take(count - 2) {
        let first = [0.0, if parent == 0 { 0.5 } else { 10.0 }, 0.0];
        book.legs.push(Leg { link, parent, samples: vec![first] });
    }
    book
}

/// `count` origins, each with a way of its own of one link that meets none of the others, if
/// `are_kept`; else all but the first lead nowhere.
fn many_origins(count: usize, are_kept: bool) -> Book {
    let mut book = Writer(example());
    book.0.links.truncate(1);
    book.0.destinations.clear();
    book.0.legs.clear();
    for way in 0..count {
        book.0.links.push(link(12.0, 2 * way + 2, 0, 0));
        book.0.links.push(link(100.0, 0, 0, 2 * way + 1));
        if way == 0 || are_kept {
            book.0.destinations.push(2 * way as u32 + 2);
            let first = book.leg(2 * way + 1, 0, &[[0.0, 10.0, 0.0]]);
            book.leg(2 * way + 2, first, &[[4.0, 18.0, 4.0], [8.0, 34.0, 4.0]]);
        }
    }
    book.0.origins = origins((0..count).map(|way| 2 * way + 1));
    book.0
}

fn many_destinations(count: usize) -> Book {
    Book { destinations: vec![2; count], ..example() }
}

/// How many ways the books of `rings` have.
const WAYS: usize = 1_000;

/// What a way's destination leads back to, behind the links of its ring.
#[derive(Clone, Copy, PartialEq)]
enum Back {
    /// The origin, as the alternative of the ring's last link.
    Kept,
    /// The same, but that link has no previous: the origin is not reached.
    Cut,
    /// The ring alone. The origin is the previous of an origin, that of the way two before: it is not reached either.
    Behind,
}

/// Ways of `size` links each: an origin, the destination that follows it, and a ring through which the destination's
/// previous pointers lead back to the destination. A kept origin has the legs of a run. `order`: the way of each
/// origin's row; the destinations stand in the order of the ways, so the search takes the last way first.
fn rings(size: impl Fn(usize) -> usize, back: impl Fn(usize) -> Back, order: impl Fn(usize) -> usize) -> Book {
    let mut book = Writer(Book { links: vec![], destinations: vec![], legs: vec![], ..example() });
    let mut starts = vec![];
    book.0.links.push(Link::default());
    for way in 0..WAYS {
        let (origin, size) = (book.0.links.len(), size(way));
        starts.push(origin);
        book.0.links.extend(ring(origin, size, back(way)));
        book.0.destinations.push(origin as u32 + 1);
        if back(way) == Back::Behind {
            book.0.links[starts[way - 2]].prev = origin as u32;
        }
        if back(way) == Back::Kept || way == 0 {
            let first = book.leg(origin, 0, &[[0.0, 10.0, 0.0]]);
            book.leg(origin + 1, first, &[[4.0, 18.0, 4.0], [8.0, 34.0, 4.0]]);
        }
    }
    book.0.origins = origins((0..WAYS).map(|row| starts[order(row)]));
    book.0
}

/// The links of one way, from its origin on. What is cut off has its circle by the alternative of the link before.
fn ring(origin: usize, size: usize, back: Back) -> Vec<Link> {
    let (goal, last) = (origin + 1, origin + size - 1);
    let mut links = vec![link(12.0, goal, 0, 0), link(100.0, 0, 0, goal + 1)];
    links.extend((goal + 1..=last).map(|own| link(1.0, 0, 0, own + 1)));
    let end = &mut links[size - 1];
    end.prev = if back == Back::Cut { 0 } else { goal as u32 };
    end.prev_alt = if back == Back::Behind { 0 } else { origin as u32 };
    if back == Back::Cut && size > 2 {
        links[size - 2].prev_alt = goal as u32;
    }
    links
}

/// `count` links, of which each but the last leads back to link 1 and, as the alternative, to the next; link 1 is all
/// of 1,000 destinations, the last the only origin. The search puts two links on its stack for each that it takes: when
/// it has taken the last but one there are `count - 2` more than at first.
fn deep_stack(count: usize) -> Book {
    let last = count - 1;
    let mut book = Writer(Book { links: vec![Link::default()], legs: vec![], ..many_destinations(1_000) });
    book.0.links.extend((1..last).map(|own| Link { prev_alt: own as u32 + 1, ..link(100.0, 0, 0, 1) }));
    book.0.links.push(link(12.0, 1, 0, 0));
    book.0.origins = origins(last..count);
    book.0.destinations.fill(1);
    let first = book.leg(last, 0, &[[0.0, 10.0, 0.0]]);
    book.leg(1, first, &[[4.0, 18.0, 4.0], [8.0, 34.0, 4.0]]);
    book.0
}

/// The example with a last leg that stands for long: `count` samples in all.
fn many_samples(count: usize) -> Book {
    let mut book = example();
    let more = count - 4;
    book.legs[1].samples.extend((0..more).map(|step| [9.0 + step as f64 / 1_024.0, 34.0, 0.0]));
    book
}

fn default_room(book: &Book) -> BookItem {
    BookItem { bytes: book.bytes(), places: 65_535, work: None }
}

struct List(Vec<Limit>);

impl List {
    fn add(&mut self, name: impl Into<String>, item: BookItem, expected: &'static str) {
        let is_slow = item.bytes.len() > 200_000;
        self.0.push(Limit { kind: "books", name: name.into(), item, expected, is_slow, stands: false });
    }

    /// A table or an event list.
    fn other(&mut self, kind: &'static str, name: impl Into<String>, bytes: Vec<u8>, expected: &'static str) {
        let item = BookItem { bytes, places: 65_535, work: None };
        let is_slow = item.bytes.len() > 200_000;
        self.0.push(Limit { kind, name: name.into(), item, expected, is_slow, stands: false });
    }

    fn book(&mut self, name: impl Into<String>, book: &Book, expected: &'static str) {
        self.add(name, default_room(book), expected);
    }

    fn places(&mut self, name: &str, book: &Book, places: usize, expected: &'static str) {
        let name = format!("{name}, {places} places");
        self.add(name, BookItem { places, ..default_room(book) }, expected);
    }

    /// In the case added last a train stands on a point.
    fn stands(&mut self) {
        self.0.last_mut().unwrap().stands = true;
    }

    /// Work space as much as row 3 asks for, and one byte less.
    fn work(&mut self, name: &str, book: &Book, places: usize, accepted: &'static str) {
        let asked = work_asked(book, places);
        for (work, expected) in [(asked, accepted), (asked - 1, "refused 3"), (0, "refused 3")] {
            let item = BookItem { bytes: book.bytes(), places, work: Some(work) };
            self.add(format!("{name}, {places} places, {work} bytes of work space"), item, expected);
        }
    }
}

/// All named cases.
pub fn limits() -> Vec<Limit> {
    let mut list = List(vec![]);
    counts(&mut list);
    rooms(&mut list);
    lists_and_walks(&mut list);
    equal_entries(&mut list);
    shared_strands(&mut list);
    long_work(&mut list);
    tables_and_events(&mut list);
    times(&mut list);
    standing(&mut list);
    options(&mut list);
    list.0
}

fn counts(list: &mut List) {
    let example = example();
    let empty = [
        ("0 links", Book { links: vec![], ..example.clone() }),
        ("0 origins", Book { origins: vec![], ..example.clone() }),
        ("0 destinations", Book { destinations: vec![], ..example.clone() }),
        ("0 legs, 0 samples", Book { legs: vec![], ..example.clone() }),
    ];
    for (name, book) in empty {
        list.book(name, &book, "refused 3");
    }
    list.add("no bytes", BookItem { bytes: vec![], places: 65_535, work: None }, "refused 1");
    list.book("1 leg, 1 sample", &Book { legs: example.legs[..1].to_vec(), ..example.clone() }, "refused 10");
    list.book("1 link", &Book { links: vec![Link::default()], ..example.clone() }, "refused 5");
    list.book("65,535 links", &many_links(65_535), "nodes 8 ");
    list.book("65,536 links", &many_links(65_536), "refused 3");
    list.book("65,535 legs", &many_legs(65_535), "nodes 8 ");
    list.book("65,536 legs", &many_legs(65_536), "refused 3");
    list.book("1,000 origins, one kept", &many_origins(1_000, false), "nodes 8 ");
    list.book("1,001 origins, one kept", &many_origins(1_001, false), "refused 3");
    list.book("1,000 origins, all kept", &many_origins(1_000, true), "nodes 6002 ");
    list.book("1,000 destinations", &many_destinations(1_000), "nodes 8 ");
    list.book("1,001 destinations", &many_destinations(1_001), "refused 3");
    list.book("1,000,000 samples", &many_samples(1_000_000), "nodes 8 ");
    list.book("1,000,001 samples", &many_samples(1_000_001), "refused 3");
}

fn rooms(list: &mut List) {
    let example = example();
    for places in 0..10 {
        list.places("example", &example, places, if places < 8 { "refused 12" } else { "nodes 8 " });
    }
    list.places("example", &example, 65_536, "nodes 8 ");
    list.work("example", &example, 0, "refused 12");
    list.work("example", &example, 8, "nodes 8 ");
    list.work("example", &example, 65_535, "nodes 8 ");
    list.work("example", &example, 70_000, "nodes 8 ");
    let full = strands(68, 922, false);
    list.places("65,535 nodes", &full, 65_535, "nodes 65535 ");
    list.places("65,535 nodes", &full, 65_534, "refused 12");
    list.places("65,536 nodes", &strands(148, 433, false), 70_000, "refused 12");
}

fn lists_and_walks(list: &mut List) {
    list.book("list of 1,024 appended entries (no way out)", &arrivals(1_025), "refused 10");
    list.book("list of 1,025 appended entries (no way out)", &arrivals(1_026), "refused 12");
    list.book("list of 1,024 entries from one walk", &strands(0, 1_024, true), "nodes ");
    list.book("list of 1,025 entries from one walk", &strands(0, 1_025, true), "refused 12");
    list.book("walk of 4,096 nexts, 16 strands", &strands(255, 16, true), "nodes ");
    list.book("walk of 4,097 nexts, 17 strands", &strands(240, 17, true), "refused 12");
    list.book("walk of 4,096 nexts, 64 strands", &strands(63, 64, true), "nodes ");
    list.book("walk of 4,097 nexts, 241 strands", &strands(16, 241, true), "refused 12");
    list.book("no walk of 4,080 nexts for an event that no node has", &unseen(255, 16), "refused 10");
    list.book("no walk of 4,608 nexts for an event that no node has", &unseen(512, 9), "refused 10");
    for turning in [13, 16, 40] {
        let book = turns(turning);
        let entries = turning * (turning - 1) / 2;
        list.places("waiting entries as many as places", &book, entries, "nodes ");
        list.places("waiting entries one more than places", &book, entries - 1, "refused 12");
    }
    // A table counts as 65,535 places at the most, for the waiting entries too: on a larger one no more may wait.
    for (turning, expected) in [(362, "nodes "), (363, "refused 12")] {
        let book = turns(turning);
        let name = format!("{} waiting entries", turning * (turning - 1) / 2);
        list.places(&name, &book, 65_535, expected);
        list.places(&name, &book, 100_000, expected);
    }
}

/// Lists with equal entries, one after the other and in turns; at 1,024 where each gives two.
fn equal_entries(list: &mut List) {
    for (turns, joined, is_doubled, expected) in [
        (1, 60, false, "nodes 724 "),
        (2, 60, false, "nodes 735 "),
        (7, 60, false, "nodes 787 "),
        (2, 60, true, "nodes 736 "),
        (1, 511, true, "nodes 3882 "),
        (1, 512, true, "refused 12"),
    ] {
        let doubled = if is_doubled { ", doubled" } else { "" };
        let name = format!("{} entries of {turns} in turns{doubled}", turns + joined);
        let of = Equal { turns, joined, split: 50, saved: 40, is_doubled };
        list.book(name, &hostile::equal_entries(of), expected);
    }
}

/// Strands that meet: lists of 1,024 entries and walks of 4,096 nexts, and one more.
fn shared_strands(list: &mut List) {
    for (turns, tail, entries, is_met, is_branched, expected) in [
        (1, 30, 40, false, false, "nodes 338 "),
        (1, 30, 40, true, false, "nodes 339 "),
        (2, 30, 41, false, false, "nodes 417 "),
        (2, 30, 41, true, false, "nodes 418 "),
        (3, 30, 41, true, false, "nodes 493 "),
        (1, 30, 40, false, true, "nodes 370 "),
        (1, 30, 40, true, true, "nodes 370 "),
        (1, 1, 1_023, false, false, "nodes 4183 "),
        (1, 1, 1_023, true, false, "nodes 4184 "),
        (1, 1, 1_024, false, false, "refused 12"),
        (1, 1, 1_024, true, false, "refused 12"),
        (1, 1, 511, false, true, "nodes 2138 "),
        (1, 1, 512, false, true, "refused 12"),
        (1, 3_998, 96, false, false, "nodes 12466 "),
        (1, 3_999, 96, false, false, "refused 12"),
    ] {
        let of = Shared { turns, tail, metres: 1, entries, before: 1, saved: 19, is_met, is_branched };
        let met = if is_met { ", met" } else { "" };
        let branched = if is_branched { ", branched" } else { "" };
        let name = format!("{entries} strands in {turns} tails of {tail}{met}{branched}");
        list.book(name, &hostile::shared_strands(of), expected);
    }
}

/// Books whose work is a product of two counts.
fn long_work(list: &mut List) {
    for is_sooner in [false, true] {
        let order = if is_sooner { "each sooner" } else { "each later" };
        let (joins, splits) = (hostile::chain_ends(500, is_sooner), hostile::splits_at_one_place(500, is_sooner));
        list.book(format!("500 joins at one node, {order}"), &joins, "nodes 1534 ");
        list.book(format!("500 splits at one node, {order}"), &splits, "nodes 1534 ");
    }
    list.book("300 runs saved with 61 entries", &hostile::saved_lists(60, 300), "nodes 1354 ");
    list.book("101 entries kept over 3 runs of 40 events", &hostile::long_lists(100, 40, 3), "nodes 596 ");
    list.book("100 runs over 300 events", &hostile::moved_over(300, 100), "nodes 604 ");
    list.book("101 joins with 600 events left", &hostile::events_left(300, 100), "nodes 323 ");
    list.book("5,000 legs, 1,000 destinations", &hostile::destinations(5_000, 1_000), "nodes 7 ");
}

/// Tables of 2 and 3, 65,535 and 65,536 nodes; event lists at each of their counts.
fn tables_and_events(list: &mut List) {
    for (nodes, expected) in [
        (0, "refused 3"),
        (2, "refused 3"),
        (3, "refused 15"),
        (4, "nodes 4 "),
        (65_535, "nodes 65535 "),
        (65_536, "refused 3"),
    ] {
        list.other("tables", format!("table of {nodes} nodes"), tables::chain(nodes), expected);
    }
    for (samples, points, places, expected) in [
        (0, 2, 9, "refused 3"),
        (1, 0, 9, "refused 3"),
        (1, 1, 9, "refused 11"),
        (1, 2, 0, "events 0 "),
        (1_000_000, 9, 9, "events 7 "),
        (1_000_001, 9, 9, "refused 3"),
        (2, 65_536, 65_534, "events 65534 "),
        (2, 65_536, 65_533, "refused 12"),
        (2, 65_537, 70_000, "refused 3"),
    ] {
        let name = format!("event list of {samples} samples, {points} points, {places} places");
        list.other("events", name, events::even(samples, points, places), expected);
    }
}

/// An event whose time is exactly -1,000,000,000 (no refusal), and one a little below.
fn times(list: &mut List) {
    for (metres, expected) in [(976_563.0, "events 1 "), (976_564.0, "refused 11")] {
        let crawl = 1.0 / 1_024.0;
        let samples = [[0.0, 0.0, crawl], [512.0, 1.0 + metres, crawl]];
        let points = [(0.0, 1), (1.0, 2), (2e6, 0)];
        let name = format!("event of time {}", 512.0 - metres / crawl);
        list.other("events", name, events::item(1e7, &samples, &points, 9), expected);
    }
}

/// The example with a minute on the point between its links, and event lists of a train of 10 m on points at 0, 10, 20
/// and 100: it stands on one, or nearly does.
fn standing(list: &mut List) {
    let mut book = example();
    let rest = [[2.0, 12.0, 0.0], [62.0, 12.0, 0.0], [66.0, 20.0, 4.0], [70.0, 36.0, 4.0]];
    book.legs[1].samples.splice(1.., rest);
    list.book("front on a point for a minute", &book, "nodes 8 ");
    list.stands();
    let (runs, waits, on_point) = ([0.0, 5.0, 2.0], [0.0, 5.0, 0.0], [5.0, 10.0, 0.0]);
    let in_no_time = [f64::from_bits(1), 10.0, 0.0];
    for (name, samples, expected, stands) in [
        ("front on a point", &[runs, on_point][..], "events 1 ", true),
        ("front and back on points", &[[0.0, 15.0, 2.0], [5.0, 20.0, 0.0]], "events 2 ", true),
        ("front on a point twice", &[waits, on_point, [65.0, 10.0, 0.0]], "events 1 ", true),
        ("front on a point, then behind one", &[runs, on_point, [6.0, 30.0, 0.0]], "refused 11", true),
        ("front on a point, then at the last", &[runs, on_point, [6.0, 100.0, 2.0]], "refused 11", false),
        ("front on a point as first sample", &[on_point, [6.0, 15.0, 2.0]], "events 0 ", false),
        ("front on a point in no time", &[runs, in_no_time], "refused 11", false),
        ("front on a point, square of speed 0", &[runs, [5.0, 10.0, 1e-200]], "events 1 ", false),
        ("from standing to standing behind a point", &[waits, [5.0, 11.0, 0.0]], "refused 11", false),
    ] {
        let points = [(0.0, 1), (10.0, 2), (20.0, 3), (100.0, 0)];
        list.other("events", name, events::item(10.0, samples, &points, 9), expected);
        if stands {
            list.stands();
        }
    }
}

/// The options search with 1,000 origins and 1,000 destinations, with circles of previous pointers, and with the
/// deepest stack. What is expected follows from how the books are made: each kept origin has a run of its own over two
/// links, as in `many_origins`, so `kept` of them give `6 · kept + 2` nodes. That this is the reference's and `plain`'s
/// answer is looked at by `compare limits`; which origins they keep, in which order, by generator/tests/options.rs.
/// Where all are kept, the last number of the search's part is that of the last row: it isn't 0, as it would be if it
/// were not written.
fn options(list: &mut List) {
    let all = rings(|way| 2 + way % 9, |_| Back::Kept, |row| WAYS - 1 - row);
    list.book("1,000 origins, all kept, circles of 1 to 9 links", &all, "nodes 6002 ");
    let most = rings(|way| 65 + (way < 534) as usize, |_| Back::Kept, |row| (row + 1) % WAYS);
    list.book("1,000 origins, all kept, 65,535 links in circles", &most, "nodes 6002 ");
    let none = rings(|way| 2 + way % 9, |_| Back::Cut, |row| row);
    list.book("1,000 origins, none kept, circles", &none, "refused 8");
    let by_thirds = |way: usize| [Back::Kept, Back::Cut, Back::Behind][way % 3];
    let some = rings(|way| 2 + way % 9, by_thirds, |row| (617 * row + 5) % WAYS);
    list.book("1,000 origins, 334 kept, circles", &some, "nodes 2006 ");
    list.book("65,535 links, options' stack of 66,533 numbers", &deep_stack(65_535), "nodes 8 ");
}

/// A book at or near one of the limits of row 12: lists of about 1,024, walks of 4,095 to 4,097.
pub fn near_limit(r: &mut Random) -> BookItem {
    let book = match r.below(6) {
        0 => arrivals(r.between(1_023, 1_028) as usize),
        1 => strands(0, r.between(1_022, 1_027) as usize, true),
        _ => {
            let (runs, nexts) = r.pick(&[(15, 273), (63, 65), (16, 256), (64, 64), (17, 241), (241, 17)]);
            strands(nexts - 1, runs, true)
        }
    };
    default_room(&book)
}

#[cfg(test)]
mod tests {
    use super::*;

    /// Document 01's listing of its book.
    const LISTING: &str = "\
nodes 8 added 4 splits 0 joined 0 finished 1
0 F 0 1 0 0 0 0 0 0 0
1 F 0 2 0 0 0 0 0 0 0
2 A 1 3 0 1 0 0 0 4024 0
3 C 1 4 0 2 0 0 4 4 0
4 A 2 5 0 3 0 4 4008 4024 4
5 C 2 6 0 4 0 4014 0 0 401
6 F 0 7 0 5 0 4014 0 0 0
7 F 0 0 0 6 0 4014 0 0 0
";

    #[test]
    fn example_has_its_listing() {
        assert_eq!(plain::book(&example().bytes(), 192, Some(65_536)), LISTING.as_bytes());
    }

    #[test]
    fn bytes_and_fields_agree() {
        for book in [example(), turns(5), strands(3, 4, true), arrivals(7)] {
            let bytes = book.bytes();
            assert_eq!(Book::parse(&bytes).unwrap().bytes(), bytes);
        }
    }

    #[test]
    fn limits_are_as_expected() {
        for limit in limits().into_iter().filter(|limit| limit.kind == "books" && !limit.is_slow) {
            let answer = plain::book(&limit.item.bytes, limit.item.places, limit.item.work);
            let answer = String::from_utf8(answer).unwrap().replace('\n', " ");
            assert!(answer.starts_with(limit.expected), "{}: {}", limit.name, &answer[..12]);
        }
    }
}
