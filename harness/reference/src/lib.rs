//! The published Rust over shims, as document 01 has it fed: books, node tables and event
//! lists in, listings or numbers out. Document 02's Ask 1 gives a number where the Rust has
//! none: for such books and event lists there is no answer.

use std::rc::Rc;

mod book;
mod bytes;
mod listing;
#[allow(dead_code, unexpected_cfgs, unused_imports, unused_macros, unused_variables)]
mod meet_pass;
mod shims;
mod watch;

/// Names under which the published text finds some of the shims.
mod consist {
    pub use crate::shims::train::Consist;
}
mod track {
    pub use crate::shims::track::{Network, LINK_IDX_NA};
}

use book::{Book, Sample, MOST_PLACES};
use bytes::{in_book, in_size, refuse_if, Fields};
use meet_pass::disp_structs::{EstType, LinkEvent};
use meet_pass::est_times::{get_link_idx_options, make_est_times, EstTime, EstTimeNet};
use shims::track::{LinkIdx, LinkPoint};
use shims::train::{Path, SpeedLimitTrainSim};
use watch::{Ending, Orders, Outcome, Stop};

/// What `book`, `grown` and `events` give where a train of a leg that is taken stands on a point
/// (document 02, Ask 1: "The Rust has no number there").
pub const NO_ANSWER: &[u8] = b"no answer\n";

/// A book's listing, `refused N` or `NO_ANSWER`. `places` are lent for nodes, and `work` bytes of work
/// space, as many as row 3 asks for if None.
pub fn book(bytes: &[u8], places: usize, work: Option<u64>) -> Vec<u8> {
    answer(|out| {
        let book = Book::read(bytes, places, work)?;
        let outcome = run(book, Orders { places, ..Orders::default() });
        let finished = outcome.finished;
        let nodes = timed(outcome)?;
        report(out, &nodes, finished);
        listing::nodes(out, &nodes);
        Ok(())
    })
}

/// The number of a book's bytes by rows 1 to 7, 0 where none holds: the reading alone, for timing.
pub fn parse(bytes: &[u8], places: usize, work: Option<u64>) -> u32 {
    match book::Book::read(bytes, places, work) {
        Ok(_) => 0,
        Err(number) => number,
    }
}

/// The network before the passes, in the same form, `refused N` with N from 1 to 13, or `NO_ANSWER`.
pub fn grown(bytes: &[u8], places: usize, work: Option<u64>) -> Vec<u8> {
    answer(|out| {
        let book = Book::read(bytes, places, work)?;
        let outcome = run(book, Orders { places, stop: Stop::Grown, ..Orders::default() });
        let finished = outcome.finished;
        let nodes = caught(outcome)?;
        report(out, &nodes, finished);
        listing::nodes(out, &nodes);
        Ok(())
    })
}

/// The published options search by itself: the links of its set, rising, and the links of the kept origins in their
/// order, or `refused N` with N from 1 to 8.
pub fn options(bytes: &[u8], places: usize, work: Option<u64>) -> Vec<u8> {
    answer(|out| {
        let book = Book::read(bytes, places, work)?;
        let search = || get_link_idx_options(&book.origins, &book.destinations, &book.links);
        let orders = Orders { places: places.min(MOST_PLACES), gap: book.gap, ..Orders::default() };
        let (set, kept) = watch::run(orders, search).result?;
        listing::row(out, "set", set.iter());
        listing::row(out, "kept", kept.iter().map(|origin| &origin.link_idx));
        Ok(())
    })
}

/// A node table after the passes, or `refused N`.
pub fn table(item: &[u8]) -> Vec<u8> {
    answer(|out| {
        let (departure, nodes) = read_table(item)?;
        let nodes = timed(run_table(departure, nodes))?;
        listing::line(out, &[("nodes", nodes.len())]);
        listing::nodes(out, &nodes);
        Ok(())
    })
}

/// The events of samples along points, `refused N` or `NO_ANSWER`.
pub fn events(item: &[u8]) -> Vec<u8> {
    answer(|out| {
        let (book, places) = read_events(item)?;
        let orders = Orders { places: MOST_PLACES, stop: Stop::Events, ..Orders::default() };
        let events = caught(run(book, orders))?;
        refuse_if(events.len() > places, 12)?;
        listing::line(out, &[("events", events.len())]);
        listing::events(out, &events);
        Ok(())
    })
}

/// How long the event maker's work takes for an accepted item, from vectors that are there: the tests of rows 3, 4 and 7, and the published `update_est_times_add`
/// with row 11's test. And how many events there are. For timing.
pub fn time_events(item: &[u8]) -> (std::time::Duration, usize) {
    let (length, samples, points, _) = split_events(item).unwrap();
    let start = std::time::Instant::now();
    test_events(length, &samples, &points).unwrap();
    let tests = start.elapsed();
    let book = Book::made_up(length, samples);
    book.path.replace(Path { legs: vec![1], points });
    let orders = Orders { places: MOST_PLACES, stop: Stop::Events, ..Orders::default() };
    let events = caught(run(book, orders)).unwrap();
    (tests + watch::making(), events.len())
}

/// How long a book takes that grows: its reading, and the published function up to the checks. And how many nodes there are. For timing.
pub fn time_grown(bytes: &[u8]) -> (std::time::Duration, usize) {
    let start = std::time::Instant::now();
    let book = Book::read(bytes, MOST_PLACES, None).unwrap();
    let outcome = run(book, Orders { places: MOST_PLACES, stop: Stop::Grown, ..Orders::default() });
    let time = start.elapsed();
    (time, caught(outcome).unwrap().len())
}

/// How long an accepted book takes: its reading, and the published function. And how many nodes there are. For timing.
pub fn time_book(bytes: &[u8]) -> (std::time::Duration, usize) {
    let start = std::time::Instant::now();
    let book = Book::read(bytes, MOST_PLACES, None).unwrap();
    let outcome = run(book, Orders { places: MOST_PLACES, ..Orders::default() });
    let time = start.elapsed();
    (time, timed(outcome).unwrap().len())
}

/// How long the table entry's work takes for an accepted item, from a vector of nodes that is there: the tests of rows 4 and 5, and the published checks and passes.
/// And how many nodes there are. For timing.
pub fn time_table(item: &[u8]) -> (std::time::Duration, usize) {
    let (departure, nodes) = read_table(item).unwrap();
    let start = std::time::Instant::now();
    assert!(nodes.iter().all(|node| floats_hold(node) && indices_hold(node, nodes.len())));
    let tests = start.elapsed();
    let nodes = timed(run_table(departure, nodes)).unwrap();
    (tests + watch::passing(), nodes.len())
}

/// The bits of a float to those of its square root, NaN being 7ff8000000000000.
pub fn root(bits: u64) -> u64 {
    // Unseen by the compiler: where this is inlined it may take the test for a NaN, and the
    // NaN it puts in, for the root's own NaN of other bits, and leave both out.
    let root = std::hint::black_box(f64::from_bits(bits).sqrt());
    if root.is_nan() {
        0x7ff8_0000_0000_0000
    } else {
        root.to_bits()
    }
}

fn answer(work: impl FnOnce(&mut Vec<u8>) -> Result<(), Ending>) -> Vec<u8> {
    let mut out = Vec::new();
    match work(&mut out) {
        Ok(()) => out,
        Err(Ending::Refused(number)) => listing::refused(number),
        Err(Ending::NoAnswer) => NO_ANSWER.to_vec(),
        Err(Ending::Stopped) => unreachable!("nobody asked for what was caught"),
    }
}

/// The published function on the book, from its options to its passes.
fn run(book: Book, orders: Orders) -> Outcome<EstTimeNet> {
    let book = Rc::new(book);
    let places = orders.places.min(MOST_PLACES);
    let train = SpeedLimitTrainSim::new(book.clone());
    watch::run(Orders { places, gap: book.gap, ..orders }, || {
        let (network, _) = make_est_times(train, book.links.as_slice(), None)?;
        Ok(network)
    })
}

/// The published function on a made-up book, whose network the table takes the place of.
fn run_table(departure: f64, nodes: Vec<EstTime>) -> Outcome<EstTimeNet> {
    let start = Sample { time: departure, ..Sample::default() };
    let orders = Orders { places: MOST_PLACES, table: Some(nodes), ..Orders::default() };
    run(Book::made_up(0.0, vec![start]), orders)
}

/// The nodes after both passes. Row 15 has two tests that the source lacks: a node never
/// timed, a node never passed. Neither pass stops for them, and 15 is below 16.
fn timed(outcome: Outcome<EstTimeNet>) -> Result<Vec<EstTime>, Ending> {
    match outcome.result {
        Err(Ending::Refused(16)) | Ok(_) if outcome.unpassed => Err(Ending::Refused(15)),
        Err(ending) => Err(ending),
        Ok(network) if network.val.iter().any(|node| node.time_sched.is_nan()) => Err(Ending::Refused(15)),
        Ok(network) => Ok(network.val.into_iter().collect()),
    }
}

/// The nodes or events that were there at an early stop.
fn caught(outcome: Outcome<EstTimeNet>) -> Result<Vec<EstTime>, Ending> {
    match outcome.result {
        Err(Ending::Stopped) => Ok(outcome.caught),
        Err(ending) => Err(ending),
        Ok(_) => unreachable!("the work stops early"),
    }
}

/// The five numbers. Each split makes one next alternative, and no pass changes these; what
/// is neither event, split, end nor one of nodes 0, 1 and the last is a join's Fake.
fn report(out: &mut Vec<u8>, nodes: &[EstTime], finished: usize) {
    let added = nodes.iter().filter(|node| node.link_event.est_type != EstType::Fake).count();
    let splits = nodes.iter().filter(|node| node.idx_next_alt != 0).count();
    let joined = nodes.len() - 3 - added - splits - finished;
    let count = ("nodes", nodes.len());
    let parts = [("added", added), ("splits", splits), ("joined", joined), ("finished", finished)];
    listing::line(out, &[count, parts[0], parts[1], parts[2], parts[3]]);
}

/// The departure and the nodes, every time checked, then untimed: rows 3 to 5.
fn read_table(item: &[u8]) -> Result<(f64, Vec<EstTime>), u32> {
    const WIDTH: usize = 56;
    let mut fields = Fields(item);
    let departure = fields.take(8)?.f64();
    refuse_if(fields.0.len() % WIDTH != 0, 2)?;
    let count = fields.0.len() / WIDTH;
    refuse_if(!(3..=MOST_PLACES).contains(&count), 3)?;
    refuse_if(!in_size(departure), 4)?;
    let nodes = fields.rows(WIDTH).map(node).collect::<Result<Vec<_>, _>>()?;
    refuse_if(!nodes.iter().all(|node| indices_hold(node, count)), 5)?;
    Ok((departure, nodes))
}

/// One node, untimed, or row 4.
fn node(mut row: Fields) -> Result<EstTime, u32> {
    let floats: [f64; 4] = std::array::from_fn(|_| row.f64());
    let numbers: [u32; 6] = std::array::from_fn(|_| row.u32());
    refuse_if(!floats.into_iter().all(in_size), 4)?;
    let est_type = match numbers[5] {
        0 => EstType::Arrive,
        1 => EstType::Clear,
        2 => EstType::Fake,
        _ => return Err(4),
    };
    Ok(EstTime {
        time_sched: f64::NAN,
        time_to_next: floats[1],
        dist_to_next: floats[2],
        speed: floats[3],
        idx_next: numbers[0],
        idx_next_alt: numbers[1],
        idx_prev: numbers[2],
        idx_prev_alt: numbers[3],
        link_event: LinkEvent { link_idx: LinkIdx(numbers[4]), est_type },
    })
}

/// The floats of a node that is untimed.
fn floats_hold(node: &EstTime) -> bool {
    in_size(node.time_to_next) && in_size(node.dist_to_next) && in_size(node.speed)
}

fn indices_hold(node: &EstTime, count: usize) -> bool {
    let indices = [node.idx_next, node.idx_next_alt, node.idx_prev, node.idx_prev_alt];
    indices.iter().all(|index| (*index as usize) < count)
}

/// A book whose first leg has the samples and whose path has the points, and the list's
/// places: rows 3, 4 and 7.
fn read_events(item: &[u8]) -> Result<(Book, usize), u32> {
    let (length, samples, points, places) = split_events(item)?;
    test_events(length, &samples, &points)?;
    let book = Book::made_up(length, samples);
    book.path.replace(Path { legs: vec![1], points });
    Ok((book, places))
}

/// An item's length, samples, points and list places.
fn split_events(item: &[u8]) -> Result<(f64, Vec<Sample>, Vec<LinkPoint>, usize), u32> {
    let mut fields = Fields(item);
    let length = fields.take(8)?.f64();
    let samples = fields.section(24)?;
    let points = fields.section(12)?;
    let places = fields.take(4)?.u32() as usize;
    fields.end()?;
    Ok((length, samples.rows(24).map(book::sample).collect(), points.rows(12).map(point).collect(), places))
}

/// Rows 3, 4 and 7.
fn test_events(length: f64, samples: &[Sample], points: &[LinkPoint]) -> Result<(), u32> {
    refuse_if(!(1..=1_000_000).contains(&samples.len()), 3)?;
    refuse_if(!(1..=65_536).contains(&points.len()), 3)?;
    refuse_if(!event_floats_hold(length, samples, points), 4)?;
    refuse_if(!samples.windows(2).all(|pair| pair[0].time < pair[1].time), 7)?;
    refuse_if(!samples.windows(2).all(|pair| pair[0].offset <= pair[1].offset), 7)?;
    refuse_if(!points.windows(2).all(|pair| pair[0].offset <= pair[1].offset), 7)
}

fn event_floats_hold(length: f64, samples: &[Sample], points: &[LinkPoint]) -> bool {
    let sample = |row: &Sample| in_book(row.time) && in_book(row.offset) && in_book(row.speed);
    in_book(length)
        && samples.iter().all(sample)
        && points.iter().all(|point| in_book(point.offset))
}

fn point(mut row: Fields) -> LinkPoint {
    LinkPoint { offset: row.f64(), link_idx: LinkIdx(row.u32()) }
}
