//! How long each entry takes, ours and the reference's, on the same inputs in turn: the best of nine, in milliseconds.
use replay::room::{Entry, Lengths, Room};
use std::hint::black_box;
use std::time::{Duration, Instant};

const RUNS: usize = 9;

/// Ours and the reference's.
pub type Times = (f64, f64);

fn ms(time: Duration) -> f64 {
    time.as_secs_f64() * 1e3
}

/// One call's time out of so many in a row.
fn each(calls: u32, call: &mut impl FnMut() -> Duration) -> f64 {
    ms((0..calls).map(|_| call()).sum::<Duration>() / calls)
}

/// The best of both. A run is one call, or as many in a row as take a millisecond: a short call alone would be timed with cold caches, which a caller of many has once.
fn best(mut ours: impl FnMut() -> Duration, mut theirs: impl FnMut() -> Duration) -> Times {
    let shorter = ms(ours().min(theirs()));
    let calls = (1.0 / shorter).clamp(1.0, 1000.0) as u32;
    (0..RUNS).map(|_| (each(calls, &mut ours), each(calls, &mut theirs))).fold((f64::INFINITY, f64::INFINITY), |a, b| (a.0.min(b.0), a.1.min(b.1)))
}

fn took<T>(work: impl FnOnce() -> T) -> Duration {
    let start = Instant::now();
    black_box(work());
    start.elapsed()
}

/// The whole job on books, one after the other in one table of so many places and the work space that the largest asks for: ours is the whole of `keldurap_raw_make_est_times`, in which table and
/// work space are made zero; the reference's is its reading and the published function into vectors of its own.
pub fn sheets(books: &[Vec<u8>], places: usize) -> Times {
    let mut room = Room::default();
    room.lend(Lengths::of(places, books.iter().map(|bytes| replay::books::asked(bytes, places)).max().unwrap()));
    for bytes in books {
        let (number, report) = room.call(Entry::Make, bytes);
        assert_eq!((number, report[0]), (0, uncounted::time_book(bytes).1));
    }
    best(|| took(|| books.iter().map(|bytes| room.call(Entry::Make, bytes).0).sum::<u32>()), || books.iter().map(|bytes| uncounted::time_book(bytes).0).sum())
}

/// The whole job on a book, in a table of just as many places as it has nodes.
pub fn fitted(bytes: &[u8]) -> Times {
    sheets(&[bytes.to_vec()], uncounted::time_book(bytes).1)
}

/// The whole job on a book in a table of so many places; beside it what is lent made zero before and after, as the job does it, and nothing else.
pub fn clearing(bytes: &[u8], places: usize) -> Times {
    let mut room = Room::default();
    let lengths = Lengths::of(places, replay::books::asked(bytes, places));
    room.lend(lengths);
    let mut other = Room::default();
    other.lend(lengths);
    let cleared = |room: &mut Room| {
        black_box(&mut *room).clear_before();
        black_box(&mut *room).clear();
    };
    best(|| took(|| room.call(Entry::Make, bytes)), || took(|| cleared(&mut other)))
}

/// Growth alone, in a table of 65,535 places: ours is the whole of `keldurap_raw_grow_network`, the reference's is its reading and the published function up to the checks.
pub fn growth(bytes: &[u8]) -> Times {
    let mut room = Room::default();
    room.lend(Lengths::of(65_535, replay::books::asked(bytes, 65_535)));
    let (number, report) = room.call(Entry::Grow, bytes);
    assert_eq!((number, report[0]), (0, uncounted::time_grown(bytes).1));
    best(|| took(|| room.call(Entry::Grow, bytes)), || uncounted::time_grown(bytes).0)
}

/// The network that a book grows to, as a node table.
pub fn network(bytes: &[u8]) -> Vec<u8> {
    let mut room = Room::default();
    room.lend(Lengths::of(65_535, replay::books::asked(bytes, 65_535)));
    let (_, report) = room.call(Entry::Grow, bytes);
    room.item(report[0])
}

/// Node tables: ours is the whole of `keldurap_raw_update_times`, the reference's is rows 4 and 5, the checks and both passes.
pub fn passes(items: &[Vec<u8>]) -> Times {
    let lent: Vec<_> = items.iter().map(|item| replay::tables::Lent::new(item)).collect();
    let mut work = replay::books::Work::default();
    work.lend(lent.iter().map(|lent| lent.asked()).max().unwrap());
    for (lent, item) in lent.iter().zip(items) {
        assert_eq!(lent.clone().time(&mut work), (0, uncounted::time_table(item).1 as u32));
    }
    let mut one = |lent: &replay::tables::Lent| {
        let mut lent = lent.clone();
        took(|| lent.time(&mut work))
    };
    best(|| lent.iter().map(&mut one).sum(), || items.iter().map(|item| uncounted::time_table(item).0).sum())
}

/// Event lists: ours is the whole of `keldurap_raw_make_events`; the reference's is the same tests but 12, and `update_est_times_add` into its own vector.
pub fn events(items: &[Vec<u8>]) -> Times {
    let mut lent: Vec<_> = items.iter().map(|item| replay::events::Lent::new(item)).collect();
    for (lent, item) in lent.iter_mut().zip(items) {
        assert_eq!(lent.make(), (0, reference::time_events(item).1 as u32));
    }
    best(|| took(|| lent.iter_mut().map(|lent| lent.make().1).sum::<u32>()), || items.iter().map(|item| reference::time_events(item).0).sum())
}

/// Reading: ours is rows 1 to 8 with the work space made zero before and after; the reference's is rows 1 to 7 into its own vectors.
pub fn reading(bytes: &[u8], places: usize) -> Times {
    let mut work = replay::books::Work::default();
    work.lend(replay::books::asked(bytes, places));
    assert_eq!(replay::books::number_in(&mut work, bytes, places), reference::parse(bytes, places, None));
    best(|| took(|| replay::books::number_in(&mut work, bytes, places)), || took(|| reference::parse(bytes, places, None)))
}

/// A thousand rounds of 4,096 roots of numbers from a millionth to a million with scattered digits: ours and the machine's own. Beside them, each root of the root before it and a number.
pub fn roots(waiting: bool) -> Times {
    let number = |k: u64| f64::from_bits((1_003 + k % 40) << 52 | k.wrapping_mul(0x9e37_79b9_7f4a_7c15) >> 12);
    let numbers: Vec<f64> = (0..4_096).map(number).collect();
    let round = |root: fn(f64) -> f64| numbers.iter().fold(0.0, |sum, &x| if waiting { root(x + sum) } else { sum + root(black_box(x)) });
    let rounds = |root: fn(f64) -> f64| took(|| (0..100).map(|_| round(root)).sum::<f64>());
    best(|| rounds(replay::roots::root), || rounds(f64::sqrt))
}
