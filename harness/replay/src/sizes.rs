//! Books on tables and in work space around what they ask for.
use crate::books::asked;
use crate::jobs::{Job, Tally};
use crate::room::Lengths;
use crate::{FLOATS, NUMBERS};
use generator::{book, needed};

/// Tables of just so many places, of one more, of one less by one slice alone, and of none by both or by one.
fn tables(places: usize) -> [[usize; 2]; 6] {
    let (floats, numbers) = (FLOATS * places, NUMBERS * places);
    let less = |length: usize| length.saturating_sub(1);
    [[floats, numbers], [floats + FLOATS, numbers + NUMBERS], [less(floats), numbers], [floats, less(numbers)], [0, 0], [floats, 0]]
}

/// Work space of just so many units, of more, of one less by one slice alone, and of none by all or by one.
fn works(units: usize) -> [[usize; 3]; 7] {
    let [reals, cells, marks] = [3 * units, 8 * units, 2 * units];
    [
        [reals, cells, marks],
        [reals + 100, cells + 500, marks + 300],
        [reals - 1, cells, marks],
        [reals, cells - 1, marks],
        [reals, cells, marks - 1],
        [0, 0, 0],
        [reals, 0, marks],
    ]
}

/// One book at every size; how many runs that are.
fn compare_book(tally: &mut Tally, bytes: &[u8], what: &str) -> u64 {
    let mut runs = 0;
    for table in tables(needed(bytes)) {
        let places = Lengths { table, work: [0; 3] }.places();
        for work in works((asked(bytes, places) / 64) as usize) {
            let lengths = Lengths { table, work };
            let what = format!("{what}, table {table:?}, work space {work:?}");
            tally.compare(bytes, lengths, Some(lengths.bytes()), &what);
            runs += 1;
        }
    }
    runs
}

/// The first n random books of a seed, each at every size. The number of differences.
pub fn check(job: &Job, n: u64, seed: u64) -> u64 {
    let mut tally = Tally::new(job);
    let mut runs = 0;
    for k in 0..n {
        runs += compare_book(&mut tally, &book(seed, k).bytes, &format!("book {k} of seed {seed}"));
    }
    tally.print(&format!("{n} books of seed {seed} at {runs} sizes"))
}
