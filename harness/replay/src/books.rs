//! The numbers that books get by rows 1 to 8, against both outside answers.
use generator::{book, limits, BookItem};
use std::collections::BTreeMap;

extern "C" {
    fn keldurap_raw_check_book(
        book: *const u8,
        book_len: usize,
        places: usize,
        reals: *mut f64,
        reals_len: usize,
        cells: *mut u32,
        cells_len: usize,
        marks: *mut u32,
        marks_len: usize,
    ) -> u32;
}

/// Work space in its three slices, kept from call to call.
#[derive(Default)]
pub struct Work {
    pub(crate) reals: Vec<f64>,
    pub(crate) cells: Vec<u32>,
    pub(crate) marks: Vec<u32>,
}

impl Work {
    /// How long the slices of so many bytes are, each with a part of a unit more.
    pub(crate) fn lengths(bytes: u64) -> [usize; 3] {
        let units = (bytes / 64) as usize;
        [3 * units + 2, 8 * units + 7, 2 * units + 1]
    }

    /// So many bytes of work space, filled with what no call has left there.
    pub fn lend(&mut self, bytes: u64) {
        self.lend_slices(Self::lengths(bytes));
    }

    /// Slices so long, filled likewise.
    pub(crate) fn lend_slices(&mut self, [reals, cells, marks]: [usize; 3]) {
        refill(&mut self.reals, reals, f64::MAX);
        refill(&mut self.cells, cells, 0xa5a5_a5a5);
        refill(&mut self.marks, marks, 0x5a5a_5a5a);
    }

    pub(crate) fn is_zero(&self) -> bool {
        self.reals.iter().all(|x| x.to_bits() == 0) && self.cells.iter().all(|&x| x == 0) && self.marks.iter().all(|&x| x == 0)
    }
}

pub(crate) fn refill<T: Copy>(slice: &mut Vec<T>, len: usize, value: T) {
    slice.clear();
    slice.resize(len, value);
}

/// The counts of links, origins, destinations and legs as they stand, none of them above its limit.
pub(crate) fn counts(bytes: &[u8]) -> [usize; 4] {
    let count = |at: usize| bytes.get(at..at + 4).map_or(0, |b| u32::from_le_bytes(b.try_into().unwrap()) as usize);
    let mut at = 24;
    [(24, 65_535), (16, 1_000), (4, 1_000), (12, 65_535)].map(|(width, limit)| {
        let n = count(at);
        at += 4 + n * width;
        n.min(limit)
    })
}

/// What row 3 asks for by the counts as they stand, none of them above its limit.
pub fn asked(bytes: &[u8], places: usize) -> u64 {
    36_864 + 64 * (counts(bytes).iter().sum::<usize>() + places.min(65_535)) as u64
}

/// The library's number of a book, in work space that is lent already.
pub fn number_in(work: &mut Work, bytes: &[u8], places: usize) -> u32 {
    // Pointers and lengths are those of slices that nothing else uses during the call.
    unsafe {
        keldurap_raw_check_book(
            bytes.as_ptr(),
            bytes.len(),
            places,
            work.reals.as_mut_ptr(),
            work.reals.len(),
            work.cells.as_mut_ptr(),
            work.cells.len(),
            work.marks.as_mut_ptr(),
            work.marks.len(),
        )
    }
}

/// The library's number of a book, or the word that it left something in the work space.
fn ours(work: &mut Work, item: &BookItem) -> Result<u32, &'static str> {
    work.lend(item.work.unwrap_or_else(|| asked(&item.bytes, item.places)));
    let number = number_in(work, &item.bytes, item.places);
    if work.is_zero() {
        Ok(number)
    } else {
        Err("not zero")
    }
}

/// An outside answer's number as far as rows 1 to 8 give it. They come before growth: a later number lets the book
/// through as a sheet does, and so does the reference's `no answer`, which comes of an event.
fn number(answer: &[u8]) -> u32 {
    let text = std::str::from_utf8(answer).unwrap();
    match text.strip_prefix("refused ").map(|n| n.trim().parse().unwrap()) {
        Some(n) if n <= 8 => n,
        _ => 0,
    }
}

/// How often each number came up, and how often an answer differed.
#[derive(Default)]
struct Tally {
    numbers: BTreeMap<u32, u64>,
    differences: u64,
}

impl Tally {
    fn compare(&mut self, work: &mut Work, item: &BookItem, what: &str) {
        let mine = ours(work, item);
        let outside = [
            number(&reference::book(&item.bytes, item.places, item.work)),
            number(&plain::book(&item.bytes, item.places, item.work)),
        ];
        *self.numbers.entry(outside[0]).or_default() += 1;
        if outside.iter().any(|&n| mine != Ok(n)) {
            self.differences += 1;
            if self.differences <= 10 {
                println!("{what}: {mine:?}, outside {outside:?}");
            }
        }
    }

    fn print(&self, what: &str) -> u64 {
        let numbers: Vec<String> = self.numbers.iter().map(|(n, k)| format!("{n}: {k}")).collect();
        println!("{what}: {} ({}), {} differences", self.numbers.values().sum::<u64>(), numbers.join(", "), self.differences);
        self.differences
    }
}

/// The first n random books of a seed.
pub fn check(n: u64, seed: u64) -> u64 {
    let (mut tally, mut work) = (Tally::default(), Work::default());
    for k in 0..n {
        tally.compare(&mut work, &book(seed, k), &format!("book {k} of seed {seed}"));
    }
    tally.print("books")
}

/// The named limits that are books.
pub fn check_limits() -> u64 {
    let (mut tally, mut work) = (Tally::default(), Work::default());
    for limit in limits().into_iter().filter(|l| l.kind == "books") {
        tally.compare(&mut work, &limit.item, &limit.name);
    }
    tally.print("limits")
}

/// n books of a seed that rows 1 to 8 let through, each damaged in every way, with a name: every byte 0, 255 and with one bit changed, every prefix,
/// one byte more, every count 0, 1, its limit and one more, and the largest number.
pub(crate) fn damaged(n: u64, seed: u64) -> impl Iterator<Item = (BookItem, String)> {
    let is_good = |item: &BookItem| item.bytes.len() <= 600 && number(&plain::book(&item.bytes, item.places, item.work)) == 0;
    let good = (0..).map(move |k| (k, book(seed, k))).filter(move |(_, item)| is_good(item));
    good.take(n as usize).flat_map(move |(k, BookItem { bytes, places, work })| {
        let name = move |what| format!("book {k} of seed {seed}, {what}");
        damages(&bytes).into_iter().map(move |(what, bytes)| (BookItem { bytes, places, work }, name(what)))
    })
}

/// The damaged copies of n good books.
pub fn check_damage(n: u64, seed: u64) -> u64 {
    let (mut tally, mut work) = (Tally::default(), Work::default());
    for (item, what) in damaged(n, seed) {
        tally.compare(&mut work, &item, &what);
    }
    tally.print("damaged books")
}

fn damages(good: &[u8]) -> Vec<(String, Vec<u8>)> {
    let mut all = vec![];
    for i in 0..good.len() {
        for value in [0, 255, good[i] ^ 1 << (i % 8)] {
            let mut bytes = good.to_vec();
            bytes[i] = value;
            all.push((format!("byte {i} is {value}"), bytes));
        }
        all.push((format!("{i} bytes"), good[..i].to_vec()));
    }
    let mut more = good.to_vec();
    more.push(0);
    all.push(("one byte more".into(), more));
    let mut at = 24;
    for width in [24, 16, 4, 12, 24] {
        let count = u32::from_le_bytes(good[at..at + 4].try_into().unwrap());
        for value in [0, 1, 1_000, 1_001, 65_535, 65_536, 1_000_000, 1_000_001, u32::MAX] {
            let mut bytes = good.to_vec();
            bytes[at..at + 4].copy_from_slice(&value.to_le_bytes());
            all.push((format!("count at {at} is {value}"), bytes));
        }
        at += 4 + count as usize * width;
    }
    all
}
