//! The options search by itself, driven from a stream and against both outside answers. Its entry is for tests alone, in a
//! static library of its own.
use crate::books::{asked, counts, refill, Work};
use crate::stream;
use generator::{limits, options, BookItem, Searched};
use outside::{Answers, Held};
use std::collections::BTreeMap;
use std::fmt::Write as _;
use std::io;

extern "C" {
    fn keldurap_tests_search_options(
        book: *const u8,
        book_len: usize,
        places: usize,
        reals: *mut f64,
        reals_len: usize,
        cells: *mut u32,
        cells_len: usize,
        marks: *mut u32,
        marks_len: usize,
        part: *mut u32,
        part_len: usize,
        kept: *mut usize,
    ) -> u32;
}

/// How many numbers stand on either side of the part, and what all are filled with before a call.
const BESIDE: usize = 1_024;
const FILLED: u32 = 0xc3c3_c3c3;

/// How many numbers the search asks for: two for each link, one for each destination and origin.
pub fn room(bytes: &[u8]) -> usize {
    let [links, origins, destinations, _] = counts(bytes);
    2 * links + destinations + origins
}

/// What the search is lent, kept from call to call: work space for the reading, and the part between numbers that are not lent.
#[derive(Default)]
pub struct Lent {
    work: Work,
    numbers: Vec<u32>,
}

impl Lent {
    /// So many bytes of work space and a part of so many numbers, filled with what no call has left there.
    pub fn lend(&mut self, bytes: u64, room: usize) {
        self.work.lend(bytes);
        refill(&mut self.numbers, room + 2 * BESIDE, FILLED);
    }

    /// The library's number, and how many origins are kept.
    pub fn search(&mut self, bytes: &[u8], places: usize) -> (u32, usize) {
        let work = &mut self.work;
        let mut kept = usize::MAX;
        let room = self.numbers.len() - 2 * BESIDE;
        // Pointers and lengths are those of slices that nothing else uses during the call; the part is within the numbers.
        let number = unsafe {
            keldurap_tests_search_options(
                bytes.as_ptr(),
                bytes.len(),
                places,
                work.reals.as_mut_ptr(),
                work.reals.len(),
                work.cells.as_mut_ptr(),
                work.cells.len(),
                work.marks.as_mut_ptr(),
                work.marks.len(),
                self.numbers.as_mut_ptr().add(BESIDE),
                room,
                &mut kept,
            )
        };
        (number, kept)
    }

    fn part(&self) -> &[u32] {
        &self.numbers[BESIDE..self.numbers.len() - BESIDE]
    }

    /// Whether the numbers on either side of the part are as they were.
    fn is_kept_beside(&self) -> bool {
        let (before, rest) = self.numbers.split_at(BESIDE);
        before.iter().chain(&rest[rest.len() - BESIDE..]).all(|&n| n == FILLED)
    }

    /// The answer in the form of the outside answers, in a part of so many numbers.
    fn answer(&mut self, item: &BookItem, room: usize) -> String {
        self.lend(item.work.unwrap_or_else(|| asked(&item.bytes, item.places)), room);
        let (number, kept) = self.search(&item.bytes, item.places);
        let is_left = number > 0 && (kept > 0 || self.part().iter().any(|&n| n != 0));
        if !self.is_kept_beside() {
            "written beside the part\n".into()
        } else if is_left || !self.work.is_zero() {
            "not zero\n".into()
        } else if number > 0 {
            format!("refused {number}\n")
        } else {
            found(&item.bytes, self.part(), kept)
        }
    }
}

/// What the part says: the links whose marks are odd, and the links of the origins whose rows stand at its end.
fn found(bytes: &[u8], part: &[u32], kept: usize) -> String {
    let [links, origins, destinations, _] = counts(bytes);
    let link = |row: u32| match bytes[28 + 24 * links + 4..].chunks(16).take(origins).nth(row as usize) {
        Some(origin) => u32::from_le_bytes(origin[..4].try_into().unwrap()).to_string(),
        None => format!("row-{row}"),
    };
    let mut text = String::from("set");
    for (own, _) in part[..links].iter().enumerate().filter(|(_, mark)| **mark % 2 == 1) {
        write!(text, " {own}").unwrap();
    }
    text.push_str("\nkept");
    for &row in part[2 * links + destinations..].iter().take(kept) {
        write!(text, " {}", link(row)).unwrap();
    }
    text.push('\n');
    text
}

/// Books from standard input, each after its byte count; as much work space as a book asks for where none is given.
pub fn replay(places: usize, work: Option<u64>) -> io::Result<()> {
    let mut lent = Lent::default();
    stream::replay(|bytes| {
        let item = BookItem { bytes: bytes.to_vec(), places, work };
        lent.answer(&item, room(bytes))
    })
}

/// How often each answer and each form came up, and how often an answer differed.
#[derive(Default)]
struct Tally {
    lent: Lent,
    heads: BTreeMap<String, u64>,
    forms: [u64; 4],
    held: Held,
}

/// What is counted of accepted books.
const FORMS: [(&str, fn(&Searched) -> bool); 4] = [
    ("two origins kept or more", |of| of.kept.len() >= 2),
    ("a circle met", Searched::meets_circle),
    ("an alternative without a previous met", Searched::meets_lone_alternative),
    ("all origins kept", Searched::keeps_all),
];

impl Tally {
    /// A book in a part of just the length that the search asks for, and in one a number shorter and longer: that gives 3
    /// where rows 1 to 8 let the book through, and else what they give it.
    fn compare(&mut self, item: &BookItem, what: &str) {
        let room = room(&item.bytes);
        let mine = self.lent.answer(item, room);
        let beside = if mine.starts_with("set") { "refused 3\n" } else { &mine };
        let is_exact = [room.saturating_sub(1), room + 1].iter().all(|&room| self.lent.answer(item, room) == beside);
        let [reference, plain] = [reference::options, plain::options].map(|outside| outside(&item.bytes, item.places, item.work));
        self.count(&mine, Searched::new(&item.bytes, &plain));
        let answers = Answers::new(reference, plain);
        let is_same = answers.are(mine.as_bytes()) && is_exact;
        self.held.count(&answers, is_same);
        if !is_same && self.held.differences <= 10 {
            let exact = if is_exact { "" } else { ", not alike a number shorter and longer" };
            println!("{what}: {}{exact}", mine.lines().last().unwrap_or(""));
        }
    }

    fn count(&mut self, mine: &str, searched: Option<Searched>) {
        let head = if mine.starts_with("set") { "accepted" } else { mine.trim_end() };
        *self.heads.entry(head.into()).or_default() += 1;
        if let Some(of) = &searched {
            FORMS.iter().zip(&mut self.forms).for_each(|((_, has_form), count)| *count += has_form(of) as u64);
        }
    }

    fn print(&self, what: &str) -> u64 {
        let heads: Vec<String> = self.heads.iter().map(|(head, count)| format!("{head}: {count}")).collect();
        let forms: Vec<String> = FORMS.iter().zip(self.forms).map(|((name, _), count)| format!("{name}: {count}")).collect();
        println!("options: {what} ({}), {}", heads.join(", "), self.held);
        println!("  of those accepted: {}", forms.join(", "));
        self.held.faults()
    }
}

/// The first n books for the search of a seed. The number of differences.
pub fn check(n: u64, seed: u64) -> u64 {
    let mut tally = Tally::default();
    for k in 0..n {
        tally.compare(&options(seed, k), &format!("options {k} of seed {seed}"));
    }
    tally.print(&format!("{n} books of seed {seed}"))
}

/// The named limits that are books.
pub fn check_limits() -> u64 {
    let mut tally = Tally::default();
    for limit in limits().into_iter().filter(|l| l.kind == "books") {
        tally.compare(&limit.item, &limit.name);
    }
    tally.print("limits")
}
