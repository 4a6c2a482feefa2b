//! From a book to nodes, growth alone and the whole job: driven from a stream and against both outside answers.
use crate::books::{asked, damaged};
use crate::listing;
use crate::room::{Entry, Lengths, Room};
use crate::stream;
use crate::tables::listed;
use generator::{book, limits, BookItem};
use outside::{Answers, Held};
use std::collections::BTreeMap;
use std::io;

/// An outside answer to a book, on so many places and so much work space.
type Outside = fn(&[u8], usize, Option<u64>) -> Vec<u8>;

/// An entry with the outside answers to it: the reference's and the second one.
pub struct Job {
    name: &'static str,
    entry: Entry,
    outside: [Outside; 2],
    is_timed: bool,
}

/// The network before the passes.
pub const GROWN: Job = Job { name: "grown", entry: Entry::Grow, outside: [reference::grown, plain::grown], is_timed: false };

/// The sheet.
pub const SHEETS: Job = Job { name: "sheets", entry: Entry::Make, outside: [reference::book, plain::book], is_timed: true };

/// The library's answer in the form of the outside answers, and the report.
struct Answer {
    text: String,
    report: [usize; 5],
}

impl Job {
    /// The answer to a book in a room that is lent already.
    fn answer(&self, room: &mut Room, bytes: &[u8]) -> Answer {
        let (number, report) = room.call(self.entry, bytes);
        let [nodes, added, splits, joined, finished] = report;
        let text = if !room.is_zero_from(nodes) || number > 0 && report != [0; 5] {
            "not zero\n".into()
        } else if number > 0 {
            format!("refused {number}\n")
        } else {
            let mut text = format!("nodes {nodes} added {added} splits {splits} joined {joined} finished {finished}\n");
            listed(&mut text, &room.floats, &room.numbers, nodes, self.is_timed);
            text
        };
        Answer { text, report }
    }

    /// Books from standard input, each after its byte count; as much work space as a book asks for where none is given.
    pub fn replay(&self, places: usize, work: Option<u64>) -> io::Result<()> {
        let mut room = Room::default();
        stream::replay(|bytes| {
            room.lend(Lengths::of(places, work.unwrap_or_else(|| asked(bytes, places))));
            self.answer(&mut room, bytes).text
        })
    }

    /// The first n random books of a seed. The number of differences.
    pub fn check(&self, n: u64, seed: u64) -> u64 {
        let mut tally = Tally::new(self);
        for k in 0..n {
            tally.compare_item(&book(seed, k), &format!("book {k} of seed {seed}"));
        }
        tally.print(&format!("{n} books of seed {seed}"))
    }

    /// The damaged copies of n good books.
    pub fn check_damage(&self, n: u64, seed: u64) -> u64 {
        let mut tally = Tally::new(self);
        for (item, what) in damaged(n, seed) {
            tally.compare_item(&item, &what);
        }
        tally.print(&format!("damaged copies of {n} books of seed {seed}"))
    }

    /// The named limits that are books.
    pub fn check_limits(&self) -> u64 {
        let mut tally = Tally::new(self);
        for limit in limits().into_iter().filter(|l| l.kind == "books") {
            tally.compare_item(&limit.item, &limit.name);
        }
        tally.print("limits")
    }
}

/// How often each answer of a job came up, and how often one differed.
pub struct Tally<'a> {
    job: &'a Job,
    room: Room,
    heads: BTreeMap<String, u64>,
    held: Held,
}

impl Tally<'_> {
    pub fn new(job: &Job) -> Tally<'_> {
        Tally { job, room: Room::default(), heads: BTreeMap::new(), held: Held::default() }
    }

    /// A book on the places and the work space that it comes with.
    fn compare_item(&mut self, item: &BookItem, what: &str) {
        let bytes = item.work.unwrap_or_else(|| asked(&item.bytes, item.places));
        self.compare(&item.bytes, Lengths::of(item.places, bytes), item.work, what);
    }

    /// A book in slices so long; the outside answers are told of so much work space.
    pub fn compare(&mut self, bytes: &[u8], lengths: Lengths, work: Option<u64>, what: &str) {
        self.room.lend(lengths);
        let mine = self.job.answer(&mut self.room, bytes);
        self.count(&mine.text);
        let [reference, plain] = self.job.outside.map(|outside| outside(bytes, lengths.places(), work));
        let answers = Answers::new(reference, plain);
        let is_same = answers.are(mine.text.as_bytes()) && self.is_listed(&mine);
        self.held.count(&answers, is_same);
        if !is_same && self.held.differences <= 10 {
            println!("{what}: {}", mine.text.lines().next().unwrap_or(""));
        }
    }

    /// Whether the library lists a sheet as its text here has it.
    fn is_listed(&self, mine: &Answer) -> bool {
        let is_sheet = self.job.is_timed && mine.text.starts_with("nodes");
        !is_sheet || listing::is_listed(&self.room.floats, &self.room.numbers, mine.report, mine.text.as_bytes())
    }

    fn count(&mut self, text: &str) {
        let head = if text.starts_with("nodes") { "accepted" } else { text.trim_end() };
        *self.heads.entry(head.into()).or_default() += 1;
    }

    pub fn print(&self, what: &str) -> u64 {
        let heads: Vec<String> = self.heads.iter().map(|(head, count)| format!("{head}: {count}")).collect();
        println!("{}: {what} ({}), {}", self.job.name, heads.join(", "), self.held);
        self.held.faults()
    }
}
