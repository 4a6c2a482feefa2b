//! The table entry, driven from a stream and against both outside answers.
use crate::books::Work;
use crate::stream::{self, digits};
use crate::{FLOATS, NUMBERS};
use generator::Tables;
use std::collections::BTreeMap;
use std::fmt::Write as _;
use std::io;

extern "C" {
    fn keldurap_raw_update_times(
        floats: *mut f64,
        floats_len: usize,
        numbers: *mut u32,
        numbers_len: usize,
        departure: f64,
        reals: *mut f64,
        reals_len: usize,
        cells: *mut u32,
        cells_len: usize,
        marks: *mut u32,
        marks_len: usize,
        nodes: *mut u32,
    ) -> u32;
}

/// A node's bytes in an item.
const WIDTH: usize = 8 * FLOATS + 4 * NUMBERS;

/// What the table entry is lent: an item's nodes in two slices, each a little longer than they fill.
#[derive(Clone)]
pub struct Lent {
    departure: f64,
    floats: Vec<f64>,
    numbers: Vec<u32>,
    nodes: usize,
}

impl Lent {
    /// An item: departure, then nodes.
    pub fn new(item: &[u8]) -> Lent {
        let float = |at: usize| f64::from_le_bytes(item[at..at + 8].try_into().unwrap());
        let number = |at: usize| u32::from_le_bytes(item[at..at + 4].try_into().unwrap());
        let nodes = (item.len() - 8) / WIDTH;
        let rows = || (0..nodes).map(|i| 8 + i * WIDTH);
        let mut floats: Vec<f64> = rows().flat_map(|at| (0..FLOATS).map(move |k| float(at + 8 * k))).collect();
        let mut numbers: Vec<u32> = rows().flat_map(|at| (0..NUMBERS).map(move |k| number(at + 8 * FLOATS + 4 * k))).collect();
        // One slice alone has whole places more, by turns, and both a part of one.
        floats.resize(floats.len() + if nodes % 2 == 0 { 11 } else { 3 }, f64::MAX);
        numbers.resize(numbers.len() + if nodes % 2 == 0 { 5 } else { 17 }, 0xa5a5_a5a5);
        Lent { departure: float(0), floats, numbers, nodes }
    }

    /// What row 3 asks for.
    pub fn asked(&self) -> u64 {
        36_864 + 64 * self.nodes.min(65_535) as u64
    }

    /// The library's number and nodes, in work space that is lent already.
    pub fn time(&mut self, work: &mut Work) -> (u32, u32) {
        let mut nodes = [u32::MAX];
        // Pointers and lengths are those of vectors that nothing else uses during the call.
        let number = unsafe {
            keldurap_raw_update_times(
                self.floats.as_mut_ptr(),
                self.floats.len(),
                self.numbers.as_mut_ptr(),
                self.numbers.len(),
                self.departure,
                work.reals.as_mut_ptr(),
                work.reals.len(),
                work.cells.as_mut_ptr(),
                work.cells.len(),
                work.marks.as_mut_ptr(),
                work.marks.len(),
                nodes.as_mut_ptr(),
            )
        };
        (number, nodes[0])
    }

    /// The answer as `replay tables` prints it.
    fn answer(mut self, work: &mut Work, bytes: u64) -> String {
        work.lend(bytes);
        let (number, nodes) = self.time(work);
        let nodes = nodes as usize;
        if !work.is_zero() || !self.is_zero_from(nodes) || number > 0 && nodes > 0 {
            return "not zero\n".into();
        }
        if number > 0 {
            return format!("refused {number}\n");
        }
        let mut text = format!("nodes {nodes}\n");
        listed(&mut text, &self.floats, &self.numbers, nodes, true);
        text
    }

    fn is_zero_from(&self, nodes: usize) -> bool {
        let floats = self.floats.iter().skip(FLOATS * nodes).all(|x| x.to_bits() == 0);
        floats && self.numbers.iter().skip(NUMBERS * nodes).all(|&n| n == 0)
    }
}

/// The first nodes of a table, as the listing has them; before the passes each time is `-`.
pub fn listed(text: &mut String, floats: &[f64], numbers: &[u32], nodes: usize, is_timed: bool) {
    for (i, (floats, numbers)) in floats.chunks(FLOATS).zip(numbers.chunks(NUMBERS)).take(nodes).enumerate() {
        let kind = ['A', 'C', 'F'][numbers[5] as usize];
        write!(text, "{i} {kind} {}", numbers[4]).unwrap();
        for index in &numbers[..4] {
            write!(text, " {index}").unwrap();
        }
        let time = if is_timed { digits(floats[0]) } else { "-".into() };
        writeln!(text, " {time} {} {} {}", digits(floats[1]), digits(floats[2]), digits(floats[3])).unwrap();
    }
}

/// The library's answer to an item, with as much work space as row 3 asks for.
fn answer(work: &mut Work, item: &[u8]) -> String {
    let lent = Lent::new(item);
    let bytes = lent.asked();
    lent.answer(work, bytes)
}

/// Items from standard input, each after its byte count.
pub fn replay() -> io::Result<()> {
    let mut work = Work::default();
    stream::replay(|item| answer(&mut work, item))
}

/// The first n tables of a seed, against both outside answers. The number of differences.
pub fn check(n: u64, seed: u64) -> u64 {
    let (mut tables, mut work) = (Tables::new(seed), Work::default());
    let (mut heads, mut differences) = (BTreeMap::<String, u64>::new(), 0);
    for k in 0..n {
        let item = tables.table(k);
        let mine = answer(&mut work, &item);
        let head = if mine.starts_with("nodes") { "accepted" } else { mine.trim_end() };
        *heads.entry(head.into()).or_default() += 1;
        if mine.as_bytes() != reference::table(&item) || mine.as_bytes() != plain::table(&item) {
            differences += 1;
            if differences <= 10 {
                println!("table {k} of seed {seed}: {mine}");
            }
        }
    }
    let heads: Vec<String> = heads.iter().map(|(head, count)| format!("{head}: {count}")).collect();
    println!("tables: {n} ({}), {differences} differences", heads.join(", "));
    differences
}

/// The named limits that are tables, and each with a unit of work space less, which gives 3.
pub fn check_limits() -> u64 {
    let (mut differences, mut work) = (0, Work::default());
    for limit in generator::limits().into_iter().filter(|l| l.kind == "tables") {
        let lent = Lent::new(&limit.item.bytes);
        let short = lent.clone().answer(&mut work, lent.asked() - 64);
        let mine = answer(&mut work, &limit.item.bytes);
        if mine.as_bytes() != reference::table(&limit.item.bytes) || short != "refused 3\n" {
            differences += 1;
            println!("{}: {}", limit.name, &mine[..mine.len().min(80)]);
        }
    }
    println!("tables at the limits: {differences} differences");
    differences
}
