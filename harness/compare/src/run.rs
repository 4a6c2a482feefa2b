//! Runs items through both sides, on some threads, and keeps those that differ.

use crate::kinds::{Kind, Source};
use crate::tally::Tally;
use generator::{BookItem, Limit};
use outside::Answers;
use std::path::PathBuf;
use std::sync::atomic::{AtomicU64, Ordering};
use std::sync::Mutex;
use std::time::Instant;
use std::{fs, io};

/// Items are handed to threads by so many: as many as tables share a book.
const PORTION: u64 = 32;

pub struct Order {
    pub kind: Kind,
    pub seed: u64,
    pub threads: usize,
}

impl Order {
    /// Items 0 to `count`, or as far as the deadline allows; true if nothing differed.
    pub fn run(&self, count: u64, deadline: Option<Instant>) -> bool {
        let start = Instant::now();
        let next = AtomicU64::new(0);
        let total = Mutex::new(Tally::default());
        quiet_panics();
        std::thread::scope(|scope| {
            for _ in 0..self.threads {
                scope.spawn(|| {
                    let tally = self.work(count, deadline, &next);
                    total.lock().unwrap().add(&tally);
                });
            }
        });
        let total = total.into_inner().unwrap();
        total.print(self.kind, start.elapsed().as_secs_f64());
        total.held.faults() == 0
    }

    /// One thread's part.
    fn work(&self, count: u64, deadline: Option<Instant>, next: &AtomicU64) -> Tally {
        let mut tally = Tally::default();
        let mut source = Source::new(self.kind, self.seed);
        loop {
            let first = next.fetch_add(PORTION, Ordering::Relaxed);
            if first >= count || deadline.is_some_and(|end| Instant::now() >= end) {
                return tally;
            }
            for number in first..count.min(first + PORTION) {
                self.answer(&source.item(number), number, &mut tally);
            }
        }
    }

    fn answer(&self, item: &BookItem, number: u64, tally: &mut Tally) {
        let answers = self.kind.answers(item);
        tally.count(self.kind, &answers);
        if !answers.agree() {
            keep(self.kind, &format!("{}-{number}", self.seed), item, &answers);
        }
    }
}

/// Where differing items are kept: beside the folder of this program.
fn folder() -> PathBuf {
    let program = std::env::current_exe().unwrap_or_default();
    let target = program.parent().and_then(|folder| folder.parent());
    target.map(|folder| folder.join("differences")).unwrap_or_default()
}

/// So many differing items are kept and printed; any more are only counted.
const MOST_KEPT: u64 = 100;
static KEPT: AtomicU64 = AtomicU64::new(0);

/// Prints a line on an item to which both have an answer, not the same one, and keeps it.
pub fn keep(kind: Kind, name: &str, item: &BookItem, answers: &Answers) {
    if KEPT.fetch_add(1, Ordering::Relaxed) >= MOST_KEPT {
        return;
    }
    let kept = match write(kind, name, item, answers) {
        Ok(()) => format!("kept as differences/{name}.{}", kind.one()),
        Err(error) => format!("not kept: {error}"),
    };
    println!(
        "{} {name}: reference {}, plain {}, {kept}",
        kind.one(),
        head(kind, answers.given()),
        head(kind, &answers.plain)
    );
}

/// Writes the item, and beside it a text with its room and both answers.
fn write(kind: Kind, name: &str, item: &BookItem, answers: &Answers) -> io::Result<()> {
    let file = folder().join(format!("{name}.{}", kind.one()));
    let work = item.work.map_or("as asked".to_string(), |bytes| bytes.to_string());
    let mut text = format!("places {}\nwork {work}\n\nreference:\n", item.places).into_bytes();
    text.extend(shown(kind, answers.given()));
    text.extend(b"\nplain:\n");
    text.extend(shown(kind, &answers.plain));
    fs::create_dir_all(folder())?;
    fs::write(&file, &item.bytes)?;
    fs::write(file.with_extension(format!("{}.txt", kind.one())), text)
}

fn shown(kind: Kind, answer: &[u8]) -> Vec<u8> {
    match kind {
        Kind::Roots => format!("{}\n", head(kind, answer)).into_bytes(),
        _ => answer.to_vec(),
    }
}

/// The first line of an answer.
pub fn head(kind: Kind, answer: &[u8]) -> String {
    match kind {
        Kind::Roots => answer.iter().map(|byte| format!("{byte:02x}")).collect(),
        _ => String::from_utf8_lossy(answer).lines().next().unwrap_or("").to_string(),
    }
}

/// Assertions of the published source panic by design: no message for each.
pub fn quiet_panics() {
    std::panic::set_hook(Box::new(|_| {}));
}

/// The named limit cases: a line each; true if both sides answered all as expected. Without the
/// slow ones only what is wrong is printed.
pub fn limits(with_slow: bool) -> bool {
    quiet_panics();
    let limits = generator::limits().into_iter().filter(|limit| with_slow || !limit.is_slow);
    let right: Vec<bool> = limits.map(|limit| is_right(&limit, with_slow)).collect();
    let wrong = right.iter().filter(|right| !**right).count();
    println!("{} limit cases, {wrong} wrong", right.len());
    wrong == 0
}

/// Whether both sides gave the answer that a case expects; where its train stands on a point, the second alone.
fn is_right(limit: &Limit, prints_all: bool) -> bool {
    let kind = Kind::named(limit.kind).expect("a kind");
    let start = Instant::now();
    let reference = kind.reference(&limit.item);
    let between = Instant::now();
    let plain = kind.plain(&limit.item);
    let times = [between - start, between.elapsed()].map(|time| time.as_secs_f64());
    let answers = Answers::new(reference, plain);
    let answer = head(kind, answers.given());
    let is_expected =
        format!("{answer} ").starts_with(limit.expected) && answers.reference.is_none() == limit.stands;
    if prints_all || !is_expected {
        let remark = if is_expected { "" } else { "  NOT AS EXPECTED" };
        println!("{}: {answer} ({:.2} s, {:.2} s){remark}", limit.name, times[0], times[1]);
    }
    if !answers.agree() {
        keep(kind, &limit.name.replace([' ', ','], "-"), &limit.item, &answers);
    }
    answers.agree() && is_expected
}
