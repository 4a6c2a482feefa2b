//! The books of `generator::hostile` at full size, each once, ours and the reference's in a process of its own that may
//! take so long and no longer: `bench hostile [WORD]`.
use crate::{sidings, timers};
use generator::hostile::*;
use generator::Book;
use replay::room::{Entry, Lengths, Room};
use std::io::Read;
use std::process::{Child, Command, Stdio};
use std::time::{Duration, Instant};

/// A process is ended after so many seconds.
const LIMIT: u64 = 300;
/// Sidings of the line that each time is compared with.
const LINE: usize = 7_000;

/// A named book.
type Case = (&'static str, fn() -> Book);

fn equal(turns: usize, split: usize, saved: usize) -> Book {
    equal_entries(Equal { turns, joined: 998 - turns, split, saved, is_doubled: false })
}

fn shared(turns: usize, saved: usize, is_met: bool) -> Book {
    let (tail, entries) = (3_069, 1_024 - turns);
    shared_strands(Shared { turns, tail, metres: 1, entries, before: 1, saved, is_met, is_branched: false })
}

/// All of them, in up to 65,535 nodes, legs and links.
const CASES: &[Case] = &[
    ("998 equal entries, 9,753 splits, 9,754 runs", || equal(1, 9_753, 9_754)),
    ("998 entries of 2 in turns, 9,752 splits, 9,753 runs", || equal(2, 9_752, 9_753)),
    ("998 entries of 32 in turns, 9,600 splits, 9,700 runs", || equal(32, 9_600, 9_700)),
    ("1,024 strands of a tail of 3,069, 17,401 runs", || shared(1, 17_400, false)),
    ("1,024 equal strands of 3,069, 17,401 runs", || shared(1, 17_400, true)),
    ("1,024 strands of 2 in turns of 3,069, 15,351 runs", || shared(2, 15_350, true)),
    ("21,833 joins at one node, each later", || chain_ends(21_833, false)),
    ("21,833 joins at one node, each sooner", || chain_ends(21_833, true)),
    ("21,833 splits at one node, each later", || splits_at_one_place(21_833, false)),
    ("21,833 splits at one node, each sooner", || splits_at_one_place(21_833, true)),
    ("19,507 runs saved with 998 entries", || saved_lists(997, 19_507)),
    ("1,001 entries kept over 59 runs of 1,000 events", || long_lists(1_000, 1_000, 59)),
    ("10,922 runs over 32,765 events", || moved_over(32_765, 10_922)),
    ("16,380 joins with 32,760 events left", || events_left(16_380, 16_380)),
    ("65,534 legs, 1,000 destinations", || destinations(65_534, 1_000)),
];

/// How long this thread has been on a processor, in milliseconds: others' work doesn't count, which on a busy machine
/// is most of the minutes.
fn on_processor() -> f64 {
    let text = std::fs::read_to_string("/proc/thread-self/schedstat").unwrap();
    text.split(' ').next().unwrap().parse::<f64>().unwrap() / 1e6
}

/// The work of such a process: prints the milliseconds, the number answered and the nodes.
fn one(case: usize, is_ours: bool) {
    let bytes = CASES[case].1().bytes();
    let mut room = Room::default();
    room.lend(Lengths::of(65_535, replay::books::asked(&bytes, 65_535)));
    let start = on_processor();
    let (number, nodes) = if is_ours {
        let (number, report) = room.call(Entry::Make, &bytes);
        (number, report[0])
    } else {
        (0, uncounted::time_book(&bytes).1)
    };
    println!("{} {number} {nodes}", on_processor() - start);
}

/// What a process has printed, unless it is not done in time.
fn printed(mut child: Child) -> Option<String> {
    let start = Instant::now();
    while child.try_wait().unwrap().is_none() {
        if start.elapsed() > Duration::from_secs(LIMIT) {
            child.kill().unwrap();
            child.wait().unwrap();
            return None;
        }
        std::thread::sleep(Duration::from_millis(20));
    }
    let mut text = String::new();
    child.stdout.unwrap().read_to_string(&mut text).unwrap();
    Some(text)
}

/// One side's milliseconds, number and nodes.
fn measured(case: usize, side: &str) -> Option<(f64, u32, usize)> {
    let program = std::env::current_exe().unwrap();
    let mut command = Command::new(program);
    let child = command.args(["hostile", &case.to_string(), side]).stdout(Stdio::piped()).spawn().unwrap();
    let text = printed(child)?;
    let words: Vec<&str> = text.split_whitespace().collect();
    let [ms, number, nodes] = words[..] else { panic!("{text}") };
    Some((ms.parse().unwrap(), number.parse().unwrap(), nodes.parse().unwrap()))
}

fn seconds(ms: Option<f64>) -> String {
    ms.map_or(format!("> {LIMIT}"), |ms| format!("{:.3}", ms / 1e3))
}

/// All cases, or those whose name has the word.
fn all(word: &str) {
    let (line, _) = timers::fitted(&sidings::book(LINE));
    println!("\nkeldurap_raw_make_est_times, 65,535 places, each once, time on a processor.");
    println!("A line of {LINE} sidings: {line:.1} ms.\n");
    println!("{:<54} {:>9} {:>6} {:>8} {:>8} {:>7}", "hostile books", "bytes", "nodes", "ours, s", "ref., s", "lines");
    for (k, (name, book)) in CASES.iter().enumerate().filter(|(_, case)| case.0.contains(word)) {
        let ours = measured(k, "ours");
        let theirs = measured(k, "reference");
        let answers = [ours, theirs].into_iter().flatten();
        assert!(answers.clone().all(|(_, number, _)| number == 0), "{name}: refused");
        let nodes: Vec<usize> = answers.map(|(_, _, nodes)| nodes).collect();
        assert!(nodes.windows(2).all(|pair| pair[0] == pair[1]), "{name}: {nodes:?} nodes");
        let of_line = ours.map_or(String::new(), |(ms, _, _)| format!("{:.1}", ms / line));
        let times = [ours, theirs].map(|side| seconds(side.map(|(ms, _, _)| ms)));
        let nodes = nodes.first().map_or(String::new(), |nodes| nodes.to_string());
        let bytes = book().bytes().len();
        println!("{name:<54} {bytes:>9} {nodes:>6} {:>8} {:>8} {of_line:>7}", times[0], times[1]);
    }
}

/// `bench hostile`, `bench hostile WORD`, or the work of a process.
pub fn run(words: &[String]) {
    match words {
        [] => all(""),
        [case, side] => one(case.parse().expect("a case"), side == "ours"),
        [word, ..] => all(word),
    }
}
