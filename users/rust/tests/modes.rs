//! Whatever floating-point mode the caller is in, every function gives the bits of the default mode, and the caller has its mode and flags back.
mod books;

use keldurap::*;
use std::arch::asm;
use std::fs;

/// The control register's default; its bits for rounding, for flushing to zero of results and of operands, and for flags.
const DEFAULT: u32 = 0x1f80;
const DOWNWARD: u32 = 0x2000;
const UPWARD: u32 = 0x4000;
const FLUSH_RESULTS: u32 = 0x8000;
const FLUSH_OPERANDS: u32 = 0x40;
const FLAGS: u32 = 0x3f;

/// A mode to call from, and whether answers can differ in it: the last has every exception unmasked.
const MODES: [(&str, u32, bool); 9] = [
    ("nearest", DEFAULT, false),
    ("nearest, flags raised", DEFAULT | FLAGS, false),
    ("downward", DEFAULT | DOWNWARD, true),
    ("upward", DEFAULT | UPWARD, true),
    ("toward zero", DEFAULT | DOWNWARD | UPWARD, true),
    ("results flushed", DEFAULT | FLUSH_RESULTS, true),
    ("operands flushed", DEFAULT | FLUSH_OPERANDS, true),
    ("both flushed, upward, flags raised", DEFAULT | UPWARD | FLUSH_RESULTS | FLUSH_OPERANDS | FLAGS, true),
    ("exceptions trap", 0, false),
];

fn control() -> u32 {
    let mut control = 0u32;
    unsafe { asm!("stmxcsr [{}]", in(reg) &mut control, options(nostack)) };
    control
}

fn set_control(control: u32) {
    unsafe { asm!("ldmxcsr [{}]", in(reg) &control, options(nostack)) };
}

/// A call in a mode, then the default mode again: what it answers, and the register behind it.
fn in_mode<T>(mode: u32, call: impl FnOnce() -> T) -> (T, u32) {
    set_control(mode);
    let answer = call();
    let left = control();
    set_control(DEFAULT);
    (answer, left)
}

/// The same, and the mode and the flags are the caller's afterwards.
fn kept<T>(mode: u32, call: impl FnOnce() -> T) -> T {
    let (answer, left) = in_mode(mode, call);
    assert_eq!(left, mode, "mode and flags");
    answer
}

/// The smallest number above 0.
const SMALLEST: f64 = 5e-324;

const ROOTS_OF: [f64; 7] = [SMALLEST, 4.0 * SMALLEST, 2.0, 1e-310, 0.1, f64::MAX, -1.0];

/// Two samples of time, offset and speed: the events of the first are rounded, in the second the times rise by the least there is, in the third they fall.
const LEGS: [[[f64; 3]; 2]; 3] = [[[0.0, 10.1, 0.7], [7.3, 34.9, 5.9]], [[0.0, 10.0, 0.0], [SMALLEST, 10.0, 0.0]], [[4.0, 10.0, 0.0], [3.0, 18.0, 4.0]]];
const POINTS: [Point; 3] = [Point { offset: 0.0, link: 1 }, Point { offset: 12.3, link: 2 }, Point { offset: 112.7, link: 0 }];

/// Five nodes in a chain, so many seconds apart; the last one's next.
fn chain(step: f64, last: u32) -> Vec<Node> {
    let node = |i: u32| Node {
        kind: if i == 2 || i == 3 { Kind::Arrive } else { Kind::Fake },
        link: 1,
        next: if i < 4 { i + 1 } else { last },
        next_alt: 0,
        prev: if i < 2 { 0 } else { i - 1 },
        prev_alt: 0,
        time: 0.0,
        time_to_next: if (1..4).contains(&i) { step } else { 0.0 },
        dist_to_next: 0.0,
        speed: 0.0,
    };
    (0..5).map(node).collect()
}

/// A table that is rounded, one whose times are the smallest, one that is refused: steps, departures, the last next.
const TABLES: [(f64, f64, u32); 3] = [(0.1, 0.3, 0), (SMALLEST, 0.0, 0), (0.1, 0.3, 5)];

/// The bits of a table.
fn bits(table: &Table) -> Vec<u64> {
    let floats = |node: &Node| [node.time, node.time_to_next, node.dist_to_next, node.speed].map(f64::to_bits);
    let numbers = |node: &Node| [node.next, node.next_alt, node.prev, node.prev_alt, node.link, node.kind as u32].map(u64::from);
    table.nodes().flat_map(|node| floats(&node).into_iter().chain(numbers(&node)).collect::<Vec<_>>()).collect()
}

/// Every answer of the functions over numbers, legs and tables of one's own, bit for bit.
fn small_answers(mode: u32) -> Vec<Vec<u64>> {
    let mut all = vec![ROOTS_OF.iter().map(|&x| kept(mode, || root(x)).to_bits()).collect()];
    for leg in LEGS {
        let samples = leg.map(|[time, offset, speed]| Sample { time, offset, speed });
        let events = kept(mode, || make_events(7.1, &samples, &POINTS, 8));
        all.push(match events {
            Ok(events) => events.iter().flat_map(|e| [e.time.to_bits(), e.offset.to_bits(), e.speed.to_bits(), e.link.into(), e.kind as u64]).collect(),
            Err(refusal) => vec![refusal.number().into()],
        });
    }
    for (step, departure, last) in TABLES {
        let mut table: Table = chain(step, last).into_iter().collect();
        let mut work = WorkSpace::for_nodes(5);
        let answer = kept(mode, || update_times(&mut table, departure, &mut work));
        all.push(answer.map_or_else(|refusal| vec![refusal.number().into()], |()| bits(&table)));
        let (report, mut out) = (Report { nodes: table.len(), ..Report::default() }, [0; 999]);
        let text = kept(mode, || list_sheet(&table, &report, &mut out)).unwrap();
        all.push(text.bytes().map(u64::from).collect());
    }
    all
}

/// The answers of the functions over a book: its number by the check, its network and its sheet, its listing.
fn book_answers(mode: u32, book: &[u8]) -> (Vec<Vec<u64>>, String) {
    let (mut table, mut work) = (Table::new(192), WorkSpace::for_book(book, 192));
    let number = |answer: Result<(), Refusal>| answer.map_or_else(|refusal| refusal.number().into(), |()| 0);
    let checked = kept(mode, || check_book(book, 192, &mut work));
    let grown = kept(mode, || grow_network(book, &mut table, &mut work));
    let mut all = vec![vec![number(checked), number(grown.map(|_| ()))], bits(&table)];
    let made = kept(mode, || make_est_times(book, &mut table, &mut work));
    all.extend([vec![number(made.map(|_| ()))], bits(&table)]);
    let report = made.unwrap_or_default();
    let mut out = vec![0; listing_max(192)];
    let text = kept(mode, || list_sheet(&table, &report, &mut out)).unwrap().to_string();
    assert_eq!(kept(mode, || listing(&table, &report)).as_ref(), Ok(&text));
    assert_eq!(kept(mode, || list_sheet(&table, &report, &mut [0; 9]).map(str::len)), Err(NotListed::Short));
    (all, text)
}

#[test]
fn small_answers_are_the_same_in_every_mode() {
    let expected = small_answers(DEFAULT);
    assert_eq!(expected[0][..3], [0x1e60_0000_0000_0000, 0x1e70_0000_0000_0000, 0x3ff6_a09e_667f_3bcd]);
    assert_eq!(expected[2], [], "times that rise by the least there is are accepted");
    for (name, mode, _) in MODES {
        assert_eq!(small_answers(mode), expected, "{name}");
    }
}

#[test]
fn books_have_their_answers_in_every_mode() {
    let files = ["../../examples", "../../examples/refused"].map(|folder| fs::read_dir(folder).unwrap());
    let books = files.into_iter().flatten().map(|entry| entry.unwrap().path()).filter(|file| file.extension().is_some_and(|e| e == "book"));
    let mut sheets = 0;
    for file in books {
        let book = fs::read(&file).unwrap();
        let expected = book_answers(DEFAULT, &book);
        if let Ok(stored) = fs::read_to_string(file.with_extension("sheet")) {
            assert_eq!(expected.1, stored, "{}", file.display());
            sheets += 1;
        }
        for (name, mode, _) in MODES {
            assert_eq!(book_answers(mode, &book), expected, "{}: {name}", file.display());
        }
    }
    assert!(sheets >= 8);
}

/// The worked book with the least time there is between two samples of a leg.
#[test]
fn the_shortest_time_counts_in_every_mode() {
    let book = books::changed(|book| book.legs[1].2[1][0] = SMALLEST).bytes();
    let expected = book_answers(DEFAULT, &book);
    assert_eq!(expected.0[0][0], 0, "rows 1 to 8");
    for (name, mode, _) in MODES {
        assert_eq!(book_answers(mode, &book), expected, "{name}");
    }
}

extern "C" {
    fn keldurap_raw_root(x: f64) -> f64;
    fn keldurap_raw_update_times(
        floats: *mut f64,
        floats_len: usize,
        numbers: *mut u32,
        numbers_len: usize,
        departure: f64,
        reals: *mut f64,
        reals_len: usize,
        cells: *mut u32,
        cells_len: usize,
        marks: *mut u32,
        marks_len: usize,
        nodes: *mut u32,
    ) -> u32;
}

/// The archive's own function on a table in a mode: its number, and the bits of the floats.
fn raw_times(mode: u32, (step, departure, last): (f64, f64, u32)) -> (u32, Vec<u64>) {
    let nodes = chain(step, last);
    let mut floats: Vec<f64> = nodes.iter().flat_map(|n| [n.time, n.time_to_next, n.dist_to_next, n.speed]).collect();
    let mut numbers: Vec<u32> = nodes.iter().flat_map(|n| [n.next, n.next_alt, n.prev, n.prev_alt, n.link, n.kind as u32]).collect();
    let (mut reals, mut cells, mut marks, mut count) = (vec![0.0; 3 * 581], vec![0; 8 * 581], vec![0; 2 * 581], 0);
    let call = || unsafe {
        let (f, n) = (floats.as_mut_ptr(), numbers.as_mut_ptr());
        let (r, c, m) = (reals.as_mut_ptr(), cells.as_mut_ptr(), marks.as_mut_ptr());
        keldurap_raw_update_times(f, 20, n, 30, departure, r, 3 * 581, c, 8 * 581, m, 2 * 581, &mut count)
    };
    let (number, _) = in_mode(mode, call);
    (number, floats.into_iter().map(f64::to_bits).collect())
}

/// So that the tests above can fail: by the archive's own functions some answer is another one in each mode in which it can be, and flags are left raised.
#[test]
fn the_archives_own_functions_depend_on_the_mode() {
    let answers = |mode: u32| TABLES.map(|table| raw_times(mode, table));
    let traps = |mode: u32| mode == 0;
    for (name, mode, differs) in MODES.into_iter().filter(|&(_, mode, _)| !traps(mode)) {
        assert_eq!(answers(mode) != answers(DEFAULT), differs, "{name}");
    }
    assert_ne!(in_mode(DEFAULT, || unsafe { keldurap_raw_root(2.0) }).1, DEFAULT);
}
