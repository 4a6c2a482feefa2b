//! The program on streams: its items, its settings and its lines.

mod make;

use std::io::Write;
use std::process::{Command, Stdio};

use make::{text, worked};

fn program(words: &[&str], input: &[u8]) -> String {
    let mut child = Command::new(env!("CARGO_BIN_EXE_reference"))
        .args(words)
        .stdin(Stdio::piped())
        .stdout(Stdio::piped())
        .spawn()
        .unwrap();
    child.stdin.take().unwrap().write_all(input).unwrap();
    text(child.wait_with_output().unwrap().stdout)
}

fn stream(items: &[&[u8]]) -> Vec<u8> {
    items.iter().flat_map(|item| [&(item.len() as u32).to_le_bytes(), *item].concat()).collect()
}

#[test]
fn books() {
    let book = worked().bytes();
    let items = stream(&[&book, &[], &book]);
    let listing = worked().answer();
    let expected = format!("== 0\n{listing}== 1\nrefused 1\n== 2\n{listing}");
    assert_eq!(program(&["books"], &items), expected);
    assert_eq!(program(&["books", "--places", "192", "--work", "65536"], &items), expected);
    let short = "== 0\nrefused 12\n== 1\nrefused 1\n== 2\nrefused 12\n";
    assert_eq!(program(&["books", "--places", "7"], &items), short);
    let small = "== 0\nrefused 3\n== 1\nrefused 1\n== 2\nrefused 3\n";
    assert_eq!(program(&["books", "--work", "36864"], &items), small);
}

#[test]
fn options() {
    let mut book = worked();
    let good = book.bytes();
    book.destinations.push(0);
    let items = stream(&[&good, &[], &book.bytes()]);
    let expected = "== 0\nset 1 2\nkept 1\n== 1\nrefused 1\n== 2\nrefused 8\n";
    assert_eq!(program(&["options"], &items), expected);
    assert_eq!(program(&["options", "--places", "7", "--work", "65536"], &items), expected);
    let small = "== 0\nrefused 3\n== 1\nrefused 1\n== 2\nrefused 3\n";
    assert_eq!(program(&["options", "--work", "36864"], &items), small);
}

#[test]
fn tables_and_events() {
    // A departure and 3 nodes of zeros; a length and no sample, no point, no place.
    assert_eq!(program(&["tables"], &stream(&[&[0; 8 + 3 * 56]])), "== 0\nrefused 14\n");
    assert_eq!(program(&["events"], &stream(&[&[0; 8 + 3 * 4]])), "== 0\nrefused 3\n");
}

#[test]
fn roots() {
    let values = [2.0, 4.0, 0.0, -0.0, -1.0, f64::NEG_INFINITY];
    let bits = values.map(f64::to_bits).into_iter().chain([0x7ff8000000000001, 0xfff0000000000001]);
    let input: Vec<u8> = bits.flat_map(u64::to_le_bytes).collect();
    let nan = "7ff8000000000000\n".repeat(4);
    let expected = "3ff6a09e667f3bcd\n4000000000000000\n0000000000000000\n8000000000000000\n";
    assert_eq!(program(&["roots"], &input), format!("{expected}{nan}"));
}
