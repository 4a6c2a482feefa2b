//! The program print_sheet.
use std::fs;
use std::process::Command;

/// Standard output and exit status.
fn run(words: &[&str]) -> (String, i32) {
    let output = Command::new(env!("CARGO_BIN_EXE_print_sheet")).args(words).output().unwrap();
    (String::from_utf8(output.stdout).unwrap(), output.status.code().unwrap())
}

#[test]
fn a_sheet() {
    let stored = fs::read_to_string("../../examples/siding.sheet").unwrap();
    assert_eq!(run(&["../../examples/siding.book"]), (stored.clone(), 0));
    assert_eq!(run(&["../../examples/siding.book", "15"]), (stored, 0));
}

#[test]
fn a_refusal() {
    assert_eq!(run(&["../../examples/refused/07.book"]), ("refused 7\n".into(), 1));
    assert_eq!(run(&["../../examples/siding.book", "14"]), ("refused 12\n".into(), 1));
    assert_eq!(run(&["../../examples/siding.book", "0"]), ("refused 12\n".into(), 1));
}

#[test]
fn an_error() {
    assert_eq!(run(&[]), (String::new(), 2));
    assert_eq!(run(&["no such file"]), (String::new(), 2));
    assert_eq!(run(&["../../examples"]), (String::new(), 2));
    for places in ["", "-1", "+1", "1.5", "65536", "000001"] {
        assert_eq!(run(&["../../examples/siding.book", places]), (String::new(), 2), "{places}");
    }
    assert_eq!(run(&["../../examples/siding.book", "15", "15"]), (String::new(), 2));
}
