//! The program on streams of books.
use std::io::Write;
use std::process::{Command, Output, Stdio};

/// What the program `vectors` is tested with: books, and the reference's answers on 192 places and 65,536 bytes of work space.
const BOOKS: &[u8] = include_bytes!("../../../crates/vectors/stdin");
const ANSWERS: &str = include_str!("../../../crates/vectors/stdout");

/// Document 01's book after its byte count.
fn worked() -> Vec<u8> {
    let book = include_bytes!("../../../examples/worked.book");
    [&(book.len() as u32).to_le_bytes()[..], book].concat()
}

fn program(words: &[&str], input: &[u8]) -> Output {
    let mut command = Command::new(env!("CARGO_BIN_EXE_replay"));
    let mut child = command.args(words).stdin(Stdio::piped()).stdout(Stdio::piped()).stderr(Stdio::piped()).spawn().unwrap();
    // Without a stream to read the program may have ended already.
    let _ = child.stdin.take().unwrap().write_all(input);
    child.wait_with_output().unwrap()
}

fn printed(words: &[&str], input: &[u8]) -> String {
    String::from_utf8(program(words, input).stdout).unwrap()
}

#[test]
fn books_have_the_references_answers() {
    assert_eq!(printed(&["books", "--places", "192", "--work", "65536"], BOOKS), ANSWERS);
}

#[test]
fn settings() {
    let sheet = format!("== 0\n{}", include_str!("../../../examples/worked.sheet"));
    assert_eq!(printed(&["books"], &worked()), sheet);
    assert_eq!(printed(&["books", "--places", "8"], &worked()), sheet);
    assert_eq!(printed(&["books", "--places", "7"], &worked()), "== 0\nrefused 12\n");
    assert_eq!(printed(&["books", "--work", "36864"], &worked()), "== 0\nrefused 3\n");
    for words in [&["books", "--places"][..], &["books", "--nodes", "7"], &["books", "--work", "x"], &[]] {
        assert_eq!(program(words, &worked()).status.code(), Some(2), "{words:?}");
    }
}

#[test]
fn options() {
    assert_eq!(printed(&["options"], &worked()), "== 0\nset 1 2\nkept 1\n");
    assert_eq!(printed(&["options", "--places", "7"], &worked()), "== 0\nset 1 2\nkept 1\n");
    assert_eq!(printed(&["options", "--work", "36864"], &worked()), "== 0\nrefused 3\n");
    assert_eq!(program(&["options", "--places"], &worked()).status.code(), Some(2));
}

/// The stored books have the options that the second answer gives them.
#[test]
fn options_of_the_stored_books() {
    let (mut expected, mut rest) = (String::new(), BOOKS);
    while let Some((count, behind)) = rest.split_first_chunk() {
        let (book, behind) = behind.split_at(u32::from_le_bytes(*count) as usize);
        let number = expected.matches("== ").count();
        expected += &format!("== {number}\n{}", String::from_utf8(plain::options(book, 65_535, None)).unwrap());
        rest = behind;
    }
    assert_eq!(printed(&["options"], BOOKS), expected);
}

#[test]
fn a_stream_that_is_cut_off() {
    let stream = worked();
    for length in [1, 3, 4, stream.len() - 1] {
        let output = program(&["books"], &stream[..length]);
        assert_eq!((output.stdout, output.status.code()), (vec![], Some(1)), "{length} bytes");
    }
    assert_eq!(printed(&["books"], &[]), "");
}
