//! The files of examples/: accepted books with their sheets, and a book or table for each refusal.

mod accepted;
mod refused;

pub use accepted::accepted;
use generator::Book;
use outside::Answers;
pub use refused::{refused, refused_tables, Refused};

/// What the program `sheet` lends: places for nodes, bytes of work space.
pub const PLACES: usize = 192;
pub const WORK: u64 = 65_536;

/// Both outside answers to a book.
pub fn answers(book: &Book) -> Answers {
    let bytes = book.bytes();
    Answers::new(reference::book(&bytes, PLACES, Some(WORK)), plain::book(&bytes, PLACES, Some(WORK)))
}

/// Each file's name in examples/ and its bytes. A sheet is the reference's, the second answer's where it has none.
pub fn files() -> Vec<(String, Vec<u8>)> {
    let mut files = vec![];
    for (name, book) in accepted() {
        files.push((format!("{name}.sheet"), answers(&book).given().to_vec()));
        files.push((format!("{name}.book"), book.bytes()));
    }
    for book in refused() {
        files.push((format!("refused/{:02}.book", book.number), book.bytes));
    }
    for (number, bytes) in refused_tables() {
        files.push((format!("refused/{number}.table"), bytes));
    }
    files
}
