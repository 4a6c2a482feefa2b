//! plain: a second, independent answer to document 01 (docs/01-scope.md), with Ask 1 of
//! document 02 (docs/02-change-requests.md).
//!
//! It was written from the requests' text and DESIGN.md's readings, and not from the
//! source: points that both leave open are settled by the reference's answers as a black
//! box (docs/DIFFERENCES.md). It shares no line with `reference`; where both give the same
//! bytes for a book, two readings of the request agree.
//!
//! | file | module of document 01 |
//! |---|---|
//! | book.rs | Book, rows 1 to 7 |
//! | options.rs | Options, row 8 |
//! | events.rs | Events, row 11, and the event maker by itself |
//! | growth.rs | Insertion, Joins, Driver and ends, rows 9, 10, 12, 13 |
//! | passes.rs | Passes, rows 14 to 16 |
//! | table.rs | Table entry |
//! | root.rs | the rounded square root, over whole numbers |
//! | listing.rs | the listing |
//!
//! Plain vectors, no work space: its size is only compared with what row 3 asks for.

mod book;
mod bytes;
mod events;
mod growth;
mod listing;
mod node;
mod options;
mod passes;
mod root;
mod table;

use book::Book;
use growth::Grown;
use options::Options;

/// "at most 65,535": no table has more places than that.
const MOST_PLACES: usize = 65_535;

/// A refusal: its number, for 10 with the leg that was sought.
#[derive(Clone, Copy, Debug, PartialEq)]
enum No {
    Number(u32),
    Leg { parent: u32, link: u32 },
}

impl No {
    fn number(self) -> u32 {
        match self {
            No::Number(number) => number,
            No::Leg { .. } => 10,
        }
    }
}

type Answer<T> = Result<T, No>;

/// Refuse with this number if the condition holds.
fn refuse_if(condition: bool, number: u32) -> Answer<()> {
    if condition {
        Err(No::Number(number))
    } else {
        Ok(())
    }
}

/// The way of a book up to the passes: rows 1 to 8, growth. Its departure too.
fn network(bytes: &[u8], places: usize, work: Option<u64>) -> Answer<(Grown, f64)> {
    let places = places.min(MOST_PLACES);
    let book = Book::read(bytes, places, work)?;
    let options = options::options(&book)?;
    Ok((growth::grow(&book, &options, places)?, book.departure))
}

/// Rows 1 to 8 of a book: its options.
fn searched(bytes: &[u8], places: usize, work: Option<u64>) -> Answer<Options> {
    let book = Book::read(bytes, places.min(MOST_PLACES), work)?;
    options::options(&book)
}

/// The whole way of a book.
fn sheet(bytes: &[u8], places: usize, work: Option<u64>) -> Answer<Grown> {
    let (mut grown, departure) = network(bytes, places, work)?;
    passes::run(&mut grown.nodes, departure)?;
    Ok(grown)
}

/// The listing of a book on a table of so many places, or its refusal.
/// `work`: bytes of work space, `None`: as many as row 3 asks for.
pub fn book(bytes: &[u8], places: usize, work: Option<u64>) -> Vec<u8> {
    match sheet(bytes, places, work) {
        Ok(grown) => listing::sheet(&grown),
        Err(no) => listing::refused(no.number()),
    }
}

/// The network of a book before the passes, in the same form, or its refusal.
pub fn grown(bytes: &[u8], places: usize, work: Option<u64>) -> Vec<u8> {
    match network(bytes, places, work) {
        Ok((grown, _)) => listing::grown(&grown),
        Err(no) => listing::refused(no.number()),
    }
}

/// The options of a book, the set and the kept origins by their links, or its refusal.
pub fn options(bytes: &[u8], places: usize, work: Option<u64>) -> Vec<u8> {
    match searched(bytes, places, work) {
        Ok(options) => listing::options(&options),
        Err(no) => listing::refused(no.number()),
    }
}

/// The passes alone: a departure and nodes, 4 f64 and 6 u32 each.
pub fn table(item: &[u8]) -> Vec<u8> {
    match table::answer(item) {
        Ok(nodes) => listing::table(&nodes),
        Err(no) => listing::refused(no.number()),
    }
}

/// The event maker by itself: length, samples, points, places of the list.
pub fn events(item: &[u8]) -> Vec<u8> {
    match events::answer(item) {
        Ok(events) => listing::events(&events),
        Err(no) => listing::refused(no.number()),
    }
}

/// The bits of a float to the bits of its rounded square root.
pub fn root(bits: u64) -> u64 {
    root::root_bits(bits)
}

/// The parent and link of the leg whose absence gives the book 10.
pub fn wanted_leg(bytes: &[u8], places: usize) -> Option<(u32, u32)> {
    match sheet(bytes, places, None) {
        Err(No::Leg { parent, link }) => Some((parent, link)),
        _ => None,
    }
}
