//! The kinds of items: how one is made, and how each side answers it.

use generator::{BookItem, Tables};
use outside::Answers;
use std::panic::{catch_unwind, AssertUnwindSafe};

#[derive(Clone, Copy, PartialEq, Debug)]
pub enum Kind {
    Books,
    Tables,
    Events,
    Roots,
}

impl Kind {
    pub fn named(name: &str) -> Option<Kind> {
        match name {
            "books" => Some(Kind::Books),
            "tables" => Some(Kind::Tables),
            "events" => Some(Kind::Events),
            "roots" => Some(Kind::Roots),
            _ => None,
        }
    }

    pub fn name(self) -> &'static str {
        match self {
            Kind::Books => "books",
            Kind::Tables => "tables",
            Kind::Events => "events",
            Kind::Roots => "roots",
        }
    }

    /// The name of a single one, for a file's ending.
    pub fn one(self) -> &'static str {
        self.name().trim_end_matches('s')
    }

    pub fn answers(self, item: &BookItem) -> Answers {
        Answers::new(self.reference(item), self.plain(item))
    }

    pub fn plain(self, item: &BookItem) -> Vec<u8> {
        guarded(|| match self {
            Kind::Books => plain::book(&item.bytes, item.places, item.work),
            Kind::Tables => plain::table(&item.bytes),
            Kind::Events => plain::events(&item.bytes),
            Kind::Roots => plain::root(bits(item)).to_be_bytes().to_vec(),
        })
    }

    pub fn reference(self, item: &BookItem) -> Vec<u8> {
        guarded(|| match self {
            Kind::Books => reference::book(&item.bytes, item.places, item.work),
            Kind::Tables => reference::table(&item.bytes),
            Kind::Events => reference::events(&item.bytes),
            Kind::Roots => reference::root(bits(item)).to_be_bytes().to_vec(),
        })
    }
}

fn bits(item: &BookItem) -> u64 {
    u64::from_le_bytes(item.bytes[..8].try_into().unwrap())
}

/// The answer, or the word `panic`.
fn guarded(answer: impl FnOnce() -> Vec<u8>) -> Vec<u8> {
    catch_unwind(AssertUnwindSafe(answer)).unwrap_or_else(|_| b"panic\n".to_vec())
}

/// Makes items by number.
pub struct Source {
    kind: Kind,
    seed: u64,
    tables: Tables,
}

impl Source {
    pub fn new(kind: Kind, seed: u64) -> Source {
        Source { kind, seed, tables: Tables::new(seed) }
    }

    pub fn item(&mut self, number: u64) -> BookItem {
        let bytes = match self.kind {
            Kind::Books => return generator::book(self.seed, number),
            Kind::Tables => self.tables.table(number),
            Kind::Events => generator::events(self.seed, number),
            Kind::Roots => generator::root(self.seed, number).to_le_bytes().to_vec(),
        };
        BookItem { bytes, places: 65_535, work: None }
    }
}
