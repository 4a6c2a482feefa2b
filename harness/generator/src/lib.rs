//! Random books, books for the options search, tables, event lists and roots: mostly accepted, damaged, and on every
//! limit.
//!
//! Every item is a function of a seed and its number, so any item can be made again by itself.

mod book;
mod books;
mod damage;
mod driving;
mod events;
pub mod hostile;
mod limits;
mod networks;
mod options;
mod random;
mod roots;
mod searched;
mod tables;
mod writer;

pub use book::{work_asked, Book, Leg, Link, Origin, Sample};
pub use books::{book, needed, BookItem};
pub use events::events;
pub use limits::{example, limits, Limit};
pub use options::options;
pub use random::Random;
pub use roots::root;
pub use searched::Searched;
pub use tables::{item as table_item, Node, Tables};
pub use writer::{link, origins, Writer};
