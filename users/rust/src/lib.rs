//! Estimated-time sheets for railways: a safe wrapper of the proved static library.
//!
//! A *book* is a file of links, origins, destinations and movement samples. It is accepted, and its sheet stands in a [`Table`],
//! or it gets a [`Refusal`], the number of a row of docs/REFUSALS.md.
//!
//! ```
//! use keldurap::{listing, make_est_times, Table, WorkSpace, PLACES_MAX};
//!
//! let book = std::fs::read("../../examples/worked.book")?;
//! let mut table = Table::new(PLACES_MAX);
//! let mut work = WorkSpace::for_book(&book, table.places());
//! let report = make_est_times(&book, &mut table, &mut work)?;
//! assert_eq!((report.nodes, report.added), (8, 4));
//! for node in table.nodes() {
//!     println!("{:?} of link {} at {} s", node.kind, node.link, node.time);
//! }
//! print!("{}", listing(&table, &report)?);
//! # Ok::<(), Box<dyn std::error::Error>>(())
//! ```
//!
//! Table and work space may be kept from call to call: whatever they held, an answer depends on the book and on their sizes alone.
//!
//! No function panics, whatever it is given, unless there is no memory for what a `new`, a listing or an event list needs (some megabytes at most). Whatever
//! floating-point mode the caller is in, every call computes in the default mode, and gives the caller its mode and exception flags back.

mod entries;
mod events;
mod listing;
mod mode;
mod refusal;
mod sys;
mod table;
mod work;

pub use entries::{check_book, grow_network, make_est_times, update_times, Report};
pub use events::{make_events, Event, Point, Sample};
pub use listing::{list_sheet, listing, listing_max, NotListed};
pub use refusal::Refusal;
pub use table::{Kind, Node, Table};
pub use work::{units_for_book, units_for_nodes, WorkSpace};

/// The most of each that a book may have.
pub const LINKS_MAX: usize = 65_535;
pub const ORIGINS_MAX: usize = 1_000;
pub const DESTINATIONS_MAX: usize = 1_000;
pub const LEGS_MAX: usize = 65_535;
pub const SAMPLES_MAX: usize = 1_000_000;

/// The largest book in bytes.
pub const BOOK_MAX: usize = 44 + 24 * LINKS_MAX + 16 * ORIGINS_MAX + 4 * DESTINATIONS_MAX + 12 * LEGS_MAX + 24 * SAMPLES_MAX;

/// The most places that a table is used with.
pub const PLACES_MAX: usize = 65_535;

/// The most units of work space that row 3 can ask for.
pub const UNITS_MAX: usize = work::UNITS_MIN + LINKS_MAX + ORIGINS_MAX + DESTINATIONS_MAX + LEGS_MAX + PLACES_MAX;

/// The most events that [`make_events`] can give: two at each point but the last.
pub const EVENTS_MAX: usize = 2 * (POINTS_MAX - 1);

/// The most points that a path may have for [`make_events`].
pub const POINTS_MAX: usize = 65_536;

/// The square root of x, rounded to nearest, a tie to even (IEEE 754 binary64), for every x.
pub fn root(x: f64) -> f64 {
    // SAFETY: the function takes every f64.
    mode::in_default_mode(|| unsafe { sys::keldurap_raw_root(x) })
}
