//! Work space.
use crate::table::zeros;
use crate::{DESTINATIONS_MAX, LEGS_MAX, LINKS_MAX, ORIGINS_MAX, PLACES_MAX, UNITS_MAX};
use std::collections::TryReserveError;

/// What row 3 asks for before any row or place.
pub(crate) const UNITS_MIN: usize = 576;

/// The width in bytes and the limit of the sections that row 3 counts: links, origins, destinations, legs.
const SECTIONS: [(usize, usize); 4] = [(24, LINKS_MAX), (16, ORIGINS_MAX), (4, DESTINATIONS_MAX), (12, LEGS_MAX)];

/// Work space in units of 64 bytes. It is zero after every call, and may be used again.
#[derive(Clone, Debug, Default)]
pub struct WorkSpace {
    pub(crate) reals: Vec<f64>,
    pub(crate) cells: Vec<u32>,
    pub(crate) marks: Vec<u32>,
}

impl WorkSpace {
    /// So many units, at most as many as row 3 can ask for.
    pub fn new(units: usize) -> WorkSpace {
        WorkSpace::try_new(units).expect("memory for work space")
    }

    /// The same, or that there is no memory for it.
    pub fn try_new(units: usize) -> Result<WorkSpace, TryReserveError> {
        let units = units.min(UNITS_MAX);
        Ok(WorkSpace { reals: zeros(3 * units)?, cells: zeros(8 * units)?, marks: zeros(2 * units)? })
    }

    /// As much as row 3 asks for a book and a table of so many places.
    pub fn for_book(book: &[u8], places: usize) -> WorkSpace {
        WorkSpace::new(units_for_book(book, places))
    }

    /// As much as row 3 asks for a node table of one's own.
    pub fn for_nodes(nodes: usize) -> WorkSpace {
        WorkSpace::new(units_for_nodes(nodes))
    }

    pub fn units(&self) -> usize {
        self.marks.len() / 2
    }

    /// Whether every bit is zero, as after every call.
    pub fn is_zero(&self) -> bool {
        self.reals.iter().all(|x| x.to_bits() == 0) && self.cells.iter().chain(&self.marks).all(|&n| n == 0)
    }
}

/// The units that row 3 asks for a book and a table of so many places. A count that the bytes don't have is taken as 0, and one above
/// its limit as its limit: such books get 1, 2 or 3 whatever is lent.
pub fn units_for_book(book: &[u8], places: usize) -> usize {
    let mut units = units_for_nodes(places);
    let mut at = 24;
    for (width, limit) in SECTIONS {
        let count = count_at(book, at);
        units += count.min(limit);
        at = at.saturating_add(4).saturating_add(count.saturating_mul(width));
    }
    units
}

/// The units that row 3 asks for a node table of one's own.
pub fn units_for_nodes(nodes: usize) -> usize {
    UNITS_MIN + nodes.min(PLACES_MAX)
}

fn count_at(book: &[u8], at: usize) -> usize {
    let bytes = book.get(at..).and_then(|rest| rest.first_chunk());
    bytes.map_or(0, |bytes| u32::from_le_bytes(*bytes) as usize)
}
