//! The listing of a sheet.
use crate::mode::in_default_mode;
use crate::{sys, Report, Table};
use std::error::Error;
use std::fmt;

/// Why there is no listing.
#[derive(Clone, Copy, Debug, PartialEq, Eq, Hash)]
pub enum NotListed {
    /// The slice is too short for it.
    Short,
    /// The table has fewer nodes than the report says.
    Unfilled,
}

impl fmt::Display for NotListed {
    fn fmt(&self, f: &mut fmt::Formatter) -> fmt::Result {
        f.write_str(match self {
            NotListed::Short => "the slice is too short for the listing",
            NotListed::Unfilled => "the table has fewer nodes than the report says",
        })
    }
}

impl Error for NotListed {}

/// The longest listing of a sheet of so many nodes, in bytes; `usize::MAX` for more than memory could hold.
pub const fn listing_max(nodes: usize) -> usize {
    nodes.saturating_mul(106).saturating_add(65)
}

/// The longest head and line of any table and report, whose numbers may have every size, up to ten digits for a node.
const ANY_HEAD: usize = 140;
const ANY_LINE: usize = 136;

/// Lists a sheet into a slice, with zeros behind it; one that is too short is left zero.
pub fn list_sheet<'a>(table: &Table, report: &Report, out: &'a mut [u8]) -> Result<&'a str, NotListed> {
    let (floats, numbers) = table.filled();
    let mut length = 0;
    // SAFETY: pointers and lengths are those of slices; the borrows keep `out` and `length` apart from all else.
    let answer = in_default_mode(|| unsafe {
        sys::keldurap_raw_list_sheet(
            floats.as_ptr(),
            floats.len(),
            numbers.as_ptr(),
            numbers.len(),
            report,
            out.as_mut_ptr(),
            out.len(),
            &mut length,
        )
    });
    match answer {
        0 => Ok(std::str::from_utf8(&out[..length]).expect("proved: as many bytes of ASCII as `length` says")),
        sys::LISTING_SHORT => Err(NotListed::Short),
        sys::TABLE_UNFILLED => Err(NotListed::Unfilled),
        _ => unreachable!("proved: no other answer"),
    }
}

/// The listing of a sheet.
pub fn listing(table: &Table, report: &Report) -> Result<String, NotListed> {
    let nodes = report.nodes.min(table.len());
    let mut out = vec![0; ANY_HEAD + ANY_LINE * nodes];
    list_sheet(table, report, &mut out).map(str::to_string)
}
