//! The entries over books and node tables.
use crate::mode::in_default_mode;
use crate::sys::{self, FromBook};
use crate::{Refusal, Table, WorkSpace};

/// What is told of a sheet beside its nodes: how many there are, how many of them stand for events, then splits, joins and finished runs.
#[derive(Clone, Copy, Debug, Default, PartialEq, Eq, Hash)]
#[repr(C)]
pub struct Report {
    pub nodes: usize,
    pub added: usize,
    pub splits: usize,
    pub joined: usize,
    pub finished: usize,
}

/// The sheet of a book, into the table. On a refusal (1 to 16) the table is zero.
pub fn make_est_times(book: &[u8], table: &mut Table, work: &mut WorkSpace) -> Result<Report, Refusal> {
    run(sys::keldurap_raw_make_est_times, book, table, work)
}

/// The network of a book before its times are known, for tests. On a refusal (1 to 13) the table is zero.
pub fn grow_network(book: &[u8], table: &mut Table, work: &mut WorkSpace) -> Result<Report, Refusal> {
    run(sys::keldurap_raw_grow_network, book, table, work)
}

fn run(entry: FromBook, book: &[u8], table: &mut Table, work: &mut WorkSpace) -> Result<Report, Refusal> {
    let mut report = Report::default();
    // SAFETY: pointers and lengths are those of slices; the borrows keep them and the report apart from each other and from all else.
    let number = in_default_mode(|| unsafe {
        entry(
            book.as_ptr(),
            book.len(),
            table.floats.as_mut_ptr(),
            table.floats.len(),
            table.numbers.as_mut_ptr(),
            table.numbers.len(),
            work.reals.as_mut_ptr(),
            work.reals.len(),
            work.cells.as_mut_ptr(),
            work.cells.len(),
            work.marks.as_mut_ptr(),
            work.marks.len(),
            &mut report,
        )
    });
    table.nodes = report.nodes.min(table.places());
    Refusal::unless_zero(number).map(|()| report)
}

/// Whether rows 1 to 8 hold of a book that is to be lent a table of so many places.
pub fn check_book(book: &[u8], places: usize, work: &mut WorkSpace) -> Result<(), Refusal> {
    // SAFETY: as above.
    let number = in_default_mode(|| unsafe {
        sys::keldurap_raw_check_book(
            book.as_ptr(),
            book.len(),
            places,
            work.reals.as_mut_ptr(),
            work.reals.len(),
            work.cells.as_mut_ptr(),
            work.cells.len(),
            work.marks.as_mut_ptr(),
            work.marks.len(),
        )
    });
    Refusal::unless_zero(number)
}

/// Checks the nodes of a table and times them, forward and backward, from a departure. On a refusal (3, 4, 5, 14, 15 or 16) the nodes are gone.
pub fn update_times(table: &mut Table, departure: f64, work: &mut WorkSpace) -> Result<(), Refusal> {
    let (floats, numbers) = table.filled_mut();
    let mut nodes = 0;
    // SAFETY: as above.
    let number = in_default_mode(|| unsafe {
        sys::keldurap_raw_update_times(
            floats.as_mut_ptr(),
            floats.len(),
            numbers.as_mut_ptr(),
            numbers.len(),
            departure,
            work.reals.as_mut_ptr(),
            work.reals.len(),
            work.cells.as_mut_ptr(),
            work.cells.len(),
            work.marks.as_mut_ptr(),
            work.marks.len(),
            &mut nodes,
        )
    });
    table.nodes = table.nodes.min(nodes as usize);
    Refusal::unless_zero(number)
}
