//! The archive's own functions, as include/keldurap.h declares them. They compute in the caller's floating-point mode: each is called by `mode::in_default_mode`.
use crate::Report;

/// An entry from a book to nodes: book, table, work space, report.
pub type FromBook = unsafe extern "C" fn(
    *const u8,
    usize,
    *mut f64,
    usize,
    *mut u32,
    usize,
    *mut f64,
    usize,
    *mut u32,
    usize,
    *mut u32,
    usize,
    *mut Report,
) -> u32;

macro_rules! from_book {
    ($($name:ident)*) => {
        extern "C" {
            $(pub fn $name(
                book: *const u8,
                book_len: usize,
                floats: *mut f64,
                floats_len: usize,
                numbers: *mut u32,
                numbers_len: usize,
                reals: *mut f64,
                reals_len: usize,
                cells: *mut u32,
                cells_len: usize,
                marks: *mut u32,
                marks_len: usize,
                report: *mut Report,
            ) -> u32;)*
        }
    };
}

/// Why there is no listing: the slice is too short, or the table has fewer nodes than the report says (include/keldurap.h).
pub const LISTING_SHORT: u32 = 101;
pub const TABLE_UNFILLED: u32 = 102;

from_book! { keldurap_raw_grow_network keldurap_raw_make_est_times }

extern "C" {
    pub fn keldurap_raw_root(x: f64) -> f64;

    pub fn keldurap_raw_check_book(
        book: *const u8,
        book_len: usize,
        places: usize,
        reals: *mut f64,
        reals_len: usize,
        cells: *mut u32,
        cells_len: usize,
        marks: *mut u32,
        marks_len: usize,
    ) -> u32;

    pub fn keldurap_raw_make_events(
        train_length: f64,
        samples: *const u8,
        samples_len: usize,
        offsets: *const f64,
        offsets_len: usize,
        links: *const u32,
        links_len: usize,
        floats: *mut f64,
        floats_len: usize,
        numbers: *mut u32,
        numbers_len: usize,
        count: *mut u32,
    ) -> u32;

    pub fn keldurap_raw_update_times(
        floats: *mut f64,
        floats_len: usize,
        numbers: *mut u32,
        numbers_len: usize,
        departure: f64,
        reals: *mut f64,
        reals_len: usize,
        cells: *mut u32,
        cells_len: usize,
        marks: *mut u32,
        marks_len: usize,
        nodes: *mut u32,
    ) -> u32;

    pub fn keldurap_raw_list_sheet(
        floats: *const f64,
        floats_len: usize,
        numbers: *const u32,
        numbers_len: usize,
        report: *const Report,
        out: *mut u8,
        out_len: usize,
        length: *mut usize,
    ) -> u32;
}
