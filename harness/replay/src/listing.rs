//! The library's listing of a sheet, against the text that is made here.
use crate::{FLOATS, NUMBERS};

extern "C" {
    fn keldurap_raw_list_sheet(
        floats: *const f64,
        floats_len: usize,
        numbers: *const u32,
        numbers_len: usize,
        report: *const [usize; 5],
        out: *mut u8,
        out_len: usize,
        length: *mut usize,
    ) -> u32;
}

/// Its answers where there is no listing: the slice is too short, or the table has fewer nodes than the report says.
const SHORT: u32 = 101;
const UNFILLED: u32 = 102;

/// The library's answer, all of a lent slice of so many bytes, and the length.
fn listed(floats: &[f64], numbers: &[u32], report: [usize; 5], size: usize) -> (u32, Vec<u8>, usize) {
    let (mut out, mut length) = (vec![0xa5; size], usize::MAX);
    // Pointers and lengths are those of slices that nothing else uses during the call.
    let answer = unsafe {
        keldurap_raw_list_sheet(
            floats.as_ptr(),
            floats.len(),
            numbers.as_ptr(),
            numbers.len(),
            &report,
            out.as_mut_ptr(),
            out.len(),
            &mut length,
        )
    };
    (answer, out, length)
}

/// Whether the library lists a sheet as the text does: into a slice of the text's size, with zeros behind it into a longer one,
/// with zeros alone into one that is a byte short, and from a table of which either slice is an element short.
pub fn is_listed(floats: &[f64], numbers: &[u32], report: [usize; 5], text: &[u8]) -> bool {
    let (nodes, size) = (report[0], text.len());
    let whole = |more: usize| {
        let (answer, out, length) = listed(floats, numbers, report, size + more);
        (answer, length) == (0, size) && out[..size] == *text && out[size..].iter().all(|&byte| byte == 0)
    };
    let none = |answer: u32, floats: &[f64], numbers: &[u32], size: usize| {
        listed(floats, numbers, report, size) == (answer, vec![0; size], 0)
    };
    whole(0)
        && whole(9)
        && none(SHORT, floats, numbers, size - 1)
        && none(SHORT, floats, numbers, 0)
        && none(UNFILLED, &floats[..FLOATS * nodes - 1], numbers, size)
        && none(UNFILLED, floats, &numbers[..NUMBERS * nodes - 1], size)
}
