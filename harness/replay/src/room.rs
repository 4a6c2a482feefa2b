//! What is lent to the entries that take a book to nodes, and the call of one.
use crate::books::{refill, Work};
use crate::{FLOATS, NUMBERS};

macro_rules! entries {
    ($($name:ident)*) => {
        extern "C" {
            $(pub fn $name(
                book: *const u8,
                book_len: usize,
                floats: *mut f64,
                floats_len: usize,
                numbers: *mut u32,
                numbers_len: usize,
                reals: *mut f64,
                reals_len: usize,
                cells: *mut u32,
                cells_len: usize,
                marks: *mut u32,
                marks_len: usize,
                report: *mut [usize; 5],
            ) -> u32;)*
        }
    };
}

entries! { keldurap_raw_grow_network keldurap_raw_make_est_times }

/// An entry that takes a book to nodes.
#[derive(Clone, Copy)]
pub enum Entry {
    /// `keldurap_raw_grow_network`
    Grow,
    /// `keldurap_raw_make_est_times`
    Make,
}

/// How long each lent slice is: floats and numbers; reals, cells and marks.
#[derive(Clone, Copy)]
pub struct Lengths {
    pub table: [usize; 2],
    pub work: [usize; 3],
}

impl Lengths {
    /// So many places and bytes of work space, and in each slice a part of a place or of a unit more.
    pub fn of(places: usize, bytes: u64) -> Lengths {
        Lengths { table: [FLOATS * places + 3, NUMBERS * places + 5], work: Work::lengths(bytes) }
    }

    /// The places that both slices of the table fill.
    pub fn places(&self) -> usize {
        (self.table[0] / FLOATS).min(self.table[1] / NUMBERS)
    }

    /// The bytes of the units that all three slices of the work space fill.
    pub fn bytes(&self) -> u64 {
        let [reals, cells, marks] = self.work;
        64 * (reals / 3).min(cells / 8).min(marks / 2) as u64
    }
}

/// A table and work space, kept from call to call.
#[derive(Default)]
pub struct Room {
    work: Work,
    pub(crate) floats: Vec<f64>,
    pub(crate) numbers: Vec<u32>,
}

impl Room {
    /// Slices so long, all filled with what no call has left there.
    pub fn lend(&mut self, lengths: Lengths) {
        self.work.lend_slices(lengths.work);
        refill(&mut self.floats, lengths.table[0], f64::MAX);
        refill(&mut self.numbers, lengths.table[1], 0xa5a5_a5a5);
    }

    /// The entry's number, and its report: nodes, added, splits, joined, finished.
    pub fn call(&mut self, entry: Entry, bytes: &[u8]) -> (u32, [usize; 5]) {
        let entry = match entry {
            Entry::Grow => keldurap_raw_grow_network,
            Entry::Make => keldurap_raw_make_est_times,
        };
        let work = &mut self.work;
        let mut report = [usize::MAX; 5];
        // Pointers and lengths are those of slices that nothing else uses during the call.
        let number = unsafe {
            entry(
                bytes.as_ptr(),
                bytes.len(),
                self.floats.as_mut_ptr(),
                self.floats.len(),
                self.numbers.as_mut_ptr(),
                self.numbers.len(),
                work.reals.as_mut_ptr(),
                work.reals.len(),
                work.cells.as_mut_ptr(),
                work.cells.len(),
                work.marks.as_mut_ptr(),
                work.marks.len(),
                &mut report,
            )
        };
        (number, report)
    }

    /// Makes the slices zero that the job begins with: all but the reals.
    pub fn clear_before(&mut self) {
        self.floats.fill(0.0);
        self.numbers.fill(0);
        self.work.cells.fill(0);
        self.work.marks.fill(0);
    }

    /// Makes all slices zero.
    pub fn clear(&mut self) {
        self.clear_before();
        self.work.reals.fill(0.0);
    }

    /// The first nodes as an item for `keldurap_raw_update_times`, with a departure of 0.
    pub fn item(&self, nodes: usize) -> Vec<u8> {
        let mut item = vec![0; 8];
        for (floats, numbers) in self.floats.chunks(FLOATS).zip(self.numbers.chunks(NUMBERS)).take(nodes) {
            item.extend(floats.iter().flat_map(|x| x.to_le_bytes()));
            item.extend(numbers.iter().flat_map(|n| n.to_le_bytes()));
        }
        item
    }

    /// Whether the work space is zero, and the table from a node on.
    pub(crate) fn is_zero_from(&self, nodes: usize) -> bool {
        let floats = self.floats.iter().skip(FLOATS * nodes).all(|x| x.to_bits() == 0);
        floats && self.numbers.iter().skip(NUMBERS * nodes).all(|&n| n == 0) && self.work.is_zero()
    }
}
