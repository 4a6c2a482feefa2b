//! Little-endian fields, one after the other.

pub struct Fields<'a>(pub &'a [u8]);

impl<'a> Fields<'a> {
    /// The next so many bytes, or row 1: the bytes end before.
    pub fn take(&mut self, count: u64) -> Result<Fields<'a>, u32> {
        if (self.0.len() as u64) < count {
            return Err(1);
        }
        let (taken, rest) = self.0.split_at(count as usize);
        self.0 = rest;
        Ok(Fields(taken))
    }

    /// A section after its count: rows of so many bytes.
    pub fn section(&mut self, width: u64) -> Result<Fields<'a>, u32> {
        let count = self.take(4)?.u32();
        self.take(count as u64 * width)
    }

    /// Row 2: bytes are left over.
    pub fn end(&self) -> Result<(), u32> {
        refuse_if(!self.0.is_empty(), 2)
    }

    pub fn rows(&self, width: usize) -> impl ExactSizeIterator<Item = Fields<'a>> {
        self.0.chunks_exact(width).map(Fields)
    }

    /// The next field, of bytes that are there.
    pub fn u32(&mut self) -> u32 {
        u32::from_le_bytes(self.array())
    }

    pub fn f64(&mut self) -> f64 {
        f64::from_le_bytes(self.array())
    }

    fn array<const N: usize>(&mut self) -> [u8; N] {
        let (first, rest) = self.0.split_first_chunk().expect("a field that was counted");
        self.0 = rest;
        *first
    }
}

pub fn refuse_if(condition: bool, number: u32) -> Result<(), u32> {
    if condition {
        Err(number)
    } else {
        Ok(())
    }
}

/// Row 4 of a table: finite and at most 1,000,000,000 in size.
pub fn in_size(value: f64) -> bool {
    value.abs() <= 1e9
}

/// Row 4 of a book: the sign bit clear, too.
pub fn in_book(value: f64) -> bool {
    in_size(value) && value.is_sign_positive()
}
