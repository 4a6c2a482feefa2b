//! "Little-endian bytes; floats are 8 bytes, other fields u32."

use crate::{Answer, No};

/// What is left of the bytes. Reading past their end is row 1.
pub struct Bytes<'a>(pub &'a [u8]);

impl<'a> Bytes<'a> {
    /// The next bytes, as many as are asked for.
    pub fn take(&mut self, size: u64) -> Answer<&'a [u8]> {
        if size > self.0.len() as u64 {
            return Err(No::Number(1));
        }
        let (taken, rest) = self.0.split_at(size as usize);
        self.0 = rest;
        Ok(taken)
    }

    pub fn number(&mut self) -> Answer<u32> {
        Ok(number(self.take(4)?, 0))
    }

    pub fn float(&mut self) -> Answer<f64> {
        Ok(float(self.take(8)?, 0))
    }

    /// A count and the bytes of its section; the count is taken as it stands.
    pub fn section(&mut self, each: u64) -> Answer<(u32, &'a [u8])> {
        let count = self.number()?;
        Ok((count, self.take(count as u64 * each)?))
    }
}

/// The u32 that starts at this byte.
pub fn number(bytes: &[u8], at: usize) -> u32 {
    u32::from_le_bytes(bytes[at..at + 4].try_into().unwrap())
}

/// The float that starts at this byte.
pub fn float(bytes: &[u8], at: usize) -> f64 {
    f64::from_le_bytes(bytes[at..at + 8].try_into().unwrap())
}

/// Row 4 in a table: "not finite or above 1,000,000,000 in size".
pub fn bad_size(x: f64) -> bool {
    !(x.abs() <= 1e9)
}

/// Row 4 in a book: "also sign bit set".
pub fn bad_float(x: f64) -> bool {
    bad_size(x) || x.is_sign_negative()
}
