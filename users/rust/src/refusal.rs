//! Why something is not accepted.
use std::error::Error;
use std::fmt;

/// The number of a row of docs/REFUSALS.md, 1 to 16: why a book, a node table or an event list is not accepted.
#[derive(Clone, Copy, Debug, PartialEq, Eq, Hash)]
pub struct Refusal(u32);

const MEANINGS: [&str; 16] = [
    "the bytes end before the last field does",
    "bytes are left over behind the last sample",
    "a count is outside its limits, a leg has no samples, the legs' samples don't add up, or the work space is too small",
    "a float is not finite, too large or below zero, or a flag or kind is unknown",
    "an index names nothing, link 0 is not all zero, a link has length 0, or both nexts of a link are the same",
    "an origin has an offset or the front flag, or its link is repeated",
    "a leg is on link 0 or repeated, its parent is not an earlier leg, its times don't rise, its offsets fall, or it doesn't begin where it has to",
    "a destination is link 0, or the search back from the destinations meets no origin",
    "a run has nowhere to go",
    "a leg that is needed is missing",
    "a sample reaches the end of its path, or an event has no finite speed and time",
    "the table is full, or a join list, the waiting runs' entries or a strand walk is too long",
    "an event would stand behind a finished run's, or a run finishes where it can't",
    "the network is not linked both ways as it must be",
    "a time pass can't go on",
    "all times are 0",
];

impl Refusal {
    /// The library's number as a result: 0 is none.
    pub(crate) fn unless_zero(number: u32) -> Result<(), Refusal> {
        match number {
            0 => Ok(()),
            _ => Err(Refusal(number)),
        }
    }

    pub fn number(self) -> u32 {
        self.0
    }

    /// What the row means, in a line.
    pub fn meaning(self) -> &'static str {
        MEANINGS.get((self.0 as usize).wrapping_sub(1)).copied().unwrap_or("no row has this number")
    }
}

impl fmt::Display for Refusal {
    fn fmt(&self, f: &mut fmt::Formatter) -> fmt::Result {
        write!(f, "refused {}: {}", self.0, self.meaning())
    }
}

impl Error for Refusal {}
