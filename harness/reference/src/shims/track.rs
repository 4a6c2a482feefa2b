//! Links, places on them and points along a path.

use crate::watch;

#[derive(Debug, Default, Clone, Copy, PartialEq, Eq, PartialOrd, Ord)]
pub struct LinkIdx(pub u32);

pub const LINK_IDX_NA: LinkIdx = LinkIdx(0);

impl LinkIdx {
    pub fn idx(&self) -> usize {
        self.0 as usize
    }
}

/// Whether an index names something. Of a join entry's link this is asked just before its
/// strands are walked.
pub trait ObjState: Sized {
    fn is_fake(&self) -> bool;
    fn is_real(&self) -> bool {
        !self.is_fake()
    }
    fn real(&self) -> Option<&Self> {
        self.is_real().then_some(self)
    }
}

impl ObjState for LinkIdx {
    fn is_fake(&self) -> bool {
        watch::next_entry();
        self.0 == 0
    }
}

/// A node's index as a place in a list.
pub trait Idx {
    fn idx(self) -> usize;
}

impl Idx for u32 {
    #[inline]
    fn idx(self) -> usize {
        watch::step();
        self as usize
    }
}

#[derive(Debug, Default, Clone, PartialEq)]
pub struct Link {
    pub length: f64,
    pub idx_next: LinkIdx,
    pub idx_next_alt: LinkIdx,
    pub idx_prev: LinkIdx,
    pub idx_prev_alt: LinkIdx,
}

/// Imported by name, used by the Python interface alone.
pub struct Network;

#[derive(Debug, Default, Clone, PartialEq)]
pub struct Location {
    pub link_idx: LinkIdx,
    pub offset: f64,
    pub is_front_end: bool,
}

/// Where a link starts on a path; the last point names link 0.
#[derive(Debug, Default, Clone, PartialEq)]
pub struct LinkPoint {
    pub offset: f64,
    pub link_idx: LinkIdx,
}
