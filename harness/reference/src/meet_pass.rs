//! The published modules over the shims.
//!
//! The macros stand before the modules, so there they hide those of the standard library.

pub mod disp_imports {
    pub use std::cmp::Ordering;
    pub use std::num::NonZeroU16;
    pub use std::path::PathBuf;

    pub use reference_macros::{pyo3_api, serde_api, Deserialize, Serialize};

    pub use super::disp_structs::*;
    pub use super::est_times::EstTime;
    pub use crate::shims::errors::{anyhow, Context, Init, SerdeAPI};
    pub use crate::shims::floats::{si, uc, Quantity, TrackedState};
    pub use crate::shims::lists::{nohash_hasher, BinaryHeap, IntMap, IntSet, Vec};
    pub use crate::shims::track::{Idx, Link, LinkIdx, LinkPoint, Location, ObjState};
    pub use crate::shims::train::{SpeedLimitTrainSim, TrainState};
    pub(crate) use crate::track;

    pub mod readonly {
        pub use reference_macros::make;
    }
}

macro_rules! assert {
    ($test:expr) => {
        if !$test {
            crate::watch::failed(stringify!($test))
        }
    };
}

// Of the two in the published text, the one that a strand walk makes of each next it reads
// counts them.
macro_rules! debug_assert {
    ($node:ident.idx_next != $none:ident) => {
        crate::watch::strand_next()
    };
    ($($test:tt)*) => {};
}

macro_rules! ensure {
    ($test:expr $(, $($message:tt)*)?) => {
        if !$test {
            return Err(crate::watch::error());
        }
    };
}

macro_rules! bail {
    ($error:ident) => {
        return Err($error)
    };
    ($($message:tt)*) => {
        return Err(crate::watch::error())
    };
}

macro_rules! format_dbg {
    () => {
        String::new()
    };
}

macro_rules! vec {
    () => {
        Vec::default()
    };
    ($flag:expr; $count:expr) => {
        crate::shims::lists::Flags::new($flag, $count)
    };
}

include!(concat!(env!("OUT_DIR"), "/published/mods.rs"));
