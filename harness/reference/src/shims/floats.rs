//! Quantities are plain f64 in base units, tracked states plain values.

use super::errors::anyhow;

pub mod si {
    pub type Time = f64;
    pub type Length = f64;
    pub type Velocity = f64;

    #[allow(non_camel_case_types)]
    pub struct hour;
}

pub mod uc {
    pub const S: f64 = 1.0;
    pub const M: f64 = 1.0;
    pub const TIME_NAN: f64 = f64::NAN;

    /// Imported by name and no longer used.
    pub const SPEED_DIFF_JOIN: f64 = f64::NAN;

    /// The book's J.
    pub fn speed_diff_join() -> f64 {
        crate::watch::gap()
    }
}

/// What a quantity has and an f64 hasn't.
pub trait Quantity: Sized {
    const ZERO: Self;
    fn get<Unit: Scale>(self) -> f64;
}

pub trait Scale {
    const BASE: f64;
}

impl Scale for si::hour {
    const BASE: f64 = 3600.0;
}

impl Quantity for f64 {
    const ZERO: f64 = 0.0;
    fn get<Unit: Scale>(self) -> f64 {
        self / Unit::BASE
    }
}

/// Always fresh.
#[derive(Debug, Default, Clone, PartialEq)]
pub struct TrackedState<T>(pub T);

impl<T> TrackedState<T> {
    #[inline]
    pub fn get_fresh(&self, _place: impl Fn() -> String) -> anyhow::Result<&T> {
        Ok(&self.0)
    }
}
