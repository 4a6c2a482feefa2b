//! Bit patterns for the root.

use crate::random::Random;

/// Pattern `number` of a seed.
pub fn root(seed: u64, number: u64) -> u64 {
    let r = &mut Random::new(seed, number ^ 1 << 43);
    match r.below(10) {
        0 | 1 => r.bits(),
        2 => {
            let size = r.between(1, 53);
            (r.below(1 << size) as f64).to_bits()
        }
        3 | 4 => near_square(r),
        5 | 6 => near_midpoint(r),
        7 => r.bits() >> 12 >> r.below(52),
        8 => {
            let power = r.below(2_047) << 52;
            power.wrapping_add(r.below(5)).wrapping_sub(2)
        }
        _ => odd_one(r),
    }
}

/// A number that is finite and not below 0, from about all sizes.
fn any_size(r: &mut Random, fraction: u64) -> f64 {
    f64::from_bits(r.between(1, 2_046) << 52 | fraction & ((1 << 52) - 1))
}

/// The rounded square of a number of any length of fraction, or a neighbour.
fn near_square(r: &mut Random) -> u64 {
    let fraction = r.bits() << r.below(52);
    let exponent = r.between(512, 1_534) << 52;
    let root = f64::from_bits(exponent | fraction & ((1 << 52) - 1));
    (root * root).to_bits().wrapping_add(r.below(5)).wrapping_sub(2)
}

/// Neighbours of a square of a number just between two floats: (2q + 1)^2 over a power of four.
fn near_midpoint(r: &mut Random) -> u64 {
    let q = 1u128 << 52 | (r.bits() >> 12 >> r.below(50)) as u128;
    let odd = 2 * q + 1;
    let square = odd * odd;
    let places = 128 - square.leading_zeros() - 53;
    let fraction = (square >> places) as u64;
    let shift = 2 * r.below(1_000) as i32 - 1_000;
    let value = fraction as f64 * 2f64.powi((places % 2) as i32 + shift);
    value.to_bits().wrapping_add(r.below(3)).wrapping_sub(1)
}

fn odd_one(r: &mut Random) -> u64 {
    let fraction = r.bits();
    let any = any_size(r, fraction);
    let value = r.pick(&[
        0.0,
        -0.0,
        f64::INFINITY,
        f64::NEG_INFINITY,
        f64::NAN,
        -f64::NAN,
        f64::MAX,
        f64::MIN_POSITIVE,
        f64::MIN_POSITIVE.next_down(),
        1.0,
        1f64.next_up(),
        1f64.next_down(),
        -1.0,
        -any,
        any,
        4f64.next_down(),
        2.0,
    ]);
    let signalling = 0x7ff0_0000_0000_0000 | fraction >> 12 | 1;
    if r.one_in(12) {
        signalling
    } else {
        value.to_bits()
    }
}
