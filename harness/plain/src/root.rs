//! "the rounded square root", worked out over whole numbers.

/// The root of a float, rounded to nearest.
pub fn root(x: f64) -> f64 {
    f64::from_bits(root_bits(x.to_bits()))
}

/// A zero and +infinity are their own roots; below zero and NaN: the one NaN.
pub fn root_bits(bits: u64) -> u64 {
    let x = f64::from_bits(bits);
    if x == 0.0 || x == f64::INFINITY {
        bits
    } else if x > 0.0 {
        positive(bits)
    } else {
        0x7ff8_0000_0000_0000
    }
}

/// The float is m * 2^e, with m of 53 or 54 bits and e even. The whole root q of
/// m * 2^54 has 54 bits, one too many. If that one is set, q * q is odd, so q is
/// not the root itself but below it: adding 1 and halving rounds to nearest.
fn positive(bits: u64) -> u64 {
    let (mut m, mut e) = parts(bits);
    if e % 2 != 0 {
        m *= 2;
        e -= 1;
    }
    let q = ((m as u128) << 54).isqrt() as u64;
    let r = (q + 1) / 2;
    // sqrt(m * 2^54) * 2^(e/2 - 27) = r * 2 * 2^(e/2 - 27), and r is 1.f * 2^52.
    let exponent = e / 2 - 27 + 1 + 52;
    (((exponent + 1023) as u64) << 52) + (r - (1 << 52))
}

/// m of just 53 bits and e, with the float m * 2^e.
fn parts(bits: u64) -> (u64, i64) {
    let field = (bits >> 52) as i64;
    let fraction = bits & ((1 << 52) - 1);
    if field == 0 {
        let shift = fraction.leading_zeros() - 11;
        (fraction << shift, -1074 - shift as i64)
    } else {
        (fraction | 1 << 52, field - 1075)
    }
}
