//! The square root, against the machine's.
use std::hint::black_box;
use std::io::{self, BufWriter, Read, Write};

const NAN: u64 = 0x7ff8_0000_0000_0000;

extern "C" {
    fn keldurap_raw_root(x: f64) -> f64;
}

/// One pattern for every NaN. `black_box`, since rustc has been seen to drop the test and keep the raw pattern.
fn pattern(x: f64) -> u64 {
    let x = black_box(x);
    if x.is_nan() {
        black_box(NAN)
    } else {
        x.to_bits()
    }
}

/// The library's root.
pub fn root(x: f64) -> f64 {
    // The function takes any f64, and is proved for every one.
    unsafe { keldurap_raw_root(x) }
}

/// The library's root of a pattern.
fn ours(bits: u64) -> u64 {
    pattern(root(f64::from_bits(bits)))
}

fn machine(bits: u64) -> u64 {
    pattern(black_box(f64::from_bits(bits)).sqrt())
}

/// Patterns of 8 bytes from standard input, 16 hexadecimal digits a line.
pub fn replay() -> io::Result<()> {
    let mut input = Vec::new();
    io::stdin().lock().read_to_end(&mut input)?;
    let mut out = BufWriter::new(io::stdout().lock());
    for bytes in input.chunks_exact(8) {
        writeln!(out, "{:016x}", ours(u64::from_le_bytes(bytes.try_into().unwrap())))?;
    }
    out.flush()
}

/// The first n patterns of a seed. The number of differences.
pub fn check(n: u64, seed: u64) -> u64 {
    let mut differences = 0;
    for k in 0..n {
        let bits = generator::root(seed, k);
        let (a, b) = (ours(bits), machine(bits));
        if a != b {
            differences += 1;
            if differences <= 10 {
                println!("root of {bits:016x}: {a:016x}, the machine {b:016x}");
            }
        }
    }
    println!("{n} roots, {differences} differences");
    differences
}
