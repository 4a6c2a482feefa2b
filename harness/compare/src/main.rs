//! compare: the same inputs through `reference` and `plain`, every byte of the answers compared where both have one.

mod kinds;
mod run;
mod shrink;
mod tally;
mod vectors;

use kinds::Kind;
use run::Order;
use std::io::Write;
use std::process::ExitCode;
use std::time::{Duration, Instant};

const USAGE: &str = "\
compare books|tables|events|roots N [--seed S] [--threads T]   N random items through both
compare limits                       the named books on the limits of rows 3 and 12
compare quick                        some seconds of each, for the gate
compare write KIND N [--seed S]      a stream of N items to standard output
compare vectors FOLDER N [--seed S]  stdin and stdout of the proved program `vectors`
compare shrink FILE                  a smaller book that still makes a difference
Exit status 1: a difference, or the reference has an answer to nothing.";

struct Options {
    words: Vec<String>,
    seed: u64,
    threads: usize,
}

fn options() -> Option<Options> {
    let mut options = Options { words: vec![], seed: 1, threads: 2 };
    let mut arguments = std::env::args().skip(1);
    while let Some(argument) = arguments.next() {
        match argument.as_str() {
            "--seed" => options.seed = arguments.next()?.parse().ok()?,
            "--threads" => options.threads = arguments.next()?.parse().ok()?,
            _ => options.words.push(argument),
        }
    }
    Some(options)
}

/// Runs the command; true if nothing differed.
fn command(options: &Options) -> Option<bool> {
    let words: Vec<&str> = options.words.iter().map(String::as_str).collect();
    match words[..] {
        ["limits"] => Some(run::limits(true)),
        ["quick"] => Some(quick(options)),
        ["write", kind, count] => {
            write(Kind::named(kind)?, options.seed, count.parse().ok()?).ok()?;
            Some(true)
        }
        ["shrink", file] => shrink::shrink(file).ok(),
        ["vectors", folder, count] => {
            vectors::write(folder.as_ref(), count.parse().ok()?, options.seed).ok()?;
            Some(true)
        }
        [kind, count] => {
            let order =
                Order { kind: Kind::named(kind)?, seed: options.seed, threads: options.threads.max(1) };
            Some(order.run(count.parse().ok()?, None))
        }
        _ => None,
    }
}

/// Some seconds of each kind, and the limits that take no longer than a moment.
fn quick(options: &Options) -> bool {
    let shares = [(Kind::Books, 7), (Kind::Tables, 4), (Kind::Events, 2), (Kind::Roots, 1)];
    let mut is_same = run::limits(false);
    for (kind, seconds) in shares {
        let order = Order { kind, seed: options.seed, threads: options.threads.max(1) };
        is_same &= order.run(u64::MAX, Some(Instant::now() + Duration::from_secs(seconds)));
    }
    is_same
}

fn write(kind: Kind, seed: u64, count: u64) -> std::io::Result<()> {
    let mut out = std::io::BufWriter::new(std::io::stdout().lock());
    let mut source = kinds::Source::new(kind, seed);
    for number in 0..count {
        let bytes = source.item(number).bytes;
        if kind != Kind::Roots {
            out.write_all(&(bytes.len() as u32).to_le_bytes())?;
        }
        out.write_all(&bytes)?;
    }
    out.flush()
}

fn main() -> ExitCode {
    match options().as_ref().and_then(command) {
        Some(true) => ExitCode::SUCCESS,
        Some(false) => ExitCode::from(1),
        None => {
            eprintln!("{USAGE}");
            ExitCode::from(2)
        }
    }
}
