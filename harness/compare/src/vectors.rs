//! Vectors for the proved program `vectors`: books of every kind and every number, with the reference's answers.
use generator::{book, limits};
use std::collections::BTreeMap;
use std::fs::File;
use std::io::{BufWriter, Write};
use std::path::Path;

/// What the program `sheet` lends: 192 nodes and 65,536 bytes of work space.
const PLACES: usize = 192;
const WORK: u64 = 65_536;

/// The longest book that is kept, of the named limits and of the random ones.
const LONGEST: usize = 8_192;
const LONGEST_RANDOM: usize = 1_600;

/// What an answer is kept by: its number, or how many splits, joins and ends the sheet has.
fn kind(answer: &[u8]) -> String {
    let head = std::str::from_utf8(answer).unwrap().lines().next().unwrap();
    match head.split_once(" splits ") {
        Some((_, rest)) => rest.to_string(),
        None => head.to_string(),
    }
}

/// How many of a kind are kept: more of each number than of each sheet's shape.
fn most(kind: &str) -> usize {
    if kind.starts_with("refused") {
        12
    } else {
        3
    }
}

/// Writes `stdin` and `stdout` to a folder: the named limits and the first `count` random books of a seed, as far as they are short, have the reference's answer and are of a kind that isn't there often enough.
pub fn write(folder: &Path, count: u64, seed: u64) -> std::io::Result<()> {
    let mut input = BufWriter::new(File::create(folder.join("stdin"))?);
    let mut output = BufWriter::new(File::create(folder.join("stdout"))?);
    let named = limits().into_iter().filter(|limit| limit.kind == "books").map(|limit| limit.item.bytes);
    let named = named.filter(|bytes| bytes.len() <= LONGEST);
    let random = (0..count).map(|number| book(seed, number).bytes).filter(|bytes| bytes.len() <= LONGEST_RANDOM);
    let mut kinds: BTreeMap<String, usize> = BTreeMap::new();
    let mut k = 0;
    for bytes in named.chain(random) {
        let answer = reference::book(&bytes, PLACES, Some(WORK));
        if answer == reference::NO_ANSWER {
            continue;
        }
        let times = kinds.entry(kind(&answer)).or_default();
        if *times == most(&kind(&answer)) {
            continue;
        }
        *times += 1;
        input.write_all(&(bytes.len() as u32).to_le_bytes())?;
        input.write_all(&bytes)?;
        write!(output, "== {k}\n")?;
        output.write_all(&answer)?;
        k += 1;
    }
    println!("{k} books: {kinds:?}");
    input.flush()?;
    output.flush()
}
