//! `reference books|grown|options|tables|events|roots`: answers a stream of items.

use std::io::{self, BufWriter, ErrorKind, Read, Write};

struct Settings {
    places: usize,
    work: Option<u64>,
}

fn main() -> io::Result<()> {
    let mut words = std::env::args().skip(1);
    let what = words.next().unwrap_or_default();
    let mut settings = Settings { places: 65_535, work: None };
    while let Some(word) = words.next() {
        let number = words.next().and_then(|number| number.parse().ok());
        let number: u64 = number.unwrap_or_else(|| usage());
        match word.as_str() {
            "--places" if is_book(&what) => settings.places = number as usize,
            "--work" if is_book(&what) => settings.work = Some(number),
            _ => usage(),
        }
    }
    match what.as_str() {
        "books" => items(|item| reference::book(item, settings.places, settings.work)),
        "grown" => items(|item| reference::grown(item, settings.places, settings.work)),
        "options" => items(|item| reference::options(item, settings.places, settings.work)),
        "tables" => items(reference::table),
        "events" => items(reference::events),
        "roots" => roots(),
        _ => usage(),
    }
}

/// Whether the items are books.
fn is_book(what: &str) -> bool {
    matches!(what, "books" | "grown" | "options")
}

fn usage() -> ! {
    eprintln!("reference books|grown|options [--places P] [--work BYTES] | tables | events | roots");
    std::process::exit(2)
}

/// Each item stands after its byte count; `== K` stands before each answer.
fn items(answer: impl Fn(&[u8]) -> Vec<u8>) -> io::Result<()> {
    let mut input = io::stdin().lock();
    let mut out = BufWriter::new(io::stdout().lock());
    let mut item = Vec::new();
    for number in 0.. {
        let mut count = [0; 4];
        if !filled(&mut input, &mut count)? {
            break;
        }
        item.resize(u32::from_le_bytes(count) as usize, 0);
        input.read_exact(&mut item)?;
        writeln!(out, "== {number}")?;
        out.write_all(&answer(&item))?;
    }
    out.flush()
}

fn roots() -> io::Result<()> {
    let mut input = io::stdin().lock();
    let mut out = BufWriter::new(io::stdout().lock());
    let mut bits = [0; 8];
    while filled(&mut input, &mut bits)? {
        writeln!(out, "{:016x}", reference::root(u64::from_le_bytes(bits)))?;
    }
    out.flush()
}

/// Reads these bytes; false at the end of the stream.
fn filled(input: &mut impl Read, bytes: &mut [u8]) -> io::Result<bool> {
    let mut read = 0;
    while read < bytes.len() {
        match input.read(&mut bytes[read..])? {
            0 if read == 0 => return Ok(false),
            0 => return Err(ErrorKind::UnexpectedEof.into()),
            more => read += more,
        }
    }
    Ok(true)
}
