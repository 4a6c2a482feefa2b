//! The program: a stream of items from standard input, each after its byte count
//! (u32, little-endian); before each answer a line `== K`, K from 0.

use std::io::{self, BufReader, BufWriter, ErrorKind, Read, Write};
use std::process::ExitCode;

const USAGE: &str = "\
usage: plain books|options [--places P] [--work BYTES]
       plain tables
       plain events
       plain roots";

fn main() -> ExitCode {
    let arguments: Vec<String> = std::env::args().skip(1).collect();
    let words: Vec<&str> = arguments.iter().map(String::as_str).collect();
    let done = match words.as_slice() {
        [what @ ("books" | "options"), settings @ ..] => match book_settings(settings) {
            Some((places, work)) => {
                let answer = if *what == "books" { plain::book } else { plain::options };
                items(|item| answer(item, places, work))
            }
            None => return usage(),
        },
        ["tables"] => items(plain::table),
        ["events"] => items(plain::events),
        ["roots"] => roots(),
        _ => return usage(),
    };
    match done {
        Ok(()) => ExitCode::SUCCESS,
        Err(error) => {
            eprintln!("plain: {error}");
            ExitCode::FAILURE
        }
    }
}

fn usage() -> ExitCode {
    eprintln!("{USAGE}");
    ExitCode::from(2)
}

/// Places and work space; defaults: 65,535, and as much as the book asks for.
fn book_settings(mut settings: &[&str]) -> Option<(usize, Option<u64>)> {
    let (mut places, mut work) = (65_535, None);
    while let [name, value, rest @ ..] = settings {
        match *name {
            "--places" => places = value.parse().ok()?,
            "--work" => work = Some(value.parse().ok()?),
            _ => return None,
        }
        settings = rest;
    }
    settings.is_empty().then_some((places, work))
}

/// Answer each item in turn.
fn items(answer: impl Fn(&[u8]) -> Vec<u8>) -> io::Result<()> {
    let mut input = BufReader::with_capacity(1 << 16, io::stdin().lock());
    let mut output = BufWriter::with_capacity(1 << 16, io::stdout().lock());
    let mut count = [0; 4];
    let mut number = 0;
    while fill(&mut input, &mut count)? {
        let size = u32::from_le_bytes(count) as u64;
        let mut item = Vec::new();
        if input.by_ref().take(size).read_to_end(&mut item)? as u64 != size {
            return Err(ErrorKind::UnexpectedEof.into());
        }
        writeln!(output, "== {number}")?;
        output.write_all(&answer(&item))?;
        number += 1;
    }
    output.flush()
}

/// "bit patterns of 8 bytes, little-endian; 16 hexadecimal digits a line"
fn roots() -> io::Result<()> {
    let mut input = BufReader::with_capacity(1 << 16, io::stdin().lock());
    let mut output = BufWriter::with_capacity(1 << 16, io::stdout().lock());
    let mut bits = [0; 8];
    while fill(&mut input, &mut bits)? {
        writeln!(output, "{:016x}", plain::root(u64::from_le_bytes(bits)))?;
    }
    output.flush()
}

/// Fill the buffer; false if the input ends before its first byte.
fn fill(input: &mut impl Read, buffer: &mut [u8]) -> io::Result<bool> {
    let mut filled = 0;
    while filled < buffer.len() {
        match input.read(&mut buffer[filled..])? {
            0 if filled == 0 => return Ok(false),
            0 => return Err(ErrorKind::UnexpectedEof.into()),
            n => filled += n,
        }
    }
    Ok(true)
}
