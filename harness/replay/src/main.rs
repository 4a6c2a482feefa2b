//! The programs over the proved static library.
use replay::jobs::{GROWN, SHEETS};
use replay::{books, events, options, roots, sizes, tables};
use std::process::ExitCode;

const USAGE: &str = "\
replay books|grown|options [--places P] [--work BYTES] | tables | events | roots      answers a stream from standard input
replay check-books|check-options|check-grown|check-sheets|check-sizes|check-damage|check-tables|check-events|check-roots [N [SEED]]
replay check-limits
Exit status 1: a difference, or the reference has an answer to nothing.";

fn verdict(differences: u64) -> ExitCode {
    if differences == 0 {
        ExitCode::SUCCESS
    } else {
        ExitCode::FAILURE
    }
}

fn replayed(result: std::io::Result<()>) -> ExitCode {
    match result {
        Ok(()) => ExitCode::SUCCESS,
        Err(error) => {
            eprintln!("{error}");
            ExitCode::FAILURE
        }
    }
}

fn usage() -> ExitCode {
    eprintln!("{USAGE}");
    ExitCode::from(2)
}

/// What `--places` and `--work` say: by default 65,535 places, and as much work space as a book asks for.
fn settings(words: &[String]) -> Option<(usize, Option<u64>)> {
    let (mut places, mut work) = (65_535, None);
    for pair in words.chunks(2) {
        let number = pair.get(1)?.parse().ok()?;
        match pair[0].as_str() {
            "--places" => places = number as usize,
            "--work" => work = Some(number),
            _ => return None,
        }
    }
    Some((places, work))
}

/// A stream of books.
fn books_answered(what: &str, places: usize, work: Option<u64>) -> std::io::Result<()> {
    match what {
        "books" => SHEETS.replay(places, work),
        "grown" => GROWN.replay(places, work),
        _ => options::replay(places, work),
    }
}

/// The named limits of every entry.
fn limits() -> u64 {
    books::check_limits() + options::check_limits() + GROWN.check_limits() + SHEETS.check_limits() + events::check_limits() + tables::check_limits()
}

/// Damaged books, through the reading and the whole job.
fn damage(n: u64, seed: u64) -> u64 {
    books::check_damage(n, seed) + SHEETS.check_damage(n, seed)
}

fn main() -> ExitCode {
    let words: Vec<String> = std::env::args().skip(1).collect();
    let number = |i: usize, or: u64| words.get(i).and_then(|w| w.parse().ok()).unwrap_or(or);
    match words.first().map_or("", String::as_str) {
        what @ ("books" | "grown" | "options") => match settings(&words[1..]) {
            Some((places, work)) => replayed(books_answered(what, places, work)),
            None => usage(),
        },
        "tables" => replayed(tables::replay()),
        "events" => replayed(events::replay()),
        "roots" => replayed(roots::replay()),
        "check-books" => verdict(books::check(number(1, 1_000_000), number(2, 1))),
        "check-options" => verdict(options::check(number(1, 1_000_000), number(2, 1))),
        "check-grown" => verdict(GROWN.check(number(1, 1_000_000), number(2, 1))),
        "check-sheets" => verdict(SHEETS.check(number(1, 1_000_000), number(2, 1))),
        "check-sizes" => verdict(sizes::check(&SHEETS, number(1, 10_000), number(2, 1))),
        "check-damage" => verdict(damage(number(1, 200), number(2, 1))),
        "check-tables" => verdict(tables::check(number(1, 1_000_000), number(2, 1))),
        "check-events" => verdict(events::check(number(1, 1_000_000), number(2, 1))),
        "check-roots" => verdict(roots::check(number(1, 10_000_000), number(2, 1))),
        "check-limits" => verdict(limits()),
        _ => usage(),
    }
}
