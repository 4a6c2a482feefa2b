//! `print_sheet BOOK [PLACES]` prints the listing of a book's sheet, or `refused N`.
//! PLACES is how many nodes the table has places for, 65,535 if it is left out.
//! Exit status: 0 a sheet, 1 a refusal, also where nobody reads it to its end (a closed pipe); 2 wrong words, a file error, no memory, or standard output
//! that is closed or full, with a message that names it.
use keldurap::{list_sheet, listing_max, make_est_times, units_for_book, Table, WorkSpace, BOOK_MAX, PLACES_MAX};
use std::ffi::{c_int, OsStr, OsString};
use std::fmt::Display;
use std::fs::File;
use std::io::{self, ErrorKind, Read, Write};
use std::process::ExitCode;
use std::sync::atomic::{AtomicBool, Ordering};

const REFUSAL: u8 = 1;
const ERROR: u8 = 2;

/// Whether standard output was closed when the program began. Before `main` the runtime opens /dev/null in the place of a closed one, in which a sheet
/// would be lost without a word; so it is looked at before that, where the C library starts.
static CLOSED: AtomicBool = AtomicBool::new(false);

#[used]
#[link_section = ".init_array"]
static LOOK: extern "C" fn() = look;

extern "C" fn look() {
    extern "C" {
        fn fcntl(fd: c_int, command: c_int, ...) -> c_int;
    }
    const F_GETFD: c_int = 1;
    // SAFETY: of a number that names no open file the command gives -1, and it changes nothing.
    CLOSED.store(unsafe { fcntl(1, F_GETFD) } == -1, Ordering::Relaxed);
}

/// What is wrong, and with what.
struct Failure {
    what: String,
    why: String,
}

fn failure(what: impl Display, why: impl Display) -> Failure {
    Failure { what: what.to_string(), why: why.to_string() }
}

/// Writes a line to standard error, if that can be written to.
fn say(line: impl Display) {
    let _ = writeln!(io::stderr(), "{line}");
}

/// The file's name and the places.
fn words() -> Option<(OsString, usize)> {
    let mut words = std::env::args_os().skip(1);
    let file = words.next()?;
    let places = words.next().map_or(Some(PLACES_MAX), |word| places(&word))?;
    words.next().is_none().then_some((file, places))
}

/// A number from 0 to 65,535.
fn places(word: &OsStr) -> Option<usize> {
    let word = word.to_str()?;
    let is_number = word.len() <= 5 && word.bytes().all(|byte| byte.is_ascii_digit());
    word.parse().ok().filter(|&places| is_number && places <= PLACES_MAX)
}

fn read_book(file: &OsStr) -> Result<Vec<u8>, Failure> {
    let name = file.to_string_lossy();
    let mut book = Vec::new();
    let read = File::open(file).and_then(|file| file.take(BOOK_MAX as u64 + 1).read_to_end(&mut book));
    read.map_err(|error| failure(&name, error))?;
    if book.len() > BOOK_MAX {
        return Err(failure(name, "longer than any book"));
    }
    Ok(book)
}

/// Writes an answer to standard output. A pipe that nobody reads any more is no error: who reads takes as much as he wants.
fn print(answer: &[u8]) -> Result<(), Failure> {
    if CLOSED.load(Ordering::Relaxed) {
        return Err(failure("standard output", "closed"));
    }
    let mut out = io::stdout().lock();
    match out.write_all(answer).and_then(|()| out.flush()) {
        Err(error) if error.kind() != ErrorKind::BrokenPipe => Err(failure("standard output", error)),
        _ => Ok(()),
    }
}

/// Prints the answer to a book on a table of so many places.
fn answer(file: &OsStr, places: usize) -> Result<ExitCode, Failure> {
    let book = read_book(file)?;
    let no_memory = |_| failure("table, work space and listing", "no memory");
    let mut table = Table::try_new(places).map_err(no_memory)?;
    let mut work = WorkSpace::try_new(units_for_book(&book, places)).map_err(no_memory)?;
    match make_est_times(&book, &mut table, &mut work) {
        Ok(report) => {
            let mut out = Vec::new();
            out.try_reserve_exact(listing_max(report.nodes)).map_err(no_memory)?;
            out.resize(listing_max(report.nodes), 0);
            let listing = list_sheet(&table, &report, &mut out).map_err(|why| failure("listing", why))?;
            print(listing.as_bytes())?;
            Ok(ExitCode::SUCCESS)
        }
        Err(refusal) => {
            print(format!("refused {}\n", refusal.number()).as_bytes())?;
            Ok(ExitCode::from(REFUSAL))
        }
    }
}

fn main() -> ExitCode {
    let Some((file, places)) = words() else {
        say("print_sheet BOOK [PLACES]   (PLACES: 0 to 65535)");
        return ExitCode::from(ERROR);
    };
    answer(&file, places).unwrap_or_else(|Failure { what, why }| {
        say(format_args!("print_sheet: {what}: {why}"));
        ExitCode::from(ERROR)
    })
}
