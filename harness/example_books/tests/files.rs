//! The files of examples/ are what the program writes, and both answers agree to them.

use example_books::{accepted, answers, files, refused, refused_tables, WORK};
use std::collections::BTreeMap;
use std::fs;
use std::path::Path;

const ENDINGS: [&str; 3] = ["book", "sheet", "table"];

fn examples() -> &'static Path {
    Path::new(concat!(env!("CARGO_MANIFEST_DIR"), "/../../examples"))
}

/// The books, sheets and tables of a folder of examples/, by name; empty: of examples/ itself.
fn stored(folder: &str) -> Vec<(String, Vec<u8>)> {
    let paths = fs::read_dir(examples().join(folder)).unwrap().map(|entry| entry.unwrap().path());
    let is_example = |path: &Path| ENDINGS.iter().any(|end| path.extension().is_some_and(|e| e == *end));
    let name = |path: &Path| Path::new(folder).join(path.file_name().unwrap()).display().to_string();
    paths.filter(|path| is_example(path)).map(|path| (name(&path), fs::read(&path).unwrap())).collect()
}

#[test]
fn the_files_are_those_that_are_written() {
    let written: BTreeMap<_, _> = files().into_iter().collect();
    let stored: BTreeMap<_, _> = stored("").into_iter().chain(stored("refused")).collect();
    assert_eq!(stored.keys().collect::<Vec<_>>(), written.keys().collect::<Vec<_>>());
    for (name, bytes) in &written {
        assert_eq!(&stored[name], bytes, "{name}");
        assert!(bytes.len() < 2_048, "{name}");
    }
}

#[test]
fn accepted_books_have_their_sheets() {
    for (name, book) in accepted() {
        let sheet = fs::read(examples().join(format!("{name}.sheet"))).unwrap();
        assert!(sheet.starts_with(b"nodes "), "{name}");
        assert!(answers(&book).are(&sheet), "{name}");
    }
}

/// Document 02, Ask 1: a train that stands on a point. All other sheets are the reference's.
#[test]
fn two_sheets_are_the_second_answers() {
    let unanswered = accepted().into_iter().filter(|(_, book)| answers(book).reference.is_none());
    assert_eq!(unanswered.map(|(name, _)| name).collect::<Vec<_>>(), ["front_on_point", "back_on_point"]);
}

/// The times of link 2's Arrive and Clear, nodes 4 and 5: 2 and 66.5 s, 2 and 6 s.
#[test]
fn standing_trains_have_their_times() {
    for (book, times) in [("front_on_point", [2.0, 66.5]), ("back_on_point", [2.0, 6.0])] {
        let sheet = fs::read_to_string(examples().join(format!("{book}.sheet"))).unwrap();
        let rows: Vec<Vec<&str>> = sheet.lines().skip(1).map(|row| row.split(' ').collect()).collect();
        for (row, kind, time) in [(&rows[4], "A", times[0]), (&rows[5], "C", times[1])] {
            assert_eq!((row[1], row[2], bits(row[7])), (kind, "2", f64::to_bits(time)), "{book}");
        }
    }
}

/// The bits of a float in the listing, whose closing zeros are dropped.
fn bits(digits: &str) -> u64 {
    u64::from_str_radix(&format!("{digits:0<16}"), 16).unwrap()
}

#[test]
fn refused_books_have_their_numbers() {
    for book in refused() {
        let answer = format!("refused {}\n", book.number).into_bytes();
        assert_eq!(reference::book(&book.bytes, book.places, Some(WORK)), answer, "{}", book.number);
        assert_eq!(plain::book(&book.bytes, book.places, Some(WORK)), answer, "{}", book.number);
    }
}

#[test]
fn refused_tables_have_their_numbers() {
    for (number, table) in refused_tables() {
        let answer = format!("refused {number}\n").into_bytes();
        assert_eq!(reference::table(&table), answer, "{number}");
        assert_eq!(plain::table(&table), answer, "{number}");
    }
}
