//! `test_books FOLDER BOOK...` makes books for users/test. Into FOLDER go two at the limit of the table, full.book and too_many.book, and into FOLDER/damaged
//! damaged copies of each BOOK: every prefix, every byte with one bit changed, one byte more, and every count at other values.
#[path = "../tests/books/mod.rs"]
mod books;

use std::fs;
use std::io;
use std::path::Path;

/// The widths of a book's sections.
const WIDTHS: [usize; 5] = [24, 16, 4, 12, 24];

/// Damaged copies, each with a name.
fn damages(good: &[u8]) -> Vec<(String, Vec<u8>)> {
    let mut all = vec![("more".to_string(), [good, &[0]].concat())];
    for i in 0..good.len() {
        all.push((format!("first-{i}"), good[..i].to_vec()));
        let mut bytes = good.to_vec();
        bytes[i] ^= 1 << (i % 8);
        all.push((format!("byte-{i}"), bytes));
    }
    let mut at = 24;
    for width in WIDTHS {
        let count = u32::from_le_bytes(good[at..at + 4].try_into().unwrap());
        for value in [0, 1, 1_000, 65_535, 65_536, 1_000_001, u32::MAX] {
            let mut bytes = good.to_vec();
            bytes[at..at + 4].copy_from_slice(&value.to_le_bytes());
            all.push((format!("count-{at}-{value}"), bytes));
        }
        at += 4 + count as usize * width;
    }
    all
}

fn main() -> io::Result<()> {
    let words: Vec<String> = std::env::args().skip(1).collect();
    let (folder, books) = words.split_first().expect("test_books FOLDER BOOK...");
    let folder = Path::new(folder);
    fs::create_dir_all(folder.join("damaged"))?;
    fs::write(folder.join("full.book"), books::sidings(7_281).bytes())?;
    fs::write(folder.join("too_many.book"), books::sidings(7_282).bytes())?;
    for file in books.iter().map(Path::new) {
        let name = file.file_stem().unwrap_or_default().to_string_lossy();
        for (damage, bytes) in damages(&fs::read(file)?) {
            fs::write(folder.join("damaged").join(format!("{name}-{damage}.book")), bytes)?;
        }
    }
    Ok(())
}
