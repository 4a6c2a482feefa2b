//! Makes a differing book smaller for as long as both sides still differ.

use crate::kinds::Kind;
use crate::run::{head, keep, quiet_panics};
use generator::{Book, BookItem};
use std::{fs, io};

/// Reads a kept book and its room; keeps a smaller one beside it. True if they do not differ.
pub fn shrink(file: &str) -> io::Result<bool> {
    quiet_panics();
    let mut item = read(file)?;
    if !differs(&item) {
        println!("no difference");
        return Ok(true);
    }
    if let Some(mut book) = Book::parse(&item.bytes) {
        while let Some(smaller) = step(&book, &item) {
            book = smaller;
            item.bytes = book.bytes();
        }
        show(&book);
        println!("places {}", item.places);
    }
    let answers = Kind::Books.answers(&item);
    println!("reference {}\nplain {}", head(Kind::Books, answers.given()), head(Kind::Books, &answers.plain));
    let name = file.rsplit('/').next().unwrap_or(file).trim_end_matches(".book");
    keep(Kind::Books, &format!("{name}-small"), &item, &answers);
    Ok(false)
}

/// The book in fields, a row to a line.
fn show(book: &Book) {
    println!("J {:?}, departure {:?}, length {:?}", book.gap, book.departure, book.length);
    for (number, link) in book.links.iter().enumerate() {
        println!("link {number}: {link:?}");
    }
    println!("origins {:?}\ndestinations {:?}", book.origins, book.destinations);
    for (number, leg) in (1..).zip(&book.legs) {
        println!("leg {number}: {leg:?}");
    }
}

fn read(file: &str) -> io::Result<BookItem> {
    let bytes = fs::read(file)?;
    let text = fs::read_to_string(format!("{file}.txt")).unwrap_or_default();
    let field = |name: &str| text.lines().find_map(|line| line.strip_prefix(name)?.parse::<u64>().ok());
    Ok(BookItem { bytes, places: field("places ").unwrap_or(65_535) as usize, work: field("work ") })
}

fn differs(item: &BookItem) -> bool {
    !Kind::Books.answers(item).agree()
}

/// The first smaller book that still differs.
fn step(book: &Book, item: &BookItem) -> Option<Book> {
    smaller(book).find(|book| differs(&BookItem { bytes: book.bytes(), ..item.clone() }))
}

/// Books with one row less or one simpler value.
fn smaller(book: &Book) -> impl Iterator<Item = Book> + '_ {
    let legs = (0..book.legs.len()).rev().map(|leg| without_leg(book, leg));
    let links = (1..book.links.len()).rev().map(|link| without_link(book, link as u32));
    let origins = (0..book.origins.len()).map(|row| {
        changed(book, |book| {
            book.origins.remove(row);
        })
    });
    let destinations = (0..book.destinations.len()).map(|row| {
        changed(book, |book| {
            book.destinations.remove(row);
        })
    });
    let samples = places(book).map(|(leg, row)| {
        changed(book, |book| {
            book.legs[leg].samples.remove(row);
        })
    });
    let head = (0..3).map(|field| {
        changed(book, |book| {
            let float = [&mut book.gap, &mut book.departure, &mut book.length];
            *float[field] = float[field].floor().min(1.0);
        })
    });
    let values = places(book).flat_map(|(leg, row)| (0..3).map(move |field| (leg, row, field)));
    let values = values.map(|(leg, row, field)| {
        changed(book, |book| {
            let float = &mut book.legs[leg].samples[row][field];
            *float = float.floor();
        })
    });
    let rows = legs.chain(links).chain(origins).chain(destinations).chain(samples);
    rows.chain(head).chain(values).filter(|smaller| smaller.bytes() != book.bytes())
}

fn places(book: &Book) -> impl Iterator<Item = (usize, usize)> + '_ {
    book.legs.iter().enumerate().flat_map(|(leg, all)| (0..all.samples.len()).map(move |row| (leg, row)))
}

fn changed(book: &Book, change: impl FnOnce(&mut Book)) -> Book {
    let mut book = book.clone();
    change(&mut book);
    book
}

/// Without a leg and all that descend from it.
fn without_leg(book: &Book, gone: usize) -> Book {
    let mut new = vec![0u32; book.legs.len() + 1];
    let mut legs = Vec::new();
    for (place, leg) in book.legs.iter().enumerate() {
        let parent = leg.parent as usize;
        let is_orphan = parent > place || parent != 0 && new[parent] == 0;
        if place != gone && !is_orphan {
            let mut leg = leg.clone();
            leg.parent = new[parent];
            legs.push(leg);
            new[place + 1] = legs.len() as u32;
        }
    }
    Book { legs, ..book.clone() }
}

/// Without a link: what named it names 0, higher numbers move down.
fn without_link(book: &Book, gone: u32) -> Book {
    let mut book = book.clone();
    let move_down = |index: &mut u32| {
        if *index == gone {
            *index = 0;
        } else if *index > gone {
            *index -= 1;
        }
    };
    book.links.remove(gone as usize);
    for link in &mut book.links {
        for index in [&mut link.next, &mut link.next_alt, &mut link.prev, &mut link.prev_alt] {
            move_down(index);
        }
    }
    book.origins.iter_mut().for_each(|origin| move_down(&mut origin.link));
    book.destinations.iter_mut().for_each(move_down);
    book.legs.iter_mut().for_each(|leg| move_down(&mut leg.link));
    book
}
