//! How much stack the options search uses: as much for 1,000 origins, 1,000 destinations and 65,535 links as for two
//! links, so it has no array whose size goes with the book, and less than any copy of the origins would take.
#![cfg(target_arch = "x86_64")]

use generator::{example, limits, Book, BookItem};
use replay::books::{asked, number_in, Work};
use replay::options::{room, Lent};
use std::arch::asm;

/// The stack that a call is given, in words, and what they hold before it.
const WORDS: usize = 1 << 19;
const PAINT: u64 = 0x5bd1_e995_7a3c_91ef;

/// The least that a copy of 1,000 origins takes, four bytes each.
const COPY: usize = 4_000;

/// Runs work on a stack of its own, painted before; how many bytes of it are no longer as they were, up to the lowest.
fn depth<F: FnMut()>(mut work: F) -> usize {
    extern "C" fn call<F: FnMut()>(work: *mut F) {
        // The pointer is that of `work` below, which nothing else uses during the call.
        unsafe { (*work)() }
    }
    let mut stack = vec![[PAINT; 2]; WORDS / 2];
    let (function, end) = (call::<F> as extern "C" fn(*mut F), stack.as_mut_ptr_range().end);
    let end = end as usize / 16 * 16;
    // The stack's end is aligned as a call asks for, and it is far larger than what the work uses. The old stack
    // pointer is kept in a register that a function gives back as it was; all others that it may change are named.
    // Nothing unwinds through this: a panic in an `extern "C"` function ends the process.
    unsafe {
        asm!(
            "mov r12, rsp",
            "mov rsp, {end}",
            "call {function}",
            "mov rsp, r12",
            end = in(reg) end,
            function = in(reg) function,
            in("rdi") &mut work,
            out("r12") _,
            clobber_abi("C"),
        );
    }
    let words = stack.as_flattened();
    8 * (words.len() - words.iter().position(|word| *word != PAINT).unwrap_or(words.len()))
}

/// A book of two links: one is origin and destination.
fn smallest() -> BookItem {
    let example = example();
    let (links, legs) = (example.links[..2].to_vec(), example.legs[..1].to_vec());
    let mut book = Book { links, legs, destinations: vec![1], ..example };
    book.links[1].next = 0;
    BookItem { bytes: book.bytes(), places: 192, work: None }
}

/// The named limit that has the most links, origins and destinations.
fn largest() -> BookItem {
    let name = "1,000 origins, all kept, 65,535 links in circles";
    limits().into_iter().find(|limit| limit.name == name).unwrap().item
}

/// The stack of the search, whose number is 0. The first call goes uncounted: the system may find a function then.
fn searching(item: &BookItem, kept: usize) -> usize {
    let (mut lent, mut answer) = (Lent::default(), (u32::MAX, 0));
    let depths = [(); 2].map(|()| {
        lent.lend(asked(&item.bytes, item.places), room(&item.bytes));
        depth(|| answer = lent.search(&item.bytes, item.places))
    });
    assert_eq!(answer, (0, kept));
    depths[1]
}

/// The stack of the reading, whose number is 0, likewise.
fn reading(item: &BookItem) -> usize {
    let (mut work, mut number) = (Work::default(), u32::MAX);
    let depths = [(); 2].map(|()| {
        work.lend(asked(&item.bytes, item.places));
        depth(|| number = number_in(&mut work, &item.bytes, item.places))
    });
    assert_eq!(number, 0);
    depths[1]
}

#[test]
fn of_the_search() {
    let [small, large] = [searching(&smallest(), 1), searching(&largest(), 1_000)];
    println!("keldurap_tests_search_options: {small} bytes of stack for two links, {large} for 65,535");
    assert_eq!(small, large);
    assert!(large < COPY);
}

#[test]
fn of_the_reading() {
    let [small, large] = [reading(&smallest()), reading(&largest())];
    println!("keldurap_raw_check_book: {small} bytes of stack for two links, {large} for 65,535");
    assert_eq!(small, large);
    assert!(large < COPY);
}

/// What is counted grows with an array that work has on its stack.
#[test]
fn an_array_is_seen() {
    #[inline(never)]
    fn filled<const N: usize>() -> u64 {
        std::hint::black_box([1u64; N]).iter().sum()
    }
    let none = depth(|| assert_eq!(filled::<1>(), 1));
    let array = depth(|| assert_eq!(filled::<1_000>(), 1_000));
    println!("an array of 1,000 words: {} bytes of stack more than one of a word", array - none);
    assert!(array - none >= 7_992);
}
