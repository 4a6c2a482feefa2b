//! Document 02, Ask 1: a train standing on a point. The Rust has no number there, and so there is no answer.

mod make;

use make::{events, text, worked, Book};
use reference::NO_ANSWER;

const POINTS: [(f64, u32); 3] = [(0.0, 1), (12.0, 2), (112.0, 0)];

fn no_answer() -> String {
    text(NO_ANSWER.to_vec())
}

/// The worked book with other samples behind leg 2's first, (0, 10, 0).
fn with(samples: &[[f64; 3]]) -> Book {
    let mut book = worked();
    book.legs[1].2.truncate(1);
    book.legs[1].2.extend(samples);
    book
}

/// The front stands on the point between the links.
fn front_stands() -> Book {
    with(&[[2.0, 12.0, 0.0], [62.0, 12.0, 0.0], [66.0, 20.0, 4.0], [70.0, 36.0, 4.0]])
}

#[test]
fn event_lists() {
    let front = [[0.0, 10.0, 2.0], [2.0, 12.0, 0.0]];
    let back = [[0.0, 10.0, 0.0], [4.0, 18.0, 4.0], [6.0, 22.0, 0.0]];
    assert_eq!(events(10.0, &front, &POINTS, 9), no_answer());
    assert_eq!(events(10.0, &back, &POINTS, 9), no_answer());
    assert_eq!(events(10.0, &front, &POINTS, 0), no_answer());
}

/// Beside an event that row 11 refuses there is no answer either. Where a sample reaches the last
/// point no events are made: 11.
#[test]
fn event_lists_with_another_fault() {
    let late = [[0.0, 10.0, 2.0], [2.0, 12.0, 0.0], [4.0, 30.0, 0.0]];
    assert_eq!(events(10.0, &late, &POINTS, 9), no_answer());
    let beyond = [[0.0, 10.0, 2.0], [2.0, 12.0, 0.0], [4.0, 112.0, 2.0]];
    assert_eq!(events(10.0, &beyond, &POINTS, 9), "refused 11\n");
}

/// Where the back index becomes 1 nothing is emitted, and where v isn't 0 the quotient is 0.
#[test]
fn event_lists_with_an_answer() {
    let samples = [[0.0, 5.0, 1.0], [5.0, 10.0, 0.0]];
    assert_eq!(events(10.0, &samples, &POINTS, 9), "events 0\n");
    for small in [1e-200, f64::from_bits(1)] {
        let samples = [[0.0, 10.0, 2.0], [2.0, 12.0, small]];
        assert_eq!(events(10.0, &samples, &POINTS, 9), "events 1\nA 2 4 4028 0\n");
    }
}

#[test]
fn books() {
    let back = with(&[[4.0, 18.0, 4.0], [6.0, 22.0, 0.0], [66.0, 22.0, 0.0], [70.0, 30.0, 4.0]]);
    for book in [front_stands(), back] {
        assert_eq!(book.answer(), no_answer());
        assert_eq!(text(reference::grown(&book.bytes(), 192, None)), no_answer());
    }
}

/// What comes before the leg's events is answered: a row of 1 to 8, a table without room for the
/// origin's nodes. So is a book in which the leg isn't taken.
#[test]
fn books_with_an_answer() {
    let mut book = front_stands();
    assert_eq!(book.answer_on(3), "refused 12\n");
    assert_eq!(book.answer_on(4), no_answer());
    book.destinations[0] = 0;
    assert_eq!(book.answer(), "refused 8\n");
    let mut unasked = worked();
    unasked.legs.push((1, 1, front_stands().legs[1].2.clone()));
    assert_eq!(unasked.answer(), worked().answer());
}
