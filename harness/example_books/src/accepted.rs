//! Books that are accepted.
//!
//! All but document 01's and the two on its line have links of 100 m and a train of 10 m that departs at 0 s, its front
//! at 10 m. All but these and `siding` have a J of 2.5 m/s if none is named, and legs that end 10 m before their links.

use generator::{example, link, origins, Book, Link, Writer};

/// Each accepted book and its name.
pub fn accepted() -> Vec<(&'static str, Book)> {
    vec![
        ("worked", example()),
        ("front_on_point", front_on_point()),
        ("back_on_point", back_on_point()),
        ("siding", siding()),
        ("loop_joins", passing_loop(2.5)),
        ("loop_gap", passing_loop(2.0)),
        ("origin_split", origin_split()),
        ("two_destinations", two_destinations()),
        ("two_origins", two_origins()),
        ("ring", ring()),
    ]
}

/// Document 01's book with other samples behind leg 2's first, (0, 10, 0).
fn worked_with(samples: &[[f64; 3]]) -> Book {
    let mut book = example();
    book.legs[1].samples.splice(1.., samples.iter().copied());
    book
}

/// The front stands on the point between the links for a minute: Arrive of link 2 at 2 s, its Clear at 66.5 s.
fn front_on_point() -> Book {
    worked_with(&[[2.0, 12.0, 0.0], [62.0, 12.0, 0.0], [66.0, 20.0, 4.0], [70.0, 36.0, 4.0]])
}

/// The train's end stands on it for a minute: Arrive of link 2 at 2 s, its Clear at 6 s.
fn back_on_point() -> Book {
    worked_with(&[[4.0, 18.0, 4.0], [6.0, 22.0, 0.0], [66.0, 22.0, 0.0], [70.0, 30.0, 4.0]])
}

/// A book without legs. Links from 1, each as next, next alternative, previous, previous alternative.
fn line(links: &[[usize; 4]], from: &[usize], to: &[u32]) -> Writer {
    let row = |&[next, next_alt, prev, prev_alt]: &[usize; 4]| Link {
        prev_alt: prev_alt as u32,
        ..link(100.0, next, next_alt, prev)
    };
    Writer(Book {
        gap: 2.5,
        length: 10.0,
        links: [Link::default()].into_iter().chain(links.iter().map(row)).collect(),
        origins: origins(from.iter().copied()),
        destinations: to.to_vec(),
        ..Book::default()
    })
}

/// An origin's leg, at one speed.
fn depart(book: &mut Writer, link: usize, speed: f64) -> usize {
    book.leg(link, 0, &[[0.0, 10.0, speed], [80.0 / speed, 90.0, speed]])
}

/// 1 leads to 2 and to 3, both lead to 4.
fn two_ways() -> Writer {
    line(&[[2, 3, 0, 0], [4, 0, 1, 0], [4, 0, 1, 0], [0, 0, 2, 3]], &[1], &[4])
}

/// On link 3, the siding, the train loses a second and a half.
fn siding() -> Book {
    let mut book = two_ways();
    book.0.gap = 1.0;
    let first = book.leg(1, 0, &[[0.0, 10.0, 10.0], [8.9, 99.0, 10.0]]);
    let main = book.leg(2, first, &[[18.9, 199.0, 10.0]]);
    book.leg(4, main, &[[28.9, 299.0, 10.0]]);
    let siding = book.leg(3, first, &[[20.4, 199.0, 10.0]]);
    book.leg(4, siding, &[[30.4, 299.0, 10.0]]);
    book.0
}

/// 10 m/s on the main line, 8 m/s on link 3, the loop, and behind it.
fn passing_loop(gap: f64) -> Book {
    let mut book = two_ways();
    book.0.gap = gap;
    let first = depart(&mut book, 1, 10.0);
    let main = book.run(2, first, 190.0, 10.0);
    book.run(4, main, 290.0, 10.0);
    let slow = book.run(3, first, 190.0, 8.0);
    book.run(4, slow, 290.0, 8.0);
    book.0
}

/// The origin's link leads to two destinations.
fn origin_split() -> Book {
    let mut book = line(&[[2, 3, 0, 0], [0, 0, 1, 0], [0, 0, 1, 0]], &[1], &[2, 3]);
    let first = depart(&mut book, 1, 10.0);
    book.run(2, first, 190.0, 10.0);
    book.run(3, first, 190.0, 8.0);
    book.0
}

/// A line that forks behind link 2.
fn two_destinations() -> Book {
    let mut book = line(&[[2, 0, 0, 0], [3, 4, 1, 0], [0, 0, 2, 0], [0, 0, 2, 0]], &[1], &[3, 4]);
    let first = depart(&mut book, 1, 10.0);
    let second = book.run(2, first, 190.0, 10.0);
    book.run(3, second, 290.0, 10.0);
    book.run(4, second, 290.0, 8.0);
    book.0
}

/// 1 and 2 lead to 3, and 3 to 4.
fn two_origins() -> Book {
    let mut book = line(&[[3, 0, 0, 0], [3, 0, 0, 0], [4, 0, 2, 1], [0, 0, 3, 0]], &[1, 2], &[4]);
    for (origin, speed) in [(1, 10.0), (2, 8.0)] {
        let first = depart(&mut book, origin, speed);
        let second = book.run(3, first, 190.0, speed);
        book.run(4, second, 290.0, speed);
    }
    book.0
}

/// Link 2 is a circle. 1 leads into it, and past it to 3; the circle leads to itself, and to 3.
fn ring() -> Book {
    let mut book = line(&[[2, 3, 0, 0], [2, 3, 1, 0], [0, 0, 2, 1]], &[1], &[3]);
    let first = depart(&mut book, 1, 10.0);
    let lap = book.run(2, first, 190.0, 10.0);
    book.run(2, lap, 290.0, 10.0);
    book.run(3, lap, 290.0, 10.0);
    book.run(3, first, 190.0, 10.0);
    book.0
}
