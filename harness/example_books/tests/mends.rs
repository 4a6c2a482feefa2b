//! What docs/REFUSALS.md says of changes to the stored books.

use example_books::{accepted, refused, refused_tables, PLACES};
use generator::{table_item, Book, Node};
use outside::Answers;

/// Where a node's next and previous stand in its bytes.
const NEXT: usize = 32;
const PREV: usize = 40;

/// The first word and number of both answers, where a train stands on a point of the second's.
fn answer(book: &Book, places: usize) -> String {
    let bytes = book.bytes();
    let answers = Answers::new(reference::book(&bytes, places, None), plain::book(&bytes, places, None));
    assert!(answers.agree());
    head(answers.given().to_vec())
}

fn head(answer: Vec<u8>) -> String {
    String::from_utf8(answer).unwrap().split_whitespace().take(2).collect::<Vec<_>>().join(" ")
}

fn mended(number: usize, change: impl FnOnce(&mut Book)) -> String {
    let mut book = Book::parse(&refused()[number - 1].bytes).unwrap();
    change(&mut book);
    answer(&book, PLACES)
}

fn changed(name: &str, change: impl FnOnce(&mut Book)) -> String {
    let mut book = accepted().into_iter().find(|book| book.0 == name).unwrap().1;
    change(&mut book);
    answer(&book, PLACES)
}

#[test]
fn row_1_a_shorter_run() {
    let shorter = |book: &mut Book| {
        book.legs[1].samples.pop();
    };
    assert_eq!(changed("worked", shorter), "nodes 7");
}

#[test]
fn row_4_j_0() {
    assert_eq!(mended(4, |book| book.gap = 0.0), "nodes 8");
}

#[test]
fn row_9_a_lone_link() {
    let lone = |book: &mut Book| {
        book.links.truncate(2);
        book.destinations[0] = 1;
        book.legs.truncate(1);
    };
    assert_eq!(mended(9, lone), "refused 9");
}

#[test]
fn row_11_short_of_the_end() {
    let short = |book: &mut Book| book.legs.iter_mut().for_each(|leg| leg.samples[0][1] = 11.9);
    assert_eq!(mended(11, short), "nodes 8");
}

/// The worked book with other samples in leg 2, the first of them also leg 1's.
fn driven(samples: &[[f64; 3]]) -> String {
    changed("worked", |book| {
        book.legs[0].samples = vec![samples[0]];
        book.legs[1].samples = samples.to_vec();
    })
}

#[test]
fn row_11_a_train_that_stands_at_two_samples() {
    assert_eq!(driven(&[[0.0, 10.0, 0.0], [2.0, 13.0, 0.0]]), "refused 11");
    assert_eq!(driven(&[[0.0, 10.0, 0.0], [2.0, 13.0, 3.0]]), "nodes 7");
    assert_eq!(driven(&[[0.0, 10.0, 0.0], [1.0, 11.0, 2.0], [2.0, 13.0, 0.0]]), "nodes 7");
}

#[test]
fn row_11_a_stop_within_next_to_no_time() {
    let stop_after = |time| driven(&[[0.0, 10.0, 10.0], [time, 12.0, 0.0]]);
    for time in [f64::from_bits(1), f64::MIN_POSITIVE, 5e-308] {
        assert_eq!(stop_after(time), "refused 11");
    }
    assert_eq!(stop_after(6e-308), "nodes 7");
    assert_eq!(stop_after(0.4), "nodes 7");
}

#[test]
fn row_11_speeds_that_do_not_fit() {
    let with_last = |last| driven(&[[0.0, 10.0, 0.0], [4.0, 18.0, 4.0], last]);
    assert_eq!(with_last([5.0, 34.0, 8.0]), "refused 11");
    assert_eq!(with_last([5.0, 24.0, 8.0]), "nodes 8");
}

#[test]
fn row_12_8_places() {
    assert_eq!(answer(&Book::parse(&refused()[11].bytes).unwrap(), 8), "nodes 8");
}

#[test]
fn row_13_without_the_origin() {
    let without = |book: &mut Book| {
        book.origins.remove(0);
    };
    assert_eq!(mended(13, without), "nodes 10");
}

#[test]
fn row_13_at_a_fork_that_no_train_reaches() {
    let stop = |book: &mut Book| book.legs[2..].iter_mut().for_each(|leg| leg.samples.truncate(1));
    assert_eq!(changed("two_destinations", stop), "refused 13");
}

#[test]
fn row_14_one_way_out() {
    assert_eq!(mended(14, |book| book.links[2].next_alt = 3), "nodes 13");
    assert_eq!(mended(14, |book| book.links[1].next_alt = 3), "refused 15");
}

#[test]
fn row_14_a_chain_of_nodes() {
    let chain = |count: u32| {
        let next = |at| if at + 1 < count { at + 1 } else { 0 };
        let node = |at: u32| Node { kind: 2, indices: [next(at), 0, at.saturating_sub(1), 0], ..Node::default() };
        table_item(1.0, &(0..count).map(node).collect::<Vec<_>>())
    };
    assert_eq!(head(reference::table(&chain(3))), "refused 15");
    assert_eq!(head(reference::table(&chain(4))), "nodes 4");
}

#[test]
fn row_15_past_the_circle() {
    assert_eq!(mended(15, |book| (book.links[1].next, book.links[1].next_alt) = (3, 0)), "nodes 8");
}

/// Nodes 2 and 3 between 1 and 4.
#[test]
fn row_15_one_chain() {
    let mut table = refused_tables()[1].1.clone();
    for (node, field, index) in [(1, NEXT, 2u32), (2, PREV, 1), (3, NEXT, 4), (4, PREV, 3)] {
        let at = 8 + 56 * node + field;
        table[at..at + 4].copy_from_slice(&index.to_le_bytes());
    }
    assert_eq!(head(reference::table(&table)), "nodes 6");
    assert_eq!(reference::table(&table), plain::table(&table));
}

#[test]
fn row_16_another_departure() {
    let depart_at_60 = |book: &mut Book| {
        book.departure = 60.0;
        book.legs.iter_mut().for_each(|leg| leg.samples[0][0] = 60.0);
    };
    assert_eq!(mended(16, depart_at_60), "nodes 6");
}
