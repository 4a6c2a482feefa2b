//! The options search on books that were worked out by hand.

mod common;
use common::{text, worked, Book};

/// A book of links with these previous and previous alternative, from link 1 on.
fn book(links: &[[u32; 2]], origins: &[u32], destinations: &[u32]) -> Book {
    let mut book = worked();
    book.links.truncate(1);
    book.links.extend(links.iter().map(|[prev, prev_alt]| (12.0, [0, 0, *prev, *prev_alt])));
    book.origins = origins.iter().map(|link| (*link, 0.0, 0)).collect();
    book.destinations = destinations.to_vec();
    book.legs.truncate(1);
    book
}

fn answer(links: &[[u32; 2]], origins: &[u32], destinations: &[u32]) -> String {
    text(plain::options(&book(links, origins, destinations).bytes(), 192, None))
}

/// "Destination links go on a stack": the last is taken first, and an alternative before its previous.
#[test]
fn order() {
    let links = [[0, 0], [0, 0], [1, 2], [0, 0], [4, 0]];
    assert_eq!(answer(&links, &[1, 2, 4], &[3, 5]), "set 1 2 3 4 5\nkept 4 2 1\n");
    assert_eq!(answer(&links, &[4, 2, 1], &[3, 5]), "set 1 2 3 4 5\nkept 4 2 1\n");
    assert_eq!(answer(&links, &[1, 2, 4], &[5, 3]), "set 1 2 3 4 5\nkept 2 1 4\n");
}

/// "only if there is none is a real (nonzero) previous pushed"
#[test]
fn nothing_behind_an_origin() {
    assert_eq!(answer(&[[0, 0], [1, 0], [2, 0]], &[1, 2], &[3]), "set 2 3\nkept 2\n");
    assert_eq!(answer(&[[0, 0], [1, 0], [2, 0]], &[1, 2], &[3, 2, 1]), "set 1 2 3\nkept 1 2\n");
}

/// "and its alternative only after a real previous"
#[test]
fn an_alternative_without_a_previous() {
    assert_eq!(answer(&[[0, 0], [0, 1], [1, 2]], &[1], &[2]), "refused 8\n");
    assert_eq!(answer(&[[0, 0], [0, 1], [1, 2]], &[1], &[3]), "set 1 2 3\nkept 1\n");
    assert_eq!(answer(&[[0, 0], [1, 1]], &[1], &[2, 2]), "set 1 2\nkept 1\n");
}

/// "each popped link not yet in the set enters it"
#[test]
fn circles() {
    assert_eq!(answer(&[[1, 0]], &[0], &[1]), "refused 8\n");
    assert_eq!(answer(&[[1, 2], [0, 0]], &[2], &[1]), "set 1 2\nkept 2\n");
    assert_eq!(answer(&[[2, 0], [3, 0], [1, 4], [0, 0]], &[0, 4], &[1]), "set 1 2 3 4\nkept 4\n");
}

/// "destination 0, or no origin kept"
#[test]
fn row_8() {
    assert_eq!(answer(&[[0, 0]], &[1], &[1, 0]), "refused 8\n");
    assert_eq!(answer(&[[0, 0]], &[1, 0], &[0, 1]), "refused 8\n");
    assert_eq!(answer(&[[0, 0], [0, 0]], &[1], &[2]), "refused 8\n");
    assert_eq!(answer(&[[0, 0], [0, 0]], &[0, 2, 1], &[2]), "set 2\nkept 2\n");
}

/// Rows 1 to 7 come before.
#[test]
fn rows_before() {
    let bytes = book(&[[0, 0]], &[1], &[0]).bytes();
    assert_eq!(text(plain::options(&bytes, 192, None)), "refused 8\n");
    assert_eq!(text(plain::options(&bytes[..9], 192, None)), "refused 1\n");
    // 2 links, 1 origin, 1 destination, 1 leg, 192 places.
    assert_eq!(text(plain::options(&bytes, 192, Some(36_864 + 64 * 197 - 1))), "refused 3\n");
    assert_eq!(answer(&[[2, 0]], &[1], &[0]), "refused 5\n");
    assert_eq!(answer(&[[0, 0]], &[1, 1], &[0]), "refused 6\n");
}
