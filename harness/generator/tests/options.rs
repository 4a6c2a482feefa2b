//! How often the books for the options search have each form that it can meet, as harness/README.md says; and the
//! named limits of the search.

use generator::{options, Book, BookItem, Searched};
use std::collections::{BTreeMap, BTreeSet};

const SEED: u64 = 1;
const COUNT: u64 = 6_000;

fn items() -> impl Iterator<Item = BookItem> {
    (0..COUNT).map(|number| options(SEED, number))
}

fn answer(item: &BookItem) -> Vec<u8> {
    plain::options(&item.bytes, item.places, item.work)
}

/// The books that the search accepts.
fn searched() -> impl Iterator<Item = Searched> {
    items().filter_map(|item| Searched::new(&item.bytes, &answer(&item)))
}

/// A form of accepted books, and in how many of them it comes up at least.
type Form<T> = (&'static str, fn(&T) -> bool, usize);

fn assert_counts<T>(all: impl Iterator<Item = T>, forms: &[Form<T>]) {
    let mut counts = vec![0; forms.len()];
    for one in all {
        for ((_, has_form, _), count) in forms.iter().zip(&mut counts) {
            *count += has_form(&one) as usize;
        }
    }
    let mut seldom = vec![];
    for ((name, _, least), count) in forms.iter().zip(counts) {
        println!("{name}: {count}, at least {least}");
        if count < *least {
            seldom.push(name);
        }
    }
    assert!(seldom.is_empty(), "seldom: {seldom:?}");
}

#[test]
fn numbers() {
    let mut heads = BTreeMap::<String, usize>::new();
    for item in items() {
        let answer = String::from_utf8(answer(&item)).unwrap();
        let head = if answer.starts_with("set") { "accepted" } else { answer.trim_end() };
        *heads.entry(head.into()).or_default() += 1;
    }
    println!("{heads:?}");
    assert!(heads["accepted"] > COUNT as usize * 2 / 3, "{heads:?}");
    for (number, least) in [(1, 20), (2, 10), (3, 50), (4, 20), (5, 20), (6, 10), (7, 10), (8, 300)] {
        assert!(heads[&format!("refused {number}")] >= least, "{number}: {heads:?}");
    }
}

/// How long the circles of previous pointers are that the search goes round.
fn circles(of: &Searched) -> BTreeSet<usize> {
    let passed: BTreeMap<u32, u32> = of.passed().map(|(own, link)| (own, link.prev)).collect();
    let circle = |own: &u32| {
        let steps = std::iter::successors(Some(*own), |at| passed.get(at).copied());
        steps.skip(1).take(64).position(|at| at == *own).map(|place| place + 1)
    };
    passed.keys().filter_map(circle).collect()
}

#[test]
fn circles_of_every_length() {
    let mut counts = [0; 12];
    for of in searched().filter(|of| of.book.links.len() <= 30) {
        circles(&of).into_iter().filter(|length| *length < 12).for_each(|length| counts[length] += 1);
    }
    println!("{counts:?}");
    assert!(counts[1..].iter().all(|count| *count >= 5), "{counts:?}");
}

/// How many links of the set lead to the link that most of them share as previous.
fn shared(of: &Searched) -> usize {
    let mut times = BTreeMap::<u32, usize>::new();
    of.passed().filter(|(_, link)| link.prev != 0).for_each(|(_, link)| *times.entry(link.prev).or_default() += 1);
    times.into_values().max().unwrap_or(0)
}

/// The longest way along previous pointers that the search goes from a destination, before a link comes again.
fn way(of: &Searched) -> usize {
    let passed: BTreeMap<u32, u32> = of.passed().map(|(own, link)| (own, link.prev)).collect();
    let length = |first: &u32| {
        let mut seen = BTreeSet::new();
        std::iter::successors(Some(*first), |at| passed.get(at).copied()).take_while(|at| seen.insert(*at)).count()
    };
    of.book.destinations.iter().map(length).max().unwrap_or(0)
}

#[test]
fn previous_pointers_of_every_form() {
    let forms: &[Form<Searched>] = &[
        ("a circle", |of| of.meets_circle(), 1_000),
        ("no circle", |of| !of.meets_circle(), 1_000),
        ("its own previous", |of| of.passed().any(|(own, link)| link.prev == own), 300),
        ("its own alternative", |of| of.passed().any(|(own, link)| link.prev != 0 && link.prev_alt == own), 100),
        ("previous and alternative one", |of| of.passed().any(|(_, l)| l.prev != 0 && l.prev == l.prev_alt), 200),
        ("an alternative without a previous", |of| of.meets_lone_alternative(), 200),
        ("no previous at all", |of| of.passed().any(|(_, link)| link.prev == 0 && link.prev_alt == 0), 300),
        ("one previous of 8 links", |of| shared(of) >= 8, 40),
        ("a way of 10 links", |of| way(of) >= 10, 100),
        ("a tree with 5 forks", |of| !of.meets_circle() && forks(of) >= 5, 120),
        ("the whole of 20 links", |of| of.book.links.len() >= 20 && missing(of) == 0, 100),
    ];
    assert_counts(searched(), forms);
}

/// Links that lead back to two others.
fn forks(of: &Searched) -> usize {
    of.passed().filter(|(own, _)| of.pushed(*own).collect::<BTreeSet<_>>().len() == 2).count()
}

/// Links that the search doesn't get to.
fn missing(of: &Searched) -> usize {
    (1..of.book.links.len() as u32).filter(|link| !of.is_in(*link)).count()
}

/// The rows of the kept origins, in their order.
fn rows(of: &Searched) -> Vec<usize> {
    of.kept.iter().map(|link| of.book.origins.iter().position(|origin| origin.link == *link).unwrap()).collect()
}

/// What destinations lead back to, origins or not.
fn reached(book: &Book, destinations: &[u32], stops: impl Fn(u32) -> bool) -> BTreeSet<u32> {
    let (mut all, mut stack) = (BTreeSet::new(), destinations.to_vec());
    while let Some(own) = stack.pop() {
        let link = book.links[own as usize];
        if all.insert(own) && link.prev != 0 && !stops(own) {
            stack.extend([link.prev, link.prev_alt].into_iter().filter(|to| *to != 0));
        }
    }
    all
}

/// Whether an origin is reached through other origins alone, and so isn't kept.
fn drops_one_behind_another(of: &Searched) -> bool {
    let all = reached(&of.book, &of.book.destinations, |_| false);
    of.book.origins.iter().any(|origin| all.contains(&origin.link) && !of.is_in(origin.link))
}

/// Whether one destination alone would lead to no origin.
fn has_useless_destination(of: &Searched) -> bool {
    let is_origin = |link: u32| of.book.origins.iter().any(|origin| origin.link == link);
    of.book.destinations.iter().any(|link| !reached(&of.book, &[*link], is_origin).into_iter().any(is_origin))
}

fn has_repeats(destinations: &[u32]) -> bool {
    destinations.iter().collect::<BTreeSet<_>>().len() < destinations.len()
}

#[test]
fn origins_of_every_form() {
    let forms: &[Form<Searched>] = &[
        ("two kept or more", |of| of.kept.len() >= 2, 1_500),
        ("five kept or more", |of| of.kept.len() >= 5, 200),
        ("all kept", |of| of.keeps_all(), 1_000),
        ("all of three or more kept", |of| of.keeps_all() && of.kept.len() >= 3, 150),
        ("one never kept", |of| !of.keeps_all(), 1_500),
        ("kept not in the order of rows", |of| !rows(of).is_sorted(), 1_000),
        ("kept in the order of rows, two or more", |of| of.kept.len() >= 2 && rows(of).is_sorted(), 100),
        ("kept rows behind others that are not", |of| rows(of).iter().any(|row| *row >= of.kept.len()), 1_000),
        ("one on link 0", |of| of.book.origins.iter().any(|origin| origin.link == 0), 300),
        ("one behind another", drops_one_behind_another, 500),
        ("as many as links", |of| of.book.origins.len() == of.book.links.len(), 100),
        ("1,000", |of| of.book.origins.len() == 1_000, 10),
        ("100 kept or more", |of| of.kept.len() >= 100, 10),
    ];
    assert_counts(searched(), forms);
}

#[test]
fn destinations_of_every_form() {
    let is_kept = |of: &Searched| of.book.destinations.iter().any(|link| of.kept.contains(link));
    let forms: &[Form<Searched>] = &[
        ("one", |of| of.book.destinations.len() == 1, 1_000),
        ("two or more", |of| of.book.destinations.len() >= 2, 1_500),
        ("repeated", |of| has_repeats(&of.book.destinations), 1_000),
        ("one that leads to no origin", has_useless_destination, 300),
        ("one on an origin's own link", is_kept, 1_000),
        ("1,000", |of| of.book.destinations.len() == 1_000, 30),
        ("1,000 with 1,000 origins", |of| of.book.destinations.len() == 1_000 && of.book.origins.len() == 1_000, 10),
    ];
    assert_counts(searched(), forms);
}

/// Number 8 for either reason.
#[test]
fn row_8_of_both_forms() {
    let refused = items().filter(|item| answer(item) == b"refused 8\n");
    let forms: &[Form<Book>] = &[
        ("destination 0", |book| book.destinations.contains(&0), 150),
        ("no origin kept", |book| !book.destinations.contains(&0), 100),
        ("no origin kept of three or more", |book| !book.destinations.contains(&0) && book.origins.len() >= 3, 20),
        ("no origin kept but one on link 0", |book| book.origins.iter().all(|origin| origin.link == 0), 1),
    ];
    assert_counts(refused.map(|item| Book::parse(&item.bytes).unwrap()), forms);
}

/// The published search says the same.
#[test]
fn both_answers_agree() {
    for (number, item) in items().enumerate() {
        let published = reference::options(&item.bytes, item.places, item.work);
        assert!(answer(&item) == published, "book {number} of seed {SEED}");
    }
}

/// The ways of the kept origins, where row and way go as the limit says.
fn ways(of: &Searched) -> impl Iterator<Item = usize> {
    rows(of).into_iter().map(|row| (617 * row + 5) % 1_000)
}

/// The limits of the search, by both answers: which rows are kept, in which order. The search takes the last way first.
#[test]
fn limits_of_the_search() {
    let cases: [(&str, fn(&Searched) -> bool); 4] = [
        ("1,000 origins, all kept, circles of 1 to 9 links", |of| rows(of).into_iter().eq(0..1_000)),
        ("1,000 origins, all kept, 65,535 links in circles", |of| rows(of).into_iter().eq((0..999).rev().chain([999]))),
        ("1,000 origins, 334 kept, circles", |of| ways(of).eq((0..1_000).rev().step_by(3))),
        ("65,535 links, options' stack of 66,533 numbers", |of| of.kept == [65_534]),
    ];
    let limits = generator::limits();
    for (name, is_right) in cases {
        let item = &limits.iter().find(|limit| limit.name == name).unwrap().item;
        let published = reference::options(&item.bytes, item.places, item.work);
        assert!(answer(item) == published, "{name}");
        let of = Searched::new(&item.bytes, &published).unwrap();
        assert!(is_right(&of) && of.meets_circle() && of.book.destinations.len() == 1_000, "{name}");
    }
}
