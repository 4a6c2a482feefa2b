//! How often trains stop on points in the random books and event lists, as harness/README.md says.

use generator::{book, events, Book, Sample};
use reference::NO_ANSWER;

const SEED: u64 = 1;
const COUNT: u64 = 4_000;

/// "about a third"
fn is_about_a_third(count: usize) -> bool {
    let share = count as f64 / COUNT as f64;
    (0.25..0.42).contains(&share)
}

#[test]
fn in_a_third_of_the_books() {
    let is_unanswered = |number: &u64| {
        let item = book(SEED, *number);
        reference::book(&item.bytes, item.places, item.work) == NO_ANSWER
    };
    let count = (0..COUNT).filter(is_unanswered).count();
    assert!(is_about_a_third(count), "{count} of {COUNT}");
}

#[test]
fn in_a_third_of_the_event_lists() {
    let count = (0..COUNT).filter(|number| reference::events(&events(SEED, *number)) == NO_ANSWER).count();
    assert!(is_about_a_third(count), "{count} of {COUNT}");
}

/// Two samples of a leg, one behind the other, and where front and back are on points that give events.
struct Step {
    before: Sample,
    sample: Sample,
    behind: Option<Sample>,
    fronts: Vec<f64>,
    backs: Vec<f64>,
}

impl Step {
    fn all(book: &Book) -> Vec<Step> {
        let legs = (1..).zip(&book.legs);
        let steps = legs.flat_map(|(number, leg)| {
            let fronts: Vec<f64> = book.path(number).0[1..].iter().map(|point| point.1).collect();
            let backs: Vec<f64> = fronts.iter().map(|front| front + book.length).collect();
            (1..leg.samples.len()).map(move |at| Step {
                before: leg.samples[at - 1],
                sample: leg.samples[at],
                behind: leg.samples.get(at + 1).copied(),
                fronts: fronts.clone(),
                backs: backs.clone(),
            })
        });
        steps.collect()
    }

    fn moves(&self) -> bool {
        self.before[1] < self.sample[1]
    }

    fn stops(&self) -> bool {
        self.moves() && self.sample[2] == 0.0
    }

    fn is_on(&self, points: &[f64]) -> bool {
        points.contains(&self.sample[1])
    }

    fn is_on_point(&self) -> bool {
        self.is_on(&self.fronts) || self.is_on(&self.backs)
    }

    /// Whether a point gives an event between the two samples.
    fn passes(&self) -> bool {
        let between = |at: &f64| self.before[1] < *at && *at < self.sample[1];
        self.fronts.iter().chain(&self.backs).any(between)
    }

    fn overflows(&self) -> bool {
        ((self.sample[2] - self.before[2]) / (self.sample[0] - self.before[0])).is_infinite()
    }
}

/// The books that rows 1 to 8 let through.
fn let_through() -> impl Iterator<Item = Book> {
    let numbers: Vec<Vec<u8>> = (1..=8).map(|number| format!("refused {number}\n").into_bytes()).collect();
    let items = (0..COUNT).map(|number| book(SEED, number));
    let good = items.filter(move |item| !numbers.contains(&plain::book(&item.bytes, item.places, item.work)));
    good.map(|item| Book::parse(&item.bytes).unwrap())
}

/// Each kind of stop that document 02's Ask 1 is about, and each that it is not, with the fewest books that have one.
#[test]
fn of_every_kind() {
    let kinds: [(&str, fn(&Step) -> bool, usize); 10] = [
        ("front", |step| step.stops() && step.is_on(&step.fronts), 500),
        ("back", |step| step.stops() && step.is_on(&step.backs), 500),
        ("front and back", |step| step.stops() && step.is_on(&step.fronts) && step.is_on(&step.backs), 100),
        ("from standing", |step| step.stops() && step.is_on_point() && step.before[2] == 0.0, 100),
        ("standing on", |step| step.stops() && step.is_on_point() && step.behind.is_some_and(|b| b[2] == 0.0), 300),
        ("last sample", |step| step.stops() && step.is_on_point() && step.behind.is_none(), 200),
        ("square of speed 0", |step| step.moves() && step.is_on_point() && is_small(step.sample[2]), 200),
        ("quotient overflows", |step| step.stops() && step.is_on_point() && step.overflows(), 5),
        ("v = v' = 0 behind a point", |step| step.stops() && step.before[2] == 0.0 && step.passes(), 50),
        ("a unit beside a point", |step| step.stops() && is_beside(step), 200),
    ];
    let mut counts = [0; 10];
    for book in let_through() {
        let steps = Step::all(&book);
        for ((_, is_of_kind, _), count) in kinds.iter().zip(&mut counts) {
            *count += steps.iter().any(is_of_kind) as usize;
        }
    }
    for ((name, _, least), count) in kinds.iter().zip(counts) {
        assert!(count >= *least, "{name}: {count}");
    }
}

/// Not 0, but its square is.
fn is_small(speed: f64) -> bool {
    speed > 0.0 && speed * speed == 0.0
}

fn is_beside(step: &Step) -> bool {
    let offset = step.sample[1];
    let is_point = |at: &f64| step.fronts.contains(at) || step.backs.contains(at);
    [offset.next_up(), offset.next_down()].iter().any(is_point)
}

/// A row of the listing: an event at speed 0 that has a previous alternative.
fn is_joined_standing(row: &str) -> bool {
    let fields: Vec<&str> = row.split(' ').collect();
    fields[1] != "F" && fields[6] != "0" && fields[10] == "0"
}

/// Where every train stops at the same point, J lets them join there.
#[test]
fn standing_trains_join() {
    let has_one = |number: &u64| {
        let item = book(SEED, *number);
        let answer = String::from_utf8(plain::grown(&item.bytes, item.places, item.work)).unwrap();
        answer.starts_with("nodes") && answer.lines().skip(1).any(is_joined_standing)
    };
    let count = (0..COUNT).filter(has_one).count();
    assert!(count > 100, "{count} of {COUNT}");
}
