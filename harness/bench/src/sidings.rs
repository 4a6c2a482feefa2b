//! Books of a line with sidings.
use crate::large::Bytes;

/// Each link's length, the train's length and its speed.
const LENGTH: f64 = 100.0;
const TRAIN: f64 = 10.0;
const SPEED: f64 = 10.0;

/// One leg: its link, its parent's number, and its samples.
type Leg = (usize, usize, Vec<[f64; 3]>);

/// Where the front is when a leg of the path's link p ends: a metre before the link does.
fn end(p: usize) -> f64 {
    LENGTH * (p + 1) as f64 - 1.0
}

/// The samples of a leg over the path's link p, from where the parent's end to the link's end, so many seconds later than at full speed.
fn samples(p: usize, before: [f64; 3], late: f64) -> Vec<[f64; 3]> {
    let time = before[0] + (end(p) - before[1]) / SPEED + late;
    vec![before, [time, end(p), SPEED]]
}

/// The legs of a line with so many sidings: the line's own, then for each siding its leg and the one behind it, in which the run joins.
fn legs(count: usize) -> Vec<Leg> {
    let mut legs: Vec<Leg> = vec![(1, 0, samples(0, [0.0, TRAIN, SPEED], 0.0))];
    for p in 1..=2 * count {
        let link = if p % 2 == 1 { 3 * (p / 2) + 2 } else { 3 * (p / 2) + 1 };
        let before = *legs[p - 1].2.last().unwrap();
        legs.push((link, p, samples(p, before, 0.0)));
    }
    for k in 0..count {
        let before = *legs[2 * k].2.last().unwrap();
        legs.push((3 * k + 3, 2 * k + 1, samples(2 * k + 1, before, 1.5)));
        let before = *legs.last().unwrap().2.last().unwrap();
        legs.push((3 * k + 4, legs.len(), samples(2 * k + 2, before, 0.0)));
    }
    legs
}

/// A line with so many sidings: link 1, then for each siding its two ways, 3 k + 2 and 3 k + 3, and the link behind them, 3 k + 4. Each siding gives nine nodes.
pub fn book(count: usize) -> Vec<u8> {
    let mut b = Bytes(vec![]);
    for x in [1.0, 0.0, TRAIN] {
        b.float(x);
    }
    let links = 3 * count + 2;
    b.number(links);
    for i in 0..links {
        b.float(if i == 0 { 0.0 } else { LENGTH });
        let last = i + 1 == links;
        let indices = match (i, i % 3) {
            (0, _) => [0; 4],
            (_, 1) if last => [0, 0, i.saturating_sub(2), i - 1],
            (1, 1) => [2, 3, 0, 0],
            (_, 1) => [i + 1, i + 2, i - 2, i - 1],
            (_, 2) => [i + 2, 0, i - 1, 0],
            _ => [i + 1, 0, i - 2, 0],
        };
        for index in indices {
            b.number(index);
        }
    }
    b.number(1);
    b.number(1);
    b.float(0.0);
    b.number(0);
    b.number(1);
    b.number(links - 1);
    let legs = legs(count);
    b.number(legs.len());
    for (link, parent, samples) in &legs {
        for n in [*link, *parent, samples.len()] {
            b.number(n);
        }
    }
    b.number(legs.iter().map(|leg| leg.2.len()).sum());
    for x in legs.iter().flat_map(|leg| leg.2.iter().flatten()) {
        b.float(*x);
    }
    b.0
}
