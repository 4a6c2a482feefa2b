//! Books of one kind each: many origins, many legs in a chain, many samples in few legs, and small ones.
use crate::large::Bytes;

/// The train's length, each link's and the train's speed.
const TRAIN: f64 = 10.0;
const LENGTH: f64 = 100.0;
const SPEED: f64 = 10.0;

/// A book in the making: each link's next, previous and previous alternative; origins; destinations; legs with their links, parents and samples.
#[derive(Default)]
struct Made {
    links: Vec<[usize; 3]>,
    origins: Vec<usize>,
    destinations: Vec<usize>,
    legs: Vec<(usize, usize, Vec<[f64; 3]>)>,
}

impl Made {
    fn bytes(&self) -> Vec<u8> {
        let mut b = Bytes(vec![]);
        [1.0, 0.0, TRAIN].iter().for_each(|x| b.float(*x));
        b.number(self.links.len());
        for (i, [next, prev, prev_alt]) in self.links.iter().enumerate() {
            b.float(if i == 0 { 0.0 } else { LENGTH });
            [*next, 0, *prev, *prev_alt].iter().for_each(|n| b.number(*n));
        }
        b.number(self.origins.len());
        for origin in &self.origins {
            b.number(*origin);
            b.float(0.0);
            b.number(0);
        }
        b.number(self.destinations.len());
        self.destinations.iter().for_each(|n| b.number(*n));
        b.number(self.legs.len());
        for (link, parent, samples) in &self.legs {
            [*link, *parent, samples.len()].iter().for_each(|n| b.number(*n));
        }
        b.number(self.legs.iter().map(|leg| leg.2.len()).sum());
        self.legs.iter().flat_map(|leg| leg.2.iter().flatten()).for_each(|x| b.float(*x));
        b.0
    }

    /// A leg behind another one, or at an origin, in which the train goes so far in even steps.
    fn go(&mut self, link: usize, parent: usize, metres: f64, steps: usize) -> usize {
        let before = if parent == 0 { [0.0, TRAIN, SPEED] } else { *self.legs[parent - 1].2.last().unwrap() };
        let sample = |k: usize| {
            let way = metres * k as f64 / steps as f64;
            [before[0] + way / SPEED, before[1] + way, SPEED]
        };
        self.legs.push((link, parent, (0..=steps).map(sample).collect()));
        self.legs.len()
    }

    /// A line of links, the first the origin and the last the destination.
    fn line(links: usize) -> Made {
        let link = |i: usize| if i == 0 { [0; 3] } else { [if i == links { 0 } else { i + 1 }, i - 1, 0] };
        Made { links: (0..=links).map(link).collect(), origins: vec![1], destinations: vec![links], ..Made::default() }
    }
}

/// So many origins whose links meet two by two until one is left: the runs join each other on the way to it. Beside them so many links that lead nowhere, with a starting leg each that no run takes.
pub fn origins(count: usize, idle: usize) -> Vec<u8> {
    let link = |i: usize| match i {
        i if i == 0 || i >= 2 * count => [0; 3],
        i if i < count => [i / 2, 2 * i, 2 * i + 1],
        i => [i / 2, 0, 0],
    };
    let mut made = Made { links: (0..2 * count + idle).map(link).collect(), origins: (count..2 * count).collect(), destinations: vec![1], ..Made::default() };
    for origin in count..2 * count {
        let (mut link, mut leg) = (origin, 0);
        while link > 0 {
            leg = made.go(link, leg, if leg == 0 { LENGTH - TRAIN - 1.0 } else { LENGTH }, 1);
            link /= 2;
        }
    }
    for link in 2 * count..2 * count + idle {
        made.legs.push((link, 0, vec![[0.0, TRAIN, SPEED]]));
    }
    made.bytes()
}

/// So many legs in a chain, in which the train falls behind: it goes 40 m in each leg of 100 m, so that four legs of five have an event.
pub fn chain(legs: usize) -> Vec<u8> {
    let mut made = Made::line(legs);
    let mut leg = 0;
    for link in 1..=legs {
        leg = made.go(link, leg, 40.0, 1);
    }
    made.bytes()
}

/// So many samples in ten legs.
pub fn samples(count: usize) -> Vec<u8> {
    let mut made = Made::line(10);
    let mut leg = 0;
    for link in 1..=10 {
        leg = made.go(link, leg, if leg == 0 { LENGTH - TRAIN - 1.0 } else { LENGTH }, count / 10 - 1);
    }
    made.bytes()
}

/// The first of the random books that the comparisons use which the reference accepts on so many places.
pub fn small(count: usize, places: usize) -> Vec<Vec<u8>> {
    let accepted = |bytes: &Vec<u8>| reference::book(bytes, places, None).starts_with(b"nodes");
    (0..).map(|k| generator::book(1, k).bytes).filter(accepted).take(count).collect()
}
