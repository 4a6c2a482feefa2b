//! Books written row by row.

use crate::book::{Book, Leg, Link, Origin, Sample};

/// A link without a previous alternative.
pub fn link(length: f64, next: usize, next_alt: usize, prev: usize) -> Link {
    let [next, next_alt, prev] = [next, next_alt, prev].map(|index| index as u32);
    Link { length, next, next_alt, prev, prev_alt: 0 }
}

/// Origins at the start of these links.
pub fn origins(links: impl Iterator<Item = usize>) -> Vec<Origin> {
    links.map(|link| Origin { link: link as u32, ..Origin::default() }).collect()
}

/// A book under way: legs are appended by link and parent.
pub struct Writer(pub Book);

impl Writer {
    /// A new leg that begins where its parent ended and takes these samples; its number.
    pub fn leg(&mut self, link: usize, parent: usize, samples: &[Sample]) -> usize {
        let mut all: Vec<Sample> =
            self.0.legs[..parent].last().iter().map(|leg| leg.samples[leg.samples.len() - 1]).collect();
        all.extend(samples);
        self.0.legs.push(Leg { link: link as u32, parent: parent as u32, samples: all });
        self.0.legs.len()
    }

    /// A new leg on which the front goes on to `offset` at `speed`, from its first moment.
    pub fn run(&mut self, link: usize, parent: usize, offset: f64, speed: f64) -> usize {
        let [time, from, before] = *self.0.legs[parent - 1].samples.last().unwrap();
        let mut samples = vec![];
        let mut start = time;
        if before != speed {
            start += 1.0;
            samples.push([start, from, speed]);
        }
        samples.push([start + (offset - from) / speed, offset, speed]);
        self.leg(link, parent, &samples)
    }
}
