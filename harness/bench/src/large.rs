//! Books of the largest counts.

pub struct Bytes(pub Vec<u8>);

impl Bytes {
    pub fn float(&mut self, x: f64) {
        self.0.extend(x.to_le_bytes());
    }

    pub fn number(&mut self, n: usize) {
        self.0.extend((n as u32).to_le_bytes());
    }
}

/// A line of links with as many legs, each of so many samples; the first `more` legs have one more. Legs are a chain, or all but one start at an origin.
fn line(legs: usize, samples: usize, more: usize, chain: bool) -> Vec<u8> {
    let mut b = Bytes(vec![]);
    for x in [1.0, 0.0, 10.0] {
        b.float(x);
    }
    b.number(legs);
    for i in 0..legs {
        b.float(if i == 0 { 0.0 } else { 100.0 });
        let next = if i == 0 || i + 1 == legs { 0 } else { i + 1 };
        for index in [next, 0, i.saturating_sub(1), 0] {
            b.number(index);
        }
    }
    let ends = (legs - 1).min(1_000);
    b.number(ends);
    for i in 0..ends {
        b.number(i);
        b.float(0.0);
        b.number(0);
    }
    b.number(ends);
    for i in 0..ends {
        b.number(legs - 1 - i);
    }
    b.number(legs);
    let counts: Vec<usize> = (0..legs).map(|i| samples + (i < more) as usize).collect();
    for (i, count) in counts.iter().enumerate() {
        let link = (i + 1).min(legs - 1);
        let parent = if chain || i + 1 == legs { i } else { 0 };
        for field in [link, parent, *count] {
            b.number(field);
        }
    }
    b.number(counts.iter().sum());
    let mut time = 0.0;
    for (i, count) in counts.iter().enumerate() {
        if !chain && i + 1 < legs {
            time = 0.0;
        }
        for k in 0..*count {
            time += (k > 0) as u32 as f64;
            for x in [time, time, 1.0] {
                b.float(x);
            }
        }
    }
    b.0
}

/// So many legs of so many samples.
pub fn book(legs: usize, samples: usize, chain: bool) -> Vec<u8> {
    line(legs, samples, 0, chain)
}

/// 65,535 links and legs, 1,000 origins and destinations, 1,000,000 samples, each leg the parent of the next.
pub fn chain() -> Vec<u8> {
    line(65_535, 15, 1_000_000 - 15 * 65_535, true)
}

/// The same counts, all legs but the last starting at an origin.
pub fn fan() -> Vec<u8> {
    line(65_535, 15, 1_000_000 - 15 * 65_535, false)
}
