//! Book: its bytes, and rows 1 to 7, each over the whole book, in this order:
//! "Of 1 to 8 the lowest wins".

use crate::bytes::{bad_float, float, number, Bytes};
use crate::{refuse_if, Answer};

pub struct Link {
    pub length: f64,
    pub next: u32,
    pub next_alt: u32,
    pub prev: u32,
    pub prev_alt: u32,
}

struct Origin {
    link: u32,
    offset: f64,
    flag: u32,
}

pub struct Leg {
    pub link: u32,
    pub parent: u32,
    /// Its samples are `first..last` of the book's.
    first: usize,
    last: usize,
}

#[derive(Clone, Copy)]
pub struct Sample {
    pub time: f64,
    pub offset: f64,
    pub speed: f64,
}

pub struct Book {
    pub gap: f64,
    pub departure: f64,
    pub length: f64,
    pub links: Vec<Link>,
    origins: Vec<Origin>,
    pub destinations: Vec<u32>,
    /// Leg k is `legs[k - 1]`: "legs from 1".
    pub legs: Vec<Leg>,
    samples: Vec<Sample>,
    /// (parent, link, leg), sorted.
    found: Vec<(u32, u32, u32)>,
}

/// The sections as bytes, each with its count.
struct Raw<'a> {
    head: &'a [u8],
    links: (u32, &'a [u8]),
    origins: (u32, &'a [u8]),
    destinations: (u32, &'a [u8]),
    legs: (u32, &'a [u8]),
    samples: (u32, &'a [u8]),
}

impl<'a> Raw<'a> {
    /// Rows 1 and 2: "bytes end before the last field does", "bytes left over".
    fn read(bytes: &'a [u8]) -> Answer<Raw<'a>> {
        let mut rest = Bytes(bytes);
        let raw = Raw {
            head: rest.take(24)?,
            links: rest.section(24)?,
            origins: rest.section(16)?,
            destinations: rest.section(4)?,
            legs: rest.section(12)?,
            samples: rest.section(24)?,
        };
        refuse_if(!rest.0.is_empty(), 2)?;
        Ok(raw)
    }

    /// Row 3: counts, a leg of 0 samples, leg sums, work space.
    fn row_3(&self, places: usize, work: Option<u64>) -> bool {
        let asked = 36_864
            + 64 * (self.links.0 as u64
                + self.origins.0 as u64
                + self.destinations.0 as u64
                + self.legs.0 as u64
                + places as u64);
        let sizes = || self.legs.1.chunks_exact(12).map(|leg| number(leg, 8) as u64);
        !(1..=65_535).contains(&self.links.0)
            || !(1..=1_000).contains(&self.origins.0)
            || !(1..=1_000).contains(&self.destinations.0)
            || !(1..=65_535).contains(&self.legs.0)
            || !(1..=1_000_000).contains(&self.samples.0)
            || sizes().any(|size| size == 0)
            || sizes().sum::<u64>() != self.samples.0 as u64
            || work.is_some_and(|work| work < asked)
    }

    /// The fields, once the counts are good.
    fn fields(&self) -> Book {
        let legs = legs(self.legs.1);
        let mut found: Vec<_> = (1..).zip(&legs).map(|(i, leg)| (leg.parent, leg.link, i)).collect();
        found.sort_unstable();
        Book {
            gap: float(self.head, 0),
            departure: float(self.head, 8),
            length: float(self.head, 16),
            links: self.links.1.chunks_exact(24).map(link).collect(),
            origins: self.origins.1.chunks_exact(16).map(origin).collect(),
            destinations: self.destinations.1.chunks_exact(4).map(|d| number(d, 0)).collect(),
            legs,
            samples: self.samples.1.chunks_exact(24).map(sample).collect(),
            found,
        }
    }
}

/// "length, next, next alternative, previous, previous alternative"
fn link(b: &[u8]) -> Link {
    Link {
        length: float(b, 0),
        next: number(b, 8),
        next_alt: number(b, 12),
        prev: number(b, 16),
        prev_alt: number(b, 20),
    }
}

/// "link, offset, front flag"
fn origin(b: &[u8]) -> Origin {
    Origin { link: number(b, 0), offset: float(b, 4), flag: number(b, 12) }
}

/// "link, parent leg, number of samples"; the samples lie "in leg order".
fn legs(bytes: &[u8]) -> Vec<Leg> {
    let mut last = 0;
    bytes
        .chunks_exact(12)
        .map(|b| {
            let first = last;
            last += number(b, 8) as usize;
            Leg { link: number(b, 0), parent: number(b, 4), first, last }
        })
        .collect()
}

/// "time, offset, speed"
pub fn sample(b: &[u8]) -> Sample {
    Sample { time: float(b, 0), offset: float(b, 8), speed: float(b, 16) }
}

impl Sample {
    pub fn bad(&self) -> bool {
        bad_float(self.time) || bad_float(self.offset) || bad_float(self.speed)
    }

    fn bits(&self) -> (u64, u64, u64) {
        (self.time.to_bits(), self.offset.to_bits(), self.speed.to_bits())
    }
}

/// "times not strictly rising or offsets falling"
pub fn fall(samples: &[Sample]) -> bool {
    samples.windows(2).any(|w| !(w[0].time < w[1].time) || w[1].offset < w[0].offset)
}

impl Book {
    pub fn read(bytes: &[u8], places: usize, work: Option<u64>) -> Answer<Book> {
        let raw = Raw::read(bytes)?;
        refuse_if(raw.row_3(places, work), 3)?;
        let book = raw.fields();
        refuse_if(book.row_4(), 4)?;
        refuse_if(book.row_5(), 5)?;
        refuse_if(book.row_6(), 6)?;
        refuse_if(book.row_7(), 7)?;
        Ok(book)
    }

    /// "float not finite or above 1,000,000,000 in size, in a book also sign bit
    /// set; flag unknown"
    fn row_4(&self) -> bool {
        bad_float(self.gap)
            || bad_float(self.departure)
            || bad_float(self.length)
            || self.links.iter().any(|l| bad_float(l.length))
            || self.origins.iter().any(|o| bad_float(o.offset) || o.flag > 1)
            || self.samples.iter().any(Sample::bad)
    }

    /// "index names nothing; link 0 not all zero; other link of length 0;
    /// next = next alternative, nonzero"
    fn row_5(&self) -> bool {
        let nothing = |link: u32| link as usize >= self.links.len();
        let zero = &self.links[0];
        let not_zero = zero.length != 0.0
            || [zero.next, zero.next_alt, zero.prev, zero.prev_alt] != [0; 4];
        not_zero
            || self.links[1..].iter().any(|l| l.length == 0.0)
            || self.links.iter().any(|l| {
                [l.next, l.next_alt, l.prev, l.prev_alt].into_iter().any(nothing)
                    || (l.next == l.next_alt && l.next != 0)
            })
            || self.origins.iter().any(|o| nothing(o.link))
            || self.destinations.iter().any(|&d| nothing(d))
            || self.legs.iter().any(|l| nothing(l.link) || l.parent as usize > self.legs.len())
    }

    /// "origin offset nonzero, front flag 1, or link repeated"
    fn row_6(&self) -> bool {
        let mut links: Vec<u32> = self.origins.iter().map(|o| o.link).collect();
        links.sort_unstable();
        self.origins.iter().any(|o| o.offset != 0.0 || o.flag == 1)
            || links.windows(2).any(|w| w[0] == w[1])
    }

    /// Row 7: a bad leg, or "parent and link repeated".
    fn row_7(&self) -> bool {
        (1..).zip(&self.legs).any(|(own, leg)| self.bad_leg(own, leg))
            || self.found.windows(2).any(|w| (w[0].0, w[0].1) == (w[1].0, w[1].1))
    }

    /// "leg link 0; parent not below own number; times not strictly rising or
    /// offsets falling in a leg; first sample not its parent's last, bit for bit;
    /// starting leg's first time not the departure"
    fn bad_leg(&self, own: u32, leg: &Leg) -> bool {
        if leg.link == 0 || leg.parent >= own {
            return true;
        }
        let samples = self.samples_of(leg);
        let bad_start = if leg.parent == 0 {
            samples[0].time != self.departure
        } else {
            let parent = self.samples_of(self.leg(leg.parent));
            samples[0].bits() != parent[parent.len() - 1].bits()
        };
        bad_start || fall(samples)
    }

    pub fn leg(&self, number: u32) -> &Leg {
        &self.legs[number as usize - 1]
    }

    pub fn link(&self, number: u32) -> &Link {
        &self.links[number as usize]
    }

    pub fn samples_of(&self, leg: &Leg) -> &[Sample] {
        &self.samples[leg.first..leg.last]
    }

    /// The number of the leg with this parent and link.
    pub fn find_leg(&self, parent: u32, link: u32) -> Option<u32> {
        let at = self.found.partition_point(|f| (f.0, f.1) < (parent, link));
        let &(p, l, leg) = self.found.get(at)?;
        (p == parent && l == link).then_some(leg)
    }

    pub fn starts_at(&self, link: u32) -> bool {
        self.origins.iter().any(|o| o.link == link)
    }
}
