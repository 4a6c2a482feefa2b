//! The book and rows 1 to 7 of document 01's table.

use std::cell::RefCell;
use std::rc::Rc;

use crate::bytes::{in_book, refuse_if, Fields};
use crate::shims::track::{Link, LinkIdx, Location};
use crate::shims::train::Path;

/// Lent places beyond these are not used.
pub const MOST_PLACES: usize = 65_535;

#[derive(Debug, Default, Clone, Copy, PartialEq)]
pub struct Sample {
    pub time: f64,
    pub offset: f64,
    pub speed: f64,
}

#[derive(Debug, Default, PartialEq)]
pub struct Leg {
    pub link: LinkIdx,
    pub parent: u32,
    /// The first of its samples, and how many.
    pub first: usize,
    pub samples: usize,
    /// 1 for a leg that starts at an origin.
    pub depth: usize,
}

#[derive(Debug, Default, PartialEq)]
pub struct Book {
    pub gap: f64,
    pub departure: f64,
    pub length: f64,
    pub links: Vec<Link>,
    pub origins: Rc<[Location]>,
    pub destinations: Rc<[Location]>,
    /// From 1; 0 is an empty row.
    pub legs: Vec<Leg>,
    pub samples: Vec<Sample>,
    /// Parent, link and number of each leg, rising.
    children: Vec<(u32, LinkIdx, u32)>,
    /// The points of the run that moved last.
    pub path: RefCell<Path>,
}

impl Book {
    /// Rows 1 to 7: the lowest number over the whole book.
    pub fn read(bytes: &[u8], places: usize, work: Option<u64>) -> Result<Book, u32> {
        let sections = Sections::read(bytes)?;
        refuse_if(!sections.counts_hold(places, work), 3)?;
        refuse_if(!sections.flags_hold(), 4)?;
        let book = sections.book();
        refuse_if(!book.floats_hold(), 4)?;
        refuse_if(!book.indices_hold(), 5)?;
        refuse_if(!book.origins_hold(), 6)?;
        refuse_if(!book.legs_hold(), 7)?;
        Ok(book.with_depths())
    }

    /// A book for events or a table by themselves: a train goes from link 1 to link 2, on
    /// link 1 with these samples, on link 2 with the first of them alone.
    pub fn made_up(length: f64, samples: Vec<Sample>) -> Book {
        let link = |next, prev| Link {
            length: 1.0,
            idx_next: LinkIdx(next),
            idx_prev: LinkIdx(prev),
            ..Link::default()
        };
        let place = |link| Rc::new([Location { link_idx: LinkIdx(link), ..Location::default() }]);
        let leg = |number, samples| Leg {
            link: LinkIdx(number),
            parent: number - 1,
            samples,
            ..Leg::default()
        };
        let book = Book {
            departure: samples[0].time,
            length,
            links: vec![Link::default(), link(2, 0), link(0, 1)],
            origins: place(1),
            destinations: place(2),
            legs: vec![Leg::default(), leg(1, samples.len()), leg(2, 1)],
            samples,
            ..Book::default()
        };
        book.with_children().with_depths()
    }

    /// The leg with this parent and link.
    pub fn leg(&self, parent: u32, link: LinkIdx) -> Option<u32> {
        let found = self.children.binary_search_by_key(&(parent, link), |child| (child.0, child.1));
        found.ok().map(|index| self.children[index].2)
    }

    fn with_children(mut self) -> Book {
        let numbered = (1..).zip(&self.legs[1..]);
        self.children = numbered.map(|(number, leg)| (leg.parent, leg.link, number)).collect();
        self.children.sort_unstable();
        self
    }

    fn with_depths(mut self) -> Book {
        for number in 1..self.legs.len() {
            self.legs[number].depth = self.legs[self.legs[number].parent as usize].depth + 1;
        }
        self
    }

    fn floats_hold(&self) -> bool {
        let sample = |row: &Sample| in_book(row.time) && in_book(row.offset) && in_book(row.speed);
        [self.gap, self.departure, self.length].into_iter().all(in_book)
            && self.links.iter().all(|link| in_book(link.length))
            && self.origins.iter().all(|origin| in_book(origin.offset))
            && self.samples.iter().all(sample)
    }

    fn indices_hold(&self) -> bool {
        let named = |link: LinkIdx| link.idx() < self.links.len();
        self.links[0] == Link::default()
            && self.links[1..].iter().all(|link| self.link_holds(link))
            && self.origins.iter().all(|origin| named(origin.link_idx))
            && self.destinations.iter().all(|destination| named(destination.link_idx))
            && self
                .legs
                .iter()
                .all(|leg| named(leg.link) && (leg.parent as usize) < self.legs.len())
    }

    fn link_holds(&self, link: &Link) -> bool {
        let indices = [link.idx_next, link.idx_next_alt, link.idx_prev, link.idx_prev_alt];
        indices.iter().all(|index| index.idx() < self.links.len())
            && link.length != 0.0
            && (link.idx_next != link.idx_next_alt || link.idx_next == LinkIdx(0))
    }

    fn origins_hold(&self) -> bool {
        let mut links: Vec<LinkIdx> = self.origins.iter().map(|origin| origin.link_idx).collect();
        links.sort_unstable();
        links.windows(2).all(|pair| pair[0] != pair[1])
            && self.origins.iter().all(|origin| origin.offset == 0.0 && !origin.is_front_end)
    }

    fn legs_hold(&self) -> bool {
        let distinct =
            |pair: &[(u32, LinkIdx, u32)]| (pair[0].0, pair[0].1) != (pair[1].0, pair[1].1);
        self.children.windows(2).all(distinct)
            && (1..self.legs.len()).all(|number| self.leg_holds(number))
    }

    fn leg_holds(&self, number: usize) -> bool {
        let leg = &self.legs[number];
        let rising =
            |pair: &[Sample]| pair[0].time < pair[1].time && pair[0].offset <= pair[1].offset;
        leg.link != LinkIdx(0)
            && (leg.parent as usize) < number
            && self.samples_of(leg).windows(2).all(rising)
            && self.start_holds(leg)
    }

    fn start_holds(&self, leg: &Leg) -> bool {
        let first = self.samples_of(leg)[0];
        if leg.parent == 0 {
            return first.time == self.departure;
        }
        let last = self.samples_of(&self.legs[leg.parent as usize]).last().unwrap();
        let bits = |row: &Sample| [row.time, row.offset, row.speed].map(f64::to_bits);
        bits(&first) == bits(last)
    }

    fn samples_of(&self, leg: &Leg) -> &[Sample] {
        &self.samples[leg.first..][..leg.samples]
    }
}

/// Bytes to a row of links, origins, destinations, legs and samples.
const WIDTHS: [u64; 5] = [24, 16, 4, 12, 24];

/// The bytes of each section, none of them looked at.
struct Sections<'a> {
    head: Fields<'a>,
    links: Fields<'a>,
    origins: Fields<'a>,
    destinations: Fields<'a>,
    legs: Fields<'a>,
    samples: Fields<'a>,
}

impl<'a> Sections<'a> {
    /// Rows 1 and 2.
    fn read(bytes: &'a [u8]) -> Result<Self, u32> {
        let mut fields = Fields(bytes);
        let sections = Sections {
            head: fields.take(24)?,
            links: fields.section(WIDTHS[0])?,
            origins: fields.section(WIDTHS[1])?,
            destinations: fields.section(WIDTHS[2])?,
            legs: fields.section(WIDTHS[3])?,
            samples: fields.section(WIDTHS[4])?,
        };
        fields.end()?;
        Ok(sections)
    }

    fn counts(&self) -> [u64; 5] {
        let sections = [&self.links, &self.origins, &self.destinations, &self.legs, &self.samples];
        std::array::from_fn(|section| sections[section].0.len() as u64 / WIDTHS[section])
    }

    /// Row 3.
    fn counts_hold(&self, places: usize, work: Option<u64>) -> bool {
        let counts = self.counts();
        let most = [65_535, 1_000, 1_000, 65_535, 1_000_000];
        let samples =
            || self.legs.rows(12).map(|mut leg| (leg.u32(), leg.u32(), leg.u32()).2 as u64);
        let units = counts[..4].iter().sum::<u64>() + places.min(MOST_PLACES) as u64;
        counts.iter().zip(most).all(|(count, most)| (1..=most).contains(count))
            && samples().all(|count| count > 0)
            && samples().sum::<u64>() == counts[4]
            && work.is_none_or(|bytes| bytes >= 36_864 + 64 * units)
    }

    /// Row 4, of the origins' flags.
    fn flags_hold(&self) -> bool {
        self.origins.rows(16).all(|mut row| (row.u32(), row.f64(), row.u32()).2 <= 1)
    }

    fn book(mut self) -> Book {
        let book = Book {
            gap: self.head.f64(),
            departure: self.head.f64(),
            length: self.head.f64(),
            links: self.links.rows(24).map(link).collect(),
            origins: self.origins.rows(16).map(origin).collect(),
            destinations: self.destinations.rows(4).map(destination).collect(),
            legs: self.leg_rows(),
            samples: self.samples.rows(24).map(sample).collect(),
            ..Book::default()
        };
        book.with_children()
    }

    fn leg_rows(&self) -> Vec<Leg> {
        let mut legs = vec![Leg::default()];
        let mut first = 0;
        for mut row in self.legs.rows(12) {
            let (link, parent, samples) = (LinkIdx(row.u32()), row.u32(), row.u32() as usize);
            legs.push(Leg { link, parent, first, samples, depth: 0 });
            first += samples;
        }
        legs
    }
}

fn link(mut row: Fields) -> Link {
    Link {
        length: row.f64(),
        idx_next: LinkIdx(row.u32()),
        idx_next_alt: LinkIdx(row.u32()),
        idx_prev: LinkIdx(row.u32()),
        idx_prev_alt: LinkIdx(row.u32()),
    }
}

fn origin(mut row: Fields) -> Location {
    Location { link_idx: LinkIdx(row.u32()), offset: row.f64(), is_front_end: row.u32() == 1 }
}

fn destination(mut row: Fields) -> Location {
    Location { link_idx: LinkIdx(row.u32()), ..Location::default() }
}

pub fn sample(mut row: Fields) -> Sample {
    Sample { time: row.f64(), offset: row.f64(), speed: row.f64() }
}
