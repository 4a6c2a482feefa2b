//! Samples of a leg: how a train runs through the last link of its path.

use crate::book::Sample;
use crate::random::Random;

/// What kind of numbers a book is made of: the coarser, the more ties.
#[derive(Clone, Copy, PartialEq)]
pub enum Grain {
    Whole,
    Quarter,
    Any,
}

impl Grain {
    pub fn draw(r: &mut Random) -> Grain {
        [Grain::Whole, Grain::Quarter, Grain::Any][r.weighted(&[50, 25, 25])]
    }

    /// A number from `low` to `high`.
    pub fn value(self, r: &mut Random, low: u64, high: u64) -> f64 {
        match self {
            Grain::Whole => r.between(low, high) as f64,
            Grain::Quarter => r.between(4 * low, 4 * high) as f64 / 4.0,
            Grain::Any => low as f64 + r.unit() * (high - low) as f64,
        }
    }

    fn fit(self, value: f64) -> f64 {
        match self {
            Grain::Whole => value.floor(),
            Grain::Quarter => (value * 4.0).floor() / 4.0,
            Grain::Any => value,
        }
    }

    /// A number below `end`, as near as the grain has one.
    fn under(self, end: f64) -> f64 {
        match self {
            Grain::Whole => end.ceil() - 1.0,
            Grain::Quarter => (end * 4.0).ceil() / 4.0 - 0.25,
            Grain::Any => end.next_down(),
        }
    }
}

#[derive(Clone, Copy)]
pub enum Speeds {
    /// One speed everywhere.
    Even,
    /// A speed for each link, the same for every run.
    ByLink,
    /// A speed for each link; on every third it depends on the link before it too, so that runs
    /// which meet there are alike only further on.
    ByWay,
    /// From standing to the even speed.
    Rising,
    /// A few speeds, drawn at each sample.
    Drawn,
    /// One speed that is next to none, with times as if it were not: events long before departure.
    Crawling,
    /// Speeds and times that have nothing to do with the offsets.
    Wild,
    /// No movement.
    Standing,
}

const CRAWL: f64 = 1.0 / (1u64 << 24) as f64;

/// Where trains stop on their way, with the front or the back on a point.
#[derive(Clone, Copy)]
pub enum Stops {
    Nowhere,
    /// In so many of 100 legs, at one or two places drawn for each.
    Drawn(u64),
    /// Every train at the same places: with its front where a link starts whose number is a multiple of this, with its
    /// back where one starts whose number is one more.
    ByLink(u32),
}

/// A stop where an end of the train is on a point.
pub struct Stop {
    /// Mostly just there, now and then a unit in the last place before or behind.
    pub offset: f64,
    /// Mostly 0, now and then so small that its square is 0.
    pub speed: f64,
    /// Whether it takes next to no time. From time 0 the quotient (v − v′)/(t − t′) then overflows.
    pub is_sudden: bool,
}

impl Stop {
    pub fn draw(r: &mut Random, time: f64, point: f64) -> Stop {
        Stop {
            offset: [point, point.next_down(), point.next_up()][r.weighted(&[20, 1, 1])],
            speed: [0.0, 1e-200, f64::from_bits(1)][r.weighted(&[18, 1, 1])],
            is_sudden: r.one_in(if time == 0.0 { 6 } else { 40 }),
        }
    }
}

pub struct Driving {
    pub grain: Grain,
    pub speeds: Speeds,
    pub speed: f64,
    pub stops: Stops,
    /// How many links the front stays behind the end of its path.
    pub lag: usize,
    /// The part of its last link that a leg runs through.
    pub part: f64,
    /// Most samples that a leg has beside its first.
    pub steps: u64,
    /// In so many of 100 legs the train stands.
    pub rests: u64,
    /// In so many of 10,000 legs the last sample reaches the last point.
    pub overruns: u64,
    /// Origins whose runs never move.
    pub resting: Vec<u32>,
}

/// The path of a leg: its links with the points where they start, the last point, and what the
/// train is like on it.
pub struct Way<'a> {
    pub path: &'a [(u32, f64)],
    pub end: f64,
    pub length: f64,
    pub is_last: bool,
}

impl Way<'_> {
    /// Where the front is when it is on a point, and where it is when the back is; each with the link that starts
    /// at the point.
    fn fronts_and_backs(&self) -> [Vec<(u32, f64)>; 2] {
        let back = |(link, start): &(u32, f64)| (*link, start + self.length);
        [self.path.to_vec(), self.path.iter().map(back).collect()]
    }

    /// The link that the front is on, and the one before it.
    fn links_at(&self, offset: f64) -> (u32, u32) {
        let place = self.path.iter().rposition(|point| point.1 <= offset).unwrap_or(0);
        let before = if place == 0 { 0 } else { self.path[place - 1].0 };
        (before, self.path[place].0)
    }
}

impl Driving {
    /// The first sample of a leg that starts at an origin.
    pub fn start(&self, r: &mut Random, departure: f64, length: f64, link_length: f64) -> Sample {
        let offset = if length < link_length && !r.one_in(8) {
            length
        } else {
            self.grain.fit(r.unit() * link_length).min(self.grain.under(link_length)).max(0.0)
        };
        let speed = match self.speeds {
            Speeds::Rising | Speeds::Standing => 0.0,
            Speeds::Crawling => self.speed * CRAWL,
            Speeds::ByLink | Speeds::ByWay | Speeds::Drawn if r.chance(30) => 0.0,
            _ => self.speed,
        };
        [departure, offset, speed]
    }

    /// The samples of a leg that begins with `first`.
    pub fn leg(&self, r: &mut Random, first: Sample, way: &Way) -> Vec<Sample> {
        let mut samples = vec![first];
        let rests = r.chance(self.rests) || self.resting.contains(&way.path[0].0);
        let goal =
            if rests || matches!(self.speeds, Speeds::Standing) { first[1] } else { self.goal(r, way) };
        if goal <= first[1] {
            if r.chance(40) {
                self.stand(r, &mut samples);
            }
            return samples;
        }
        let stops = self.stops_between(r, first[1], goal, way);
        for stop in &stops {
            self.stop(r, &mut samples, *stop, way);
        }
        // Now and then the leg ends where it stops.
        if stops.is_empty() || !r.one_in(4) {
            self.run(r, &mut samples, goal, way);
        }
        samples
    }

    /// From the last sample to the goal, in a few steps.
    fn run(&self, r: &mut Random, samples: &mut Vec<Sample>, goal: f64, way: &Way) {
        let goal = goal.max(samples[samples.len() - 1][1]);
        let steps = r.between(1, self.steps);
        for step in 1..=steps {
            let before = samples[samples.len() - 1];
            let offset = if step == steps { goal } else { self.place(r, before[1], goal, way) };
            samples.push(self.advance(r, before, offset, way));
        }
    }

    /// Where the train stops behind `from` and up to the goal, in rising order.
    fn stops_between(&self, r: &mut Random, from: f64, goal: f64, way: &Way) -> Vec<f64> {
        let mut places = way.fronts_and_backs();
        if let Stops::ByLink(every) = self.stops {
            places[0].retain(|(link, _)| link % every == 0);
            places[1].retain(|(link, _)| link % every == 1 % every);
        }
        let mut stops: Vec<f64> = places.concat().into_iter().map(|(_, offset)| offset).collect();
        stops.retain(|offset| from < *offset && *offset <= goal);
        match self.stops {
            Stops::ByLink(_) => {}
            Stops::Drawn(percent) if !stops.is_empty() && r.chance(percent) => {
                stops = (0..r.between(1, 2)).map(|_| r.pick(&stops)).collect();
            }
            _ => stops.clear(),
        }
        stops.sort_by(f64::total_cmp);
        stops.dedup();
        stops
    }

    /// Comes to a stop at a point, mostly after running; then stands for a while or not.
    fn stop(&self, r: &mut Random, samples: &mut Vec<Sample>, point: f64, way: &Way) {
        let before = samples[samples.len() - 1];
        if is_still(before[2]) && !r.one_in(6) {
            let middle = self.grain.fit(before[1] + (point - before[1]) / 2.0).max(before[1]);
            samples.push(self.advance(r, before, middle, way));
        }
        let [time, from, before] = samples[samples.len() - 1];
        let Stop { offset, speed, is_sudden } = Stop::draw(r, time, point);
        let takes = if is_sudden { 0.0 } else { self.takes(r, offset - from, before + speed) };
        samples.push([later(time, takes), offset.max(from), speed]);
        if r.chance(40) {
            self.stand(r, samples);
        }
    }

    fn stand(&self, r: &mut Random, samples: &mut Vec<Sample>) {
        for _ in 0..r.between(1, 2) {
            let [time, offset, _] = samples[samples.len() - 1];
            let speed = if r.chance(50) { 0.0 } else { self.speed };
            samples.push([later(time, self.grain.value(r, 1, 60)), offset, speed]);
        }
    }

    /// Where the leg's last sample is: inside the path's last link, or some links behind.
    fn goal(&self, r: &mut Random, way: &Way) -> f64 {
        if r.below(10_000) < self.overruns {
            return if r.chance(50) { way.end } else { way.end + 1.0 };
        }
        let behind = if way.is_last { 0 } else { self.lag.min(way.path.len() - 1) };
        let place = way.path.len() - 1 - behind;
        let start = way.path[place].1;
        let stop = way.path.get(place + 1).map_or(way.end, |point| point.1);
        let part = if way.is_last && !r.one_in(8) { self.part.max(0.9) } else { self.part };
        let goal = self.grain.fit(start + (stop - start) * part);
        if r.one_in(12) {
            self.place(r, start, goal, way)
        } else {
            goal.min(self.grain.under(way.end)).max(0.0)
        }
    }

    /// An offset on the way to the goal, now and then exactly where an event is.
    fn place(&self, r: &mut Random, from: f64, goal: f64, way: &Way) -> f64 {
        let drawn = match r.below(6) {
            0 => from,
            1 => way.path[r.index(way.path.len())].1,
            2 => way.path[r.index(way.path.len())].1 + way.length,
            _ => self.grain.fit(from + (goal - from) * r.unit()),
        };
        if drawn < from || drawn > goal {
            goal.min(self.grain.under(way.end)).max(from)
        } else {
            drawn
        }
    }

    fn advance(&self, r: &mut Random, before: Sample, offset: f64, way: &Way) -> Sample {
        let speed = self.speed_at(r, before, offset, way);
        let takes = self.takes(r, offset - before[1], before[2] + speed);
        [later(before[0], takes), offset, speed]
    }

    /// How long the train takes for a distance, by the sum of its speeds before and behind it.
    fn takes(&self, r: &mut Random, distance: f64, sum: f64) -> f64 {
        let is_free = matches!(self.speeds, Speeds::Wild | Speeds::Crawling) || is_still(sum);
        if is_free || distance <= 0.0 {
            self.grain.value(r, 1, 20)
        } else {
            2.0 * distance / sum
        }
    }

    fn speed_at(&self, r: &mut Random, before: Sample, offset: f64, way: &Way) -> f64 {
        match self.speeds {
            Speeds::Even => self.speed,
            Speeds::Crawling => self.speed * CRAWL,
            Speeds::ByLink => self.speed * [1.0, 2.0, 1.5, 1.0][way.links_at(offset).1 as usize % 4],
            Speeds::ByWay => {
                let (before, link) = way.links_at(offset);
                self.speed + if link % 3 == 0 { before % 4 } else { link % 2 } as f64
            }
            Speeds::Rising if before[2] == 0.0 && offset == before[1] => 0.0,
            Speeds::Rising => self.speed,
            Speeds::Drawn => match r.below(10) {
                0 => self.speed + 0.25,
                1..=2 => self.speed + 1.0,
                3..=4 => self.speed + 2.0,
                5 => self.speed * 2.0,
                6 => self.speed / 2.0,
                _ => self.speed,
            },
            Speeds::Wild => match r.below(6) {
                0 => 0.0,
                1 => r.unit() * 1e-9,
                2 => r.unit() * 1e9,
                _ => self.grain.value(r, 0, 30),
            },
            Speeds::Standing => 0.0,
        }
    }
}

/// Whether a speed is 0 or so small that its square is.
pub fn is_still(speed: f64) -> bool {
    speed * speed == 0.0
}

/// A time after `time`, by `takes` where that makes a difference.
pub fn later(time: f64, takes: f64) -> f64 {
    (time + takes).max(time.next_up())
}
