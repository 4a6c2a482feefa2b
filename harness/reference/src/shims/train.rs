//! A train simulation that hands out the book's samples.

use std::mem;
use std::rc::Rc;

use super::errors::anyhow;
use super::floats::TrackedState;
use super::track::{Link, LinkIdx, LinkPoint, Location};
use crate::book::{Book, Sample};
use crate::watch::{self, Ending};

#[derive(Debug, Default, Clone, PartialEq)]
pub struct Consist;

#[derive(Debug, Default, Clone, PartialEq)]
pub struct TrainState {
    pub time: TrackedState<f64>,
    pub offset: TrackedState<f64>,
    pub speed: TrackedState<f64>,
    pub length: TrackedState<f64>,
}

/// Says by its target speed whether samples are left.
#[derive(Debug, Default, Clone, PartialEq)]
pub struct BrakingPoints {
    samples_left: usize,
}

impl BrakingPoints {
    pub fn calc_speeds(&self, _offset: f64, speed: f64, _ramp_up: f64) -> (f64, f64) {
        (speed, if self.samples_left > 0 { 1.0 } else { 0.0 })
    }
}

#[derive(Debug, Default, Clone, PartialEq)]
pub struct FricBrake {
    pub ramp_up_time: f64,
    pub ramp_up_coeff: f64,
}

/// The points of a run's path and the legs that it is made of.
#[derive(Debug, Default, PartialEq)]
pub struct Path {
    pub legs: Vec<u32>,
    pub points: Vec<LinkPoint>,
}

impl Path {
    /// Makes this the path of a leg. Runs are taken up in the order of a walk into the depth,
    /// so the parent's path is still there.
    fn lead_to(&mut self, book: &Book, leg: u32) {
        let row = &book.legs[leg as usize];
        if self.legs.get(row.depth - 1) == Some(&leg) {
            return;
        }
        self.legs.truncate(row.depth - 1);
        assert_eq!(self.legs.last().unwrap_or(&0), &row.parent, "order of runs");
        self.legs.push(leg);
        if self.points.is_empty() {
            self.points.push(LinkPoint::default());
        }
        self.points.truncate(row.depth);
        let start = self.points.last_mut().unwrap();
        start.link_idx = row.link;
        let offset = start.offset + book.links[row.link.idx()].length;
        self.points.push(LinkPoint { offset, link_idx: LinkIdx(0) });
    }
}

/// The book's one path, held by the run that moves. A copy of that run holds nothing.
#[derive(Debug, Default, PartialEq)]
struct Held {
    path: Path,
    book: Option<Rc<Book>>,
}

impl Clone for Held {
    fn clone(&self) -> Self {
        Held::default()
    }
}

impl Drop for Held {
    fn drop(&mut self) {
        if let Some(book) = &self.book {
            book.path.replace(mem::take(&mut self.path));
        }
    }
}

#[derive(Debug, Default, Clone, PartialEq)]
pub struct SpeedLimitTrainSim {
    pub origs: Rc<[Location]>,
    pub dests: Rc<[Location]>,
    pub state: TrainState,
    pub braking_points: BrakingPoints,
    pub fric_brake: FricBrake,
    pub loco_con: Consist,
    book: Rc<Book>,
    held: Held,
    leg: u32,
    link: LinkIdx,
    sample: usize,
    at_destination: bool,
    has_moved: bool,
}

impl SpeedLimitTrainSim {
    pub fn new(book: Rc<Book>) -> Self {
        let state = TrainState {
            time: TrackedState(book.departure),
            length: TrackedState(book.length),
            ..Default::default()
        };
        let (origs, dests) = (book.origins.clone(), book.destinations.clone());
        SpeedLimitTrainSim { origs, dests, state, book, ..Default::default() }
    }

    pub fn set_save_interval(&mut self, _interval: Option<usize>) {}

    /// Takes the leg that goes on over the link, or refuses the book with 10.
    pub fn extend_path_tpc(&mut self, _network: &[Link], links: &[LinkIdx]) -> anyhow::Result<()> {
        self.leg = self.book.leg(self.leg, links[0]).ok_or(Ending::Refused(10))?;
        let leg = &self.book.legs[self.leg as usize];
        self.link = leg.link;
        self.sample = leg.first;
        self.braking_points.samples_left = leg.samples - 1;
        self.has_moved = false;
        self.take_sample();
        Ok(())
    }

    fn take_sample(&mut self) {
        let Sample { time, offset, speed } = self.book.samples[self.sample];
        self.state.time.0 = time;
        self.state.offset.0 = offset;
        self.state.speed.0 = speed;
    }

    pub fn step(&mut self, _place: impl Fn() -> String) -> anyhow::Result<()> {
        self.sample += 1;
        self.braking_points.samples_left -= 1;
        self.take_sample();
        Ok(())
    }

    /// Called when all of a leg's samples are handed out. Its points are asked for next.
    pub fn clear_path(&mut self) {
        drop(mem::take(&mut self.held));
        let mut path = self.book.path.take();
        path.lead_to(&self.book, self.leg);
        self.held = Held { path, book: Some(self.book.clone()) };
        self.has_moved = true;
        watch::leg_moved();
    }

    pub fn link_points(&self) -> &[LinkPoint] {
        &self.held.path.points
    }

    pub fn link_idx_last(&self) -> Option<&LinkIdx> {
        Some(&self.link)
    }

    pub fn finish(&mut self) {
        self.at_destination = true;
    }

    /// Finished only when the leg's samples are handed out: there are no others after them.
    pub fn is_finished(&self) -> bool {
        self.at_destination && self.has_moved
    }
}
