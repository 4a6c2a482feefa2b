//! Inputs for the event maker by itself: a length, samples, points and list places.

use crate::driving::{is_still, later, Grain, Stop};
use crate::random::Random;

/// Item `number` of a seed.
pub fn events(seed: u64, number: u64) -> Vec<u8> {
    let r = &mut Random::new(seed, number ^ 1 << 42);
    let grain = Grain::draw(r);
    let points = points(r, grain);
    let end = points[points.len() - 1].0;
    let mut length = match r.below(8) {
        0 => 0.0,
        1 => end,
        2 => end * 2.0 + 1.0,
        3 => r.pick(&[1e6, 1e9]),
        _ => grain.value(r, 0, (end / 2.0) as u64 + 1),
    };
    let mut samples = samples(r, grain, &points, length);
    let mut points = points;
    if r.one_in(8) {
        damage(r, &mut length, &mut samples, &mut points);
    }
    let places = match r.below(8) {
        0 => r.below(4) as u32,
        1..=3 => about_needed(r, length, &samples, &points),
        4 => 0,
        _ => 2 * points.len() as u32 + r.below(3) as u32,
    };
    item(length, &samples, &points, places)
}

pub(crate) fn item(length: f64, samples: &[[f64; 3]], points: &[(f64, u32)], places: u32) -> Vec<u8> {
    let mut bytes = length.to_le_bytes().to_vec();
    bytes.extend((samples.len() as u32).to_le_bytes());
    bytes.extend(samples.iter().flatten().flat_map(|float| float.to_le_bytes()));
    bytes.extend((points.len() as u32).to_le_bytes());
    for (offset, link) in points {
        bytes.extend(offset.to_le_bytes());
        bytes.extend(link.to_le_bytes());
    }
    bytes.extend(places.to_le_bytes());
    bytes
}

/// Points one metre from each other and samples up to half a metre before the last, at an even
/// speed, under a train that clears nothing.
pub(crate) fn even(samples: u32, points: u32, places: u32) -> Vec<u8> {
    let end = points as f64 - 1.5;
    let step = (end - 0.5) / (samples.max(2) - 1) as f64;
    let sample = |number: u32| {
        let offset = 0.5 + step * number as f64;
        [number as f64 / 1_024.0, offset.clamp(0.0, end.max(0.0)), 1.0]
    };
    let samples: Vec<[f64; 3]> = (0..samples).map(sample).collect();
    let points: Vec<(f64, u32)> = (0..points).map(|number| (number as f64, 1)).collect();
    item(1e6, &samples, &points, places)
}

/// Points from 0 or from anywhere, some of them equal; the last mostly names 0.
fn points(r: &mut Random, grain: Grain) -> Vec<(f64, u32)> {
    let count = if r.one_in(8) { r.between(1, 2) } else { r.between(3, 9) };
    let step = r.pick(&[2, 5, 20, 100]);
    let mut at = if r.chance(80) { 0.0 } else { grain.value(r, 0, step) };
    let mut points = vec![];
    for number in 1..=count {
        let link = if number == count && r.chance(80) { 0 } else { r.below(5) as u32 };
        points.push((at, link));
        if !r.one_in(8) {
            at += grain.value(r, 1, step);
        }
    }
    if count > 1 && r.chance(30) {
        points[count as usize - 1].0 += 100.0;
    }
    points
}

/// How the samples of a list follow each other.
struct Steps<'a> {
    grain: Grain,
    points: &'a [(f64, u32)],
    length: f64,
    /// The largest offset.
    high: f64,
    /// The speed, if there is one; else it is drawn at each sample.
    even: Option<f64>,
    /// Whether times are those that offsets and speeds ask for.
    is_fair: bool,
    /// Of 100 samples on a point, in how many the train stops.
    stops: u64,
}

impl Steps<'_> {
    fn speed(&self, r: &mut Random) -> f64 {
        self.even.unwrap_or_else(|| draw_speed(r, self.grain))
    }

    /// Where the front is when it or the back is on a point that is still ahead, if there is one.
    fn point_ahead(&self, r: &mut Random, from: f64) -> Option<f64> {
        let fronts_and_backs = self.points.iter().flat_map(|point| [point.0, point.0 + self.length]);
        let ahead: Vec<f64> = fronts_and_backs.filter(|at| from < *at && *at <= self.high).collect();
        (!ahead.is_empty()).then(|| r.pick(&ahead))
    }

    /// The same offset again, or a later one.
    fn anywhere(&self, r: &mut Random, from: f64) -> f64 {
        let end = self.points[self.points.len() - 1].0;
        from + if r.one_in(3) { 0.0 } else { self.grain.value(r, 0, (end / 3.0) as u64 + 2) }
    }

    fn takes(&self, r: &mut Random, distance: f64, sum: f64) -> f64 {
        if self.is_fair && !is_still(sum) {
            2.0 * distance / sum
        } else {
            self.grain.value(r, 1, 20)
        }
    }

    /// The sample behind this one.
    fn after(&self, r: &mut Random, [time, from, before]: [f64; 3]) -> [f64; 3] {
        let point = self.point_ahead(r, from).filter(|_| r.chance(75));
        let stop = point.filter(|_| r.chance(self.stops)).map(|point| Stop::draw(r, time, point));
        let (place, speed) = match &stop {
            Some(stop) => (stop.offset, stop.speed),
            None => (point.unwrap_or_else(|| self.anywhere(r, from)), self.speed(r)),
        };
        let offset = place.min(self.high).max(from);
        let is_sudden = stop.is_some_and(|stop| stop.is_sudden);
        let takes = if is_sudden { 0.0 } else { self.takes(r, offset - from, before + speed) };
        [later(time, takes), offset, speed]
    }
}

/// Samples below the last point, mostly; some are on points, and at some of these the train stops.
fn samples(r: &mut Random, grain: Grain, points: &[(f64, u32)], length: f64) -> Vec<[f64; 3]> {
    let end = points[points.len() - 1].0;
    let low = match r.below(10) {
        0..=2 => length.min(end * 0.5),
        3..=8 => r.unit() * r.pick(points).0,
        _ => r.unit() * end,
    };
    let high = if r.one_in(25) { end } else { end.next_down().max(0.0) };
    let crawl = if r.one_in(12) { 1e-9 } else { 1.0 };
    let even = r.chance(50).then(|| r.between(1, 20) as f64 * crawl);
    let stops = r.pick(&[0, 60, 100, 100]);
    let steps = Steps { grain, points, length, high, even, is_fair: r.chance(70), stops };
    let time = r.pick(&[0.0, 0.0, 0.0, 12.0, 12.0, 12.0, 1e9 - 30.0]);
    let offset = if grain == Grain::Any { low.min(high) } else { low.min(high).floor() };
    let mut samples = vec![[time, offset, steps.speed(r)]];
    let more = if r.one_in(20) { 0 } else { r.between(1, 8) };
    for _ in 0..more {
        let next = steps.after(r, samples[samples.len() - 1]);
        samples.push(next);
    }
    samples
}

fn draw_speed(r: &mut Random, grain: Grain) -> f64 {
    match r.below(12) {
        0 => 0.0,
        1 => r.unit() * 1e-9,
        2 => 1e9 * r.unit(),
        _ => grain.value(r, 0, 20),
    }
}

/// The count that a generous list gets, or one around it.
fn about_needed(r: &mut Random, length: f64, samples: &[[f64; 3]], points: &[(f64, u32)]) -> u32 {
    let answer = plain::events(&item(length, samples, points, u32::MAX >> 8));
    let text = String::from_utf8_lossy(&answer);
    let count = text.strip_prefix("events ").and_then(|rest| rest.lines().next()?.parse::<u32>().ok());
    let count = count.unwrap_or(3);
    r.pick(&[count, count, count.saturating_sub(1), count + 1])
}

fn damage(r: &mut Random, length: &mut f64, samples: &mut Vec<[f64; 3]>, points: &mut Vec<(f64, u32)>) {
    let bad = r.pick(&[f64::NAN, f64::INFINITY, -0.0, -1.0, 1e9, 1e9f64.next_up(), 0.0]);
    let (sample, point) = (r.index(samples.len()), r.index(points.len()));
    match r.below(8) {
        0 => *length = bad,
        1 => samples[sample][r.index(3)] = bad,
        2 => points[point].0 = bad,
        3 => samples[sample] = samples[0],
        4 => points.swap(0, point),
        5 => samples.clear(),
        6 => points.clear(),
        _ => samples[sample][1] = samples[sample][1].next_down().max(0.0),
    }
}
