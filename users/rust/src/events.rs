//! The event maker.
use crate::mode::in_default_mode;
use crate::{sys, Kind, Refusal, EVENTS_MAX, POINTS_MAX, SAMPLES_MAX};

/// Where a train's front is, how fast, and when: s, m, m/s.
#[derive(Clone, Copy, Debug, PartialEq)]
pub struct Sample {
    pub time: f64,
    pub offset: f64,
    pub speed: f64,
}

/// A point of a path, and the link that starts there.
#[derive(Clone, Copy, Debug, PartialEq)]
pub struct Point {
    pub offset: f64,
    pub link: u32,
}

/// A train's front (Arrive) or end (Clear) passes a point.
#[derive(Clone, Copy, Debug, PartialEq)]
pub struct Event {
    pub kind: Kind,
    pub link: u32,
    pub time: f64,
    pub offset: f64,
    pub speed: f64,
}

/// The events of one leg along the points of its path, or a refusal: 3, 4, 7, 11, and 12 if there are more than `places`.
/// Nothing is lent beyond what can matter: one sample or point more than there may be gets 3, and no call has more than [`EVENTS_MAX`] events.
pub fn make_events(train_length: f64, samples: &[Sample], points: &[Point], places: usize) -> Result<Vec<Event>, Refusal> {
    let samples = samples.iter().take(SAMPLES_MAX + 1).flat_map(|s| [s.time, s.offset, s.speed]);
    let samples: Vec<u8> = samples.flat_map(f64::to_le_bytes).collect();
    let (offsets, links): (Vec<f64>, Vec<u32>) = points.iter().take(POINTS_MAX + 1).map(|point| (point.offset, point.link)).unzip();
    let places = places.min(EVENTS_MAX);
    let mut floats = vec![0.0; 3 * places];
    let mut numbers = vec![0; 2 * places];
    let mut count = 0;
    // SAFETY: pointers and lengths are those of vectors that nothing else uses during the call.
    let number = in_default_mode(|| unsafe {
        sys::keldurap_raw_make_events(
            train_length,
            samples.as_ptr(),
            samples.len(),
            offsets.as_ptr(),
            offsets.len(),
            links.as_ptr(),
            links.len(),
            floats.as_mut_ptr(),
            floats.len(),
            numbers.as_mut_ptr(),
            numbers.len(),
            &mut count,
        )
    });
    Refusal::unless_zero(number)?;
    let rows = floats.chunks_exact(3).zip(numbers.chunks_exact(2)).take(count as usize);
    Ok(rows.map(|(floats, numbers)| event(floats, numbers)).collect())
}

fn event(floats: &[f64], numbers: &[u32]) -> Event {
    Event { kind: Kind::of(numbers[1]), link: numbers[0], time: floats[0], offset: floats[1], speed: floats[2] }
}
