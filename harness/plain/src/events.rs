//! Events: "A path of links has points at 0 and at each running sum of lengths, naming
//! the link that starts there; the last names 0."
//!
//! Written from document 01, Ask 1 of document 02 and the readings of DESIGN.md; points
//! that these leave open are settled by the reference's answers as a black box
//! (docs/DIFFERENCES.md).

use crate::book::{fall, sample, Sample};
use crate::bytes::{bad_float, bad_size, float, number, Bytes};
use crate::node::{Event, Kind, Timed};
use crate::root::root;
use crate::{refuse_if, Answer};

/// Where a link starts on the path.
#[derive(Clone, Copy)]
pub struct Point {
    pub offset: f64,
    pub link: u32,
}

/// The next point that the train's front reaches, and the next that its back leaves.
struct Train<'a> {
    length: f64,
    points: &'a [Point],
    front: usize,
    back: usize,
}

impl Train<'_> {
    /// "the back point's plus length"
    fn cleared(&self) -> f64 {
        self.points[self.back].offset + self.length
    }

    /// "Clear only if back offset + length is strictly below front offset, else Arrive."
    fn kind(&self) -> Kind {
        if self.cleared() < self.points[self.front].offset {
            Kind::Clear
        } else {
            Kind::Arrive
        }
    }

    /// "An event's offset is the smaller of the front point's and the back point's
    /// plus length."
    fn offset(&self) -> f64 {
        match self.kind() {
            Kind::Clear => self.cleared(),
            _ => self.points[self.front].offset,
        }
    }

    /// Go past the next event. "Where the back index becomes 1 nothing is emitted".
    fn advance(&mut self) -> Option<Event> {
        let kind = self.kind();
        let index = if kind == Kind::Clear {
            &mut self.back
        } else {
            &mut self.front
        };
        *index += 1;
        let link = self.points[*index - 1].link;
        (kind != Kind::Clear || *index != 1).then_some(Event { link, kind })
    }
}

/// The events between the first sample and the last, at the end of the list. Row 11:
/// "a sample offset reaches the last point", for all samples before any event.
pub fn make(
    length: f64,
    samples: &[Sample],
    points: &[Point],
    list: &mut Vec<Timed>,
) -> Answer<()> {
    let end = points[points.len() - 1].offset;
    refuse_if(samples.iter().any(|sample| sample.offset >= end), 11)?;
    // What front and back have reached at the first sample was emitted before it.
    let front = samples[0].offset;
    let reached = |to: f64| points.partition_point(|point| point.offset <= to);
    let mut train = Train {
        length,
        points,
        front: reached(front),
        back: reached(front - length),
    };
    for pair in samples.windows(2) {
        while train.offset() <= pair[1].offset {
            let offset = train.offset();
            if let Some(event) = train.advance() {
                list.push(timed(event, offset, &pair[0], &pair[1])?);
            }
        }
    }
    Ok(())
}

/// "With d = 2 times (sample offset minus event offset), the speed at the point is the
/// rounded square root of v·v − (v − v′)/(t − t′)·d, and the time is
/// t − d/(v + speed), each operation rounded once." Document 02, Ask 1: "An event whose
/// d and v + speed are both zero is to take the sample's own time." Row 11: "event speed
/// or time not finite, or time above 1,000,000,000 in size".
fn timed(event: Event, offset: f64, before: &Sample, sample: &Sample) -> Answer<Timed> {
    let (t, v) = (sample.time, sample.speed);
    let d = 2.0 * (sample.offset - offset);
    let speed = root(v * v - (v - before.speed) / (t - before.time) * d);
    let stands = d == 0.0 && v + speed == 0.0;
    let time = if stands { t } else { t - d / (v + speed) };
    refuse_if(!speed.is_finite() || bad_size(time), 11)?;
    Ok(Timed {
        event,
        time,
        offset,
        speed,
    })
}

/// "By itself the event maker [..] gives 3, 4, 7, any 11, then 12 for a short list".
pub fn answer(item: &[u8]) -> Answer<Vec<Timed>> {
    let mut rest = Bytes(item);
    let length = rest.float()?;
    let (samples, sample_bytes) = rest.section(24)?;
    let (points, point_bytes) = rest.section(12)?;
    let places = rest.number()? as usize;
    // "1 to 1,000,000 samples, 1 to 65,536 points"
    refuse_if(
        !(1..=1_000_000).contains(&samples) || !(1..=65_536).contains(&points),
        3,
    )?;
    let samples: Vec<Sample> = sample_bytes.chunks_exact(24).map(sample).collect();
    let points: Vec<Point> = point_bytes.chunks_exact(12).map(point).collect();
    // "book signs"
    let bad_point = points.iter().any(|point| bad_float(point.offset));
    refuse_if(
        bad_float(length) || samples.iter().any(Sample::bad) || bad_point,
        4,
    )?;
    // "7 if one falls"
    refuse_if(
        fall(&samples) || points.windows(2).any(|w| w[1].offset < w[0].offset),
        7,
    )?;
    let mut list = Vec::new();
    make(length, &samples, &points, &mut list)?;
    refuse_if(list.len() > places, 12)?;
    Ok(list)
}

/// A point of the event maker's input: offset, link.
fn point(b: &[u8]) -> Point {
    Point {
        offset: float(b, 0),
        link: number(b, 8),
    }
}
