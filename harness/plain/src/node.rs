//! "one record of four floats (time, time to next, distance to next, speed),
//! four indices, and its event, which holds the link and the kind".

#[derive(Clone, Copy, Debug, PartialEq)]
pub enum Kind {
    Arrive = 0,
    Clear = 1,
    Fake = 2,
}

/// "Events are equal when link and kind are."
#[derive(Clone, Copy, Debug, PartialEq)]
pub struct Event {
    pub link: u32,
    pub kind: Kind,
}

/// An event with its time, offset and speed, as the event maker gives it.
#[derive(Clone, Copy, Debug)]
pub struct Timed {
    pub event: Event,
    pub time: f64,
    pub offset: f64,
    pub speed: f64,
}

/// A node; the fields after `event` are this crate's own and are not listed.
#[derive(Clone, Copy, Debug)]
pub struct Node {
    pub time: f64,
    pub to_next: f64,
    pub distance: f64,
    pub speed: f64,
    pub next: usize,
    pub next_alt: usize,
    pub prev: usize,
    pub prev_alt: usize,
    pub event: Event,
    /// "Untimed is a state of its own."
    pub timed: bool,
    /// The backward pass was here.
    pub passed: bool,
    /// A run has finished here.
    pub end: bool,
    /// The last insertion whose join list named this node.
    pub named: u32,
}

impl Node {
    pub const BLANK: Node = Node {
        time: 0.0,
        to_next: 0.0,
        distance: 0.0,
        speed: 0.0,
        next: 0,
        next_alt: 0,
        prev: 0,
        prev_alt: 0,
        event: Event { link: 0, kind: Kind::Fake },
        timed: false,
        passed: false,
        end: false,
        named: 0,
    };

    pub fn fake(&self) -> bool {
        self.event.kind == Kind::Fake
    }

    /// Give the node its time.
    pub fn set_time(&mut self, time: f64) {
        self.time = time;
        self.timed = true;
    }

    /// Give the node its time once more, on the way back.
    pub fn pass(&mut self, time: f64) {
        self.time = time;
        self.passed = true;
    }
}
