//! What the shims know of the work in hand: its limits, the number that a failed test gives
//! just now, and where to stop early. One set to a thread.

use std::cell::{Cell, RefCell};
use std::panic::{catch_unwind, resume_unwind, set_hook, take_hook, AssertUnwindSafe};
use std::sync::Once;
use std::time::{Duration, Instant};

use crate::meet_pass::disp_structs::{EstIdx, EstType};
use crate::meet_pass::est_times::EstTime;

/// Entries in a join list, and nexts that the strand walk of one entry may read (row 12).
const JOIN_ENTRIES: usize = 1_024;
const STRAND_NEXTS: u32 = 4_096;

/// The largest size of an event's time (row 11).
const LARGEST: f64 = 1e9;

/// Why the published function returns no network, as an error or as a panic's payload.
#[derive(Debug, Clone, Copy, PartialEq)]
pub enum Ending {
    /// A refusal with its number.
    Refused(u32),
    /// The source has no number for an event (`stands`).
    NoAnswer,
    /// The orders say to stop here.
    Stopped,
}

impl From<u32> for Ending {
    fn from(number: u32) -> Self {
        Ending::Refused(number)
    }
}

/// Where the work stops before the published function returns.
#[derive(Clone, Copy, Default, PartialEq)]
pub enum Stop {
    #[default]
    Never,
    /// When the first leg's events are made.
    Events,
    /// When the network is grown.
    Grown,
}

/// What one piece of work is given.
#[derive(Default)]
pub struct Orders {
    pub places: usize,
    pub gap: f64,
    pub stop: Stop,
    /// A table that takes the grown network's place before the checks.
    pub table: Option<Vec<EstTime>>,
}

#[derive(Default)]
struct Watch {
    orders: Orders,
    /// Join entries of all runs that wait.
    waiting: usize,
    /// Which nodes are a finished run's event, and how many.
    ends: Vec<bool>,
    finished: usize,
    /// Nodes that the passes work on, and whether the backward one has left some out.
    nodes: usize,
    unpassed: bool,
    /// What was there at an early stop.
    caught: Vec<EstTime>,
}

thread_local! {
    /// The number that a failed test of the published text gives now; 0: no work in hand.
    static NUMBER: Cell<u32> = const { Cell::new(0) };
    /// Nexts that the present strand walk has read.
    static NEXTS: Cell<u32> = const { Cell::new(0) };
    /// Node indices that may still be looked up before a walk counts as endless.
    static STEPS: Cell<u64> = const { Cell::new(0) };
    static GAP: Cell<f64> = const { Cell::new(0.0) };
    /// When the last leg's samples were handed out, and how long its events took.
    static MOVED: Cell<Option<Instant>> = const { Cell::new(None) };
    static MAKING: Cell<Duration> = const { Cell::new(Duration::ZERO) };
    /// When the last network was grown, and how long its checks and passes took.
    static GROWN: Cell<Option<Instant>> = const { Cell::new(None) };
    static PASSING: Cell<Duration> = const { Cell::new(Duration::ZERO) };
    static WATCH: RefCell<Watch> = RefCell::default();
}

fn watch<T>(look: impl FnOnce(&mut Watch) -> T) -> T {
    WATCH.with_borrow_mut(look)
}

/// What is known after a piece of work.
pub struct Outcome<T> {
    pub result: Result<T, Ending>,
    pub finished: usize,
    pub unpassed: bool,
    pub caught: Vec<EstTime>,
}

/// Runs the published text under the orders. Its errors and failed tests come back as numbers.
pub fn run<T>(orders: Orders, work: impl FnOnce() -> Result<T, Ending>) -> Outcome<T> {
    quiet();
    GAP.set(orders.gap);
    STEPS.set(u64::MAX);
    WATCH.set(Watch { orders, ..Watch::default() });
    NUMBER.set(8);
    let ended = catch_unwind(AssertUnwindSafe(work));
    PASSING.set(GROWN.take().map_or(Duration::ZERO, |grown| grown.elapsed()));
    let number = NUMBER.replace(0);
    let result = match ended {
        Ok(result) => result,
        Err(payload) => match payload.downcast::<Ending>() {
            Ok(ending) => Err(*ending),
            // The event maker's index past the last point.
            Err(_) if number == 11 => Err(Ending::Refused(11)),
            Err(other) => resume_unwind(other),
        },
    };
    let Watch { finished, unpassed, caught, .. } = WATCH.take();
    Outcome { result, finished, unpassed, caught }
}

/// A panic while events are made is row 11's and prints nothing.
fn quiet() {
    static ONCE: Once = Once::new();
    ONCE.call_once(|| {
        let loud = take_hook();
        set_hook(Box::new(move |info| {
            if NUMBER.get() != 11 {
                loud(info)
            }
        }));
    });
}

fn end(ending: Ending) -> ! {
    resume_unwind(Box::new(ending))
}

pub fn refuse(number: u32) -> ! {
    end(Ending::Refused(number))
}

/// What an error of the published text is just now: `bail!` and `ensure!`.
pub fn error() -> Ending {
    Ending::Refused(NUMBER.get())
}

/// A failed `assert!`: a refusal in the checks and passes, before them a fault of this crate.
pub fn failed(what: &str) -> ! {
    match NUMBER.get() {
        number @ 14.. => refuse(number),
        number => panic!("{what} (at number {number})"),
    }
}

pub fn gap() -> f64 {
    GAP.get()
}

/// The options are found, growth begins.
pub fn options_found() {
    NUMBER.set(9);
}

/// The samples are handed out, the events follow.
pub fn leg_moved() {
    NUMBER.set(11);
    MOVED.set(Some(Instant::now()));
}

/// How long the events of the last leg took to make and to test.
pub fn making() -> Duration {
    MAKING.get()
}

/// The events are made, none inserted yet. Where a train stands on a point there is no answer,
/// whatever the leg's other events are.
pub fn events_made(events: &[EstTime]) {
    if events.iter().any(stands) {
        end(Ending::NoAnswer)
    }
    if !events.iter().all(within) {
        refuse(11)
    }
    MAKING.set(MOVED.take().map_or(Duration::ZERO, |moved| moved.elapsed()));
    NUMBER.set(9);
    stop_at(Stop::Events, events);
}

/// Document 02, Ask 1: "An event whose d and v + speed are both zero is to take the sample's own
/// time. The Rust has no number there". By rows 4 and 7 t, v and d are finite, and so is v + speed
/// where the speed is. Then t - d/(v + speed) is a NaN just where the quotient is 0/0.
fn stands(event: &EstTime) -> bool {
    event.speed.is_finite() && event.time_to_next.is_nan()
}

fn within(event: &EstTime) -> bool {
    event.speed.is_finite() && event.time_to_next.abs() <= LARGEST
}

fn stop_at(stop: Stop, nodes: &[EstTime]) {
    let here = watch(|watch| {
        let here = watch.orders.stop == stop;
        if here {
            watch.caught = nodes.to_vec();
        }
        here
    });
    if here {
        end(Ending::Stopped)
    }
}

/// Before a node is added to a table of `nodes`; `place` is the node last written.
pub fn node(nodes: usize, place: usize, new: &EstTime) {
    let number = watch(|watch| {
        let is_end = |node| watch.ends.get(node) == Some(&true);
        if nodes >= watch.orders.places {
            12
        } else if new.link_event.est_type != EstType::Fake && is_end(place) {
            13
        } else {
            0
        }
    });
    if number != 0 {
        refuse(number)
    }
}

/// Before an entry is added to a join list.
pub fn join_entry(entries: usize) {
    if entries >= JOIN_ENTRIES {
        refuse(12)
    }
}

/// A run with so many join entries is about to wait.
pub fn wait(entries: usize) {
    let beyond = watch(|watch| {
        watch.waiting += entries;
        watch.waiting > watch.orders.places
    });
    if beyond {
        refuse(12)
    }
}

pub fn wait_no_more(entries: usize) {
    watch(|watch| watch.waiting -= entries);
}

/// The run at `place` finishes.
pub fn finish(nodes: &[EstTime], place: EstIdx) {
    let place = place as usize;
    let new = place + 1 == nodes.len() && nodes[place].idx_next == 0;
    let taken = watch(|watch| {
        watch.finished += 1;
        watch.ends.resize(nodes.len(), false);
        std::mem::replace(&mut watch.ends[place], true)
    });
    if !new || taken {
        refuse(13)
    }
}

/// The next entry of a join list is looked at.
pub fn next_entry() {
    NEXTS.set(0);
}

/// A strand walk reads a next.
pub fn strand_next() {
    NEXTS.set(NEXTS.get() + 1);
    if NEXTS.get() > STRAND_NEXTS {
        refuse(12)
    }
}

/// The network is grown; the checks follow.
pub fn grown(nodes: &mut Vec<EstTime>) {
    stop_at(Stop::Grown, nodes);
    if let Some(table) = watch(|watch| watch.orders.table.take()) {
        *nodes = table;
    }
    watch(|watch| watch.nodes = nodes.len());
    NUMBER.set(14);
    GROWN.set(Some(Instant::now()));
}

/// How long the checks and passes of the last network took.
pub fn passing() -> Duration {
    PASSING.get()
}

/// A pass makes its queue.
pub fn pass_begins() {
    NUMBER.set(15);
}

/// A pass takes an entry. Up to the next one it looks up some 15 indices for each node at
/// most, unless a relink walk goes round: more than n Fakes in one walk are endless.
pub fn entry_taken() {
    let nodes = watch(|watch| watch.nodes);
    STEPS.set(32 * (nodes as u64 + 8));
}

/// A node's index is looked up. Where times are taken nothing is counted.
pub fn step() {
    if cfg!(feature = "uncounted") {
        return;
    }
    match STEPS.get() {
        0 => refuse(15),
        left => STEPS.set(left - 1),
    }
}

/// The backward pass lets go of its flags.
pub fn passed(flags: &[bool]) {
    if NUMBER.get() == 15 {
        watch(|watch| watch.unpassed = flags.contains(&false));
        NUMBER.set(16);
    }
}
