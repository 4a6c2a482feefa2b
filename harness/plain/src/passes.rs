//! Passes: "Integrity checks, forward, backward"; rows 14 to 16.
//!
//! Written from document 01 and the readings of DESIGN.md; points that both leave open
//! are settled by the reference's answers as a black box (docs/DIFFERENCES.md).
//!
//! A base is a node that leads on by its next (node 1, events, split Fakes), a receiver
//! one that is led to (events, join Fakes, end Fakes). Both passes follow a strand from
//! event to event, as far as no other can meet it; there it waits in a queue.

use crate::node::Node;
use crate::{refuse_if, Answer, No};
use std::cmp::Ordering;
use std::collections::BinaryHeap;

/// The checks, both passes; row 16: "all times 0 or −0".
pub fn run(nodes: &mut [Node], departure: f64) -> Answer<()> {
    refuse_if((0..nodes.len()).any(|own| !is_linked(nodes, own)), 14)?;
    Forward::new(nodes).run(departure)?;
    Backward::new(nodes).run()?;
    refuse_if(nodes.iter().all(|node| node.time == 0.0), 16)
}

/// Row 14 at one node: only nodes 0 and 1 have no previous, only the last has no next;
/// what it names as previous or next names it, as its own or as its alternative; a Fake
/// has not both alternatives, and no node is an alternative on both sides.
fn is_linked(nodes: &[Node], own: usize) -> bool {
    let last = nodes.len() - 1;
    let node = &nodes[own];
    let (prev, next) = (&nodes[node.prev], &nodes[node.next]);
    let is_inner = own != 0 && own != last;
    (node.prev == 0) == (own <= 1)
        && (node.next == 0) == (own == last)
        && (prev.next == own || prev.next_alt == own)
        && (own == last || next.prev == own || next.prev_alt == own)
        && !(node.fake() && node.next_alt != 0 && node.prev_alt != 0)
        && !(is_inner && prev.next_alt == own && next.prev_alt == own)
}

/// Several bases may lead to this node.
fn is_met(node: &Node) -> bool {
    node.fake() || node.prev_alt != 0
}

/// Several receivers may lie behind this node.
fn is_left(node: &Node) -> bool {
    node.fake() || node.next_alt != 0
}

/// Times compare as numbers: zeros of both signs are one time.
fn by_time(a: f64, b: f64) -> Ordering {
    a.partial_cmp(&b).unwrap_or(Ordering::Equal)
}

/// A base that waits, and the time at which it reaches its next.
struct Coming {
    time: f64,
    base: usize,
}

/// "Forward takes the smaller time, ties the smaller index".
impl Ord for Coming {
    fn cmp(&self, other: &Coming) -> Ordering {
        by_time(other.time, self.time).then(other.base.cmp(&self.base))
    }
}

struct Forward<'a> {
    nodes: &'a mut [Node],
    queue: BinaryHeap<Coming>,
}

impl<'a> Forward<'a> {
    fn new(nodes: &'a mut [Node]) -> Forward<'a> {
        Forward {
            nodes,
            queue: BinaryHeap::new(),
        }
    }

    /// From the start at the departure; row 15: "a node never timed".
    fn run(mut self, departure: f64) -> Answer<()> {
        self.nodes[0].set_time(departure);
        self.nodes[1].set_time(departure);
        let time = departure + self.nodes[1].to_next;
        self.follow(Coming { time, base: 1 })?;
        while let Some(coming) = self.queue.pop() {
            self.follow(coming)?;
        }
        refuse_if(self.nodes.iter().any(|node| !node.timed), 15)
    }

    /// Time the base's next and the strand behind it, up to a Fake, the end, or a
    /// node that others may reach too.
    fn follow(&mut self, Coming { mut time, mut base }: Coming) -> Answer<()> {
        loop {
            let at = self.receiver(self.nodes[base].next)?;
            self.relink(base, at);
            self.alternative(base)?;
            refuse_if(self.nodes[at].timed, 15)?;
            self.nodes[at].set_time(time);
            let node = self.nodes[at];
            let is_ended = self.end(at, time)?;
            if node.fake() || is_ended {
                return Ok(());
            }
            time += node.to_next;
            base = at;
            if is_met(&self.nodes[node.next]) {
                self.queue.push(Coming { time, base });
                return Ok(());
            }
        }
    }

    /// The receiver that is given to whoever reaches this one: along Fakes the last
    /// that is not yet timed. Row 15: "over n Fakes in a relink walk".
    fn receiver(&self, own: usize) -> Answer<usize> {
        let mut at = own;
        for _ in 0..=self.nodes.len() {
            let node = &self.nodes[at];
            let next = &self.nodes[node.next];
            if node.fake() && next.timed {
                refuse_if(next.prev_alt != at, 15)?;
            }
            if !node.fake() || next.timed || self.is_closing(at) {
                return Ok(at);
            }
            at = node.next;
        }
        Err(No::Number(15))
    }

    /// The base gets this receiver, and who had it the base's own. The times stay
    /// where they are.
    fn relink(&mut self, base: usize, at: usize) {
        let own = self.nodes[base].next;
        if at != own {
            let other = self.nodes[at].prev;
            self.nodes[base].next = at;
            self.nodes[other].next = own;
            self.nodes[at].prev = base;
            self.nodes[own].prev = other;
        }
    }

    /// The base's alternative leaves at the same time as the base; it waits in any case.
    fn alternative(&mut self, base: usize) -> Answer<()> {
        let Node { time, next_alt, .. } = self.nodes[base];
        if next_alt != 0 {
            refuse_if(self.nodes[next_alt].timed, 15)?;
            self.nodes[next_alt].set_time(time);
            let time = time + self.nodes[next_alt].to_next;
            self.queue.push(Coming {
                time,
                base: next_alt,
            });
        }
        Ok(())
    }

    /// The node behind this one is the end.
    fn is_closing(&self, at: usize) -> bool {
        let next = &self.nodes[self.nodes[at].next];
        next.next == 0 && is_met(next)
    }

    /// The end has the time of the node before it, and has it once; a Fake may find it
    /// timed. True: that node is this one.
    fn end(&mut self, at: usize, time: f64) -> Answer<bool> {
        let Node { next, .. } = self.nodes[at];
        let is_late = self.nodes[at].fake() && self.nodes[next].timed;
        if !self.is_closing(at) || is_late {
            return Ok(false);
        }
        refuse_if(self.nodes[next].timed, 15)?;
        self.nodes[next].set_time(time);
        Ok(true)
    }
}

/// A receiver that waits. What its strand has fallen behind since the forward pass
/// (`sub`) is taken from the times of all that lie before it.
struct Going {
    time: f64,
    sub: f64,
    receiver: usize,
}

/// "backward the greatest by `EstTimePrev`'s `partial_cmp`": the order over (time, sub,
/// index).
impl Ord for Going {
    fn cmp(&self, other: &Going) -> Ordering {
        by_time(self.time, other.time)
            .then(by_time(self.sub, other.sub))
            .then(self.receiver.cmp(&other.receiver))
    }
}

struct Backward<'a> {
    nodes: &'a mut [Node],
    queue: BinaryHeap<Going>,
}

impl<'a> Backward<'a> {
    fn new(nodes: &'a mut [Node]) -> Backward<'a> {
        Backward {
            nodes,
            queue: BinaryHeap::new(),
        }
    }

    /// From the node before the last, which both keep their times; row 15: "a node
    /// never passed".
    fn run(mut self) -> Answer<()> {
        let last = self.nodes.len() - 1;
        self.nodes[last].passed = true;
        self.nodes[last - 1].passed = true;
        self.follow(last - 1, 0.0)?;
        while let Some(Going { sub, receiver, .. }) = self.queue.pop() {
            self.follow(receiver, sub)?;
        }
        refuse_if(self.nodes.iter().any(|node| !node.passed), 15)
    }

    /// Pass the receiver's base and the strand before it, up to a Fake, the start, or
    /// a node that others may have left too.
    fn follow(&mut self, mut receiver: usize, sub: f64) -> Answer<()> {
        loop {
            let at = self.base(self.nodes[receiver].prev)?;
            self.relink(receiver, at);
            self.alternative(receiver)?;
            refuse_if(self.nodes[at].passed, 15)?;
            let time = self.nodes[at].time - sub;
            self.nodes[at].pass(time);
            let is_started = self.start(at, time)?;
            if self.nodes[at].fake() || is_started {
                return Ok(());
            }
            receiver = at;
            let prev = &self.nodes[self.nodes[at].prev];
            if is_left(prev) {
                let time = time - prev.to_next;
                self.queue.push(Going {
                    time,
                    sub,
                    receiver,
                });
                return Ok(());
            }
        }
    }

    /// The base that is given to whoever comes back to this one: along Fakes the first
    /// that is not yet passed. Row 15: "over n Fakes in a relink walk".
    fn base(&self, own: usize) -> Answer<usize> {
        let mut at = own;
        for _ in 0..=self.nodes.len() {
            let node = &self.nodes[at];
            let prev = &self.nodes[node.prev];
            if !node.fake() || node.prev == 0 {
                return Ok(at);
            }
            if prev.passed {
                refuse_if(prev.next_alt != at, 15)?;
                return Ok(at);
            }
            at = node.prev;
        }
        Err(No::Number(15))
    }

    /// The receiver gets this base, and who had it the receiver's own, time to next and
    /// distance with it.
    fn relink(&mut self, receiver: usize, at: usize) {
        let own = self.nodes[receiver].prev;
        if at != own {
            let (a, b) = (self.nodes[at], self.nodes[own]);
            self.nodes[at].next = receiver;
            self.nodes[own].next = a.next;
            self.nodes[receiver].prev = at;
            self.nodes[a.next].prev = own;
            (self.nodes[at].to_next, self.nodes[at].distance) = (b.to_next, b.distance);
            (self.nodes[own].to_next, self.nodes[own].distance) = (a.to_next, a.distance);
        }
    }

    /// The receiver's alternative is passed at the same time as the receiver; it waits
    /// in any case, with its own time.
    fn alternative(&mut self, receiver: usize) -> Answer<()> {
        let Node { time, prev_alt, .. } = self.nodes[receiver];
        if prev_alt != 0 {
            refuse_if(self.nodes[prev_alt].passed, 15)?;
            let sub = self.nodes[prev_alt].time - time;
            self.nodes[prev_alt].pass(time);
            self.queue.push(Going {
                time,
                sub,
                receiver: prev_alt,
            });
        }
        Ok(())
    }

    /// Node 0 has the time of node 1, and that of the event behind it where several
    /// may follow it. True: that event is this node.
    fn start(&mut self, at: usize, time: f64) -> Answer<bool> {
        let Node { prev, .. } = self.nodes[at];
        let is_start = self.nodes[prev].prev == 0 && is_left(&self.nodes[prev]);
        if !is_start || (self.nodes[at].fake() && prev != 0) {
            return Ok(false);
        }
        if !self.nodes[at].fake() {
            refuse_if(self.nodes[prev].passed, 15)?;
            self.nodes[prev].pass(time);
        }
        self.nodes[0].pass(time);
        Ok(true)
    }
}

/// What `Ord` says, for the heap.
macro_rules! ordered {
    ($entry:ty) => {
        impl PartialOrd for $entry {
            fn partial_cmp(&self, other: &$entry) -> Option<Ordering> {
                Some(self.cmp(other))
            }
        }
        impl PartialEq for $entry {
            fn eq(&self, other: &$entry) -> bool {
                self.cmp(other).is_eq()
            }
        }
        impl Eq for $entry {}
    };
}
ordered!(Coming);
ordered!(Going);
