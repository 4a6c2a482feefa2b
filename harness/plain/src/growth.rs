//! Growth: Insertion, Joins, Driver and ends; rows 9, 10, 12 and 13.
//!
//! Written from document 01 and the readings of DESIGN.md; points that both leave open
//! are settled by the reference's answers as a black box (docs/DIFFERENCES.md).

use crate::book::Book;
use crate::events::{self, Point};
use crate::node::{Event, Kind, Node, Timed};
use crate::options::Options;
use crate::{refuse_if, Answer, No};

/// "join entry beyond 1,024 in a list"
const MOST_ENTRIES: usize = 1_024;
/// "strand walk of one entry reading over 4,096 nexts"
const MOST_READS: usize = 4_096;

/// The network and its report.
pub struct Grown {
    pub nodes: Vec<Node>,
    pub added: usize,
    pub splits: usize,
    pub joined: usize,
    pub finished: usize,
}

/// "An entry is (match link m, node e)."
#[derive(Clone, Copy)]
struct Entry {
    link: u32,
    node: usize,
}

/// A run: "Its place is the node it last added or moved to; a saved run keeps its
/// place." Times and distances are told from the run's own event before.
#[derive(Clone)]
struct Run {
    place: usize,
    time: f64,
    offset: f64,
    /// The leg that comes next.
    leg: u32,
    list: Vec<Entry>,
    /// It has added since its pop.
    has_added: bool,
}

/// All of the growth; `saved` are the waiting runs.
struct Growth<'a> {
    book: &'a Book,
    options: &'a Options,
    places: usize,
    grown: Grown,
    /// By link, the nodes of its Arrive and of its Clear, rising.
    holders: Vec<[Vec<usize>; 2]>,
    saved: Vec<Run>,
    /// The entries of all waiting runs.
    waiting: usize,
    ends: Vec<usize>,
    /// How often a list was looked through for nodes that it names.
    appends: u32,
}

/// Grow the network of an accepted book on a table of so many places.
pub fn grow(book: &Book, options: &Options, places: usize) -> Answer<Grown> {
    let mut growth = Growth {
        book,
        options,
        places,
        grown: Grown {
            nodes: Vec::new(),
            added: 0,
            splits: 0,
            joined: 0,
            finished: 0,
        },
        holders: vec![Default::default(); book.links.len()],
        saved: Vec::new(),
        waiting: 0,
        ends: Vec::new(),
        appends: 0,
    };
    // Nodes 0 and 1: "Node 1 is the start".
    growth.push(Node {
        next: 1,
        ..Node::BLANK
    })?;
    growth.push(Node::BLANK)?;
    for &link in &options.kept {
        growth.origin(link)?;
    }
    // "last saved run first"
    while let Some(run) = growth.saved.pop() {
        growth.waiting -= run.list.len();
        growth.drive(run)?;
    }
    growth.close()?;
    Ok(growth.grown)
}

// Driver and ends.
impl Growth<'_> {
    /// An origin's Arrive and Clear, then its leg: "an origin's [leg is sought] after
    /// its Clear is added".
    fn origin(&mut self, link: u32) -> Answer<()> {
        let (time, length) = (self.book.departure, self.book.length);
        let timed = |kind, offset| Timed {
            event: Event { link, kind },
            time,
            offset,
            speed: 0.0,
        };
        let mut run = Run {
            place: 1,
            time,
            offset: 0.0,
            leg: 0,
            list: Vec::new(),
            has_added: false,
        };
        self.insert(&mut run, &timed(Kind::Arrive, 0.0))?;
        self.insert(&mut run, &timed(Kind::Clear, length))?;
        run.leg = self.find_leg(0, link)?;
        self.saved.push(run);
        Ok(())
    }

    /// "The leg is found or the book is refused with 10".
    fn find_leg(&self, parent: u32, link: u32) -> Answer<u32> {
        self.book
            .find_leg(parent, link)
            .ok_or(No::Leg { parent, link })
    }

    /// A popped run, from its leg until it joins or finishes.
    fn drive(&mut self, mut run: Run) -> Answer<()> {
        run.has_added = false;
        let mut points = self.path(run.leg);
        let mut list = Vec::new();
        loop {
            // "all of a leg's events before its insertions"
            let leg = self.book.leg(run.leg);
            list.clear();
            events::make(
                self.book.length,
                self.book.samples_of(leg),
                &points,
                &mut list,
            )?;
            for timed in &list {
                if run.has_added && self.join(&mut run, timed)? {
                    return Ok(());
                }
                self.insert(&mut run, timed)?;
            }
            // "A run finishes in the leg whose link is a destination, never in its
            // first leg."
            if leg.parent != 0 && self.options.destination[leg.link as usize] {
                return self.finish(&run);
            }
            self.extend(&mut run)?;
            self.lengthen(&mut points, self.book.leg(run.leg).link);
        }
    }

    /// "points at 0 and at each running sum of lengths, naming the link that starts
    /// there; the last names 0"
    fn path(&self, mut leg: u32) -> Vec<Point> {
        let mut links = Vec::new();
        while leg != 0 {
            links.push(self.book.leg(leg).link);
            leg = self.book.leg(leg).parent;
        }
        let mut points = vec![Point {
            offset: 0.0,
            link: 0,
        }];
        for &link in links.iter().rev() {
            self.lengthen(&mut points, link);
        }
        points
    }

    /// One more link at the end of the path.
    fn lengthen(&self, points: &mut Vec<Point>, link: u32) {
        let last = points.len() - 1;
        points[last].link = link;
        points.push(Point {
            offset: points[last].offset + self.book.link(link).length,
            link: 0,
        });
    }

    /// Row 9: "next is 0, or neither next is in the set". Of two nexts in the set the
    /// alternative is saved: its leg sought, saved, the waiting entries summed, then
    /// the next's leg sought.
    fn extend(&mut self, run: &mut Run) -> Answer<()> {
        let link = self.book.link(self.book.leg(run.leg).link);
        let is_next = self.options.set[link.next as usize];
        let is_alternative = self.options.set[link.next_alt as usize];
        refuse_if(link.next == 0 || !(is_next || is_alternative), 9)?;
        if is_next && is_alternative {
            let leg = self.find_leg(run.leg, link.next_alt)?;
            self.saved.push(Run { leg, ..run.clone() });
            // "entries of all waiting runs beyond the table's places"
            self.waiting += run.list.len();
            refuse_if(self.waiting > self.places, 12)?;
        }
        run.leg = self.find_leg(run.leg, if is_next { link.next } else { link.next_alt })?;
        Ok(())
    }

    /// Row 13: "finish not on the last node, or on one with a next or already an end".
    fn finish(&mut self, run: &Run) -> Answer<()> {
        let last = self.grown.nodes.len() - 1;
        let node = &mut self.grown.nodes[run.place];
        refuse_if(run.place != last || node.next != 0 || node.end, 13)?;
        node.end = true;
        self.ends.push(run.place);
        self.grown.finished += 1;
        Ok(())
    }

    /// "End Fakes are pushed for the ends in reverse", each the previous alternative
    /// of the one behind it, then the last node, behind the node before it.
    fn close(&mut self) -> Answer<()> {
        let mut before = 0;
        for end in std::mem::take(&mut self.ends).into_iter().rev() {
            let own = self.grown.nodes.len();
            let fake = Node {
                prev: end,
                prev_alt: before,
                next: own + 1,
                ..Node::BLANK
            };
            before = self.push(fake)?;
            self.grown.nodes[end].next = own;
        }
        let prev = self.grown.nodes.len() - 1;
        self.push(Node { prev, ..Node::BLANK })?;
        Ok(())
    }
}

// Insertion.
impl Growth<'_> {
    /// The number of a new node. Row 12: "node beyond the table".
    fn push(&mut self, node: Node) -> Answer<usize> {
        refuse_if(self.grown.nodes.len() >= self.places, 12)?;
        self.grown.nodes.push(node);
        Ok(self.grown.nodes.len() - 1)
    }

    /// "No next: add the event. Next of equal event and speed gap strictly below J:
    /// move there. Else follow the next alternative, or add a Fake (a split) and add
    /// behind it."
    fn insert(&mut self, run: &mut Run, timed: &Timed) -> Answer<()> {
        loop {
            let place = self.grown.nodes[run.place];
            if place.next == 0 {
                self.add(run, timed)?;
                break;
            }
            let next = &self.grown.nodes[place.next];
            if next.event == timed.event && self.is_close(next.speed, timed.speed) {
                run.place = place.next;
                break;
            }
            run.place = match place.next_alt {
                0 => self.split(run.place)?,
                alternative => alternative,
            };
        }
        (run.time, run.offset) = (timed.time, timed.offset);
        Ok(())
    }

    /// "speed gap strictly below J"
    fn is_close(&self, a: f64, b: f64) -> bool {
        (a - b).abs() < self.book.gap
    }

    /// A new Fake as the node's next alternative.
    fn split(&mut self, place: usize) -> Answer<usize> {
        let fake = self.push(Node {
            prev: place,
            ..Node::BLANK
        })?;
        self.grown.nodes[place].next_alt = fake;
        self.grown.splits += 1;
        Ok(fake)
    }

    /// A new node behind the place. Row 13: "addition behind a finished run's event",
    /// after a full table.
    fn add(&mut self, run: &mut Run, timed: &Timed) -> Answer<()> {
        let own = self.push(Node {
            speed: timed.speed,
            prev: run.place,
            event: timed.event,
            ..Node::BLANK
        })?;
        refuse_if(self.grown.nodes[run.place].end, 13)?;
        self.lead(run, own, timed);
        self.holders[timed.event.link as usize][timed.event.kind as usize].push(own);
        self.grown.added += 1;
        run.place = own;
        run.has_added = true;
        Ok(())
    }

    /// The place leads on to this node, "with the time and offset of the run's own
    /// event minus those of its event before".
    fn lead(&mut self, run: &Run, next: usize, timed: &Timed) {
        let place = &mut self.grown.nodes[run.place];
        place.next = next;
        place.to_next = timed.time - run.time;
        place.distance = timed.offset - run.offset;
    }
}

// Joins.
impl Growth<'_> {
    /// Rebuild the run's list for the event, then join it or append to the list.
    /// True: joined, and the run is over.
    fn join(&mut self, run: &mut Run, timed: &Timed) -> Answer<bool> {
        let old = std::mem::take(&mut run.list);
        for &entry in &old {
            self.rebuild(entry, timed.event, &mut run.list)?;
        }
        if let Some(target) = self.closest(&run.list, timed.speed) {
            self.link(run, target, timed)?;
            return Ok(true);
        }
        if timed.event.kind == Kind::Arrive {
            self.append(run, timed.event.link)?;
        }
        Ok(false)
    }

    /// What an entry of the old list gives to the new one.
    fn rebuild(&self, entry: Entry, event: Event, list: &mut Vec<Entry>) -> Answer<()> {
        // "an e with no next is dropped"
        if self.grown.nodes[entry.node].next == 0 {
            return Ok(());
        }
        // "New m is m for Arrive; for Clear 0 if m is 0 or the event's link, else the
        // entry is copied."
        let mut link = entry.link;
        if event.kind == Kind::Clear {
            if link != 0 && link != event.link {
                return put(list, entry);
            }
            link = 0;
        }
        // "If no node has the event, nothing more."
        if self.holders[event.link as usize][event.kind as usize].is_empty() {
            return Ok(());
        }
        if entry.link == 0 {
            self.nexts(entry.node, event, list)
        } else {
            self.strands(entry.node, link, event, list)
        }
    }

    /// "With old m = 0, e and each of its alternatives gives its next if that has the
    /// event."
    fn nexts(&self, node: usize, event: Event, list: &mut Vec<Entry>) -> Answer<()> {
        let mut at = node;
        loop {
            let next = self.grown.nodes[at].next;
            if self.grown.nodes[next].event == event {
                put(
                    list,
                    Entry {
                        link: 0,
                        node: next,
                    },
                )?;
            }
            at = self.grown.nodes[at].next_alt;
            if at == 0 {
                return Ok(());
            }
        }
    }

    /// "stack the node's alternative, look at its next; the walk is left from its
    /// inner part as soon as that next has the event (an entry) or is an Arrive or has
    /// no next; otherwise go on. Then pop."
    fn strands(&self, node: usize, link: u32, event: Event, list: &mut Vec<Entry>) -> Answer<()> {
        let nodes = &self.grown.nodes;
        let mut reads = 0;
        let mut stack = vec![node];
        while let Some(mut at) = stack.pop() {
            loop {
                if nodes[at].next_alt != 0 {
                    stack.push(nodes[at].next_alt);
                }
                reads += 1;
                refuse_if(reads > MOST_READS, 12)?;
                at = nodes[at].next;
                if nodes[at].event == event {
                    put(list, Entry { link, node: at })?;
                    break;
                }
                if nodes[at].event.kind == Kind::Arrive || nodes[at].next == 0 {
                    break;
                }
            }
        }
        Ok(())
    }

    /// "Of entries with m = 0 the first with the smallest gap, strictly below J".
    fn closest(&self, list: &[Entry], speed: f64) -> Option<usize> {
        let mut best = None;
        let mut smallest = self.book.gap;
        for entry in list.iter().filter(|entry| entry.link == 0) {
            let gap = (self.grown.nodes[entry.node].speed - speed).abs();
            if gap < smallest {
                (best, smallest) = (Some(entry.node), gap);
            }
        }
        best
    }

    /// "the last node links through a new Fake at the end of the target's
    /// previous-alternative chain"
    fn link(&mut self, run: &Run, target: usize, timed: &Timed) -> Answer<()> {
        let mut chain = target;
        while self.grown.nodes[chain].prev_alt != 0 {
            chain = self.grown.nodes[chain].prev_alt;
        }
        let fake = self.push(Node {
            next: chain,
            prev: run.place,
            ..Node::BLANK
        })?;
        self.lead(run, fake, timed);
        self.grown.nodes[chain].prev_alt = fake;
        self.grown.joined += 1;
        Ok(())
    }

    /// "After a failed join an Arrive appends, rising, all nodes of that event that no
    /// entry names." Such an entry has the Arrive's own link as its m.
    fn append(&mut self, run: &mut Run, link: u32) -> Answer<()> {
        self.appends += 1;
        for entry in &run.list {
            self.grown.nodes[entry.node].named = self.appends;
        }
        for &node in &self.holders[link as usize][Kind::Arrive as usize] {
            if self.grown.nodes[node].named != self.appends {
                put(&mut run.list, Entry { link, node })?;
            }
        }
        Ok(())
    }
}

/// Row 12: "join entry beyond 1,024 in a list".
fn put(list: &mut Vec<Entry>, entry: Entry) -> Answer<()> {
    refuse_if(list.len() >= MOST_ENTRIES, 12)?;
    list.push(entry);
    Ok(())
}
