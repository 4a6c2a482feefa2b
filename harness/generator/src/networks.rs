//! Links, origins and destinations: the shapes that books are made of.

use crate::book::Link;
use crate::driving::Grain;
use crate::random::Random;

#[derive(Clone, Debug)]
pub struct Network {
    pub links: Vec<Link>,
    pub origins: Vec<u32>,
    pub destinations: Vec<u32>,
}

impl Network {
    fn new() -> Network {
        Network { links: vec![Link::default()], origins: vec![], destinations: vec![] }
    }

    fn link(&mut self, length: f64) -> u32 {
        self.links.push(Link { length, ..Link::default() });
        self.links.len() as u32 - 1
    }

    /// `to` may follow `from`: in the first free field on each side.
    fn follow(&mut self, from: u32, to: u32) {
        self.lead(from, to);
        self.trace(from, to);
    }

    fn lead(&mut self, from: u32, to: u32) {
        let link = &mut self.links[from as usize];
        if link.next == 0 {
            link.next = to;
        } else if link.next_alt == 0 && link.next != to {
            link.next_alt = to;
        }
    }

    fn trace(&mut self, from: u32, to: u32) {
        let link = &mut self.links[to as usize];
        if link.prev == 0 {
            link.prev = from;
        } else if link.prev_alt == 0 {
            link.prev_alt = from;
        }
    }

    fn chain(&mut self, from: u32, links: u64, lengths: &mut impl FnMut() -> f64) -> u32 {
        let mut at = from;
        for _ in 0..links {
            let new = self.link(lengths());
            self.follow(at, new);
            at = new;
        }
        at
    }
}

/// How long links are.
#[derive(Clone, Copy)]
pub struct Lengths {
    pub grain: Grain,
    pub low: u64,
    pub high: u64,
    /// All links are equally long.
    pub equal: bool,
}

impl Lengths {
    fn draw(self, r: &mut Random) -> impl FnMut() -> f64 {
        let all = self.grain.value(r, self.low, self.high).max(0.25);
        let mut own = Random::new(r.bits(), 0);
        move || {
            if self.equal {
                all
            } else {
                self.grain.value(&mut own, self.low, self.high).max(0.25)
            }
        }
    }
}

/// A line of single links and sidings, two ways that meet again at the link behind.
pub fn sidings(r: &mut Random, lengths: Lengths, most: u64) -> Network {
    let mut length = lengths.draw(r);
    let mut net = Network::new();
    let mut at = net.link(length());
    net.origins.push(at);
    for _ in 0..r.between(1, most) {
        if r.chance(65) {
            let behind_main = net.link(length());
            let behind_side = net.link(length());
            let (first, second) =
                if r.chance(80) { (behind_main, behind_side) } else { (behind_side, behind_main) };
            net.follow(at, first);
            net.follow(at, second);
            let longer = r.one_in(6) as u64;
            let main = net.chain(behind_main, r.one_in(5) as u64, &mut length);
            let side = net.chain(behind_side, longer, &mut length);
            let meet = net.link(length());
            net.follow(main, meet);
            net.follow(side, meet);
            at = meet;
        } else {
            at = net.chain(at, 1, &mut length);
        }
    }
    let tail = r.between(0, 2) + (net.links.len() == 2) as u64;
    at = net.chain(at, tail, &mut length);
    net.destinations.push(at);
    net
}

/// Links that lead to later links only: next mostly to the neighbour, alternatives further on.
pub fn forward(r: &mut Random, lengths: Lengths, most: u64) -> Network {
    let count = r.between(2, most) as u32;
    let honest = r.chance(30);
    let ways = r.pick(&[10, 25, 50]);
    let mut net = Network::new();
    let mut length = lengths.draw(r);
    for _ in 0..count {
        net.link(length());
    }
    for from in 1..count {
        let to = if r.chance(80) { from + 1 } else { r.between(from as u64 + 1, count as u64) as u32 };
        let other = r.between(from as u64 + 1, count as u64) as u32;
        if !honest {
            net.trace(from, from + 1);
        }
        connect(&mut net, from, to, honest);
        if other != to && r.chance(ways) {
            connect(&mut net, from, other, honest);
        }
    }
    net.origins.push(1);
    net.destinations.push(count);
    net
}

/// Next, and previous too where the neighbour has not been named already.
fn connect(net: &mut Network, from: u32, to: u32, honest: bool) {
    net.lead(from, to);
    if honest || to != from + 1 {
        net.trace(from, to);
    }
}

/// Several origins whose ways meet one after the other.
pub fn meeting(r: &mut Random, lengths: Lengths, most: u64) -> Network {
    let mut net = Network::new();
    let branches = r.between(2, most);
    let mut length = lengths.draw(r);
    let mut at = net.link(length());
    net.origins.push(at);
    at = net.chain(at, r.below(2), &mut length);
    for _ in 1..branches {
        let origin = net.link(length());
        net.origins.push(origin);
        let branch = net.chain(origin, r.below(2), &mut length);
        let meet = net.link(length());
        if r.chance(50) {
            net.follow(at, meet);
            net.follow(branch, meet);
        } else {
            net.follow(branch, meet);
            net.follow(at, meet);
        }
        at = net.chain(meet, r.below(2), &mut length);
    }
    at = net.chain(at, r.below(3), &mut length);
    net.destinations.push(at);
    net
}

/// A line of which one link leads back, to itself or to an earlier one.
pub fn ring(r: &mut Random, lengths: Lengths) -> Network {
    let count = r.between(3, 6) as u32;
    let mut net = Network::new();
    let mut length = lengths.draw(r);
    for _ in 0..count {
        net.link(length());
    }
    let from = r.between(2, count as u64 - 1) as u32;
    let back = if r.chance(40) { from } else { r.between(1, from as u64) as u32 };
    let back_first = r.chance(50);
    for link in 1..count {
        if link == from && back_first {
            net.lead(link, back);
        }
        net.follow(link, link + 1);
        if link == from && !back_first {
            net.lead(link, back);
        }
        if link == from && r.chance(70) {
            net.trace(link, back);
        }
    }
    net.origins.push(1);
    net.destinations.push(count);
    net
}

/// A ring that nothing leads out of: by itself no run ever finishes; beside another way, that one
/// finishes and the ring is never passed backwards.
pub fn trap(r: &mut Random, lengths: Lengths) -> Network {
    let mut net = Network::new();
    let mut length = lengths.draw(r);
    let start = net.link(length());
    net.origins.push(start);
    let goal = net.link(length());
    net.destinations.push(goal);
    let ring_first = r.chance(50);
    let other = r.weighted(&[40, 40, 20]);
    if other == 1 && !ring_first {
        way_out(&mut net, start, goal, r, &mut length);
    }
    let first = net.link(length());
    net.follow(start, first);
    let last = net.chain(first, r.below(3), &mut length);
    let back = r.between(first as u64, last as u64) as u32;
    net.lead(last, back);
    net.trace(last, goal);
    if other == 1 && ring_first {
        way_out(&mut net, start, goal, r, &mut length);
    }
    if other == 2 {
        let second = net.link(length());
        let place = r.index(2);
        net.origins.insert(place, second);
        way_out(&mut net, second, goal, r, &mut length);
    }
    net
}

fn way_out(net: &mut Network, from: u32, goal: u32, r: &mut Random, length: &mut impl FnMut() -> f64) {
    let new = net.link(length());
    net.follow(from, new);
    let end = net.chain(new, r.below(2), length);
    net.follow(end, goal);
}

/// A few links in a row.
pub fn line(r: &mut Random, lengths: Lengths) -> Network {
    let mut net = Network::new();
    let links = r.between(1, 3);
    let mut length = lengths.draw(r);
    let first = net.link(length());
    net.origins.push(first);
    let last = net.chain(first, links, &mut length);
    net.destinations.push(last);
    net
}

/// A small change anywhere: a link that leads elsewhere, one more origin or destination.
pub fn tweak(r: &mut Random, net: &mut Network) {
    let count = net.links.len();
    let at = r.between(1, count as u64 - 1) as usize;
    let other = r.index(count) as u32;
    let link = &mut net.links[at];
    match r.below(9) {
        0 => link.next = other,
        1 => link.next_alt = other,
        2 => link.prev = other,
        3 => link.prev_alt = other,
        4 => std::mem::swap(&mut link.next, &mut link.next_alt),
        5 => std::mem::swap(&mut link.prev, &mut link.prev_alt),
        6 if !net.origins.contains(&other) => {
            let place = r.index(net.origins.len() + 1);
            net.origins.insert(place, other);
        }
        7 => net.destinations.push(at as u32),
        _ => net.destinations.push(r.pick(&net.destinations)),
    }
    if link_repeats(&net.links[at]) {
        net.links[at].next_alt = 0;
    }
}

fn link_repeats(link: &Link) -> bool {
    link.next == link.next_alt
}

/// Numbers the links anew; the network stays the same.
pub fn renumber(r: &mut Random, net: &mut Network) {
    let count = net.links.len();
    let mut new: Vec<u32> = (0..count as u32).collect();
    for i in (2..count).rev() {
        new.swap(i, 1 + r.index(i));
    }
    let name = |index: u32| new[index as usize];
    let mut links = net.links.clone();
    for (old, link) in net.links.iter().enumerate() {
        links[new[old] as usize] = Link {
            length: link.length,
            next: name(link.next),
            next_alt: name(link.next_alt),
            prev: name(link.prev),
            prev_alt: name(link.prev_alt),
        };
    }
    net.links = links;
    net.origins.iter_mut().for_each(|link| *link = name(*link));
    net.destinations.iter_mut().for_each(|link| *link = name(*link));
}
