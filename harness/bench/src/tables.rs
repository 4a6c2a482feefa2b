//! Node tables as growth makes them, of up to 65,535 nodes.

const NEXT: usize = 0;
const NEXT_ALT: usize = 1;
const PREV_ALT: usize = 3;
const FAKE: u32 = 2;

/// Next, next alternative, previous, previous alternative, link, kind; and the time to next.
type Node = ([u32; 6], f64);

struct Net(Vec<Node>);

impl Net {
    /// Nodes 0 and 1.
    fn new() -> Net {
        Net(vec![([1, 0, 0, 0, 0, FAKE], 0.0), ([0, 0, 0, 0, 0, FAKE], 0.0)])
    }

    fn push(&mut self, node: Node) -> u32 {
        self.0.push(node);
        self.0.len() as u32 - 1
    }

    /// So many events one behind the other, each as long as the last but for scattered digits; the last of them.
    fn events(&mut self, mut behind: u32, count: usize) -> u32 {
        for _ in 0..count {
            let k = self.0.len() as u64;
            let time = 30.0 + (k.wrapping_mul(0x9e37_79b9_7f4a_7c15) >> 40) as f64 / 1e6;
            let new = self.push(([0, 0, behind, 0, k as u32, k as u32 % 2], time));
            self.0[behind as usize].0[NEXT] = new;
            behind = new;
        }
        behind
    }

    /// The last of a node's alternatives.
    fn last_of(&self, mut at: u32, field: usize) -> u32 {
        while self.0[at as usize].0[field] != 0 {
            at = self.0[at as usize].0[field];
        }
        at
    }

    /// A new split Fake behind a node's alternatives.
    fn split(&mut self, from: u32) -> u32 {
        let last = self.last_of(from, NEXT_ALT);
        let new = self.push(([0, 0, last, 0, 0, FAKE], 20.0));
        self.0[last as usize].0[NEXT_ALT] = new;
        new
    }

    /// Links the place through a new Fake to the target.
    fn join(&mut self, place: u32, target: u32) {
        let last = self.last_of(target, PREV_ALT);
        let new = self.push(([last, 0, place, 0, 0, FAKE], 0.0));
        self.0[last as usize].0[PREV_ALT] = new;
        self.0[place as usize].0[NEXT] = new;
    }

    /// The end Fakes and the last node; the item.
    fn close(mut self, ends: &[u32]) -> Vec<u8> {
        let mut above = 0;
        for end in ends.iter().rev() {
            let new = self.0.len() as u32;
            self.push(([new + 1, 0, *end, above, 0, FAKE], 0.0));
            self.0[*end as usize].0[NEXT] = new;
            above = new;
        }
        let last = self.0.len() as u32;
        self.push(([0, 0, last - 1, 0, 0, FAKE], 0.0));
        let mut item = 5.0_f64.to_le_bytes().to_vec();
        for (numbers, time) in &self.0 {
            item.extend([0.0, *time, 100.0, 10.0].iter().flat_map(|x: &f64| x.to_le_bytes()));
            item.extend(numbers.iter().flat_map(|n| n.to_le_bytes()));
        }
        item
    }
}

/// One run of so many events.
pub fn line(events: usize) -> Vec<u8> {
    let mut net = Net::new();
    let end = net.events(1, events);
    net.close(&[end])
}

/// So many runs that start together, of so many events each, with an end each.
pub fn runs(count: usize, events: usize) -> Vec<u8> {
    let mut net = Net::new();
    let mut ends = vec![net.events(1, events)];
    for _ in 1..count {
        let from = net.split(1);
        ends.push(net.events(from, events));
    }
    net.close(&ends)
}

/// So many runs that start together and join the first one at its last event but one.
pub fn meeting(count: usize, events: usize) -> Vec<u8> {
    let mut net = Net::new();
    let end = net.events(1, events + 2);
    for _ in 1..count {
        let from = net.split(1);
        let place = net.events(from, events);
        net.join(place, end - 1);
    }
    net.close(&[end])
}
