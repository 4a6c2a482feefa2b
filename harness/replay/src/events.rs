//! The event maker, driven from a stream and against both outside answers.
use crate::stream::{self, digits};
use outside::{Answers, Held};
use std::fmt::Write as _;
use std::io;

extern "C" {
    fn keldurap_raw_make_events(
        length: f64,
        samples: *const u8,
        samples_len: usize,
        offsets: *const f64,
        offsets_len: usize,
        links: *const u32,
        links_len: usize,
        floats: *mut f64,
        floats_len: usize,
        numbers: *mut u32,
        numbers_len: usize,
        count: *mut u32,
    ) -> u32;
}

/// What the event maker is lent: an item's parts, and a list of its places.
pub struct Lent {
    length: f64,
    samples: Vec<u8>,
    offsets: Vec<f64>,
    links: Vec<u32>,
    floats: Vec<f64>,
    numbers: Vec<u32>,
}

impl Lent {
    /// An item: length, samples after their count, points after theirs, list places.
    pub fn new(item: &[u8]) -> Lent {
        let count = |at: usize| u32::from_le_bytes(item[at..at + 4].try_into().unwrap()) as usize;
        let float = |at: usize| f64::from_le_bytes(item[at..at + 8].try_into().unwrap());
        let points_at = 12 + 24 * count(8);
        let places_at = points_at + 4 + 12 * count(points_at);
        let points = || (points_at + 4..places_at).step_by(12);
        Lent {
            length: float(0),
            samples: item[12..points_at].to_vec(),
            offsets: points().map(float).collect(),
            links: points().map(|at| count(at + 8) as u32).collect(),
            floats: vec![f64::MAX; 3 * count(places_at)],
            numbers: vec![0xa5a5_a5a5; 2 * count(places_at)],
        }
    }

    /// The library's number and count.
    pub fn make(&mut self) -> (u32, u32) {
        let mut count = [u32::MAX];
        // Pointers and lengths are those of vectors that nothing else uses during the call.
        let number = unsafe {
            keldurap_raw_make_events(
                self.length,
                self.samples.as_ptr(),
                self.samples.len(),
                self.offsets.as_ptr(),
                self.offsets.len(),
                self.links.as_ptr(),
                self.links.len(),
                self.floats.as_mut_ptr(),
                self.floats.len(),
                self.numbers.as_mut_ptr(),
                self.numbers.len(),
                count.as_mut_ptr(),
            )
        };
        (number, count[0])
    }

    /// The answer as `replay events` prints it.
    fn answer(&mut self) -> String {
        let (number, count) = self.make();
        let count = count as usize;
        if !self.is_zero_from(count) || number > 0 && count > 0 {
            return "not zero\n".into();
        }
        if number > 0 {
            return format!("refused {number}\n");
        }
        let mut text = format!("events {count}\n");
        for (floats, numbers) in self.floats.chunks(3).zip(self.numbers.chunks(2)).take(count) {
            let kind = if numbers[1] == 0 { 'A' } else { 'C' };
            let [time, offset, speed] = [0, 1, 2].map(|k| digits(floats[k]));
            writeln!(text, "{kind} {} {time} {offset} {speed}", numbers[0]).unwrap();
        }
        text
    }

    fn is_zero_from(&self, count: usize) -> bool {
        let floats = self.floats.iter().skip(3 * count).all(|x| x.to_bits() == 0);
        floats && self.numbers.iter().skip(2 * count).all(|&n| n == 0)
    }
}

/// Items from standard input, each after its byte count.
pub fn replay() -> io::Result<()> {
    stream::replay(|item| Lent::new(item).answer())
}

/// The outside answers to an item.
fn answers(item: &[u8]) -> Answers {
    Answers::new(reference::events(item), plain::events(item))
}

/// The first n event lists of a seed, against both outside answers. The number of differences.
pub fn check(n: u64, seed: u64) -> u64 {
    let (mut held, mut accepted) = (Held::default(), 0);
    for k in 0..n {
        let item = generator::events(seed, k);
        let mine = Lent::new(&item).answer();
        accepted += mine.starts_with("events") as u64;
        let answers = answers(&item);
        let is_same = answers.are(mine.as_bytes());
        held.count(&answers, is_same);
        if !is_same && held.differences <= 10 {
            println!("events {k} of seed {seed}: {mine}");
        }
    }
    println!("event lists: {n} ({accepted} accepted), {held}");
    held.faults()
}

/// The named limits that are event lists.
pub fn check_limits() -> u64 {
    let mut held = Held::default();
    for limit in generator::limits().into_iter().filter(|l| l.kind == "events") {
        let mine = Lent::new(&limit.item.bytes).answer();
        let answers = answers(&limit.item.bytes);
        let is_same = answers.are(mine.as_bytes());
        held.count(&answers, is_same);
        if !is_same {
            println!("{}: {}", limit.name, &mine[..mine.len().min(80)]);
        }
    }
    println!("event lists at the limits: {held}");
    held.faults()
}
