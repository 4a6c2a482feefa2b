//! Times of the proved library against the reference, on the same inputs in one run: `bench [WORD]`, all cases or those whose name or group has the word.
//! `bench hostile [WORD]`: the hostile books alone, which take minutes.
mod books;
mod hostile;
mod large;
mod lists;
mod plot;
mod sidings;
mod tables;
mod timers;

use timers::Times;

/// Which cases are asked for.
struct Bench(String);

impl Bench {
    /// A group's name and how it is measured.
    fn group(&self, name: &str, how: &str) -> Group<'_> {
        Group { bench: self, name: name.into(), how: how.into(), shown: false, rows: vec![] }
    }
}

/// Cases of one entry.
struct Group<'a> {
    bench: &'a Bench,
    name: String,
    how: String,
    shown: bool,
    rows: Vec<plot::Measured>,
}

impl Group<'_> {
    /// One case, if it is asked for.
    fn case(&mut self, name: &str, times: impl FnOnce() -> Times) -> Option<Times> {
        if !format!("{} {name}", self.name).contains(&self.bench.0) {
            return None;
        }
        if !self.shown {
            println!("\n{}\n{:<52} {:>9} {:>9} {:>6}", self.how, self.name, "ours, ms", "ref., ms", "ratio");
            self.shown = true;
        }
        let (ours, theirs) = times();
        println!("{name:<52} {ours:>9.3} {theirs:>9.3} {:>6.2}", ours / theirs);
        Some((ours, theirs))
    }

    /// One of several sizes; behind it the exponent from the size before.
    fn size(&mut self, name: &str, size: usize, times: impl FnOnce() -> Times) {
        let Some((ours, theirs)) = self.case(name, times) else { return };
        if let Some(before) = self.rows.last() {
            println!("{:>52} {:>9.2}", "exponent", plot::exponent((before.0, before.1), (size as f64, ours)));
        }
        self.rows.push((size as f64, ours, theirs));
    }

    /// What the sizes look like together.
    fn plot(&self) {
        if self.rows.len() > 1 {
            println!("\n{}", plot::plot(&self.name, &self.rows));
        }
    }
}

/// Nodes of a line of so many sidings.
fn nodes(sidings: usize) -> usize {
    9 * sidings + 6
}

fn whole(bench: &Bench) {
    let how = "keldurap_raw_make_est_times. All that is lent is zero before each call, left so by the one before, and is made zero all the same. Work space as row 3 asks.";
    let mut lines = bench.group("lines of sidings, places as nodes", how);
    for count in [10, 100, 1_000, 7_000] {
        lines.size(&format!("a line of {count} sidings"), nodes(count), || timers::fitted(&sidings::book(count)));
    }
    lines.plot();
    let mut kinds = bench.group("a book, 65,535 places", how);
    kinds.case("a line of 10 sidings", || timers::sheets(&[sidings::book(10)], 65_535));
    kinds.case("1,000 origins", || timers::sheets(&[books::origins(1_000, 0)], 65_535));
    kinds.case("a chain of 65,000 legs", || timers::sheets(&[books::chain(65_000)], 65_535));
    kinds.case("1,000,000 samples in 10 legs", || timers::sheets(&[books::samples(1_000_000)], 65_535));
    let mut clearing = bench.group("a line of 10 sidings", "The same; in place of the reference's time that of making what is lent zero before and after, as the job does.");
    for places in [nodes(10), 4_096, 65_535] {
        clearing.case(&format!("{places} places, and the clearing alone"), || timers::clearing(&sidings::book(10), places));
    }
    let mut small = bench.group("a thousand small books", how);
    let items = books::small(1_000, 192);
    small.case("1,000 random books, 192 places", || timers::sheets(&items, 192));
    small.case("1,000 random books, 4,096 places", || timers::sheets(&items, 4_096));
    let mut chains = bench.group("chains of legs, places as nodes", how);
    for legs in [650, 6_500, 65_000] {
        chains.size(&format!("{legs} legs"), legs, || timers::fitted(&books::chain(legs)));
    }
    let mut origins = bench.group("origins, places as nodes", how);
    for count in [10, 100, 1_000] {
        origins.size(&format!("{count} origins"), count, || timers::fitted(&books::origins(count, 0)));
    }
    let mut idle = bench.group("1,000 origins among starting legs, places as nodes", how);
    for count in [500, 5_000, 50_000] {
        idle.case(&format!("{count} starting legs that no run takes"), || timers::fitted(&books::origins(1_000, count)));
    }
}

fn parts(bench: &Bench) {
    let mut growth = bench.group("growing a book, 65,535 places", "keldurap_raw_grow_network, for tests: no passes.");
    for count in [70, 700, 7_000] {
        growth.size(&format!("a line of {count} sidings"), nodes(count), || timers::growth(&sidings::book(count)));
    }
    let mut passes = bench.group("timing a node table", "keldurap_raw_update_times. The reference without the count of index lookups by which the harness tells an endless walk.");
    passes.case("a line of 60,000 events", || timers::passes(&[tables::line(60_000)]));
    passes.case("1,000 runs of 58 events, an end each", || timers::passes(&[tables::runs(1_000, 58)]));
    passes.case("1,000 runs of 57 events that meet", || timers::passes(&[tables::meeting(1_000, 57)]));
    passes.case("accepted ones of 10,000 random tables", || timers::passes(&lists::accepted_tables(10_000)));
    for count in [70, 700, 7_000] {
        passes.size(&format!("the network of {count} sidings, {} nodes", nodes(count)), nodes(count), || timers::passes(&[timers::network(&sidings::book(count))]));
    }
    let mut events = bench.group("event lists", "keldurap_raw_make_events. The reference's is the same tests but 12, and the published function.");
    events.case("1,000,000 samples, 1,000 points", || timers::events(&[lists::even(1_000_000, 1_000)]));
    events.case("1,000,000 samples, 65,536 points", || timers::events(&[lists::even(1_000_000, 65_536)]));
    events.case("65,536 points between two samples", || timers::events(&[lists::even(2, 65_536)]));
    events.case("1,000 lists of 30 samples and 6 points", || timers::events(&vec![lists::even(30, 6); 1_000]));
    events.case("accepted ones of 10,000 random lists", || timers::events(&lists::accepted(10_000)));
    let mut reading = bench.group("reading a book", "keldurap_raw_check_book. The reference's is its reading into vectors, rows 1 to 7.");
    for places in [192, 65_535] {
        reading.case(&format!("largest, legs in a chain, {places} places"), || timers::reading(&large::chain(), places));
        reading.case(&format!("largest, legs under one parent, {places} places"), || timers::reading(&large::fan(), places));
    }
    for legs in [1_000, 10_000] {
        reading.size(&format!("{legs} legs in a chain, 192 places"), legs, || timers::reading(&large::book(legs, 15, true), 192));
    }
    let mut roots = bench.group("409,600 roots", "keldurap_raw_root; beside it the machine's instruction.");
    roots.case("roots", || timers::roots(false));
    roots.case("roots, each of the one before", || timers::roots(true));
}

fn main() {
    let words: Vec<String> = std::env::args().skip(1).collect();
    if words.first().is_some_and(|word| word == "hostile") {
        return hostile::run(&words[1..]);
    }
    let bench = Bench(words.first().cloned().unwrap_or_default());
    whole(&bench);
    parts(&bench);
}
