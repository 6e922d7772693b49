//! The slowest input of the greatest size that is found for each call: random starts, then changes of the slowest so far, one after another, of
//! which the slower stay. What is generated follows from the seed; which of it is kept, from the times.

use crate::calls::{self, Call, Input};
use crate::changes::{change, Asks};
use crate::lists::NOW;
use crate::measure::{self, Times};
use crate::random::{mixed, Random};
use crate::shape::{Heard, Shape};
use crate::{head, time};
use reference::Form;
use std::collections::BTreeSet;
use std::hint::black_box;
use std::rc::Rc;
use std::time::{Duration, Instant};

/// How many changes make a random start.
const CHANGES: usize = 200;
/// A try is the fastest of so many samples, each about as long as those of the tables; what seems slower is tried again more often. Of a call
/// that takes long there are fewer.
const SAMPLES: usize = 5;
const AGAIN: usize = 25;
/// What takes the place of another is slower by more than chance.
const MARGIN: f64 = 1.005;
const SAMPLE: f64 = 20_000.0;
const LONG: f64 = 1e6;

/// A shape, laid out, and its time in nanoseconds.
struct Tried {
    shape: Shape,
    input: Rc<Input>,
    time: f64,
}

struct Search<'a> {
    call: &'a Call,
    random: Random,
    /// Calls in a sample.
    runs: u64,
    is_long: bool,
    tries: u64,
    /// How often a change was slower.
    steps: u64,
}

impl Search<'_> {
    /// The proved side: the fastest of so many samples, or of a third as many, taken in turn.
    fn fastest<const INPUTS: usize>(
        &self,
        inputs: [&Input; INPUTS],
        samples: usize,
    ) -> [f64; INPUTS] {
        let samples = if self.is_long {
            samples.div_ceil(3)
        } else {
            samples
        };
        let mut lent = inputs.map(|input| (self.call.lent)(input));
        let mut sample = |number: usize, runs: u64| {
            let start = Instant::now();
            for _ in 0..runs {
                (self.call.proved)(black_box(inputs[number]), black_box(&mut lent[number]));
            }
            start.elapsed().as_nanos() as f64 / runs as f64
        };
        let mut fastest = [f64::MAX; INPUTS];
        for _ in 0..samples {
            for (number, fastest) in fastest.iter_mut().enumerate() {
                // The call before warms this one up.
                sample(number, 1);
                *fastest = sample(number, self.runs).min(*fastest);
            }
        }
        fastest
    }

    fn tried(&mut self, shape: Shape) -> Option<Tried> {
        let input = Rc::new(shape.built()?);
        let [time] = self.fastest([&input], SAMPLES);
        self.tries += 1;
        Some(Tried { shape, input, time })
    }

    /// Other choices of a shape, a few at once.
    fn changed(&mut self, from: &Shape, changes: usize) -> Shape {
        let mut shape = from.clone();
        for _ in 0..changes {
            change(&mut shape, &mut self.random, self.call.asks);
        }
        shape
    }

    /// A random walk over shapes that are laid out.
    fn start(&mut self) -> Shape {
        let mut shape = Shape::greatest(self.call.of);
        for _ in 0..CHANGES {
            let next = self.changed(&shape, 1);
            if next.built().is_some() {
                shape = next;
            }
        }
        shape
    }

    /// The slower of two, where the second must be so again beside the first: a sample may have been disturbed.
    fn slower(&mut self, mut best: Tried, mut next: Tried) -> Tried {
        if next.time <= best.time {
            return best;
        }
        [best.time, next.time] = self.fastest([&best.input, &next.input], AGAIN);
        if next.time <= best.time * MARGIN {
            return best;
        }
        self.steps += 1;
        next
    }

    /// The bench's own input where its size is the greatest, and as long a sample as the tables have.
    fn first(&mut self) -> Tried {
        let greatest = Shape::greatest(self.call.of);
        let first = self.tried(greatest).expect("it is laid out");
        self.runs = (SAMPLE / first.time).ceil() as u64;
        self.is_long = first.time > LONG;
        first
    }

    /// A fifth of the time for random starts, the rest for the slowest of them; in the end it is held against the first once more.
    fn found(&mut self, time: Duration) -> Tried {
        let begin = Instant::now();
        let mut first = self.first();
        let mut best = self.tried(first.shape.clone()).expect("it is laid out");
        while begin.elapsed() < time {
            let next = match begin.elapsed() < time / 5 {
                true => self.start(),
                false => {
                    let changes = 1 + self.random.below(3);
                    self.changed(&best.shape, changes)
                }
            };
            if let Some(next) = self.tried(next) {
                best = self.slower(best, next);
            }
        }
        [best.time, first.time] = self.fastest([&best.input, &first.input], 4 * AGAIN);
        if first.time > best.time {
            return first;
        }
        best
    }
}

fn list_words(shape: &Shape) -> String {
    let [checks, signals, codes, routes] = shape.size();
    let placed = shape.placed().unwrap_or_default();
    let types = [0, 1, 2].map(|kind| placed.iter().filter(|p| p.field.kind == kind).count());
    let widths = placed.iter().map(|p| p.field.width);
    let ranges = placed.iter().map(|p| p.field.ranges);
    let named: BTreeSet<usize> = placed.iter().map(|p| p.check).filter(|&c| c > 0).collect();
    let routed: BTreeSet<u16> = shape.ways.iter().map(|way| way.signal).collect();
    format!(
        "{checks} checks, {} named; {signals} signals, {}+{}+{}, {}-{} bits; {codes} codes of {}, at most {}; {routes} routes of {}",
        named.len(),
        types[0],
        types[1],
        types[2],
        widths.clone().min().unwrap_or(0),
        widths.max().unwrap_or(0),
        ranges.clone().filter(|&ranges| ranges > 0).count(),
        ranges.max().unwrap_or(0),
        routed.len()
    )
}

/// What was found in a few words: the list, and how many of its routes are live; or what else is asked.
fn words(call: &Call, of: &Tried) -> String {
    let (shape, input) = (&of.shape, &of.input);
    match call.asks {
        Asks::List => list_words(shape),
        Asks::All => {
            let mut data = input.before.clone();
            let live = reference::marshal(&input.list, Form::One, &input.store, NOW, &mut data);
            format!("{}, {} live", list_words(shape), live.unwrap_or(0))
        }
        Asks::Store => {
            let expire = |of: &&Heard| of.heard == 1 && of.age > 600_000;
            let expire = shape.slots.iter().filter(expire).count();
            format!("63 vehicles, {expire} expire")
        }
        Asks::Train => {
            let found = reference::resolve(&input.train, input.address);
            let size = found.map_or(0, |members| members.size);
            format!("63 vehicles, address {}, {size} of them", input.address)
        }
    }
}

/// The bench's own input, the slowest found and the other side of it, in turn.
fn row(call: &Call, search: &Search, of: &Tried) {
    let even = Rc::new(Shape::even(call.of, 8).built().expect("it is laid out"));
    (call.alike)(&of.input);
    let mut sides = [
        call.run(call.proved, &even),
        call.run(call.proved, &of.input),
        call.run(call.rust, &of.input),
    ];
    let [even, worst, rust] = measure::each(sides.each_mut(), 1).map(|of: Times| of.median);
    println!(
        "| {} | {} | {} | {:.2} | {} | {:.2} | {}; {} steps of {} |",
        call.name,
        time(even),
        time(worst),
        worst / even,
        time(rust),
        worst / rust,
        words(call, of),
        search.steps,
        search.tries
    );
}

/// The list and the store, to be looked at.
fn kept(call: &Call, of: &Tried, folder: &str) {
    let name = call.name.replace(", ", "-").replace(' ', "-");
    let parts = [("list", &of.input.list), ("store", &of.input.store)];
    for (part, octets) in parts {
        let path = format!("{folder}/{name}.{part}");
        std::fs::write(&path, octets).unwrap_or_else(|error| panic!("{path}: {error}"));
    }
}

/// Of every call, so many seconds each; what is found is written into the folder.
pub fn searched(seconds: u64, seed: u64, folder: &str) {
    head(&[
        "call",
        "the bench's input",
        "the slowest found",
        "ratio",
        "Rust, of the same",
        "ratio",
        "the slowest found is",
    ]);
    for (number, call) in calls::all().iter().enumerate() {
        let mut search = Search {
            call,
            random: Random(mixed(seed, number)),
            runs: 1,
            is_long: false,
            tries: 0,
            steps: 0,
        };
        let found = search.found(Duration::from_secs(seconds));
        row(call, &search, &found);
        kept(call, &found, folder);
    }
    println!();
}
