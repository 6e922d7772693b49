//! Cases put to the reference and to the proved library, one after the other.

use std::time::{Duration, Instant};

use crate::case::{Case, Hex};
use crate::fault;
use crate::guard::Edge;
use crate::memory::{on_heap, After, Memory};
use crate::reached::Reached;
use crate::shrink::shrunk;
use crate::sides::{by_header, by_reference, by_wrappers, Side};

/// Long runs say this often how far they are.
const PROGRESS: Duration = Duration::from_secs(20);

/// The two ways into the proved library. Where pages are guarded, one has its areas at the one edge, the other at the other.
const PROVED: [(&str, Side, Edge); 2] = [
    ("the library by its header", by_header, Edge::Last),
    ("the library by its wrappers", by_wrappers, Edge::First),
];

/// What the reference leaves, and the first way into the library that leaves something else.
fn both(case: &Case, memory: &mut Memory) -> (After, Option<(&'static str, After)>) {
    let wanted = on_heap(by_reference, case);
    for (name, side, edge) in PROVED {
        let given = memory.run(side, case, edge);
        if given != wanted {
            return (wanted, Some((name, given)));
        }
    }
    (wanted, None)
}

/// Prints a case, both answers, and the areas that differ afterwards.
pub fn print(case: &Case, memory: &mut Memory) {
    print!("{case}");
    let (wanted, other) = both(case, memory);
    println!("the reference: {}", wanted.answer);
    let Some((name, given)) = other else {
        println!("no difference");
        return;
    };
    println!("{name}: {}", given.answer);
    for (i, area) in case.call.parameters().areas.iter().enumerate() {
        let (wanted, given) = (&wanted.areas[i], &given.areas[i]);
        if wanted != given {
            println!("{area} after the reference:{}", Hex(wanted));
            println!("{area} after the library:{}", Hex(given));
        }
    }
    if wanted.values != given.values {
        println!("values after the reference: {:X?}", wanted.values);
        println!("values after the library: {:X?}", given.values);
    }
    if wanted.lengths != given.lengths {
        println!("the lengths were changed");
    }
}

pub struct Run {
    pub memory: Memory,
    pub tried: u64,
    pub started: Instant,
    said: Instant,
}

impl Run {
    pub fn new(memory: Memory) -> Self {
        let now = Instant::now();
        Run {
            memory,
            tried: 0,
            started: now,
            said: now,
        }
    }

    /// Compares one case and counts what it reached; gives whether all is well.
    pub fn compare(&mut self, name: &str, case: &Case, reached: Option<&mut Reached>) -> bool {
        fault::note(name);
        self.tried += 1;
        self.say_progress(name);
        let (wanted, other) = both(case, &mut self.memory);
        if other.is_some() {
            println!("DIFFERENCE in {name}: {}", case.call.parameters().name);
            let small = shrunk(case, |case| both(case, &mut self.memory).1.is_some());
            println!("the smallest case found:");
            print(&small, &mut self.memory);
            return false;
        }
        if let Some(reached) = reached {
            reached.count(case, &wanted.answer);
        }
        true
    }

    fn say_progress(&mut self, name: &str) {
        if self.said.elapsed() > PROGRESS {
            self.said = Instant::now();
            let seconds = self.started.elapsed().as_secs();
            eprintln!("{} cases in {seconds} s, now {name}", self.tried);
        }
    }
}
