//! Holds the proved library against the independent implementation: the same inputs go to both, and every answer and every lent octet
//! must be the same afterwards.
//!
//!     compare [--guard] [CASES] [SEED]
//!     compare [--guard] --case NUMBER [SEED]
//!
//! `--guard` places what the library is lent against pages that must not be touched. `--case` runs one case alone and prints it.
//! Exits with 1 at the first difference, and also if there is an answer or a refusal that no case of the seed reached.

mod bits;
mod case;
mod changed;
mod changes;
mod checked;
mod christened;
mod christenings;
mod cycles;
mod damage;
mod desk;
mod doors;
mod edited;
mod exact;
mod exhaustive;
mod fault;
mod gathered;
mod generate;
mod guard;
mod list;
mod make;
mod memory;
mod narrow;
mod pair;
mod passed_on;
mod profiled;
mod profiles;
mod random;
mod reached;
mod readings;
mod recorded;
mod records;
mod relayed;
mod remedied;
mod remedies;
mod resolved;
mod returned;
mod run;
mod shrink;
mod sides;
mod steps;
mod store;
mod summaries;
mod summed_up;
mod texts;
mod true_clock;
mod walked;

use std::env;
use std::process::ExitCode;

use memory::Memory;
use random::Random;
use reached::Reached;
use run::Run;

const CASES: u64 = 200_000;
const SEED: u64 = 1;

struct Arguments {
    guard: bool,
    only: Option<u64>,
    cases: u64,
    seed: u64,
}

fn arguments() -> Option<Arguments> {
    let mut words: Vec<String> = env::args().skip(1).collect();
    let mut flag = |name: &str| {
        let at = words.iter().position(|word| word == name);
        at.map(|at| words.remove(at)).is_some()
    };
    let (guard, only) = (flag("--guard"), flag("--case"));
    let numbers: Option<Vec<u64>> = words.iter().map(|word| word.parse().ok()).collect();
    let (first, seed) = match numbers?[..] {
        [] if !only => (CASES, SEED),
        [first] => (first, SEED),
        [first, seed] => (first, seed),
        _ => return None,
    };
    Some(Arguments {
        guard,
        only: only.then_some(first),
        cases: first,
        seed,
    })
}

/// What a run of its own met; says why, where it did not go well.
fn well<T>(what: &str, met: Result<T, String>) -> Option<T> {
    met.map_err(|why| println!("{what}: {why}")).ok()
}

/// What the runs of their own met.
struct Runs {
    exact: u32,
    clocked: true_clock::Met,
    passed_on: passed_on::Met,
    walked: walked::Met,
    returned: returned::Met,
    resolved: resolved::Met,
    desk: desk::Met,
    recorded: recorded::Met,
}

impl Runs {
    /// All of them, if all went well.
    fn new(cases: u64, seed: u64) -> Option<Self> {
        let exact = well("NOT EXACT", exact::all_shown());
        let clocked = well("NOT BY THE TRUE CLOCK", true_clock::all(cases / 20, seed));
        let passed_on = well("NOT PASSED ON", passed_on::all(cases / 40, seed));
        let walked = well("NOT AS COMPARED", walked::all(cases / 20, seed));
        let returned = well("NOT THERE AND BACK", returned::all(cases / 40, seed));
        let resolved = well("NOT RESOLVED SO", resolved::all(cases / 40, seed));
        let desk = well("NOT SHOWN SO", desk::all(cases / 100, seed));
        let recorded = well("NOT JUDGED SO", recorded::all(cases / 100, seed));
        Some(Runs {
            exact: exact?,
            clocked: clocked?,
            passed_on: passed_on?,
            walked: walked?,
            returned: returned?,
            resolved: resolved?,
            desk: desk?,
            recorded: recorded?,
        })
    }

    fn faults(&self) -> Vec<String> {
        [
            self.clocked.faults(),
            self.passed_on.faults(),
            self.walked.faults(),
            self.returned.faults(),
            self.resolved.faults(),
            self.desk.faults(),
            self.recorded.faults(),
        ]
        .concat()
    }

    fn said(&self) -> String {
        format!(
            "{} readings by the true clock; {} behind an old gateway; {} differences in {} pairs of lists; \
             {} telegrams with remedy texts there and back; {} addresses in {} trains from their records; \
             {} summaries of the doors of {} trains; {} steps of {} recordings; {} shown values exact",
            self.clocked.readings(),
            self.passed_on.readings(),
            self.walked.differences,
            self.walked.pairs,
            self.returned.telegrams,
            self.resolved.resolved,
            self.resolved.trains,
            self.desk.summaries,
            self.desk.trains,
            self.recorded.steps,
            self.recorded.recordings,
            self.exact
        )
    }
}

/// All cases; gives whether all is well.
fn compare(cases: u64, seed: u64, memory: Memory) -> bool {
    let mut run = Run::new(memory);
    let mut all_well = true;
    exhaustive::each(|case| {
        let name = format!("exhaustive case {}", run.tried);
        all_well = all_well && run.compare(&name, &case, None);
    });
    if !all_well {
        return false;
    }
    let exhaustive = run.tried;
    let mut reached = Reached::new();
    for number in 0..cases {
        let case = generate::case(&Random::of_case(seed, number));
        let name = format!("case {number} of seed {seed}");
        if !run.compare(&name, &case, Some(&mut reached)) {
            return false;
        }
    }
    let Some(runs) = Runs::new(cases, seed) else {
        return false;
    };
    print!("{reached}{}{}", runs.clocked, runs.passed_on);
    print!("{}{}", runs.walked, runs.returned);
    print!("{}{}{}", runs.resolved, runs.desk, runs.recorded);
    let faults = [reached.faults(), runs.faults()].concat();
    if !faults.is_empty() {
        println!("{}", faults.join("\n"));
        return false;
    }
    println!(
        "{cases} cases of seed {seed} and {exhaustive} exhaustive ones: no difference; \
         {} kinds of answer, all reached; {}; {} s",
        reached.rows(),
        runs.said(),
        run.started.elapsed().as_secs()
    );
    true
}

fn main() -> ExitCode {
    let Some(arguments) = arguments() else {
        eprintln!("usage: compare [--guard] [CASES] [SEED]");
        eprintln!("       compare [--guard] --case NUMBER [SEED]");
        return ExitCode::from(2);
    };
    fault::watch();
    let mut memory = match arguments.guard {
        true => Memory::guarded(),
        false => Memory::Heap,
    };
    if let Some(number) = arguments.only {
        fault::note("this case");
        let case = generate::case(&Random::of_case(arguments.seed, number));
        run::print(&case, &mut memory);
        return ExitCode::SUCCESS;
    }
    match compare(arguments.cases, arguments.seed, memory) {
        true => ExitCode::SUCCESS,
        false => ExitCode::FAILURE,
    }
}
