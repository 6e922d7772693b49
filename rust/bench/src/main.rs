//! `bench`: the proved library beside the independent implementation, as tables in Markdown.
//!
//!     bench                       times, and how they grow
//!     bench count RUNS            makes every call so often between two marks, for what counts instructions
//!     bench counted RUNS FILE ..  the counts, one for each mark, of one machine or more
//!     bench worst SECONDS SEED FOLDER
//!                                 the slowest input of each call that is found in so many seconds, and its list and store into the folder
//!     bench lookup                with the feature `lookup`: known codes by halving and by the linear scan that stood before

mod calls;
mod cases;
mod changes;
mod counts;
mod growth;
mod lists;
#[cfg(feature = "lookup")]
mod lookup;
mod measure;
mod proved;
mod random;
mod readings;
mod rust;
mod shape;
mod starts;
mod worst;

use cases::Case;
use measure::Times;

/// The calls whose growth is counted too.
const COUNTED: [&str; 3] = ["judge", "extends", "marshal"];

fn time(nanoseconds: f64) -> String {
    let places = |number: f64| {
        if number < 10.0 {
            2
        } else {
            usize::from(number < 100.0)
        }
    };
    let (number, unit) = match nanoseconds {
        ..1e3 => (nanoseconds, "ns"),
        ..1e6 => (nanoseconds / 1e3, "µs"),
        _ => (nanoseconds / 1e6, "ms"),
    };
    format!("{number:.*} {unit}", places(number))
}

fn row(name: &str, (proved, rust): (Times, Times)) {
    let both = |proved: f64, rust: f64| {
        format!("{} | {} | {:.2}", time(proved), time(rust), proved / rust)
    };
    println!(
        "| {name} | {} | {} |",
        both(proved.median, rust.median),
        both(proved.fastest, rust.fastest)
    );
}

fn timed() {
    cases::refused_alike();
    for cases in [cases::all(), growth::cases(None)] {
        let times = ["proved, median", "Rust, median", "ratio"];
        let fastest = ["proved, fastest", "Rust, fastest", "ratio"];
        head(&[&["call"], &times[..], &fastest[..]].concat());
        for mut case in cases {
            let times = measure::both(&mut case);
            row(&case.name, times);
        }
        println!();
    }
}

/// The calls that are counted, no name twice.
fn all() -> Vec<Case> {
    let mut cases = cases::all();
    for case in growth::cases(Some(&COUNTED)) {
        if cases.iter().all(|other| other.name != case.name) {
            cases.push(case);
        }
    }
    cases
}

/// The table's head: a word for each column, of which all but the first are numbers.
fn head(columns: &[&str]) {
    println!("| {} |", columns.join(" | "));
    println!("|---|{}", "---:|".repeat(columns.len() - 1));
}

fn counted(files: &[&str]) {
    let cases = all();
    let mut columns = vec!["call"];
    let mut counts = Vec::new();
    for of in files.chunks_exact(2) {
        columns.extend(["proved", "Rust", "ratio"]);
        counts.push(counts::read(&cases, number(of[0]), of[1]));
    }
    head(&columns);
    for (row, case) in cases.iter().enumerate() {
        let told = |of: &Vec<(f64, f64)>| {
            let (proved, rust) = of[row];
            format!("{proved:.0} | {rust:.0} | {:.2}", proved / rust)
        };
        let told: Vec<String> = counts.iter().map(told).collect();
        println!("| {} | {} |", case.name, told.join(" | "));
    }
}

fn number(word: &str) -> u64 {
    word.parse().unwrap_or_else(|_| panic!("{word}: no number"))
}

fn main() {
    let words: Vec<String> = std::env::args().skip(1).collect();
    let words: Vec<&str> = words.iter().map(String::as_str).collect();
    match words[..] {
        [] => timed(),
        #[cfg(feature = "lookup")]
        ["lookup"] => lookup::timed(),
        ["count", runs] => counts::run(all(), number(runs)),
        ["counted", ref files @ ..] => counted(files),
        ["worst", seconds, seed, folder] => worst::searched(number(seconds), number(seed), folder),
        _ => panic!("usage: bench, bench count RUNS, bench counted RUNS FILE .., or bench worst SECONDS SEED FOLDER"),
    }
}
