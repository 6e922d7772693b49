//! Instructions. What counts them says how many were executed each time [`bench_mark`] is entered, since the last time.

use crate::cases::{nothing, Case};

#[no_mangle]
#[inline(never)]
pub extern "C" fn bench_mark() {
    std::hint::black_box(());
}

/// Runs nothing, then both sides of every case: each once and then, between two marks, so often.
pub fn run(cases: Vec<Case>, runs: u64) {
    let sides = cases.into_iter().flat_map(|case| [case.proved, case.rust]);
    for mut side in std::iter::once(nothing()).chain(sides) {
        side(1);
        bench_mark();
        side(runs);
        bench_mark();
    }
}

/// The instructions of one call of each case, proved and not, from a file with a number for each mark. The loop around the calls, which
/// the run of nothing has too, does not count.
pub fn read(cases: &[Case], runs: u64, file: &str) -> Vec<(f64, f64)> {
    let text = std::fs::read_to_string(file).unwrap_or_else(|error| panic!("{file}: {error}"));
    let number = |line: &str| line.parse().expect("a count");
    let marks: Vec<f64> = text.lines().map(number).collect();
    assert_eq!(marks.len(), 2 + 4 * cases.len(), "{file}: two marks a run");
    let one = |case: &Case, count: f64| (count - marks[1]) / (runs * case.calls) as f64;
    let of = |(case, marks): (&Case, &[f64])| (one(case, marks[1]), one(case, marks[3]));
    cases.iter().zip(marks[2..].chunks(4)).map(of).collect()
}
