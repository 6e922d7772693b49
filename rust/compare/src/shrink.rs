//! Makes a case that shows a difference smaller, for as long as it still shows one.

use std::ops::Range;

use crate::case::{Call, Case};
use crate::records::RECORD;
use reference::{SLOT, STORE};

/// How many cases are tried before the smallest so far has to do.
const TRIES: usize = 30_000;

/// One way to make a case smaller.
enum Step {
    /// A list loses an entry of a section.
    Entry(usize, usize, usize),
    /// A number, a value, or the length of a text, becomes another.
    Number(usize, u64),
    Value(usize, u64),
    Length(usize, u16),
    /// A block to be written goes, with its key, its length and its text.
    Block(usize),
    /// Values that are read into are 0.
    Blank(Range<usize>),
    /// A vehicle goes, with its record and its pair, or with its mark and its slot, or with its slot and what is lent for its signals.
    Vehicle(usize),
    /// A run of octets of the data of a step is left out, or set to 0, in the last one's, in those before and in those after.
    Shorter(Range<usize>),
    Emptied(Range<usize>),
    /// A run of octets of an area is left out, or set to 0.
    Without(usize, Range<usize>),
    Zeroed(usize, Range<usize>),
    /// An octet loses a bit.
    Cleared(usize, usize, u8),
}

pub fn shrunk(case: &Case, mut still_differs: impl FnMut(&Case) -> bool) -> Case {
    let mut best = case.clone();
    let mut tries = 0;
    'again: loop {
        for step in steps(&best) {
            let smaller = taken(&best, &step);
            if smaller.size() >= best.size() {
                continue;
            }
            tries += 1;
            if tries > TRIES {
                return best;
            }
            if still_differs(&smaller) {
                best = smaller;
                continue 'again;
            }
        }
        return best;
    }
}

/// The boldest steps come first.
fn steps(case: &Case) -> Vec<Step> {
    let mut steps = Vec::new();
    for i in 0..case.areas.len() {
        let Some(list) = case.list_at(i) else {
            continue;
        };
        let lens = [
            list.checks.len(),
            list.signals.len(),
            list.codes.len(),
            list.routes.len(),
        ];
        for (section, len) in lens.into_iter().enumerate().rev() {
            steps.extend((0..len).rev().map(|at| Step::Entry(i, section, at)));
        }
    }
    for (i, &n) in case.numbers.iter().enumerate() {
        steps.extend([0, 1, n / 2, n.wrapping_sub(1)].map(|to| Step::Number(i, to)));
    }
    steps.extend(value_steps(case));
    for (i, &n) in case.lengths.iter().enumerate() {
        steps.push(Step::Block(i));
        steps.extend([0, n / 2, n.saturating_sub(1)].map(|to| Step::Length(i, to)));
    }
    let vehicles = match case.call {
        Call::Christen => case.areas[1].len(),
        Call::Doors => case.areas[2].len(),
        Call::ReadTrain => case.numbers[2].min(63) as usize,
        _ => 0,
    };
    steps.extend((0..vehicles).rev().map(Step::Vehicle));
    if case.call == Call::CheckStep {
        for run in runs(case.areas[3].len()) {
            steps.extend([Step::Shorter(run.clone()), Step::Emptied(run)]);
        }
    }
    (0..case.areas.len()).for_each(|i| steps.extend(area_steps(case, i)));
    steps
}

/// Of the values, which are many where they are read into.
fn value_steps(case: &Case) -> Vec<Step> {
    if case.call.writes_values() {
        let runs = runs(case.values.len()).into_iter();
        return runs.map(Step::Blank).collect();
    }
    let values = case.values.iter().enumerate();
    let steps = values.flat_map(|(i, &n)| [0, n / 2].map(|to| Step::Value(i, to)));
    steps.collect()
}

/// All of so many octets, each half of them, and so on to each alone.
fn runs(octets: usize) -> Vec<Range<usize>> {
    let mut runs = Vec::new();
    let mut len = octets;
    while len > 0 {
        let firsts = (0..octets).step_by(len);
        runs.extend(firsts.map(|first| first..(first + len).min(octets)));
        len /= 2;
    }
    runs
}

/// Of the octets of an area.
fn area_steps(case: &Case, i: usize) -> Vec<Step> {
    let (mut steps, area) = (Vec::new(), &case.areas[i]);
    for run in runs(area.len()) {
        if area[run.clone()].iter().any(|&octet| octet != 0) {
            steps.push(Step::Zeroed(i, run.clone()));
        }
        if !case.is_fixed(i) {
            steps.push(Step::Without(i, run));
        }
    }
    for (at, octet) in area.iter().enumerate() {
        let set = (0..8).map(|bit| 1 << bit).filter(|bit| octet & bit != 0);
        steps.extend(set.map(|bit| Step::Cleared(i, at, bit)));
    }
    steps
}

fn taken(case: &Case, step: &Step) -> Case {
    let mut case = case.clone();
    match step {
        &Step::Entry(i, section, at) => without_entry(&mut case, i, section, at),
        &Step::Number(i, to) => case.numbers[i] = to,
        &Step::Value(i, to) => case.values[i] = to,
        &Step::Length(i, to) => case.lengths[i] = to,
        &Step::Block(at) => without_block(&mut case, at),
        Step::Blank(run) => case.values[run.clone()].fill(0),
        &Step::Vehicle(at) if case.call == Call::Doors => without_slot(&mut case, at),
        &Step::Vehicle(at) if case.call == Call::ReadTrain => without_read(&mut case, at),
        &Step::Vehicle(at) => without_vehicle(&mut case, at),
        Step::Shorter(run) => for_data(&mut case, run, |data, run| drop(data.drain(run))),
        Step::Emptied(run) => for_data(&mut case, run, |data, run| data[run].fill(0)),
        Step::Without(i, run) => drop(case.areas[*i].drain(run.clone())),
        Step::Zeroed(i, run) => case.areas[*i][run.clone()].fill(0),
        &Step::Cleared(i, at, bit) => case.areas[i][at] &= !bit,
    }
    case
}

/// Does something to a run of octets of all data of a step, as far as they are there.
fn for_data(case: &mut Case, run: &Range<usize>, mut does: impl FnMut(&mut Vec<u8>, Range<usize>)) {
    for data in [1, 3, 4] {
        let data = &mut case.areas[data];
        let end = run.end.min(data.len());
        does(data, run.start.min(end)..end);
    }
}

/// The list less one entry, with whatever named it; to be composed, its mark or value goes too, and to be read, what is lent for it.
fn without_entry(case: &mut Case, i: usize, section: usize, at: usize) {
    let Some(mut list) = case.list_at(i) else {
        return;
    };
    let composed = case.call == Call::Compose;
    match section {
        0 => {
            list.remove_check(at);
            if composed && at < case.areas[1].len() {
                case.areas[1].remove(at);
            }
        }
        1 => {
            if case.call.writes_values() {
                let signals = list.signals.len();
                without_entries(case, |entry| entry % signals == at);
            }
            list.remove_signal(at);
            if composed && at < case.values.len() {
                case.values.remove(at);
            }
        }
        2 => drop(list.codes.remove(at)),
        _ => drop(list.routes.remove(at)),
    }
    case.areas[i] = list.octets();
}

/// One block less to be written, as far as its key and its text are there.
fn without_block(case: &mut Case, at: usize) {
    let before: usize = case.lengths[..at].iter().map(|&len| usize::from(len)).sum();
    let len = usize::from(case.lengths.remove(at));
    let [.., keys, texts, _] = &mut case.areas[..] else {
        return;
    };
    if at < keys.len() {
        keys.remove(at);
    }
    let end = texts.len().min(before + len);
    texts.drain(before.min(end)..end);
}

/// One vehicle less, as far as its record is there.
fn without_vehicle(case: &mut Case, at: usize) {
    let records = &mut case.areas[0];
    let [from, end] = [at, at + 1].map(|record| (RECORD * record).min(records.len()));
    records.drain(from..end);
    case.areas[1].remove(at);
}

/// The slots behind a vehicle's move up over it, if the store has any.
fn move_up(store: &mut [u8], at: usize) {
    let slot = SLOT * at;
    if store.len() == STORE && slot < STORE {
        store.copy_within(slot + SLOT.., slot);
        store[STORE - SLOT..].fill(0);
    }
}

/// Some of what is lent for signals to be read goes.
fn without_entries(case: &mut Case, goes: impl Fn(usize) -> bool) {
    let mut entry = 0..;
    case.values.retain(|_| !entry.next().is_some_and(&goes));
    let mut entry = 0..;
    case.areas[2].retain(|_| !entry.next().is_some_and(&goes));
}

/// One vehicle less to be read.
fn without_read(case: &mut Case, at: usize) {
    let signals = case.list_at(0).map_or(0, |list| list.signals.len());
    without_entries(case, |entry| entry.checked_div(signals) == Some(at));
    move_up(&mut case.areas[1], at);
    case.numbers[2] -= 1;
}

/// One vehicle less; the slots of those behind it move up, and who was asked for by a number is asked for by the next lower.
fn without_slot(case: &mut Case, at: usize) {
    move_up(&mut case.areas[1], at);
    let address = &mut case.numbers[2];
    if (at as u64 + 2..=63).contains(address) {
        *address -= 1;
    }
    case.areas[2].remove(at);
}

#[cfg(test)]
mod tests {
    use super::*;
    use crate::list::List;
    use crate::memory::on_heap;
    use crate::random::Random;
    use crate::sides::by_reference;
    use crate::{doors, generate, make, readings, steps};
    use reference::{Form, SIGNAL_SIZE};

    #[test]
    fn what_shows_the_difference_stays() {
        // Shown by any octet 7, so that one octet must be left.
        let sevens = |case: &Case| case.areas.iter().flatten().any(|&octet| octet == 7);
        for number in 0..100 {
            let case = generate::case(&Random::of_case(5, number));
            if sevens(&case) && case.size() < 1_000 {
                let small = shrunk(&case, sevens);
                let mut octets = small.areas.concat();
                // An array keeps its octets.
                octets.retain(|&octet| octet != 0);
                assert_eq!(octets, [7]);
            }
        }
    }

    /// Of those that hold a side up, one is left, and both doors of the list.
    #[test]
    fn a_train_loses_its_vehicles() {
        let open = |case: &Case| on_heap(by_reference, case).answer.gives[0] == doors::OPEN;
        for number in 0..40 {
            let case = doors::doors(&Random::of_case(7, number));
            if case.numbers[2] == 66 && open(&case) {
                let small = shrunk(&case, open);
                assert_eq!(small.areas[2].len(), 1);
                let size = Form::of(small.numbers[0]).signal_size();
                assert_eq!(small.areas[0].len(), 4 * 2 + 2 * size);
            }
        }
    }

    /// Of a code that is not known, of one vehicle's signals behind another's, one signal is left, and both vehicles' entries of it.
    #[test]
    fn a_train_loses_its_readings() {
        let unknown = |case: &Case| {
            let after = on_heap(by_reference, case);
            let second = after.areas[2].len() / case.numbers[2].max(1) as usize;
            after.answer.refusal == 0 && after.areas[2][second..].contains(&8)
        };
        let mut tried = 0;
        for number in 0..200 {
            let case = readings::read_train(&Random::of_case(9, number));
            if case.size() < 12_000 && case.numbers[2] < 64 && unknown(&case) {
                tried += 1;
                let small = shrunk(&case, unknown);
                let list = small.list_at(0).unwrap();
                assert_eq!([list.signals.len(), list.codes.len()], [1, 1]);
                assert_eq!((&small.values[..], small.numbers[2]), (&[0; 2][..], 2));
                assert_eq!(small.areas[2], [0; 2]);
            }
        }
        assert!(tried > 2, "{tried}");
    }

    /// Of a wrong bit of a route, behind other steps, one route and the octets that it needs are left.
    #[test]
    fn a_step_loses_its_data() {
        let wrong = |case: &Case| {
            let answer = on_heap(by_reference, case).answer;
            answer.refusal == 0 && answer.gives[3] == 1 && case.numbers[1] > 0
        };
        let mut tried = 0;
        for number in 0..60 {
            let case = steps::check_step(&Random::of_case(8, number));
            if case.size() < 12_000 && wrong(&case) {
                tried += 1;
                let small = shrunk(&case, wrong);
                let list = small.list_at(0).unwrap();
                assert_eq!([list.signals.len(), list.routes.len()], [1, 1]);
                let lens = [1, 3, 4].map(|data| small.areas[data].len());
                assert_eq!(lens, [steps::needed(&list); 3]);
                assert_eq!(small.numbers[1], 1);
            }
        }
        assert!(tried > 2, "{tried}");
    }

    #[test]
    fn a_list_loses_its_entries() {
        let signals =
            |case: &Case| reference::judge(&case.areas[0], Form::One).map_or(0, |n| n.signals);
        for number in 0..20 {
            let list = make::list(&Random::of_case(6, number));
            let list = List { form: 1, ..list }.octets();
            let case = Case::new(Call::Judge, vec![list], vec![1]);
            if signals(&case) > 0 {
                let small = shrunk(&case, |case| signals(case) > 0);
                assert_eq!(small.areas[0].len(), 4 * 2 + SIGNAL_SIZE);
            }
        }
    }
}
