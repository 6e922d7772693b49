//! Refusals and reasons by number and in words, and the refusals of calls as errors.

use dustferrule::{
    check_step, christen, codes_gained, compose, doors, find_signal, judge, judge_profile,
    property, read, read_all, read_remedies, read_train, route_change, show, signal_change, take,
    write_remedies, Doors, Error, Finding, Form, Kind, Level, Members, Place, Profile, Property,
    Reason, Refusal, Refused, Rule, Side, State, WrongBit, STORE_OCTETS,
};

/// The list L of document 01.
const L: [u8; 44] = [
    0, 1, 0x01, 0x42, 0, 1, 0x01, 0xA8, 4, 1, 1, 1, 0, 0, 0x13, 0x88, 0, 0, 0, 0, 0, 0, 0, 2, 0, 0,
    0, 0, 0, 6, 0, 0, 0, 15, 0, 15, 0, 1, 0, 0, 1, 0, 0, 0,
];

#[test]
fn each_number_is_there_once() {
    let refusals: Vec<u8> = Refusal::ALL
        .iter()
        .map(|refusal| refusal.number())
        .collect();
    assert_eq!(refusals, (1..=38).collect::<Vec<u8>>());
    let reasons: Vec<u8> = Reason::ALL.iter().map(|reason| reason.number()).collect();
    assert_eq!(reasons, (0..=8).collect::<Vec<u8>>());
    for &refusal in Refusal::ALL {
        assert_eq!(Refusal::of(refusal.number().into()), Some(refusal));
    }
    for &reason in Reason::ALL {
        assert_eq!(Reason::of(reason.number().into()), Some(reason));
        assert_eq!(reason.is_live(), reason.number() < 2);
    }
    for none in [0, 39] {
        assert_eq!(Refusal::of(none), None);
    }
    assert_eq!(Reason::of(9), None);
    // Not cut to fewer bits.
    assert_eq!((Refusal::of(257), Reason::of(256)), (None, None));
}

#[test]
fn errors_say_what_they_carry() {
    let error = judge(&L[..43], Form::One).unwrap_err();
    assert_eq!((error.refusal, error.carried), (Refusal::ListEnds, 36));
    assert_eq!(
        error.to_string(),
        "refused 1 at 36: list ends inside a count or a section"
    );

    let error = compose(&L, Form::One, 1, &[7], &[1], &mut [0; 128]).unwrap_err();
    assert_eq!((error.refusal, error.carried), (Refusal::ValueUnfit, 0));
    assert_eq!(
        error.to_string(),
        "refused 15 signal 0: a written value at or above 2^width, or its code not known"
    );

    let error = find_signal(&L, Form::One, 1, 425).unwrap_err();
    assert_eq!(
        error,
        Error {
            refusal: Refusal::NoSuchSignal,
            carried: 0
        }
    );
    assert_eq!(error.to_string(), "refused 11: no such signal");

    let store = [0; STORE_OCTETS];
    let error = show(&L, Form::One, &store, 0, 1, 0, Kind::Speed).unwrap_err();
    assert_eq!((error.refusal, error.carried), (Refusal::ScaledKind, 0));
    assert_eq!(
        error.to_string(),
        "refused 26: scaled kind, with width not 16"
    );

    // Its signal is of R1, which a plain coach's list has none of.
    let error = judge_profile(Profile::PlainCoach, &L, Form::One).unwrap_err();
    assert_eq!((error.refusal, error.carried), (Refusal::Profile, 6));
    assert_eq!(error.to_string(), "refused 34 at 6: profile rule broken");
    assert!(judge_profile(Profile::DrivingTrailer, &L, Form::One).is_ok());
}

/// Two empty texts: an octet of them is missing, octet 23 is to be 2, and both have one key.
#[test]
fn errors_of_remedy_texts() {
    let mut telegram = [0; 42];
    let write = |ordered, out: &mut [u8]| {
        write_remedies(&[0; 6], &[0; 12], 0, ordered, &[1, 2], &[0, 0], &[], out)
    };
    assert_eq!(write(0, &mut telegram), Ok(42));
    let said = |error: Error| (error.refusal, error.carried, error.to_string());
    let past = "refused 28: block runs past the end, or octets after the last";
    assert_eq!(
        read_remedies(&telegram[..41]).map_err(said),
        Err((Refusal::BlockPast, 0, past.to_string()))
    );
    let field = "refused 29: field out of its range or length that disagrees";
    assert_eq!(
        write(2, &mut telegram).map_err(said),
        Err((Refusal::RemedyField, 0, field.to_string()))
    );
    telegram[38] = 1;
    assert_eq!(
        read_remedies(&telegram).map_err(said),
        Err((Refusal::KeyTwice, 0, "refused 30: key twice".to_string()))
    );
}

/// Two vehicles of which both lead: an octet of their records is missing, or all is there; and no vehicle.
#[test]
fn errors_of_christening() {
    let mut marks = [0xEE; 63];
    let said = |error: Error| (error.refusal, error.carried, error.to_string());
    let misfit = "refused 31: record area not a whole number of records, or not as many pairs of marks as records";
    assert_eq!(
        christen(&[0; 111], &[1, 1], &mut marks).map_err(said),
        Err((Refusal::RecordsMisfit, 0, misfit.to_string()))
    );
    let refusal = |error: Error| error.refusal;
    let rule = christen(&[0; 112], &[1, 1], &mut marks);
    assert_eq!(rule.map_err(refusal), Err(Refusal::ConsistRule));
    let none = christen(&[], &[], &mut marks);
    assert_eq!(none.map_err(refusal), Err(Refusal::ConsistLength));
    assert_eq!(marks, [0xEE; 63]);
    assert_eq!(christen(&[0xFF; 112], &[1, 8], &mut marks), Ok(2));
    assert_eq!(marks[..3], [23, 30, 0xEE]);
}

/// Each level by its number in the header.
#[test]
fn properties_of_both_levels() {
    let mut record = [0; 56];
    record[50] = 8;
    let property = |row| property(&record, row);
    let of = |level, octet, bit, holds| {
        Some(Property {
            level,
            octet,
            bit,
            holds,
        })
    };
    assert_eq!(property(13), of(Level::Vehicle, 51, 4, true));
    assert_eq!(property(142), of(Level::Gateway, 23, 7, false));
    assert_eq!([property(133), property(u32::MAX)], [None, None]);
    assert_eq!([Level::Gateway as u8, Level::Vehicle as u8], [0, 1]);
}

/// Of L a value and a reason too few or too many, also for a train of three, and nobody to read them of.
#[test]
fn errors_of_readings() {
    let store = [0; STORE_OCTETS];
    let said = |error: Error| (error.refusal, error.carried, error.to_string());
    let refused = |of: Refusal, said: &str| Err((of, 0, said.to_string()));
    let misfit = refused(
        Refusal::ValuesOrMarks,
        "refused 13: values or marks not one per entry",
    );
    let nobody = refused(Refusal::Vehicle, "refused 6: vehicle not 1-63");
    let (mut values, mut reasons) = ([7; 3], [7; 3]);
    let mut all = |vehicle, v: usize, r: usize, store: &[u8]| {
        let to = (&mut values[..v], &mut reasons[..r]);
        read_all(&L, Form::One, store, 0, vehicle, to.0, to.1).map_err(said)
    };
    for (values, reasons) in [(0, 0), (0, 1), (1, 0), (2, 1), (1, 2)] {
        assert_eq!(all(1, values, reasons, &store), misfit);
        assert_eq!(all(64, values, reasons, &store), nobody);
    }
    let short = all(0, 0, 0, &store[1..]).map_err(|of| of.0);
    assert_eq!(short, Err(Refusal::StoreLength));
    let mut train = |last, v: usize, r: usize, list: &[u8]| {
        let to = (&mut values[..v], &mut reasons[..r]);
        read_train(list, Form::One, &store, 0, last, to.0, to.1).map_err(said)
    };
    assert_eq!(train(3, 2, 3, &L), misfit);
    assert_eq!(train(2, 2, 3, &L), misfit);
    assert_eq!(train(0, 0, 0, &L), nobody);
    let cut = train(0, 0, 0, &L[..43]).map_err(|of| (of.0, of.1));
    assert_eq!(cut, Err((Refusal::ListEnds, 36)));
    assert_eq!((values, reasons), ([7; 3], [7; 3]));
}

/// The numbers that are written are those of [`Reason`].
#[test]
fn reasons_of_readings() {
    let mut store = [0; STORE_OCTETS];
    let mut telegram = [0; 128];
    (telegram[0], telegram[53]) = (0x11, 0x40);
    for (vehicle, octet_41) in [(1, 0x10), (3, 0x20), (4, 0x00)] {
        telegram[40] = octet_41;
        assert_eq!(take(&mut store, vehicle, 0, &telegram), Ok(()));
    }
    let (mut values, mut reasons) = ([7; 4], [7; 4]);
    let read = read_train(&L, Form::One, &store, 0, 4, &mut values, &mut reasons);
    assert_eq!((read, values), (Ok(()), [4, 0, 4, 0]));
    let wanted = [
        Reason::LiveOk,
        Reason::NeverHeard,
        Reason::LiveForced,
        Reason::MarkError,
    ];
    let named = reasons.map(|number| Reason::of(number.into()));
    assert_eq!(named, wanted.map(Some));
    let (mut value, mut reason) = ([7], [7]);
    let read = read_all(&L, Form::One, &store, 5_001, 3, &mut value, &mut reason);
    assert_eq!((read, value), (Ok(()), [0]));
    assert_eq!(Reason::of(reason[0].into()), Some(Reason::TooOld));
}

/// L, from AB: vehicle 1 was never heard, so that ours is 0B.
#[test]
fn errors_of_recordings() {
    let store = [0; STORE_OCTETS];
    let check = |steps, last: &[u8], store: &[u8], before: &[u8], after: &[u8]| {
        let found = check_step(&L, Form::One, steps, last, store, 0, before, after);
        found.map_err(|error| (error.refusal, error.carried, error.to_string()))
    };
    let refused = |refusal, said: &str| Err((refusal, 0, said.to_string()));
    assert_eq!(
        check(999, &[0xAB], &store, &[0xAB], &[0x0B]),
        Ok(Finding::Right)
    );
    let many = refused(Refusal::StepsTooMany, "refused 38: more than 1,000 steps");
    assert_eq!(check(1_000, &[], &[], &[], &[0]), many);
    let data = refused(
        Refusal::DataLengths,
        "refused 36: data areas differ in length",
    );
    assert_eq!(check(1, &[], &store, &[0xAB], &[]), data);
    let broken = refused(Refusal::StepBroken, "refused 37: step does not follow on");
    assert_eq!(check(1, &[], &store, &[0xAB], &[0]), broken);
    assert_eq!(check(0, &[], &store, &[0xAB], &[0x0B]), Ok(Finding::Right));
    let refusal = |store: &[u8]| check(1, &[], store, &[], &[0]).map_err(|of| of.0);
    assert_eq!(refusal(&store), Err(Refusal::DataShort));
    assert_eq!(refusal(&store[1..]), Err(Refusal::StoreLength));
    let cut = check_step(&L[..43], Form::One, 0, &[], &[], 0, &[], &[0]).unwrap_err();
    assert_eq!((cut.refusal, cut.carried), (Refusal::ListEnds, 36));
}

/// A bit off in the route, and behind it, in the last of 300 octets.
#[test]
fn where_a_wrong_bit_lies() {
    let store = [0; STORE_OCTETS];
    let found = |octet: usize, weight: u8| {
        let mut after = [0; 300];
        after[octet] = weight;
        check_step(&L, Form::One, 0, &[], &store, 0, &[0; 300], &after)
    };
    let wrong = |octet, bit, place| Ok(Finding::Wrong(WrongBit { octet, bit, place }));
    let in_route = Place::InRoute {
        route: 0,
        reason: Reason::NeverHeard,
    };
    assert_eq!(found(0, 0x10), wrong(0, 3, in_route));
    assert_eq!(found(0, 0x08), wrong(0, 4, Place::Outside));
    assert_eq!(found(299, 0x01), wrong(299, 7, Place::Outside));
}

/// Octet 20 bits 4 and 5, with no check and no time limit.
const DOORS: [u8; 40] = [
    0, 0, 0, 2, 0, 156, 1, 0, 0, 1, 0, 0, 0, 0, 0, 0, 0, 0, 0, 0, 0, 157, 1, 0, 0, 1, 0, 0, 0, 0,
    0, 0, 0, 0, 0, 0, 0, 0, 0, 0,
];

/// A list without doors, and with them an empty train, an address that is none, and one that nobody meets.
#[test]
fn errors_of_doors() {
    let store = [0; STORE_OCTETS];
    let show = |list: &[u8], marks: &[u8], address| {
        let shown = doors(list, Form::One, &store, 0, marks, address);
        shown.map_err(|error| (error.refusal, error.carried, error.to_string()))
    };
    let missing = "refused 35: door signal missing from the list".to_string();
    let refused = Err((Refusal::DoorMissing, 0, missing));
    assert_eq!(show(&L, &[], 0), refused);
    let refusal = |marks: &[u8], address| show(&DOORS, marks, address).map_err(|of| of.0);
    assert_eq!(refusal(&[], 66), Err(Refusal::ConsistLength));
    assert_eq!(refusal(&[1, 1], 66), Err(Refusal::ConsistRule));
    assert_eq!(refusal(&[2], 68), Err(Refusal::AddressUnlisted));
    assert_eq!(refusal(&[2], 64), Err(Refusal::NobodyMeets));
    let short = doors(&L, Form::One, &store[1..], 0, &[], 0);
    assert_eq!(short.map_err(|e| e.refusal), Err(Refusal::StoreLength));
    let cut = "refused 1 at 38: list ends inside a count or a section".to_string();
    let refused = Err((Refusal::ListEnds, 38, cut));
    assert_eq!(show(&DOORS[..39], &[], 0), refused);
}

/// Each state by its number in the header: vehicle 1 is locked, vehicle 2 open on the right, vehicle 3 never heard.
#[test]
fn doors_in_each_state() {
    let mut store = [0; STORE_OCTETS];
    let mut telegram = [0; 40];
    telegram[0] = 0x13;
    for (vehicle, octet_20) in [(1, 0x0C), (2, 0x08)] {
        telegram[19] = octet_20;
        assert_eq!(take(&mut store, vehicle, 0, &telegram), Ok(()));
    }
    let show = |marks: &[u8]| doors(&DOORS, Form::One, &store, 0, marks, 66);
    let side = |state, set: u64| Side {
        state,
        kept: Members {
            set,
            size: set.count_ones(),
        },
    };
    let both = |left, right| Ok(Doors { left, right });
    let locked = side(State::Locked, 0);
    assert_eq!(show(&[2]), both(locked, locked));
    assert_eq!(show(&[2; 2]), both(locked, side(State::Open, 4)));
    let (unknown, open) = (side(State::Unknown, 8), side(State::Open, 4 | 8));
    assert_eq!(show(&[2; 3]), both(unknown, open));
    let states = [State::Unknown, State::Locked, State::Open];
    assert_eq!(states.map(|state| state as u8), [0, 1, 2]);
}

#[test]
fn an_error_goes_up_as_any_other() {
    fn value(list: &[u8]) -> Result<u64, Box<dyn std::error::Error>> {
        let signal = find_signal(list, Form::One, 1, 424)?;
        Ok(read(list, Form::One, &[0; STORE_OCTETS], 0, 1, signal)?.value)
    }
    assert_eq!(value(&L).unwrap(), 0);
    assert_eq!(
        value(&L[..1]).unwrap_err().to_string(),
        "refused 1 at 0: list ends inside a count or a section"
    );
}

/// Of two lists it is said which, as the programs do.
#[test]
fn which_of_two_lists() {
    let short = &L[..43];
    let Err(refused) = signal_change(&L, Form::One, short, Form::One, 0) else {
        panic!("the second list is not refused");
    };
    let error = judge(short, Form::One).unwrap_err();
    assert_eq!(refused, Refused::Second(error));
    assert_eq!(
        refused.to_string(),
        "refused 1 at 36 (second list): list ends inside a count or a section"
    );
    let refused = route_change(short, Form::One, &[], Form::One, 0).unwrap_err();
    assert_eq!(
        refused.to_string(),
        "refused 1 at 36 (first list): list ends inside a count or a section"
    );
    let refused = codes_gained(short, Form::One, &[], Form::One, 0, 0).unwrap_err();
    assert_eq!(refused, Refused::First(error));
}

/// Each rule by its number in the header: L with a change that breaks it.
#[test]
fn what_a_difference_breaks() {
    let none = [0; 8];
    let breaks = |a: &[u8], b: &[u8]| {
        let change = signal_change(a, Form::One, b, Form::One, 0).unwrap();
        change.and_then(|change| change.breaks)
    };
    let with = |at: usize, octet: u8| {
        let mut list = L;
        list[at] = octet;
        breaks(&L, &list)
    };
    assert_eq!(with(8, 5), Some(Rule::Width));
    assert_eq!(with(10, 0), Some(Rule::Check));
    assert_eq!(with(11, 2), Some(Rule::Since));
    assert_eq!(with(29, 5), Some(Rule::Codes));
    assert_eq!(with(29, 7), None);
    assert_eq!(breaks(&L, &none), Some(Rule::Removed));
    assert_eq!(breaks(&none, &L), Some(Rule::NotNewer));
    let rules = [
        Rule::Width,
        Rule::Check,
        Rule::Since,
        Rule::Codes,
        Rule::Removed,
        Rule::NotNewer,
    ];
    assert_eq!(rules.map(|rule| rule as u8), [1, 2, 3, 4, 5, 6]);
}

#[test]
fn a_reason_in_words() {
    let reading = read(&L, Form::One, &[0; STORE_OCTETS], 0, 1, 0).unwrap();
    assert_eq!(reading.reason, Reason::NeverHeard);
    assert_eq!(format!("{:>12}|", reading.reason), " never heard|");
}
