//! The one description of the messages over both corpora: what is read is written back bit for bit,
//! in the newest edition as the plan unit writes it, and every refused bit has its field's name.

mod common;

use common::{accepted, each_case, each_pair};
use host::messages::{
    case_message, field_at, fields_of, outcome_message, plan_message, read_case, read_lone_outcome,
    read_lone_plan, read_outcome, read_plan, Case, Kind, Plan, NEWEST_EDITION,
};
use host::{
    inspect, judge, market, read_completion, write_case, write_plan, Copied, Fault, Inspected,
    Read, Verdict, Written, LONGEST_CASE, LONGEST_COPY, LONGEST_PLAN,
};

/// Calls `visit` with every case that passes reading, read, and the plans behind it.
fn each_read_case(mut visit: impl FnMut(&[u8], &Case, &[&[u8]])) {
    each_case(|message, plans| {
        if matches!(inspect(message), Inspected::Counts { .. }) {
            let case = read_case(message).expect("the case passes reading");
            visit(message, &case, plans);
        }
    });
}

#[test]
fn cases_are_written_back() {
    let mut cases = 0;
    each_read_case(|message, case, _| {
        assert_eq!(case_message(case).expect("it fits"), message);
        let newest = Case {
            edition: NEWEST_EDITION,
            ..case.clone()
        };
        let mut proved = vec![0; LONGEST_CASE];
        let Written::Message { bytes } = write_case(message, &mut proved) else {
            panic!("a case that passes reading is written");
        };
        proved.truncate(bytes);
        assert_eq!(case_message(&newest).expect("it fits"), proved);
        cases += 1;
    });
    assert!(cases > 700, "{cases}");
}

#[test]
fn plans_are_written_back() {
    let mut plans = 0;
    each_read_case(|case_bytes, case, messages| {
        for message in messages {
            let mut proved = vec![0; LONGEST_PLAN];
            let Written::Message { bytes } = write_plan(case_bytes, message, &mut proved) else {
                continue;
            };
            let plan = read_plan(case, message).expect("the plan passes reading");
            assert_eq!(read_lone_plan(message).as_ref(), Some(&plan));
            assert_eq!(plan_message(&plan).expect("it fits"), *message);
            let edition = NEWEST_EDITION;
            let newest = Plan { edition, ..plan };
            proved.truncate(bytes);
            assert_eq!(plan_message(&newest).expect("it fits"), proved);
            plans += 1;
        }
    });
    assert!(plans > 3_000, "{plans}");
}

/// A completion or a copy is read with its case and without, and written back.
fn hold_outcome(kind: Kind, case: &Case, message: &[u8]) -> Option<i64> {
    let outcome = read_outcome(kind, case.energy_windows(), message).expect("it is whole");
    assert_eq!(read_lone_outcome(kind, message).as_ref(), Some(&outcome));
    assert_eq!(outcome_message(kind, &outcome).expect("it fits"), message);
    assert_eq!(Kind::of(message), Some(kind));
    outcome.surplus
}

#[test]
fn completions_and_copies_are_written_back() {
    let mut plans = 0;
    each_read_case(|case_bytes, case, messages| {
        for message in messages {
            let Some((surplus, completion)) = accepted(case_bytes, message) else {
                continue;
            };
            let read = hold_outcome(Kind::Completion, case, &completion);
            assert_eq!(read, Some(surplus));
            let mut copy = vec![0; LONGEST_COPY];
            let Copied::Written { bytes } = market(case_bytes, message, &mut copy) else {
                panic!("an accepted plan has a copy");
            };
            assert_eq!(hold_outcome(Kind::MarketCopy, case, &copy[..bytes]), None);
            plans += 1;
        }
    });
    assert!(plans > 1_000, "{plans}");
}

/// The place of a refusal: the field that starts at its bit; behind the last field for number 6.
fn hold_refusal(kind: Kind, message: &[u8], windows: Option<usize>, fault: Fault) {
    let Fault { number, bit } = fault;
    let place = field_at(kind, message, bit as usize, windows);
    if number == 6 {
        assert_eq!(place, None);
        return;
    }
    let place = place.expect("a field");
    assert!(!place.name.is_empty());
    assert_eq!(place.bit, bit as usize, "{}", place.name);
    assert_eq!(place.value.is_none(), number == 1, "{}", place.name);
    if let (2..=4, Some(value)) = (number, place.value) {
        let in_range = (place.field.least..=place.field.most).contains(&value);
        // The edition and counts of what is no case are in range and unlike the case's.
        let unlike = kind != Kind::Case && number < 4;
        assert!(!in_range || unlike, "{} is {value}", place.name);
    }
}

#[test]
fn every_refused_bit_has_a_name() {
    let mut refused = [0; 7];
    each_case(|message, _| {
        if let Inspected::CaseRefused(fault) = inspect(message) {
            hold_refusal(Kind::Case, message, None, fault);
            refused[fault.number as usize] += 1;
        }
    });
    each_pair(|case, message| {
        if let Verdict::PlanRefused(fault) = judge(case, message, &mut []) {
            hold_refusal(Kind::Plan, message, None, fault);
            refused[fault.number as usize] += 1;
        }
    });
    assert!(refused[1..].iter().all(|&count| count > 20), "{refused:?}");
}

/// Completions of every twelfth accepted plan, cut at each byte, with other counts and a byte more.
#[test]
fn every_refused_bit_of_a_completion_has_a_name() {
    let (mut plans, mut refused) = (0, [0; 7]);
    each_read_case(|case_bytes, case, messages| {
        for message in messages {
            let Some((_, whole)) = accepted(case_bytes, message) else {
                continue;
            };
            if whole.len() > 2_000 {
                continue;
            }
            plans += 1;
            if plans % 12 != 0 {
                continue;
            }
            let mut damaged: Vec<Vec<u8>> = (0..whole.len()).map(|n| whole[..n].to_vec()).collect();
            damaged.extend((0..24).map(|bit| {
                let mut other = whole.clone();
                other[bit / 8] ^= 0x80 >> (bit % 8);
                other
            }));
            damaged.push([whole.as_slice(), &[0]].concat());
            for message in damaged {
                if let Read::MessageRefused(fault) = read_completion(case_bytes, &message, &mut [])
                {
                    let windows = Some(case.energy_windows());
                    hold_refusal(Kind::Completion, &message, windows, fault);
                    refused[fault.number as usize] += 1;
                }
            }
        }
    });
    assert!(
        [1, 2, 3, 6].iter().all(|&number| refused[number] > 20),
        "{refused:?}"
    );
}

/// The fields follow one another without gaps, each is found by each of its bits, and no two of a
/// message have one name.
#[test]
fn fields_have_names_of_their_own() {
    let mut listed = 0;
    each_read_case(|message, _, plans| {
        if listed > 200_000 {
            return;
        }
        for (kind, message) in [(Kind::Case, message)]
            .into_iter()
            .chain(plans.first().map(|plan| (Kind::Plan, *plan)))
        {
            let places = fields_of(kind, message, None);
            let mut at = 0;
            for place in &places {
                assert_eq!(place.bit, at);
                at += place.field.width;
            }
            let mut names: Vec<&str> = places.iter().map(|place| place.name.as_str()).collect();
            listed += names.len();
            names.sort();
            assert!(names.windows(2).all(|pair| pair[0] != pair[1]));
            if let Some(last) = places.last() {
                let found = field_at(kind, message, last.bit + last.field.width - 1, None);
                assert_eq!(found.as_ref(), Some(last));
            }
        }
    });
    assert!(listed > 100_000, "{listed}");
}
