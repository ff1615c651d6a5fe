//! What the generator makes: messages that read back, plans that keep or break what they are made
//! to, damage that is refused where it was done. Counts can be seen with `--nocapture`.

use std::collections::BTreeSet;

use reference::batch::{append_message, run};
use reference::case::{read_case, Case, MOST_STATES};
use reference::census::Census;
use reference::clock::spans;
use reference::compare::numbered_batch;
use reference::completion::completion_bits;
use reference::edges::Edges;
use reference::edition::Edition;
use reference::encode::{encode_case, encode_plan, Class, Encoded, Field};
use reference::fault::Fault;
use reference::forced::forced;
use reference::form::Form;
use reference::generate::batches::random_plan_message;
use reference::generate::breaks::plan_breaking;
use reference::generate::damage::{
    contradict, contradictions, give_too_many_states, values_out_of_range, with_value,
    Contradiction,
};
use reference::generate::plans::{good_plan, wild_plan};
use reference::generate::sample::{random_sample, sample_in, wild_case, Sample};
use reference::generate::shape::Size;
use reference::judge::{find, Finding};
use reference::meets::{keeps_every_rule, meets, surplus_of};
use reference::ours::complete;
use reference::plan::{read_plan, Plan};
use reference::rng::Rng;

const SEED: u64 = 7;

fn samples(count: u64) -> impl Iterator<Item = (Rng, Sample)> {
    (0..count).map(|index| {
        let mut rng = Rng::numbered(SEED, index);
        let size = rng.pick(&[Size::Tiny, Size::Small, Size::Small, Size::Medium]);
        let sample = random_sample(&mut rng, size);
        (rng, sample)
    })
}

fn figures(fault: Fault) -> (u8, usize) {
    (fault.number.figure(), fault.bit)
}

#[test]
fn messages_read_back_as_they_were_written() {
    for (mut rng, sample) in samples(60) {
        let Sample { edition, case, .. } = &sample;
        let message = encode_case(*edition, case);
        assert_eq!(read_case(&message.bytes), Ok((*edition, case.clone())));
        let plan = good_plan(&mut rng, &sample);
        let message = encode_plan(*edition, &plan);
        assert_eq!(read_plan(*edition, case, &message.bytes), Ok(plan));
    }
}

/// Every message that passes reading is the one way to write what was read.
#[test]
fn what_passes_reading_is_written_alike() {
    let mut passed = 0;
    for (mut rng, sample) in samples(200) {
        let message = encode_case(sample.edition, &sample.case);
        for _ in 0..10 {
            let mut turned = message.bytes.clone();
            let bit = rng.below(8 * turned.len());
            turned[bit / 8] ^= 1 << (bit % 8);
            if let Ok((edition, case)) = read_case(&turned) {
                assert_eq!(encode_case(edition, &case).bytes, turned);
                passed += 1;
            }
        }
    }
    assert!(passed > 200, "{passed}");
}

#[test]
fn good_plans_are_accepted() {
    for (mut rng, sample) in samples(150) {
        for _ in 0..3 {
            let plan = good_plan(&mut rng, &sample);
            let finding = find(sample.edition, &sample.case, &plan);
            assert!(matches!(finding, Finding::Accepted { .. }), "{finding:?}");
        }
    }
}

#[test]
fn broken_plans_break_the_rule_they_are_made_to_break() {
    let mut made = [0; 28];
    for (mut rng, sample) in samples(200) {
        for rule in 1..=sample.edition.last_rule() {
            if let Some(plan) = plan_breaking(&mut rng, &sample, rule) {
                let Finding::Broken(place) = find(sample.edition, &sample.case, &plan) else {
                    panic!("a plan made to break rule {rule} is accepted");
                };
                assert_eq!(place.rule, rule);
                made[usize::from(rule)] += 1;
            }
        }
    }
    println!("plans broken by rule: {:?}", &made[1..]);
    assert!(made[1..].iter().all(|&count| count >= 10), "{made:?}");
}

/// The judgement against the same sentences written a second time.
fn hold_to_meets(edition: Edition, case: &Case, plan: &Plan) -> bool {
    let finding = find(edition, case, plan);
    let accepted = matches!(finding, Finding::Accepted { .. });
    assert_eq!(accepted, keeps_every_rule(case, plan));
    if let Finding::Accepted { surplus, message } = finding {
        let spans = spans(&case.durations);
        let ours = complete(case, &spans, plan, &forced(case, &spans, plan));
        assert!(meets(case, plan, &ours.completion));
        assert_eq!(surplus_of(case, plan, &ours.completion), surplus);
        assert_eq!(message.len(), completion_bits(edition, case).div_ceil(8));
    }
    accepted
}

#[test]
fn judgement_and_second_writing_agree() {
    let (mut accepted, mut broken) = (0, 0);
    let mut hold = |edition, case: &_, plan: &_| {
        if hold_to_meets(edition, case, plan) {
            accepted += 1;
        } else {
            broken += 1;
        }
    };
    for (mut rng, sample) in samples(150) {
        for _ in 0..12 {
            let message = random_plan_message(&mut rng, &sample);
            if let Ok(plan) = read_plan(sample.edition, &sample.case, &message) {
                hold(sample.edition, &sample.case, &plan);
            }
        }
        let (edition, case) = wild_case(&mut rng, Size::Tiny);
        for _ in 0..4 {
            hold(edition, &case, &wild_plan(&mut rng, edition, &case));
        }
    }
    println!("accepted {accepted}, broken {broken}");
    assert!(accepted > 500 && broken > 500);
}

#[test]
fn judgement_and_second_writing_agree_at_full_size() {
    let mut rng = Rng::numbered(SEED, 1_000_000);
    for edition in Edition::ALL {
        let sample = sample_in(&mut rng, edition, Size::Full);
        let plan = good_plan(&mut rng, &sample);
        assert!(hold_to_meets(edition, &sample.case, &plan));
    }
}

fn number_of(class: Class) -> u8 {
    match class {
        Class::Kind => 2,
        Class::Count => 3,
        Class::Figure => 4,
    }
}

/// Holds that every field out of range is refused with its number at its bit, and that the message
/// cut at every byte is refused with 1 at the first field that is not whole.
fn hold_to_fields(message: &Encoded, read: impl Fn(&[u8]) -> Result<(), Fault>) {
    for field in &message.fields {
        for value in values_out_of_range(field) {
            let fault = read(&with_value(message, field, value)).expect_err("out of range");
            assert_eq!(
                figures(fault),
                (number_of(field.class), field.place),
                "{}",
                field.name
            );
        }
    }
    for length in 0..message.bytes.len() {
        let fault = read(&message.bytes[..length]).expect_err("cut");
        let cut = |field: &&Field| field.end() > 8 * length;
        let first_cut = message.fields.iter().find(cut).expect("a field is cut");
        assert_eq!(figures(fault), (1, first_cut.place));
    }
}

/// The fields that editions 2, 3 and 5 add to case and plan.
const FIELDS_OF_LATER_EDITIONS: [&str; 22] = [
    "qru shortfall price",
    "qrd shortfall price",
    "qru minimum",
    "qrd minimum",
    "link kind",
    "upper offset",
    "upper slope",
    "lower offset",
    "lower slope",
    "equality offset",
    "equality slope",
    "qmin",
    "qmax",
    "qru price",
    "qrd price",
    "q",
    "qru",
    "qrd",
    "block floor",
    "link limit",
    "bar",
    "flow",
];

#[test]
fn damage_is_refused_at_the_field_that_was_damaged() {
    let mut damaged = BTreeSet::new();
    for (mut rng, sample) in samples(24) {
        if sample.case.devices.len() * sample.case.intervals() > 30 {
            continue;
        }
        let Sample { edition, case, .. } = &sample;
        let message = encode_case(*edition, case);
        hold_to_fields(&message, |bytes| read_case(bytes).map(|_| ()));
        let plan = encode_plan(*edition, &good_plan(&mut rng, &sample));
        hold_to_fields(&plan, |bytes| read_plan(*edition, case, bytes).map(|_| ()));
        damaged.extend(message.fields.iter().chain(&plan.fields).map(|f| f.name));
    }
    for name in FIELDS_OF_LATER_EDITIONS {
        assert!(damaged.contains(name), "{name}");
    }
}

#[test]
fn contradictions_are_refused_at_the_field_the_paper_names() {
    let mut made = [0; 8];
    for (mut rng, sample) in samples(120) {
        for (k, &contradiction) in contradictions(sample.edition).iter().enumerate() {
            let mut case = sample.case.clone();
            if !contradict(&mut rng, &mut case, contradiction) {
                continue;
            }
            made[k] += 1;
            let message = encode_case(sample.edition, &case);
            let fault = read_case(&message.bytes).expect_err("it contradicts itself");
            assert_eq!(fault.number.figure(), 5);
            let name = match contradiction {
                Contradiction::PminAbovePmax => "pmax",
                Contradiction::StartWindowBackward | Contradiction::StartWindowBeyondDay => {
                    "start window end"
                }
                Contradiction::EnergyWindowBackward | Contradiction::EnergyWindowBeyondDay => {
                    "energy window end"
                }
                Contradiction::ZoneBitAboveCount => "zone bits",
                Contradiction::QminAboveQmax => "qmax",
                Contradiction::FloorAboveCap => "block floor",
            };
            assert_eq!(name_of_field_at(&message, fault.bit), Some(name));
        }
    }
    println!("contradictions by kind: {made:?}");
    assert!(made.iter().all(|&count| count >= 10), "{made:?}");
}

fn name_of_field_at(message: &Encoded, bit: usize) -> Option<&'static str> {
    let field = message.fields.iter().find(|field| field.place == bit);
    field.map(|field| field.name)
}

#[test]
fn cases_have_none_to_three_states() {
    let mut devices = [0; MOST_STATES + 1];
    for (_, sample) in samples(60) {
        for device in &sample.case.devices {
            devices[device.startup_states.len()] += 1;
        }
    }
    println!("devices by number of states: {devices:?}");
    assert!(devices.iter().all(|&count| count >= 10), "{devices:?}");
}

/// "It refuses a count of four with the existing 3 at that field."
#[test]
fn too_many_states_are_refused_at_their_count() {
    for (mut rng, sample) in samples(60) {
        let mut case = sample.case.clone();
        give_too_many_states(&mut rng, &mut case);
        contradict(&mut rng, &mut case, Contradiction::PminAbovePmax);
        let message = encode_case(sample.edition, &case);
        let fault = read_case(&message.bytes).expect_err("it has too many states");
        assert_eq!(fault.number.figure(), 3);
        assert_eq!(
            name_of_field_at(&message, fault.bit),
            Some("startup states")
        );
    }
}

/// Bytes without any sense are refused, never worse.
#[test]
fn noise_is_refused() {
    let mut rng = Rng::new(SEED);
    for _ in 0..2_000 {
        let length = rng.below(400);
        let mut noise: Vec<u8> = (0..length).map(|_| rng.below(256) as u8).collect();
        if rng.chance(70) && length > 2 {
            noise[0] = 0x11 + rng.below(Edition::ALL.len()) as u8;
            noise[1] = 0x08;
        }
        assert!(read_case(&noise).is_err());
        let mut batch = noise.clone();
        append_message(&mut batch, &noise);
        run(Form::BATCH, &batch);
        run(Form::HOST, &batch);
    }
}

/// The random batches of the long run reach every rule, every refusal and both framing numbers.
#[test]
fn long_run_reaches_everything() {
    let mut census = Census::default();
    let mut edges = Edges::none(Form::BATCH);
    for number in 0..1_600 {
        let batch = numbered_batch(Form::BATCH, SEED, number, 12);
        census.add(&run(Form::BATCH, &batch));
        edges.add(&batch);
    }
    println!("{census}");
    for (name, count) in edges.in_order() {
        println!("{name}: {count}");
        assert!(count > 0, "{name} is never shown");
    }
    assert!(
        census.broken[1..].iter().all(|&count| count >= 20),
        "{census}"
    );
    assert!(
        census.refused_cases[1..].iter().all(|&count| count > 0),
        "{census}"
    );
    for number in [1, 2, 3, 4, 6] {
        assert!(census.refused_plans[number] >= 20, "{census}");
    }
    assert_eq!(census.refused_plans[5], 0);
    assert!(census.framing[1] > 0 && census.framing[4] > 0, "{census}");
    let accepted_share = 100 * census.accepted / census.plans();
    assert!(
        (30..70).contains(&accepted_share),
        "{accepted_share} in a hundred"
    );
}
