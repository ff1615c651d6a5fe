//! The corpus: batches that reach every rule, every refusal and every framing number, with the
//! output that both sides are held to, and a smaller set of days that the host form alone takes.
//! All of it follows from a seed.

use std::fs;
use std::path::Path;

use crate::batch::{append_length, append_message, join, run};
use crate::case::{Case, Link, Status, MOST_STATES, MOST_ZONES};
use crate::census::Census;
use crate::edges::Edges;
use crate::edition::{CountField, Edition};
use crate::encode::{encode_case, encode_plan, Encoded, Field};
use crate::form::{Form, Largest};
use crate::generate::batches::{plan_of_another_edition, random_batch, spoil_framing};
use crate::generate::breaks::{break_at, metered_plan, plan_breaking};
use crate::generate::damage::{
    contradict, contradictions, cut_at, give_devices, give_intervals, give_states,
    values_out_of_range, with_fill_bit, with_other_edition, with_surplus_bytes, with_value,
    Contradiction, MOST_STATES_SAID,
};
use crate::generate::device::Scale;
use crate::generate::extreme::{
    costly_reactive_reserves_day, most_breaches_day, very_high_surplus_day, very_low_surplus_day,
};
use crate::generate::plans::{good_plan, wild_plan};
use crate::generate::sample::{random_sample, sample_in, sample_of, Sample};
use crate::generate::schedule::Schedule;
use crate::generate::shape::{Shape, Size};
use crate::packed::{output, pack, unpack};
use crate::plan::{Plan, Setting};
use crate::rng::Rng;
use crate::tables;
use crate::worked_day::{example_batch, floor_days, lettered_days, link_days, reactive_days, Day};

mod copies;
mod host;

use copies::copies_of;

pub const DEFAULT_SEED: u64 = 20_260;

/// The files of a corpus.
pub struct Corpus {
    /// All batches, packed.
    pub stdin: Vec<u8>,
    /// The output expected for them.
    pub stdout: String,
    pub readme: String,
}

/// The corpus of a form and a seed.
pub fn corpus_of(form: Form, seed: u64) -> Corpus {
    let set = Set::of(form);
    let parts = set.parts_of(seed);
    let batches: Vec<&Vec<u8>> = parts.iter().flat_map(|part| &part.batches).collect();
    let stdin = pack(&batches);
    let stdout = output(form, &batches);
    let readme = readme(set, seed, &parts, &stdin, &stdout);
    Corpus {
        stdin,
        stdout,
        readme,
    }
}

/// The files of copies beside the corpus of the host form: of its own batches, and of the batch
/// program's.
const COPIES: [(&str, Form); 2] = [("copies", Form::HOST), ("batch-copies", Form::BATCH)];

/// Every file of the corpus of a form and a seed.
fn files_of(form: Form, seed: u64) -> Vec<(&'static str, Vec<u8>)> {
    let corpus = corpus_of(form, seed);
    let mut files = vec![
        ("stdin", corpus.stdin),
        ("stdout", corpus.stdout.into_bytes()),
        ("README.md", corpus.readme.into_bytes()),
    ];
    if form == Form::HOST {
        files.extend(COPIES.map(|(name, form)| {
            let parts = Set::of(form).parts_of(seed);
            let batches: Vec<&Vec<u8>> = parts.iter().flat_map(|part| &part.batches).collect();
            (name, copies_of(&batches).into_bytes())
        }));
    }
    files
}

/// Writes the corpus of a form and a seed to a directory.
pub fn write(directory: &Path, form: Form, seed: u64) -> Result<(), String> {
    fs::create_dir_all(directory).map_err(|error| format!("{}: {error}", directory.display()))?;
    for (name, bytes) in files_of(form, seed) {
        let path = directory.join(name);
        fs::write(&path, bytes).map_err(|error| format!("{}: {error}", path.display()))?;
    }
    Ok(())
}

/// Holds the reference to the files of a directory: that it gives the expected output for the
/// stored batches, and that the seed makes every file again byte for byte.
pub fn check(directory: &Path, form: Form, seed: u64) -> Result<Census, String> {
    let read = |name: &str| {
        let path = directory.join(name);
        fs::read(&path).map_err(|error| format!("{}: {error}", path.display()))
    };
    let stdin = read("stdin")?;
    let batches = unpack(&stdin)?;
    if output(form, &batches).as_bytes() != read("stdout")? {
        return Err("the reference does not give the stored output".to_string());
    }
    for (name, bytes) in files_of(form, seed) {
        if read(name)? != bytes {
            return Err(format!("seed {seed} does not make {name} again"));
        }
    }
    Ok(census_of(form, &batches))
}

/// Batches made for one purpose.
struct Part {
    about: &'static str,
    batches: Vec<Vec<u8>>,
}

type Maker = fn(&mut Rng) -> Vec<Vec<u8>>;

/// What a corpus is made of.
struct Set {
    form: Form,
    /// What it is, for its readme.
    head: &'static str,
    /// Its files beside those that every corpus has.
    further_files: &'static str,
    /// Behind its table of numbers.
    numbers_note: &'static str,
    /// What asks a program for it.
    option: &'static str,
    /// Every part, made from its own random numbers so that none depends on the others.
    parts: &'static [(&'static str, Maker)],
}

const BATCH_SET: Set = Set {
    form: Form::BATCH,
    head: HEAD,
    further_files: "",
    numbers_note: NUMBERS_NOTE,
    option: "",
    parts: &PARTS,
};

/// Each part has batches of every edition.
const PARTS: [(&str, Maker); 14] = [
    (
        "the paper's example batch, days (a) to (m), worked days of later editions",
        |_| worked_days(),
    ),
    ("tiny days at the edges of the wording", |_| edge_days()),
    ("framing, empty and misplaced messages", framing_batches),
    ("cases cut in every kind of field", cut_cases),
    (
        "cases with every kind of field out of range",
        cases_out_of_range,
    ),
    (
        "cases with fill bits, surplus bytes and contradictions",
        cases_with_later_faults,
    ),
    ("plans damaged in every kind of field", damaged_plans),
    ("plans broken at each rule", broken_plans),
    (
        "largest cases, broken in the last interval",
        broken_at_the_end,
    ),
    ("random batches of all sizes", random_batches),
    (
        "cases with as many startup states as may be, and with more",
        cases_with_many_states,
    ),
    ("metered days: plans with many breaches", metered_days),
    ("plans and cases of another edition", mixed_editions),
    (
        "days with as many devices or intervals as may be, and with more",
        days_with_many_devices_or_intervals,
    ),
];

impl Set {
    fn of(form: Form) -> &'static Set {
        if form == Form::HOST {
            &host::HOST_SET
        } else {
            &BATCH_SET
        }
    }

    fn parts_of(&self, seed: u64) -> Vec<Part> {
        self.parts
            .iter()
            .zip(0..)
            .map(|(&(about, make), index)| Part {
                about,
                batches: make(&mut Rng::numbered(seed, index)),
            })
            .collect()
    }
}

/// A batch of a case and plans of it.
fn batch_of(edition: Edition, case: &Case, plans: &[Plan]) -> Vec<u8> {
    let mut batch = join(&[encode_case(edition, case).bytes]);
    for plan in plans {
        append_message(&mut batch, &encode_plan(edition, plan).bytes);
    }
    batch
}

fn batch_of_day(day: &Day) -> Vec<u8> {
    let (case, plan) = day.messages();
    join(&[case, plan])
}

fn worked_days() -> Vec<Vec<u8>> {
    let mut batches = vec![example_batch()];
    batches.extend(lettered_days().iter().map(|(_, day)| batch_of_day(day)));
    let later = [reactive_days(), floor_days(), link_days()].concat();
    batches.extend(later.iter().map(|(_, day)| batch_of_day(day)));
    batches
}

fn edge_days() -> Vec<Vec<u8>> {
    tables::written_rows()
        .iter()
        .map(|row| join(&[&row.case, &row.plan]))
        .collect()
}

/// A case with every kind of field that the edition's devices can have together, as small as that
/// allows: from edition 2 on one device with two lines and one with an equality, from edition 3 on
/// some floor above 0.
fn case_with_every_field(rng: &mut Rng, edition: Edition) -> Sample {
    let shape = Shape {
        size: Size::Small,
        devices: 2,
        intervals: 1 + rng.below(3),
        zones: 1 + rng.below(MOST_ZONES - 1),
    };
    loop {
        let sample = sample_of(rng, edition, &shape, Scale::Low);
        let has = |holds: fn(&Link) -> bool| sample.case.devices.iter().any(|d| holds(&d.link));
        let has_every_link = has(|link| matches!(link, Link::TwoLines { .. }))
            && has(|link| matches!(link, Link::Equality(_)));
        let has_every_list = sample.case.devices.iter().any(|device| {
            !device.startup_states.is_empty()
                && !device.start_windows.is_empty()
                && !device.energy_windows.is_empty()
        });
        let has_every_figure = (has_every_link || !edition.has_reactive_power())
            && (sample.case.has_floors() || !edition.has_floors());
        if has_every_list && has_every_figure {
            return sample;
        }
    }
}

fn framing_batches(rng: &mut Rng) -> Vec<Vec<u8>> {
    let sample = random_sample(rng, Size::Small);
    let case = encode_case(sample.edition, &sample.case).bytes;
    let plan = encode_plan(sample.edition, &good_plan(rng, &sample)).bytes;
    let whole = join(&[&case, &plan]);
    let longest_message = Form::BATCH.longest_message;
    let mut batches = vec![
        Vec::new(),
        vec![0],
        vec![0, 0],
        // An empty message is a message: a case cut at its first bit.
        vec![0, 0, 0],
        join(&[&case]),
        // Empty plans are refused, and the run goes on.
        join(&[&case[..], &[], &plan, &[], &plan]),
        // The wrong kind of message in either place.
        join(&[&plan, &case]),
        join(&[&case, &case, &plan]),
    ];
    for trail in [&[0][..], &[0, 0], &[255, 255]] {
        batches.push([&whole, trail].concat());
    }
    for length in [longest_message + 1, longest_message + 256, (1 << 24) - 1] {
        for start in [&[][..], &whole] {
            let mut batch = start.to_vec();
            append_length(&mut batch, length);
            batches.push(batch);
        }
    }
    for length in [1, 2, longest_message] {
        let mut batch = whole.clone();
        append_length(&mut batch, length);
        batches.push(batch.clone());
        batch.extend(vec![0x21; length - 1]);
        batches.push(batch);
    }
    // As long as may be, all there: surplus bytes behind a plan. One byte longer, all there: 4.
    for length in [longest_message, longest_message + 1] {
        let mut longest = plan.clone();
        longest.resize(length, 0);
        batches.push(join(&[&case, &longest, &plan]));
    }
    // A refused case ends the run before any framing behind it.
    let mut ended = join(&[&case[1..]]);
    append_length(&mut ended, longest_message + 1);
    batches.push(ended);
    for _ in 0..6 {
        let mut batch = random_batch(rng, Form::BATCH, Size::Small, 4);
        spoil_framing(rng, Form::BATCH, &mut batch);
        batches.push(batch);
    }
    batches
}

/// The names of a message's fields, each once.
fn names_of(message: &Encoded) -> Vec<&'static str> {
    let mut names = Vec::new();
    for field in &message.fields {
        if !names.contains(&field.name) {
            names.push(field.name);
        }
    }
    names
}

/// One field of each name, drawn among those that `usable` allows.
fn one_field_of_each_name(
    rng: &mut Rng,
    message: &Encoded,
    usable: impl Fn(&Field) -> bool,
) -> Vec<Field> {
    names_of(message)
        .into_iter()
        .filter_map(|name| {
            let fields: Vec<Field> = message
                .fields
                .iter()
                .filter(|field| field.name == name && usable(field))
                .copied()
                .collect();
            (!fields.is_empty()).then(|| rng.pick(&fields))
        })
        .collect()
}

/// Whether some byte of a message ends before or inside a field, behind the field before it.
fn can_be_cut(field: &Field) -> bool {
    (field.place..field.end()).any(|bit| bit % 8 == 0)
}

/// Fields of a case that no byte ends before or inside: bits 4 to 7 and, up to edition 3, 19 to 21.
fn never_cut(edition: Edition) -> &'static [&'static str] {
    if edition.has_large_counts() {
        &["case edition"]
    } else {
        &["case edition", "zones"]
    }
}

/// What is made of each edition, one behind the other.
fn of_each_edition(
    rng: &mut Rng,
    make: impl Fn(&mut Rng, Edition) -> Vec<Vec<u8>>,
) -> Vec<Vec<u8>> {
    let editions = Edition::ALL.into_iter();
    editions.flat_map(|edition| make(rng, edition)).collect()
}

fn cut_cases(rng: &mut Rng) -> Vec<Vec<u8>> {
    of_each_edition(rng, cut_cases_in)
}

/// A case cut in each kind of field; of several cases, because a field of few bits can be cut only
/// where a byte ends at it.
fn cut_cases_in(rng: &mut Rng, edition: Edition) -> Vec<Vec<u8>> {
    let mut cut_names = Vec::new();
    let mut batches = Vec::new();
    loop {
        let sample = case_with_every_field(rng, edition);
        let message = encode_case(edition, &sample.case);
        let new = |field: &Field| can_be_cut(field) && !cut_names.contains(&field.name);
        for field in one_field_of_each_name(rng, &message, new) {
            if let Some(cut) = cut_at(rng, &message, &field) {
                batches.push(join(&[cut]));
                cut_names.push(field.name);
            }
        }
        if cut_names.len() + never_cut(edition).len() == names_of(&message).len() {
            return batches;
        }
    }
}

fn cases_out_of_range(rng: &mut Rng) -> Vec<Vec<u8>> {
    of_each_edition(rng, cases_out_of_range_in)
}

fn cases_out_of_range_in(rng: &mut Rng, edition: Edition) -> Vec<Vec<u8>> {
    let message = encode_case(edition, &case_with_every_field(rng, edition).case);
    let fields = one_field_of_each_name(rng, &message, |_| true);
    fields
        .iter()
        .flat_map(|field| {
            values_out_of_range(field)
                .into_iter()
                .map(|value| join(&[with_value(&message, field, value)]))
        })
        .collect()
}

fn cases_with_later_faults(rng: &mut Rng) -> Vec<Vec<u8>> {
    of_each_edition(rng, cases_with_later_faults_in)
}

fn cases_with_later_faults_in(rng: &mut Rng, edition: Edition) -> Vec<Vec<u8>> {
    let mut cases = Vec::new();
    for _ in 0..4 {
        let message = encode_case(edition, &case_with_every_field(rng, edition).case);
        cases.push(with_surplus_bytes(rng, &message.bytes));
        if let Some(filled) = with_fill_bit(rng, &message) {
            cases.push(with_surplus_bytes(rng, &filled));
            cases.push(filled);
        }
    }
    for &contradiction in contradictions(edition) {
        for _ in 0..3 {
            let case = contradictory_case(rng, edition, contradiction);
            cases.push(encode_case(edition, &case).bytes);
        }
    }
    for _ in 0..6 {
        cases.extend(several_contradictions(rng, edition));
    }
    cases.extend(zone_bits_above_every_count(rng, edition));
    cases.into_iter().map(|case| join(&[case])).collect()
}

/// A case that contradicts itself in one way; another is drawn where the figures leave no room for it.
fn contradictory_case(rng: &mut Rng, edition: Edition, contradiction: Contradiction) -> Case {
    loop {
        let mut case = case_with_every_field(rng, edition).case;
        if contradict(rng, &mut case, contradiction) {
            return case;
        }
    }
}

/// For each zone count and each zone above it, a case with that zone's bit alone set above it.
fn zone_bits_above_every_count(rng: &mut Rng, edition: Edition) -> Vec<Vec<u8>> {
    let mut cases = Vec::new();
    for zones in 0..MOST_ZONES {
        for z in zones..MOST_ZONES {
            let shape = Shape {
                size: Size::Tiny,
                devices: 2,
                intervals: 1,
                zones,
            };
            let mut case = sample_of(rng, edition, &shape, Scale::Low).case;
            case.devices[1].zone_bits[z] = true;
            cases.push(encode_case(edition, &case).bytes);
        }
    }
    cases
}

/// A case with several contradictions, as it stands and with a fault that comes before them.
fn several_contradictions(rng: &mut Rng, edition: Edition) -> Vec<Vec<u8>> {
    let mut case: Case = case_with_every_field(rng, edition).case;
    for _ in 0..4 {
        let contradiction = rng.pick(contradictions(edition));
        contradict(rng, &mut case, contradiction);
    }
    let message = encode_case(edition, &case);
    let last = message.fields[message.fields.len() - 1];
    let mut cases = vec![
        message.bytes.clone(),
        with_value(&message, &last, last.high + 1),
        message.bytes[..message.bytes.len() - 1].to_vec(),
    ];
    cases.extend(with_fill_bit(rng, &message));
    cases
}

/// Batches of one case and many damaged plans, a good one at the end.
fn damaged_plans(rng: &mut Rng) -> Vec<Vec<u8>> {
    const BATCHES_PER_EDITION: usize = 2;
    of_each_edition(rng, |rng, edition| {
        (0..BATCHES_PER_EDITION)
            .map(|_| damaged_plans_of_a_case(rng, edition))
            .collect()
    })
}

fn damaged_plans_of_a_case(rng: &mut Rng, edition: Edition) -> Vec<u8> {
    let sample = sample_in(rng, edition, Size::Small);
    let message = encode_plan(edition, &good_plan(rng, &sample));
    let mut batch = join(&[encode_case(edition, &sample.case).bytes]);
    for plan in damaged_forms(rng, &message) {
        append_message(&mut batch, &plan);
    }
    append_message(&mut batch, &message.bytes);
    batch
}

/// A plan cut in each kind of field, out of range in each kind, with other counts, with fill bits
/// and with surplus bytes.
fn damaged_forms(rng: &mut Rng, message: &Encoded) -> Vec<Vec<u8>> {
    let mut forms = Vec::new();
    for field in one_field_of_each_name(rng, message, can_be_cut) {
        forms.extend(cut_at(rng, message, &field));
    }
    for field in one_field_of_each_name(rng, message, |_| true) {
        for value in values_out_of_range(&field) {
            forms.push(with_value(message, &field, value));
        }
    }
    for field in message
        .fields
        .iter()
        .filter(|field| field.name.starts_with("plan "))
    {
        let others = other_counts(field);
        forms.extend(others.map(|value| with_value(message, field, value)));
    }
    forms.extend(with_fill_bit(rng, message));
    forms.extend(with_fill_bit(rng, message).map(|filled| with_surplus_bytes(rng, &filled)));
    forms.push(with_surplus_bytes(rng, &message.bytes));
    forms
}

/// Every value of a count but its own; where its bits can say a hundred, those up to what an older
/// edition can say with a bit less, and those around the limits.
fn other_counts(field: &Field) -> impl Iterator<Item = i128> {
    let (own, (least, greatest)) = (field.low, field.sayable());
    let edges = [47, 48, 49, 63, 64, 65, 95, 96, 97, greatest];
    (least..=greatest)
        .filter(move |value| greatest < 100 || *value < 20 || edges.contains(value))
        .filter(move |&value| value != own)
}

/// For each rule, batches of one case of each edition that has the rule, a good plan and plans
/// broken at the rule; twice as many for rule 19, which has two bounds.
fn broken_plans(rng: &mut Rng) -> Vec<Vec<u8>> {
    let batches_for = |rule: u8| if rule == 19 { 12 } else { 6 };
    let mut batches = Vec::new();
    for rule in 1..=Edition::NEWEST.last_rule() {
        let having: Vec<Edition> = Edition::ALL
            .into_iter()
            .filter(|edition| rule <= edition.last_rule())
            .collect();
        let mut made = 0;
        while made < batches_for(rule) {
            let edition = having[made % having.len()];
            if let Some(batch) = batch_broken_at(rng, edition, rule) {
                batches.push(batch);
                made += 1;
            }
        }
    }
    batches
}

/// A batch with plans broken at a rule, if the case drawn lets any be.
fn batch_broken_at(rng: &mut Rng, edition: Edition, rule: u8) -> Option<Vec<u8>> {
    const PLANS: usize = 4;
    let size = rng.pick(&[Size::Tiny, Size::Small, Size::Medium]);
    let sample = sample_in(rng, edition, size);
    let mut plans: Vec<Plan> = (0..PLANS)
        .filter_map(|_| plan_breaking(rng, &sample, rule))
        .collect();
    if plans.is_empty() {
        return None;
    }
    plans.push(good_plan(rng, &sample));
    Some(batch_of(edition, &sample.case, &plans))
}

const LAST_INTERVAL: usize = Largest::SMALL.intervals - 1;
const LAST_DEVICE: usize = Largest::SMALL.devices - 1;

/// Plans of the largest counts that keep every rule until device 16 in interval 48: there they are
/// broken at one of rules 5 to 19 or 21 to 26, or switched off, which breaks rule 1 where the
/// device must be on. In edition 3 at rules 17 to 19 alone, rule 19 several times; in editions 4 and
/// 5 at few.
fn broken_at_the_end(rng: &mut Rng) -> Vec<Vec<u8>> {
    let all = |edition: Edition| (5..=edition.last_rule()).collect();
    let endings: [(Edition, bool, Vec<u8>); 6] = [
        (Edition::One, true, all(Edition::One)),
        (Edition::One, false, all(Edition::One)),
        (Edition::Two, true, all(Edition::Two)),
        (Edition::Three, true, vec![17, 18, 19, 19, 19, 19]),
        (Edition::Four, true, vec![19]),
        (Edition::Five, true, vec![5, 21]),
    ];
    endings
        .map(|(edition, on, rules)| batch_broken_at_the_end(rng, edition, on, &rules))
        .to_vec()
}

fn batch_broken_at_the_end(
    rng: &mut Rng,
    edition: Edition,
    on_at_the_end: bool,
    rules: &[u8],
) -> Vec<u8> {
    let sample = sample_ending(rng, edition, on_at_the_end);
    let mut plans = Vec::new();
    for &rule in rules {
        let mut plan = good_plan(rng, &sample);
        if break_at(rng, &sample, &mut plan, rule, (LAST_INTERVAL, LAST_DEVICE)) {
            plans.push(plan);
        }
    }
    let mut plan = good_plan(rng, &sample);
    plan.intervals[LAST_INTERVAL][LAST_DEVICE] = Setting::default();
    plans.push(plan);
    batch_of(edition, &sample.case, &plans)
}

/// A case of the largest counts whose device 16 must be on, or is off, in interval 48, where its
/// floors come to more than pmin if the edition has any.
fn sample_ending(rng: &mut Rng, edition: Edition, on_at_the_end: bool) -> Sample {
    let ends_on = |schedule: &Schedule| schedule.commitment.on[LAST_INTERVAL];
    let is_floored = |case: &Case| {
        let terms = &case.devices[LAST_DEVICE].terms[LAST_INTERVAL];
        terms.sum_of_floors() > terms.pmin
    };
    loop {
        let shape = Shape::random(rng, Size::Full);
        let mut sample = sample_of(rng, edition, &shape, Scale::Calm);
        let schedules = &sample.pools[LAST_DEVICE].good;
        let ends_so = schedules
            .iter()
            .all(|schedule| ends_on(schedule) == on_at_the_end);
        if ends_so && (is_floored(&sample.case) || !edition.has_floors()) {
            if on_at_the_end {
                sample.case.devices[LAST_DEVICE].terms[LAST_INTERVAL].status = Status::On;
            }
            return sample;
        }
    }
}

fn random_batches(rng: &mut Rng) -> Vec<Vec<u8>> {
    let mut batches = Vec::new();
    for (size, count, plans) in [
        (Size::Tiny, 30, 20),
        (Size::Small, 60, 20),
        (Size::Medium, 20, 12),
        (Size::Large, 3, 4),
        (Size::Full, 2, 3),
    ] {
        for _ in 0..count {
            batches.push(random_batch(rng, Form::BATCH, size, plans));
        }
    }
    batches.extend(extreme_days().iter().map(batch_of_day));
    for edition in Edition::ALL {
        for scale in [Scale::Low, Scale::Extreme] {
            let shape = Shape::random(rng, Size::Full);
            let sample = sample_of(rng, edition, &shape, scale);
            let plan = good_plan(rng, &sample);
            batches.push(batch_of(edition, &sample.case, &[plan]));
        }
    }
    batches
}

/// The lowest surpluses of every edition, and the highest.
fn extreme_days() -> Vec<Day> {
    let small = Largest::SMALL;
    let mut days = Edition::ALL
        .map(|edition| very_low_surplus_day(edition, small))
        .to_vec();
    days.push(very_high_surplus_day(Edition::One, small));
    days.push(costly_reactive_reserves_day());
    days
}

/// Cases of up to three states at a device, with a plan, and of four to seven, which are refused
/// at that device's count whatever contradiction they hold besides.
fn cases_with_many_states(rng: &mut Rng) -> Vec<Vec<u8>> {
    let mut batches = Vec::new();
    for count in 0..=MOST_STATES_SAID {
        for (k, edition) in Edition::ALL.into_iter().enumerate() {
            let mut sample = case_with_every_field(rng, edition);
            let j = k % sample.case.devices.len();
            give_states(&mut sample.case, j, count);
            let plans = [(); 3].map(|_| good_plan(rng, &sample));
            batches.push(batch_of(edition, &sample.case, &plans));
            if count > MOST_STATES {
                contradict(rng, &mut sample.case, Contradiction::ZoneBitAboveCount);
                batches.push(batch_of(edition, &sample.case, &plans[..1]));
            }
        }
    }
    // The largest case that could be stored: four states at each of 16 devices.
    let mut largest = very_low_surplus_day(Edition::One, Largest::SMALL);
    for j in 0..largest.case.devices.len() {
        give_states(&mut largest.case, j, MOST_STATES + 1);
    }
    batches.push(batch_of_day(&largest));
    batches
}

/// "Dispatchers load yesterday's meters as a plan and want all the breaches": plans with many, wild
/// ones, and the ones with the most that there can be.
fn metered_days(rng: &mut Rng) -> Vec<Vec<u8>> {
    let mut batches = Vec::new();
    for (size, count, plans) in [
        (Size::Tiny, 6, 8),
        (Size::Small, 8, 8),
        (Size::Medium, 4, 5),
        (Size::Full, 1, 2),
    ] {
        for _ in 0..count {
            let sample = random_sample(rng, size);
            let Sample { edition, case, .. } = &sample;
            let mut metered: Vec<Plan> = (0..plans).map(|_| metered_plan(rng, &sample)).collect();
            metered.push(wild_plan(rng, *edition, case));
            batches.push(batch_of(*edition, case, &metered));
        }
    }
    for edition in [Edition::One, Edition::Two, Edition::NEWEST] {
        batches.push(batch_of_day(&most_breaches_day(edition, Largest::SMALL)));
    }
    batches
}

/// "A plan's edition equals its case's, else 2": plans of each edition for a case of each, and the
/// same content in every edition that can say it. A case whose header names another edition is read
/// with that edition's fields.
fn mixed_editions(rng: &mut Rng) -> Vec<Vec<u8>> {
    let mut batches = Vec::new();
    for edition in Edition::ALL {
        for size in [Size::Tiny, Size::Small, Size::Small, Size::Medium] {
            let sample = sample_in(rng, edition, size);
            let good = encode_plan(edition, &good_plan(rng, &sample)).bytes;
            let other = plan_of_another_edition(rng, &sample);
            let case = encode_case(edition, &sample.case);
            batches.push(join(&[&case.bytes, &other, &good, &other]));
            batches.push(join(&[with_other_edition(rng, &case), other, good]));
        }
    }
    for content in Edition::NEWEST.older() {
        for size in [Size::Tiny, Size::Small, Size::Medium] {
            let sample = sample_in(rng, content, size);
            let plans = [(); 3].map(|_| good_plan(rng, &sample));
            for edition in Edition::ALL
                .into_iter()
                .filter(|&edition| edition >= content)
            {
                batches.push(batch_of(edition, &sample.case, &plans));
            }
        }
    }
    batches
}

/// Days of one device or one interval with as many of the other as the batch form takes, and with
/// more: one more, as many as the edition takes, one more again. More of both are refused at the
/// devices' count.
fn days_with_many_devices_or_intervals(rng: &mut Rng) -> Vec<Vec<u8>> {
    let mut batches = Vec::new();
    for edition in Edition::ALL {
        let small = Largest::SMALL;
        for devices in many(edition.devices(), small.devices) {
            batches.push(grown_day(rng, edition, devices, 1));
        }
        for intervals in many(edition.intervals(), small.intervals) {
            batches.push(grown_day(rng, edition, 1, intervals));
        }
    }
    let (devices, intervals) = (Largest::SMALL.devices + 1, Largest::SMALL.intervals + 1);
    batches.push(grown_day(rng, Edition::NEWEST, devices, intervals));
    batches
}

/// The counts at the edges of what the batch form and an edition allow, each once.
fn many(field: CountField, small: usize) -> Vec<usize> {
    let mut counts = vec![small, small + 1, field.most, field.most + 1];
    counts.sort();
    counts.dedup();
    counts
}

/// A day of one device in one interval, over and over.
fn grown_day(rng: &mut Rng, edition: Edition, devices: usize, intervals: usize) -> Vec<u8> {
    let shape = Shape {
        size: Size::Tiny,
        devices: 1,
        intervals: 1,
        zones: rng.below(2),
    };
    let sample = sample_of(rng, edition, &shape, Scale::Low);
    let mut day = Day {
        edition,
        plan: good_plan(rng, &sample),
        case: sample.case,
    };
    give_devices(&mut day, devices);
    give_intervals(&mut day, intervals);
    batch_of_day(&day)
}

fn census_of<B: AsRef<[u8]>>(form: Form, batches: &[B]) -> Census {
    let mut census = Census::default();
    for batch in batches {
        census.add(&run(form, batch.as_ref()));
    }
    census
}

/// Every edge with the number of plans that show it.
fn edges_of(form: Form, batches: &[&Vec<u8>]) -> Vec<(&'static str, usize)> {
    let mut edges = Edges::none(form);
    for batch in batches {
        edges.add(batch);
    }
    edges.in_order()
}

fn readme(set: &Set, seed: u64, parts: &[Part], stdin: &[u8], stdout: &str) -> String {
    let batches: Vec<&Vec<u8>> = parts.iter().flat_map(|part| &part.batches).collect();
    let census = census_of(set.form, &batches);
    [
        set.head.to_string(),
        FILES.to_string() + set.further_files,
        command_paragraph(set, seed),
        table("| Part | Batches | Bytes |", parts.iter().map(part_row)),
        format!(
            "`stdin` {} bytes, `stdout` {} bytes.\n\n## Counts\n",
            stdin.len(),
            stdout.len()
        ),
        totals_paragraph(&census),
        table(
            "| Rule | Plans, by the first rule broken | Breaches listed |",
            (1..=Edition::NEWEST.last_rule()).map(|rule| rule_row(&census, rule)),
        ),
        table(
            "| Edition | Cases read | Plans accepted | Broken | Refused |",
            Edition::ALL
                .into_iter()
                .map(|edition| edition_row(&census, edition)),
        ),
        table(
            "| Number | Cases refused | Plans refused | Framing |",
            (1..=6).map(|number| number_row(&census, number)),
        ),
        set.numbers_note.to_string(),
        "## Edges\n\nPlans that show each; accepted ones, unless marked.\n".to_string(),
        table(
            "| Edge | Plans |",
            edges_of(set.form, &batches).into_iter().map(edge_row),
        ),
    ]
    .join("\n")
}

fn table(head: &str, rows: impl Iterator<Item = String>) -> String {
    let columns = head.matches('|').count() - 1;
    let mut table = format!("{head}\n|{}\n", "---|".repeat(columns));
    table.extend(rows.map(|row| row + "\n"));
    table
}

fn command_paragraph(set: &Set, seed: u64) -> String {
    let option = set.option;
    format!(
        "In `reference/`, `cargo run --release --bin corpus -- write DIR{option} --seed {seed}` makes \
         these files byte for byte;\n`cargo run --release --bin corpus -- check DIR{option} --seed \
         {seed}` and `cargo test` hold the reference to them.\n"
    )
}

fn totals_paragraph(census: &Census) -> String {
    let [devices, intervals, zones] = census.greatest;
    format!(
        "Batches {} (empty {}), cases read {}, plans {}, of these accepted {}.\n\
         Largest: {devices} devices, {intervals} intervals, {zones} zones. \
         Surplus from {} to {}.\n\
         Breaches {}, at most {} of a plan.\n",
        census.batches,
        census.empty_batches,
        census.cases,
        census.plans(),
        census.accepted,
        census.least_surplus.unwrap_or(0),
        census.greatest_surplus.unwrap_or(0),
        census.listed.iter().sum::<usize>(),
        census.longest_list
    )
}

fn part_row(part: &Part) -> String {
    let bytes: usize = part.batches.iter().map(Vec::len).sum();
    format!("| {} | {} | {bytes} |", part.about, part.batches.len())
}

fn rule_row(census: &Census, rule: u8) -> String {
    let at = usize::from(rule);
    format!("| {rule} | {} | {} |", census.broken[at], census.listed[at])
}

fn edition_row(census: &Census, edition: Edition) -> String {
    let of = census.of(edition);
    format!(
        "| {} | {} | {} | {} | {} |",
        edition.figure(),
        of.cases,
        of.accepted,
        of.broken,
        of.refused
    )
}

fn number_row(census: &Census, number: usize) -> String {
    format!(
        "| {number} | {} | {} | {} |",
        census.refused_cases[number], census.refused_plans[number], census.framing[number]
    )
}

fn edge_row((name, count): (&str, usize)) -> String {
    format!("| {name} | {count} |")
}

const HEAD: &str = "\
# Corpus

Batches with the output that the product's batch program and the reference are both held to.
";

const FILES: &str = "\
- `stdin`: all batches, each behind a 32-bit byte length, most significant byte first.
- `stdout`: for each batch, numbered K from 0, a line `batch K`, then the lines of the batch program
  of paper 01; directly after each accepted plan a line `completion BYTES CRC` with the length of
  its completion message and the CRC-32 of it (as zlib's), in decimal; directly after each broken
  plan a line `breaches N CRC` with the number of its breaches and the CRC-32 of their list, four
  bytes each (rule, interval, device, window), in the order of A.5. Behind these, and directly after
  the line of a case that passes reading, a line `rewritten BYTES CRC` with the length and the CRC-32
  of that case or plan written in the newest edition (A.9).
";

const NUMBERS_NOTE: &str = "\
A plan has no field that could contradict another, so number 5 is never a plan's. Number 7 needs a
short buffer, which the batch program has not; the reference's own tests hold it. Two kinds of field
of a case (its edition and, up to edition 3, its zone count) and one of a plan (its edition) are
never cut: no byte ends before or inside them. Framing has the numbers 1 and 4 alone. Rules 21 to 26
are there from edition 2 on, rule 27 in edition 5; rule 19 has its lower bound from edition 3 on.
";
