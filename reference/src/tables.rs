//! Rows of tiny cases and plans with what the judgement gives, for trying other definitions.
//!
//! A row reads `case-bytes-hex plan-bytes-hex expected`, where expected is one of
//! `accepted SURPLUS COMPLETION-HEX`, `broken RULE INTERVAL DEVICE WINDOW` and
//! `refused case|plan NUMBER BIT`. Where lists are asked for, the bytes of every breach follow the
//! first: `broken RULE INTERVAL DEVICE WINDOW LIST-HEX`.

use crate::breaches::{breaches, BREACH_BYTES};
use crate::case::{
    read_case, Block, Case, Device, EnergyKind, EnergyWindow, Reserves, Side, StartWindow,
    StartupState, Status, Terms, Zone,
};
use crate::edition::Edition;
use crate::encode::{encode_case, encode_plan, Class, Encoded};
use crate::generate::batches::plan_of_another_edition;
use crate::generate::breaks::plan_breaking;
use crate::generate::damage::{
    any_out_of_range, contradict, contradictions, cut_at, with_fill_bit, with_surplus_bytes,
    with_value, Contradiction,
};
use crate::generate::device::Scale;
use crate::generate::plans::good_plan;
use crate::generate::sample::{sample_of, Sample};
use crate::generate::shape::{Shape, Size};
use crate::judge::{judge, Refusal, Verdict};
use crate::plan::{read_plan, Plan, Setting};
use crate::rng::Rng;
use crate::worked_day::Day;

mod bars;
mod counts;
mod exchanges;
mod floors;
mod reactive;

/// A row: a case message, a plan message, and what the row is about.
pub struct Row {
    pub about: String,
    pub case: Vec<u8>,
    pub plan: Vec<u8>,
}

impl Row {
    fn new(about: &str, edition: Edition, case: &Case, plan: &Plan) -> Row {
        Row {
            about: about.to_string(),
            case: encode_case(edition, case).bytes,
            plan: encode_plan(edition, plan).bytes,
        }
    }

    /// The verdict, and on acceptance the completion's bytes.
    pub fn judged(&self) -> (Verdict, Vec<u8>) {
        let verdict = judge(&self.case, &self.plan, &mut []);
        match verdict {
            Verdict::Refused(Refusal::BufferTooShort { bytes_needed }) => {
                let mut buffer = vec![0; bytes_needed];
                (judge(&self.case, &self.plan, &mut buffer), buffer)
            }
            _ => (verdict, Vec::new()),
        }
    }

    /// The row as it is printed.
    pub fn printed(&self) -> String {
        let (verdict, completion) = self.judged();
        let expected = match verdict {
            Verdict::Accepted { surplus } => format!("accepted {surplus} {}", hex(&completion)),
            Verdict::Broken(place) => format!(
                "broken {} {} {} {}",
                place.rule, place.interval, place.device, place.window
            ),
            Verdict::Refused(Refusal::Case(fault)) => {
                format!("refused case {} {}", fault.number.figure(), fault.bit)
            }
            Verdict::Refused(Refusal::Plan(fault)) => {
                format!("refused plan {} {}", fault.number.figure(), fault.bit)
            }
            Verdict::Refused(Refusal::BufferTooShort { .. }) => {
                unreachable!("the buffer has the bytes needed")
            }
        };
        format!("{} {} {expected}", hex(&self.case), hex(&self.plan))
    }
}

impl Row {
    /// The bytes of the list of breaches; none of a plan that is accepted or refused.
    pub fn list(&self) -> Vec<u8> {
        match breaches(&self.case, &self.plan, &mut []) {
            Err(Refusal::BufferTooShort { bytes_needed }) => {
                let mut list = vec![0; bytes_needed];
                let written = breaches(&self.case, &self.plan, &mut list);
                assert_eq!(written, Ok(bytes_needed / BREACH_BYTES));
                list
            }
            _ => Vec::new(),
        }
    }

    /// The row as it is printed where lists are asked for.
    pub fn printed_with_list(&self) -> String {
        match self.list().as_slice() {
            [] => self.printed(),
            list => format!("{} {}", self.printed(), hex(list)),
        }
    }
}

fn hex(bytes: &[u8]) -> String {
    bytes.iter().map(|byte| format!("{byte:02x}")).collect()
}

/// All rows: those written by hand, then those drawn from a seed: one for each rule, one for each
/// way of refusing in each edition, and `accepted` of all editions that keep every rule.
pub fn rows(seed: u64, accepted: usize) -> Vec<Row> {
    let mut rows = written_rows();
    let mut rng = Rng::new(seed);
    for rule in 1..=Edition::NEWEST.last_rule() {
        rows.push(row_breaking(&mut rng, rule));
    }
    for edition in Edition::ALL {
        rows.extend(refused_rows(&mut rng, edition));
    }
    for edition in Edition::ALL.into_iter().cycle().take(accepted) {
        let sample = tiny_sample(&mut rng, edition);
        let plan = good_plan(&mut rng, &sample);
        let about = format!("drawn in edition {}, accepted", edition.figure());
        rows.push(Row::new(&about, edition, &sample.case, &plan));
    }
    rows
}

/// The most bytes of a drawn case of edition 1; one of a later edition may have half as many more.
const MOST_CASE_BYTES: usize = 150;

fn tiny_sample(rng: &mut Rng, edition: Edition) -> Sample {
    let most = if edition.has_reactive_power() {
        MOST_CASE_BYTES * 3 / 2
    } else {
        MOST_CASE_BYTES
    };
    loop {
        let shape = Shape::random(rng, Size::Tiny);
        let sample = sample_of(rng, edition, &shape, Scale::Low);
        if encode_case(edition, &sample.case).bytes.len() <= most {
            return sample;
        }
    }
}

/// A row that breaks a rule, of the first edition that has it.
fn row_breaking(rng: &mut Rng, rule: u8) -> Row {
    let mut editions = Edition::ALL.into_iter();
    let having = editions.find(|edition| rule <= edition.last_rule());
    let edition = having.expect("some edition has the rule");
    loop {
        let sample = tiny_sample(rng, edition);
        if let Some(plan) = plan_breaking(rng, &sample, rule) {
            let about = format!("drawn, rule {rule}");
            return Row::new(&about, edition, &sample.case, &plan);
        }
    }
}

/// A row of an edition for each way of refusing either message.
fn refused_rows(rng: &mut Rng, edition: Edition) -> Vec<Row> {
    let mut rows = Vec::new();
    for (about, class) in [
        ("kind or edition", Class::Kind),
        ("count", Class::Count),
        ("figure", Class::Figure),
    ] {
        let about = format!("{about} wrong");
        let wrong = |rng: &mut Rng, message: &Encoded| any_out_of_range(rng, message, class);
        rows.extend(rows_with_damage(rng, edition, &about, &wrong));
    }
    let surplus = |rng: &mut Rng, message: &Encoded| Some(with_surplus_bytes(rng, &message.bytes));
    for (about, damage) in [
        ("cut", &cut_somewhere as Damage),
        ("fill bit", &with_fill_bit),
        ("surplus byte", &surplus),
    ] {
        rows.extend(rows_with_damage(rng, edition, about, damage));
    }
    for &contradiction in contradictions(edition) {
        let (case, plan) = contradictory_day(rng, edition, contradiction);
        let about = format!("case, {contradiction:?}");
        rows.push(Row::new(&about, edition, &case, &plan));
    }
    let later_price = |_: &mut Rng, message: &Encoded| {
        let last = message.fields.last()?;
        Some(with_value(message, last, last.high + 1))
    };
    for (about, damage) in [
        ("fill bit: 6 before 5", &with_fill_bit as Damage),
        ("later price: 4 before 5", &later_price),
    ] {
        rows.push(row_with_earlier_fault(rng, edition, about, damage));
    }
    rows.push(row_of_two_editions(rng, edition));
    rows
}

/// A case of an edition and a plan of another.
fn row_of_two_editions(rng: &mut Rng, edition: Edition) -> Row {
    let sample = tiny_sample(rng, edition);
    Row {
        about: "plan of another edition".to_string(),
        case: encode_case(edition, &sample.case).bytes,
        plan: plan_of_another_edition(rng, &sample),
    }
}

/// A way to damage a message; none where it cannot be done.
type Damage<'a> = &'a dyn Fn(&mut Rng, &Encoded) -> Option<Vec<u8>>;

/// Cuts a message at one of its fields, leaving at least a byte.
fn cut_somewhere(rng: &mut Rng, message: &Encoded) -> Option<Vec<u8>> {
    let field = rng.pick(&message.fields);
    cut_at(rng, message, &field).filter(|cut| !cut.is_empty())
}

/// Two rows: a damaged case with a good plan, a good case with a damaged plan.
fn rows_with_damage(rng: &mut Rng, edition: Edition, about: &str, damage: Damage) -> [Row; 2] {
    [
        row_with_damaged_case(rng, edition, about, damage),
        row_with_damaged_plan(rng, edition, about, damage),
    ]
}

fn row_with_damaged_case(rng: &mut Rng, edition: Edition, about: &str, damage: Damage) -> Row {
    loop {
        let sample = tiny_sample(rng, edition);
        let plan = encode_plan(edition, &good_plan(rng, &sample)).bytes;
        if let Some(case) = damage(rng, &encode_case(edition, &sample.case)) {
            let about = format!("case, {about}");
            return Row { about, case, plan };
        }
    }
}

fn row_with_damaged_plan(rng: &mut Rng, edition: Edition, about: &str, damage: Damage) -> Row {
    loop {
        let sample = tiny_sample(rng, edition);
        let case = encode_case(edition, &sample.case).bytes;
        let message = encode_plan(edition, &good_plan(rng, &sample));
        if let Some(plan) = damage(rng, &message) {
            let about = format!("plan, {about}");
            return Row { about, case, plan };
        }
    }
}

fn contradictory_day(
    rng: &mut Rng,
    edition: Edition,
    contradiction: Contradiction,
) -> (Case, Plan) {
    loop {
        let mut sample = tiny_sample(rng, edition);
        let plan = good_plan(rng, &sample);
        if contradict(rng, &mut sample.case, contradiction) {
            return (sample.case, plan);
        }
    }
}

/// A case that contradicts itself and, later in the message, shows a fault that comes first.
fn row_with_earlier_fault(rng: &mut Rng, edition: Edition, about: &str, damage: Damage) -> Row {
    loop {
        let (case, plan) = contradictory_day(rng, edition, Contradiction::PminAbovePmax);
        if let Some(case) = damage(rng, &encode_case(edition, &case)) {
            return Row {
                about: format!("case, contradiction and {about}"),
                case,
                plan: encode_plan(edition, &plan).bytes,
            };
        }
    }
}

/// A day with one device, before a row changes what it is about.
#[derive(Clone)]
struct Draft {
    edition: Edition,
    case: Case,
    plan: Plan,
}

/// One device on (`true`) or off per interval of `minutes` each, from an initial state.
///
/// pmin 0, pmax 100, ramps 100, reserve limits 20, one block of 100 at 7, no other figure.
fn draft(side: Side, initially_on: bool, minutes: i128, on: &[bool]) -> Draft {
    let terms = Terms {
        pmax: 100,
        blocks: vec![Block::plain(100, 7)],
        ..Terms::default()
    };
    let device = Device {
        initially_on,
        ..Device::plain(side, vec![terms; on.len()])
    };
    let setting = |&on: &bool| Setting {
        on,
        ..Setting::default()
    };
    Draft {
        edition: Edition::One,
        case: Case {
            mismatch_price: 1,
            overrun_price: 3,
            link_limit: 0,
            durations: vec![minutes; on.len()],
            zones: Vec::new(),
            devices: vec![device],
        },
        plan: Plan::plain(on.iter().map(|on| vec![setting(on)]).collect()),
    }
}

impl Draft {
    fn device(&mut self) -> &mut Device {
        &mut self.case.devices[0]
    }

    fn setting(&mut self, interval: usize) -> &mut Setting {
        &mut self.plan.intervals[interval - 1][0]
    }

    /// Adds a second device like the first, set alike.
    fn add_twin(&mut self) {
        self.case.devices.push(self.case.devices[0].clone());
        for settings in &mut self.plan.intervals {
            settings.push(settings[0]);
        }
    }

    fn row(&self, about: &str) -> Row {
        Row::new(about, self.edition, &self.case, &self.plan)
    }
}

/// The case of one draft with the plan of another.
fn mixed(about: &str, case: &Draft, plan: &Draft) -> Row {
    Row {
        plan: plan.row(about).plan,
        ..case.row(about)
    }
}

/// A day as a row.
fn told_row(about: &str, day: &Day) -> Row {
    Row::new(about, day.edition, &day.case, &day.plan)
}

/// A row of an older edition, in an edition: the same figures, those that are new neutral.
fn rewritten(row: &Row, edition: Edition) -> Row {
    let (older, case) = read_case(&row.case).expect("a day of an older edition");
    let plan = read_plan(older, &case, &row.plan).expect("its plan");
    let figure = edition.figure();
    let about = format!("neutral figures in edition {figure}: {}", row.about);
    Row::new(&about, edition, &case, &plan)
}

/// The rows written by hand, each about one sentence of the paper.
pub fn written_rows() -> Vec<Row> {
    let mut rows = Vec::new();
    rows.extend(consuming_reserve_rows());
    rows.extend(block_rows());
    rows.extend(startup_state_rows());
    rows.extend(zone_rows());
    rows.extend(start_window_rows());
    rows.extend(energy_window_rows());
    rows.extend(trajectory_rows());
    rows.extend(order_rows());
    rows.extend(breach_rows());
    rows.extend(reactive::rows());
    rows.extend(floors::rows());
    rows.extend(counts::rows());
    rows.extend(bars::rows());
    rows.extend(exchanges::rows());
    rows
}

/// Consuming devices hold up reserves against pmin, down reserves against pmax.
fn consuming_reserve_rows() -> Vec<Row> {
    let with = |online: i128, pmin: i128, change: &dyn Fn(&mut Reserves), about: &str| {
        let mut draft = draft(Side::Consuming, true, 10, &[true]);
        draft.device().terms[0].pmin = pmin;
        draft.setting(1).online_power = online;
        change(&mut draft.setting(1).reserves);
        draft.row(about)
    };
    vec![
        with(
            90,
            0,
            &|r| r.rgu = 15,
            "consuming rgu kept at pmin, above pmax",
        ),
        with(60, 50, &|r| r.rgu = 15, "consuming rgu below pmin: rule 17"),
        with(60, 50, &|r| r.scr = 11, "consuming scr below pmin: rule 17"),
        with(
            60,
            50,
            &|r| r.rru_on = 11,
            "consuming rru_on below pmin: rule 17",
        ),
        with(
            60,
            50,
            &|r| (r.rgu, r.scr, r.rru_on) = (3, 3, 4),
            "consuming up reserves exactly at pmin",
        ),
        with(90, 0, &|r| r.rgd = 11, "consuming rgd above pmax: rule 16"),
        with(
            60,
            55,
            &|r| r.rrd_on = 15,
            "consuming rrd_on kept at pmax, below pmin",
        ),
    ]
}

/// Blocks by merit, the lower-numbered first among equals.
fn block_rows() -> Vec<Row> {
    let with = |side, blocks: &[(i128, i128)], about: &str| {
        let mut draft = draft(side, true, 10, &[true]);
        draft.device().terms[0].blocks = blocks
            .iter()
            .map(|&(cap, price)| Block::plain(cap, price))
            .collect();
        draft.setting(1).online_power = 70;
        draft.row(about)
    };
    vec![
        with(
            Side::Producing,
            &[(60, 5), (50, 3), (50, 3)],
            "producing, blocks 2 and 3 tie",
        ),
        with(
            Side::Consuming,
            &[(40, 7), (40, 7), (40, 9)],
            "consuming, blocks 1 and 2 tie",
        ),
        with(
            Side::Consuming,
            &[(50, -4), (50, 2), (50, -4)],
            "consuming at negative prices, tie",
        ),
        with(
            Side::Producing,
            &[(0, -9), (99, -2), (99, -2)],
            "producing, cap 0 cheapest, tie",
        ),
    ]
}

/// Startup states: cheapest, not first; none at 0 or above; downtime from the last on interval's
/// end.
fn startup_state_rows() -> Vec<Row> {
    let after_outage = |states: &[(i128, i128)], about: &str| {
        let mut draft = draft(Side::Producing, true, 60, &[true, false, true]);
        draft.device().startup_states = states
            .iter()
            .map(|&(longest_downtime, cost)| StartupState {
                longest_downtime,
                cost,
            })
            .collect();
        draft.row(about)
    };
    let mut rows = vec![
        after_outage(
            &[(480, -100), (700, -500)],
            "cheapest state is not the first that fits",
        ),
        after_outage(&[(480, -500), (700, -500)], "states tie: the first"),
        after_outage(
            &[(59, -900), (480, 0)],
            "cheapest fitting state costs 0: none",
        ),
        after_outage(&[(480, 5)], "fitting state costs above 0: none"),
        after_outage(
            &[(480, -100), (59, -900), (60, -500)],
            "third of three states is the cheapest that fits",
        ),
        after_outage(
            &[(480, -100), (59, -900), (60, -500), (60, -700)],
            "four states: refused with 3 at their count",
        ),
        after_outage(
            &[(60, -500)],
            "downtime 60 from the last on interval's end fits 60",
        ),
        after_outage(&[(59, -500)], "downtime 60 does not fit 59"),
    ];
    for (longest, about) in [
        (60, "initially on, no on interval: downtime is S, 60 fits"),
        (
            59,
            "initially on, no on interval: downtime is S, 59 does not fit",
        ),
    ] {
        let mut draft = draft(Side::Producing, true, 60, &[false, true]);
        draft.device().minutes_already_so = 500;
        draft.device().startup_states.push(StartupState {
            longest_downtime: longest,
            cost: -500,
        });
        rows.push(draft.row(about));
    }
    for (longest, about) in [
        (560, "initially off 500: downtime 560 fits"),
        (559, "initially off 500: downtime 560 does not fit 559"),
    ] {
        let mut draft = draft(Side::Consuming, false, 60, &[false, true]);
        draft.device().minutes_already_so = 500;
        draft.device().startup_states.push(StartupState {
            longest_downtime: longest,
            cost: -500,
        });
        rows.push(draft.row(about));
    }
    rows
}

/// Zone needs in W: shares that do not divide evenly, needs that include one another.
fn zone_rows() -> Vec<Row> {
    let with = |side, shares, minima, power, change: &dyn Fn(&mut Reserves), about: &str| {
        let mut draft = draft(side, true, 10, &[true]);
        let [rru, rrd] = minima;
        draft.case.zones.push(Zone {
            shares,
            shortfall_prices: [1, 2, 3, 4, 5, 6, 1, 1],
            minima: vec![[rru, rrd, 0, 0]],
        });
        draft.device().zone_bits[0] = true;
        draft.setting(1).online_power = power;
        change(&mut draft.setting(1).reserves);
        draft.row(about)
    };
    vec![
        with(
            Side::Consuming,
            [333, 77, 0, 0],
            [0, 0],
            7,
            &|r| r.rgu = 2,
            "shares of 7 kW in W",
        ),
        with(
            Side::Producing,
            [0, 0, 333, 77],
            [0, 0],
            7,
            &|r| r.scr = 1,
            "scr and nsc shares in W",
        ),
        with(
            Side::Consuming,
            [500, 0, 900, 900],
            [3, 2],
            40,
            &|r| r.rgu = 9,
            "no producer: scr and nsc needs are rgu's",
        ),
        with(
            Side::Producing,
            [900, 900, 100, 50],
            [3, 2],
            40,
            &|r| (r.rru_on, r.rgu) = (1, 6),
            "no consumer, rgu covers scr",
        ),
    ]
}

/// Rule 20: a start at the window's start counts, one at its end does not.
fn start_window_rows() -> Vec<Row> {
    [
        (60, 120, "window starts at S: rule 20"),
        (61, 120, "window starts after S"),
        (0, 60, "window ends at S"),
        (0, 61, "window ends after S: rule 20"),
        (60, 60, "empty window at S"),
    ]
    .into_iter()
    .map(|(start, end, about)| {
        let mut draft = draft(Side::Producing, false, 60, &[false, true]);
        draft.device().start_windows.push(StartWindow {
            start,
            end,
            most_starts: 0,
        });
        draft.row(about)
    })
    .collect()
}

/// A maximum of energy in a window.
fn at_most(energy: i128, start: i128, end: i128) -> EnergyWindow {
    EnergyWindow {
        kind: EnergyKind::Maximum,
        start,
        end,
        energy,
    }
}

/// A minimum of energy in a window.
fn at_least(energy: i128, start: i128, end: i128) -> EnergyWindow {
    EnergyWindow {
        kind: EnergyKind::Minimum,
        ..at_most(energy, start, end)
    }
}

/// A device on at these powers in intervals of so many minutes, with energy windows.
fn running(side: Side, powers: &[(i128, i128)], windows: &[EnergyWindow]) -> Draft {
    let mut draft = draft(side, true, 0, &vec![true; powers.len()]);
    for (t, &(minutes, power)) in powers.iter().enumerate() {
        draft.case.durations[t] = minutes;
        draft.setting(t + 1).online_power = power;
    }
    draft.device().energy_windows = windows.to_vec();
    draft
}

/// Energy windows count "the minutes an interval shares with an energy window": of 20 kW in the
/// first hour and 30 kW in the second.
fn energy_window_rows() -> Vec<Row> {
    let windows = [
        (at_most(100, 0, 30), "maximum, ends at a midpoint"),
        (at_most(100, 0, 29), "maximum, ends before a midpoint"),
        (at_most(100, 30, 120), "maximum, begins at a midpoint"),
        (at_most(100, 29, 120), "maximum, begins before a midpoint"),
        (at_least(2_000, 30, 90), "minimum, midpoint to midpoint"),
        (at_least(50, 90, 90), "minimum, empty inside an interval"),
        (at_most(0, 60, 60), "maximum, empty at an edge"),
        (at_most(0, 70, 80), "maximum, inside, beside the midpoint"),
        (at_most(0, 80, 100), "maximum, inside, over the midpoint"),
        (at_most(0, 60, 120), "maximum, one interval"),
        (at_most(0, 0, 120), "maximum, the whole day"),
        (at_most(0, 59, 60), "maximum, last minute of interval 1"),
        (at_most(0, 60, 61), "maximum, first minute of interval 2"),
        (at_most(0, 59, 61), "maximum, two minutes over an edge"),
        (at_most(600, 0, 30), "maximum met exactly"),
        (at_most(599, 0, 30), "maximum overrun by one"),
        (at_least(900, 90, 120), "minimum met exactly"),
        (at_least(901, 90, 120), "minimum missed by one"),
    ];
    let two_hours = [(60, 20), (60, 30)];
    let mut rows: Vec<Row> = windows
        .into_iter()
        .map(|(window, about)| running(Side::Producing, &two_hours, &[window]).row(about))
        .collect();
    rows.extend(rows_of_other_days_with_energy_windows());
    rows
}

/// Windows over several intervals, of unlike length, of a consuming device, two of them, and over
/// startup power.
fn rows_of_other_days_with_energy_windows() -> Vec<Row> {
    let three_hours = [(60, 20), (60, 30), (60, 40)];
    let unlike_intervals = [(10, 20), (60, 30), (20, 40)];
    let two_hours = [(60, 20), (60, 30)];
    let mut rising = draft(Side::Producing, false, 10, &[false, false, true]);
    for terms in &mut rising.device().terms {
        terms.pmin = 50;
    }
    rising.device().ramps.starting = 2;
    rising.setting(3).online_power = 50;
    rising.device().energy_windows = vec![at_most(0, 5, 15)];
    vec![
        running(Side::Producing, &three_hours, &[at_most(0, 50, 130)])
            .row("maximum, over an interval and 10 minutes on either side"),
        running(Side::Producing, &unlike_intervals, &[at_most(0, 5, 75)])
            .row("maximum, over intervals of 10, 60 and 20 minutes"),
        running(Side::Consuming, &two_hours, &[at_least(3_000, 1, 120)])
            .row("minimum of a consuming device, all but the first minute"),
        running(
            Side::Producing,
            &two_hours,
            &[at_most(0, 0, 1), at_least(5_000, 119, 120)],
        )
        .row("two windows: the first and the last minute"),
        rising.row("startup power counts: 10 kW, then 30 kW, 5 minutes of each"),
    ]
}

/// A producing device with a minimum power and ramps of 2 in intervals of 10 minutes.
fn slow(initially_on: bool, on: &[bool], pmin: i128) -> Draft {
    let mut draft = draft(Side::Producing, initially_on, 10, on);
    for terms in &mut draft.device().terms {
        terms.pmin = pmin;
    }
    draft.device().ramps.starting = 2;
    draft.device().ramps.stopping = 2;
    draft
}

/// 30 kW, stopped for one interval in which 10 kW fall and 10 kW rise, and 30 kW again.
fn crossing() -> Draft {
    let mut crossing = slow(true, &[true, false, true], 30);
    crossing.device().initial_power = 30;
    crossing.setting(1).online_power = 30;
    crossing.setting(3).online_power = 30;
    crossing
}

/// Two starts, in intervals 2 and 4, that give 40 and 20 kW in interval 1.
fn two_starts(pmax_at_first: i128) -> Draft {
    let mut draft = slow(false, &[false, true, false, true], 50);
    draft.device().ramps.starting = 1;
    draft.device().initial_power = 50;
    draft.device().terms[0].pmin = 0;
    draft.device().terms[0].pmax = pmax_at_first;
    draft.setting(2).online_power = 50;
    draft.setting(4).online_power = 50;
    draft
}

/// Startup and shutdown power, and the ramps that go with them.
fn trajectory_rows() -> Vec<Row> {
    let mut rising = slow(false, &[false, false, true], 50);
    rising.device().initial_power = 0;
    rising.setting(3).online_power = 50;
    let mut too_high = slow(false, &[false, false, true], 50);
    too_high.setting(3).online_power = 51;
    let mut falling = slow(true, &[true, false, false], 50);
    falling.device().initial_power = 50;
    falling.setting(1).online_power = 50;
    let mut stopped_at_first = slow(true, &[false, false], 90);
    stopped_at_first.device().initial_power = 45;
    let mut left_over = slow(false, &[false, false], 0);
    left_over.device().initial_power = 20;
    let mut left_too_much = slow(false, &[false, false], 0);
    left_too_much.device().initial_power = 21;
    let mut into_on = slow(true, &[true, false, true], 50);
    into_on.device().initial_power = 50;
    into_on.setting(1).online_power = 50;
    into_on.setting(3).online_power = 50;
    let mut into_low_on = slow(true, &[true, false, true], 50);
    into_low_on.device().initial_power = 50;
    into_low_on.setting(1).online_power = 49;
    into_low_on.setting(3).online_power = 50;
    vec![
        rising.row("psu over two intervals"),
        too_high.row("starting ramp, not up, at a start: rule 5"),
        falling.row("psd over two intervals"),
        stopped_at_first.row("stop in interval 1 from the initial power"),
        left_over.row("initial power while off, as much as may fall"),
        left_too_much.row("initial power while off, one too much: rule 6"),
        into_on.row("psu of a start reaches into an on interval: rule 18"),
        into_low_on.row("the same with online power below pmin, though p is above: rule 17"),
        crossing().row("psu and psd in one interval"),
        two_starts(59)
            .row("psu of two later starts, 40 and 20, above pmax 59: rule 18 in interval 1"),
        two_starts(60)
            .row("psu of two later starts at pmax 60: next fault is rule 5 in interval 2"),
    ]
}

/// The order of rules: interval, device, number; rule 20 last, by device, then window.
fn order_rows() -> Vec<Row> {
    let mut by_device = draft(Side::Producing, true, 10, &[true]);
    by_device.add_twin();
    by_device.device().terms[0].pmin = 1;
    by_device.plan.intervals[0][1].reserves.rgu = 21;
    let mut by_interval = draft(Side::Producing, true, 10, &[true, true]);
    by_interval.device().terms[0].blocks[0].cap = 50;
    by_interval.device().terms[1].status = Status::Off;
    by_interval.setting(1).online_power = 51;
    let mut by_number = draft(Side::Producing, true, 10, &[true]);
    by_number.setting(1).reserves = Reserves::from_order([0, 21, 21, 1, 0, 0, 0, 0]);
    let no_start = StartWindow {
        start: 0,
        end: 10,
        most_starts: 0,
    };
    let mut rule_20_last = draft(Side::Producing, false, 10, &[true, true]);
    rule_20_last.device().start_windows.push(no_start);
    rule_20_last.setting(2).online_power = 101;
    let mut second_window = draft(Side::Producing, false, 10, &[true]);
    let one_start = StartWindow {
        most_starts: 1,
        ..no_start
    };
    second_window.device().start_windows = vec![one_start, no_start];
    vec![
        by_device.row("device 1 breaks rule 17, device 2 rule 7: rule 17 first"),
        by_interval.row("interval 1 breaks rule 19, interval 2 rule 1: rule 19 first"),
        by_number.row("rules 8 to 13, 17 and 18 broken at one place: rule 8 first"),
        rule_20_last.row("rule 16 in the last interval comes before rule 20"),
        second_window.row("rule 20 in the second window"),
    ]
}

/// Lists of breaches: "each breach exactly once, in document 01's order".
fn breach_rows() -> Vec<Row> {
    let mut switched = draft(Side::Producing, true, 10, &[false, true, false, true]);
    switched.device().minutes_already_so = 100;
    (switched.device().minimum_up, switched.device().minimum_down) = (100, 100);
    let mut other_sides = draft(Side::Consuming, false, 10, &[false]);
    (
        other_sides.setting(1).reserves.nsc,
        other_sides.setting(1).reserves.rru_off,
    ) = (1, 1);
    let mut by_interval = draft(Side::Producing, true, 10, &[true, true]);
    by_interval.add_twin();
    by_interval.device().terms[1].status = Status::Off;
    by_interval.plan.intervals[0][1].reserves.rgu = 21;
    let window = |most_starts| StartWindow {
        start: 0,
        end: 10,
        most_starts,
    };
    let mut windows_last = draft(Side::Producing, false, 10, &[true, true]);
    windows_last.device().start_windows = vec![window(0), window(1), window(0)];
    windows_last.setting(2).online_power = 101;
    windows_last.add_twin();
    let mut everywhere = draft(Side::Producing, true, 10, &[true]);
    everywhere.setting(1).reserves = Reserves::from_order([100; 8]);
    vec![
        switched.row("rules 3, 4 and 3 again, that by two earlier stops: once each"),
        other_sides.row("rule 15 by nsc and rru_off: once"),
        by_interval.row("device 2 in interval 1 before device 1 in interval 2"),
        windows_last.row("rules 16 and 19 of two devices, then rule 20 by device and window"),
        everywhere.row("rules 7 to 18 at one place"),
    ]
}
