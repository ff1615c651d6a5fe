//! Writes a batch of a case and one plan again with its plan broken: `broken BATCH FILE
//! one|ramp|two|many`. `one` has one breach, in as late a place as any power gives; `ramp` one breach
//! of rule 5 or 6, likewise; `two` that and another breach behind it, likewise; all behind the first
//! interval; `many` the highest power everywhere. What mends the plan is told.

use std::fs;
use std::process::ExitCode;

use reference::arguments::exit_code;
use reference::batch::{join, messages};
use reference::bits::HIGHEST_POWER;
use reference::breaches::breaches_of;
use reference::case::{read_case, Case};
use reference::encode::encode_plan;
use reference::mend::mend_of;
use reference::plan::{read_plan, Plan};
use reference::rules::Place;

const USAGE: &str = "usage: broken BATCH FILE one|ramp|two|many";
/// Changes of a power that are tried, in kW.
const CHANGES: [i128; 12] = [
    HIGHEST_POWER,
    1,
    -1,
    10,
    -10,
    100,
    -100,
    1_000,
    -1_000,
    10_000,
    -10_000,
    -HIGHEST_POWER,
];

fn main() -> ExitCode {
    exit_code(perform())
}

fn perform() -> Result<(), String> {
    let words: Vec<String> = std::env::args().skip(1).collect();
    let [batch, file, how] = words.as_slice() else {
        return Err(USAGE.to_string());
    };
    let batch = fs::read(batch).map_err(|error| format!("{batch}: {error}"))?;
    let [case_message, plan_message] = messages(&batch)[..] else {
        return Err("not a case and a plan".to_string());
    };
    let refused = |_| "a message that is refused".to_string();
    let (edition, case) = read_case(case_message).map_err(refused)?;
    let plan = read_plan(edition, &case, plan_message).map_err(refused)?;
    let broken = match how.as_str() {
        "one" => broken_late(&case, &plan, |list| list.len() == 1),
        "ramp" => broken_late(&case, &plan, is_ramp),
        "two" => broken_late(&case, &plan, is_ramp).and_then(|ramp| {
            let first = breaches_of(&case, &ramp)[0];
            broken_late(&case, &ramp, |list| list.len() == 2 && list[0] == first)
        }),
        "many" => Some(broken_everywhere(&plan)),
        _ => return Err(USAGE.to_string()),
    };
    let broken = broken.ok_or("no power gives such a breach")?;
    let list = breaches_of(&case, &broken);
    println!("breaches {}, the first {:?}", list.len(), list.first());
    println!("mended by {:?}", mend_of(&case, &broken));
    let messages = [case_message, &encode_plan(edition, &broken).bytes];
    fs::write(file, join(&messages)).map_err(|error| format!("{file}: {error}"))
}

/// Whether a ramp is the only breach.
fn is_ramp(list: &[Place]) -> bool {
    matches!(list, [Place { rule: 5 | 6, .. }])
}

/// The plan with one power changed so that its breaches are as wanted: of the last place that gives
/// such ones, behind the first interval.
fn broken_late(case: &Case, plan: &Plan, is_wanted: impl Fn(&[Place]) -> bool) -> Option<Plan> {
    let places = (1..case.intervals()).rev().flat_map(|t| {
        let devices = (0..case.devices.len()).rev();
        devices.map(move |j| (t, j))
    });
    places
        .flat_map(|place| CHANGES.map(|change| (place, change)))
        .map(|((t, j), change)| {
            let mut broken = plan.clone();
            let power = &mut broken.intervals[t][j].online_power;
            *power = (*power + change).clamp(0, HIGHEST_POWER);
            broken
        })
        .find(|broken| is_wanted(&breaches_of(case, broken)))
}

fn broken_everywhere(plan: &Plan) -> Plan {
    let mut broken = plan.clone();
    for setting in broken.intervals.iter_mut().flatten() {
        setting.online_power = HIGHEST_POWER;
    }
    broken
}
