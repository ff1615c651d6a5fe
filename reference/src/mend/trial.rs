//! The mend by trial: every replacement in the order of its rank, each judged.

use crate::case::Case;
use crate::judge::our_completion;
use crate::mend::Mend;
use crate::plan::Plan;

/// The first accepted replacement of a power of a broken plan by one from 0 to `most`.
pub fn least_mend(case: &Case, plan: &Plan, most: i128) -> Option<Mend> {
    let farthest = farthest_change(plan, most);
    let mut tried = plan.clone();
    (1..=farthest).find_map(|change| least_at(case, plan, &mut tried, most, change))
}

/// The greatest change that a replacement can come to.
fn farthest_change(plan: &Plan, most: i128) -> i128 {
    let settings = plan.intervals.iter().flatten();
    let farthest = settings.map(|setting| {
        let old = setting.online_power;
        old.max(most - old)
    });
    farthest.max().unwrap_or(0)
}

/// The first accepted replacement of those that change a power by `change`: by interval, device, new
/// power. `tried` is the plan, before and after.
fn least_at(case: &Case, plan: &Plan, tried: &mut Plan, most: i128, change: i128) -> Option<Mend> {
    for t in 0..case.intervals() {
        for j in 0..case.devices.len() {
            let old = plan.intervals[t][j].online_power;
            for power in [old - change, old + change] {
                if !(0..=most).contains(&power) {
                    continue;
                }
                tried.intervals[t][j].online_power = power;
                let is_accepted = our_completion(case, tried).is_ok();
                tried.intervals[t][j].online_power = old;
                if is_accepted {
                    return Some(Mend::at((t, j), power));
                }
            }
        }
    }
    None
}
