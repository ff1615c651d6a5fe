//! The days of `examples/` by their texts, each under its plan's name.

use std::fs;

use reference::day_text::read_day;

use crate::day::Sheet;
use crate::figures::rows_of;
use crate::names::root;

/// The names of the files of a kind.
fn names(kind: &str) -> Vec<String> {
    let folder = fs::read_dir(root().join("examples")).expect("the examples");
    let files = folder.map(|file| file.expect("a file").file_name());
    let files = files.map(|name| name.into_string().expect("text"));
    let mut names: Vec<String> = files
        .filter_map(|name| name.strip_suffix(kind).map(str::to_string))
        .collect();
    names.sort();
    names
}

fn text(name: &str, kind: &str) -> String {
    let path = root().join(format!("examples/{name}{kind}"));
    fs::read_to_string(path).expect("an example")
}

/// Every plan with its case, whose name stands at the front of the plan's.
pub fn example_days() -> Vec<(String, Sheet)> {
    let cases = names(".case");
    let sheet = |plan: String| {
        let mut of_plan = cases.iter().filter(|case| plan.starts_with(*case));
        let (Some(case), None) = (of_plan.next(), of_plan.next()) else {
            panic!("{plan}.plan: no case, or several");
        };
        let day = read_day(&text(case, ".case"), &text(&plan, ".plan"));
        let day = day.unwrap_or_else(|wrong| panic!("{plan}: {wrong}"));
        (plan, Sheet::of(day))
    };
    names(".plan").into_iter().map(sheet).collect()
}

#[test]
fn every_example_has_its_row() {
    let rows = rows_of(&["No.", "Day", "Changes", "Answer", "Why"]);
    for (plan, _) in example_days() {
        let mut verdicts = rows.iter().filter(|row| row[2].is_empty());
        assert!(verdicts.any(|row| row[1] == plan), "{plan} has no verdict");
    }
}

/// A word changed, or a figure too many, is told by its line.
#[test]
fn a_wrong_text_is_told_by_its_line() {
    let (case, plan) = (text("two-sets", ".case"), text("two-sets", ".plan"));
    let told = |case: &str, plan: &str| read_day(case, plan).map(|_| ());
    assert_eq!(told(&case, &plan), Ok(()));
    let wrong = told(&case.replace("ramp up", "ramp upwards"), &plan);
    let line = "ramp upwards 10 down 10 starting 2 stopping 2";
    assert!(wrong.is_err_and(|wrong| wrong.starts_with("case, line ") && wrong.ends_with(line)));
    let wrong = told(&case, &format!("{plan}set 3 on 1\n"));
    assert!(wrong.is_err_and(|wrong| wrong.ends_with(": set 3 on 1")));
    let wrong = told(&case, &format!("{plan}set 2 power 1 2 3\n"));
    assert!(wrong.is_err_and(|wrong| wrong.ends_with(": set 2 power 1 2 3")));
}
