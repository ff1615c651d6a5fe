//! The verbs that draw and lay out: `draw`, `compare`, `report`.

use super::arguments::Arguments;
use super::input::{load_case, load_plan};
use super::judging::{judge_files, judge_pair};
use super::machine::judged_json;
use super::output::put_made;
use super::progress::Progress;
use super::trouble::{shown_path, Done, Trouble};
use super::Answer;
use crate::compare::{compare, compare_members};
use crate::json::Json;
use crate::page::{page, Reported};
use crate::picture::picture;

fn defect(what: String) -> Trouble {
    Trouble::Defect(what)
}

/// `draw CASE PLAN -o FILE`.
pub fn draw_verb(arguments: &Arguments) -> Done<Answer> {
    let [case, plan] = arguments.files.as_slice() else {
        return Err(Trouble::WrongUse);
    };
    let place = arguments.output()?;
    let (_, _, judged) = judge_files(case, plan)?;
    let drawn = picture(&judged).map_err(defect)?;
    put_made(&arguments.files, place, drawn.into_bytes(), judged.status())
}

/// `compare CASE PLAN PLAN [--json]`.
pub fn compare_verb(arguments: &Arguments) -> Done<Answer> {
    let [case, one_path, other_path] = arguments.files.as_slice() else {
        return Err(Trouble::WrongUse);
    };
    let case = load_case(case)?;
    let plans = [
        load_plan(&case.case, one_path)?,
        load_plan(&case.case, other_path)?,
    ];
    let [one, other] = [judge_pair(&case, &plans[0])?, judge_pair(&case, &plans[1])?];
    let status = one.status().max(other.status());
    let text = if arguments.has("--json") {
        let mut members = vec![
            ("first", judged_json(one_path, &one)?),
            ("second", judged_json(other_path, &other)?),
        ];
        members.extend(compare_members(&one, &other));
        Json::Object(members).line()
    } else {
        compare(&one, &other).map_err(defect)?
    };
    Ok(Answer::new(text, status))
}

/// `report CASE PLAN.. -o FILE`.
pub fn report_verb(arguments: &Arguments) -> Done<Answer> {
    let [case_path, plans @ ..] = arguments.files.as_slice() else {
        return Err(Trouble::WrongUse);
    };
    let place = arguments.output()?;
    if plans.is_empty() {
        return Err(Trouble::WrongUse);
    }
    let case = load_case(case_path)?;
    let (mut reported, mut status) = (Vec::new(), 0);
    let mut progress = Progress::new(plans.len());
    for path in plans {
        progress.step();
        let plan = load_plan(&case.case, path)?;
        let judged = judge_pair(&case, &plan)?;
        status = status.max(judged.status());
        let name = shown_path(path);
        reported.push(Reported { name, judged });
    }
    let made = page(&shown_path(case_path), &reported).map_err(defect)?;
    put_made(&arguments.files, place, made.into_bytes(), status)
}
