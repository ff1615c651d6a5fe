//! The text form over both corpora: a message's text is read back to its bytes, and text that was
//! written is written again as it stands.

mod common;

use common::{accepted, each_case};
use host::messages::{
    case_message, plan_message, read_case, read_lone_plan, read_outcome, read_plan, Case, Kind,
};
use host::text;
use host::{inspect, judge, Inspected, Verdict};

/// Whether a plan passes reading.
fn is_read(case: &[u8], plan: &[u8]) -> bool {
    !matches!(judge(case, plan, &mut []), Verdict::PlanRefused(_))
}

/// Calls `visit` with every case that passes reading and the plans behind it that do.
fn each_read(mut visit: impl FnMut(&[u8], &Case, &[&[u8]])) {
    each_case(|message, plans| {
        if !matches!(inspect(message), Inspected::Counts { .. }) {
            return;
        }
        let case = read_case(message).expect("the case passes reading");
        let passes = |plan: &&&[u8]| is_read(message, plan);
        let plans: Vec<&[u8]> = plans.iter().filter(passes).copied().collect();
        visit(message, &case, &plans);
    });
}

#[test]
fn a_cases_text_is_read_back() {
    let mut cases = 0;
    each_read(|message, case, _| {
        let written = text::case_text(case);
        let (read, _) = text::read_case(&written).expect("the text is right");
        assert_eq!(case_message(&read).expect("it fits"), message);
        assert_eq!(text::case_text(&read), written);
        cases += 1;
    });
    assert!(cases > 700, "{cases}");
}

/// Beside its case, with times, and alone.
#[test]
fn a_plans_text_is_read_back() {
    let mut plans = 0;
    each_read(|_, case, messages| {
        for message in messages {
            let plan = read_plan(case, message).expect("the plan passes reading");
            let lone = read_lone_plan(message).expect("it is whole");
            for written in [
                text::plan_text(&plan, Some(case)),
                text::plan_text(&lone, None),
            ] {
                let (read, _) = text::read_plan(case, &written).expect("the text is right");
                assert_eq!(plan_message(&read).expect("it fits"), *message);
            }
            plans += 1;
        }
    });
    assert!(plans > 3_000, "{plans}");
}

#[test]
fn a_plans_rows_are_read_back() {
    let mut plans = 0;
    each_read(|_, case, messages| {
        for message in messages.iter().take(1) {
            let plan = read_plan(case, message).expect("the plan passes reading");
            let rows = text::plan_csv(&plan, Some(case));
            assert!(text::is_csv(&rows));
            for rows in [rows.replace(',', ";"), format!("\u{feff}{rows}"), rows] {
                let (read, _) = text::read_csv(case, &rows).expect("the rows are right");
                assert_eq!(plan_message(&read).expect("it fits"), *message);
            }
            plans += 1;
        }
    });
    assert!(plans > 500, "{plans}");
}

/// Names are the text's alone: they stay in the text and leave the bytes as they are.
#[test]
fn names_stay_in_the_text() {
    let names = ["Diesel A", "of # at", "7", "Öl"];
    each_read(|message, case, plans| {
        let mut named = case.clone();
        for (device, name) in named.devices.iter_mut().zip(names.iter().cycle()) {
            device.name = name.to_string();
        }
        let written = text::case_text(&named);
        let (read, _) = text::read_case(&written).expect("the text is right");
        assert_eq!(read, named);
        assert_eq!(case_message(&read).expect("it fits"), message);
        if let Some(plan) = plans.first() {
            let plan_of_case = read_plan(case, plan).expect("the plan passes reading");
            let written = text::plan_text(&plan_of_case, Some(&named));
            let (read, _) = text::read_plan(&named, &written).expect("the text is right");
            assert_eq!(plan_message(&read).expect("it fits"), *plan);
        }
    });
}

/// A completion's text says its surplus and every figure that is not 0.
#[test]
fn a_completions_text_says_its_figures() {
    let mut completions = 0;
    each_read(|message, case, plans| {
        for plan in plans.iter().take(2) {
            let Some((surplus, result)) = accepted(message, plan) else {
                continue;
            };
            let windows = case.energy_windows();
            let outcome = read_outcome(Kind::Completion, windows, &result).expect("it is whole");
            let written = text::outcome_text(Kind::Completion, &outcome, Some(case));
            let surplus = format!("\nsurplus {surplus}\n");
            assert!(written.ends_with(&surplus), "{written}");
            let starts = |row: &host::messages::Chosen| row.choices.iter().any(|c| c.started);
            let any = outcome.rows.iter().any(starts);
            assert_eq!(written.contains(" started "), any);
            completions += 1;
        }
    });
    assert!(completions > 200, "{completions}");
}

#[test]
fn templates_pass_reading() {
    let (case, _) = text::read_case(text::template::CASE).expect("the text is right");
    let message = case_message(&case).expect("it fits");
    assert!(matches!(inspect(&message), Inspected::Counts { .. }));
    let (plan, _) = text::read_plan(&case, &text::template::plan(&case)).expect("right");
    let plan = plan_message(&plan).expect("it fits");
    assert!(is_read(&message, &plan));
}
