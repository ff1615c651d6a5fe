//! The verbs that judge: `judge` and `breaches`.

use std::collections::BTreeMap;
use std::path::{Path, PathBuf};

use super::arguments::Arguments;
use super::input::{load_case, load_plan, LoadedCase, Message};
use super::machine::{accepted_members, broken_members, first_members, place_json, plan_member};
use super::output::{hold_apart, put_all};
use super::progress::Progress;
use super::trouble::{differs, shown, shown_path, unknown_word, Done, Trouble};
use super::Answer;
use crate::day::Day;
use crate::explain::{Breach, RULES};
use crate::json::Json;
use crate::judged::{broken, broken_rules, day_of, judged, ruled, told, Judged, Unjudged};
use crate::messages::completion_length;
use crate::text::csv_row;
use crate::{framed, judge_batch, word, Batched, Turn, Verdict, LONGEST_MESSAGE, LONGEST_PLAN};

/// What is told where the plan unit gives no verdict, or one that is not borne out.
pub fn trouble(case: &LoadedCase, plan: &Message, unjudged: Unjudged) -> Trouble {
    match unjudged {
        Unjudged::Defect(what) => Trouble::Defect(what),
        Unjudged::CaseRefused(fault) => case.message.refused(fault),
        Unjudged::PlanRefused(fault) => plan.refused(fault),
        Unjudged::Unknown { word } => unknown_word(word),
    }
}

/// A case and a plan by their files, judged.
pub fn judge_files(case: &Path, plan: &Path) -> Done<(LoadedCase, Message, Judged)> {
    let case = load_case(case)?;
    let plan = load_plan(&case.case, plan)?;
    let judged = judge_pair(&case, &plan)?;
    Ok((case, plan, judged))
}

/// The same of messages that are loaded.
pub fn judge_pair(case: &LoadedCase, plan: &Message) -> Done<Judged> {
    let found = judged(&case.case, &case.message.bytes, &plan.bytes);
    found.map_err(|unjudged| trouble(case, plan, unjudged))
}

/// A verdict as `judge` tells it.
enum Said {
    Accepted(i64),
    Broken { words: String, judged: Judged },
}

impl Said {
    fn status(&self) -> u8 {
        match self {
            Said::Accepted(_) => 0,
            Said::Broken { .. } => 1,
        }
    }

    fn line(&self) -> String {
        match self {
            Said::Accepted(surplus) => format!("accepted {surplus}"),
            Said::Broken { words, judged } => {
                let list = judged.breaches();
                let numbers = list.first().map_or(String::new(), Breach::to_string);
                let words = words.strip_prefix(&numbers).unwrap_or(words).trim_start();
                let more = match list.len() {
                    0 | 1 => String::new(),
                    all => format!("; {} more", all - 1),
                };
                let mend = judged
                    .mend()
                    .map_or(String::new(), |mend| format!("; {mend}"));
                format!("broken {numbers}: {words}{more}{mend}")
            }
        }
    }

    fn json(&self, plan: &Path) -> Json {
        let mut members = vec![plan_member(plan)];
        members.extend(match self {
            Said::Accepted(surplus) => accepted_members(*surplus),
            Said::Broken { words, judged } => broken_members(judged, first_members(judged, words)),
        });
        Json::Object(members)
    }
}

const _: () = assert!(LONGEST_PLAN < LONGEST_MESSAGE);

/// A plan of a batch. One that is longer than a batch takes it passes no reading, and cut there it is
/// refused as it would be whole.
fn framed_plan(plan: &Message) -> Vec<u8> {
    let length = plan.bytes.len().min(LONGEST_MESSAGE);
    framed(&plan.bytes[..length])
}

/// The plan unit's verdict on each plan, by one call, and the completions of the accepted ones.
fn verdicts(case: &LoadedCase, plans: &[&Message]) -> Done<(Vec<Turn>, Vec<u8>)> {
    let mut batch = Vec::new();
    for plan in plans {
        batch.extend(framed_plan(plan));
    }
    let mut results = vec![0; completion_length(&case.case) * plans.len()];
    match judge_batch(&case.message.bytes, &batch, &mut results) {
        Batched::Judged(turns) => Ok((turns, results)),
        Batched::CaseRefused(fault) => Err(case.message.refused(fault)),
        Batched::BatchRefused(_) => Err(unknown_word(word::BATCH_REFUSED)),
        Batched::Unknown { word } => Err(unknown_word(word)),
    }
}

/// A verdict with what else is told of a plan that is broken.
fn said(case: &LoadedCase, plan: &Message, verdict: Verdict) -> Done<Said> {
    let unjudged = |unjudged| trouble(case, plan, unjudged);
    match ruled(verdict).map_err(unjudged)? {
        Ok(surplus) => Ok(Said::Accepted(surplus)),
        Err(first) => {
            let bytes = &case.message.bytes;
            let judged = broken(&case.case, bytes, &plan.bytes, first).map_err(unjudged)?;
            let words = judged.lines(1).map_err(Trouble::Defect)?.concat();
            Ok(Said::Broken { words, judged })
        }
    }
}

/// `judge CASE PLAN.. [--result FILE] [--json]`.
pub fn judge_verb(arguments: &Arguments) -> Done<Answer> {
    let [case, plans @ ..] = arguments.files.as_slice() else {
        return Err(Trouble::WrongUse);
    };
    match (plans, arguments.file("--result")) {
        ([], _) => Err(Trouble::WrongUse),
        ([plan], result) => judge_one(arguments, case, plan, result),
        (_, Some(_)) => Err(Trouble::WrongUse),
        (plans, None) => judge_many(arguments, case, plans),
    }
}

fn judge_one(
    arguments: &Arguments,
    case_path: &Path,
    plan_path: &Path,
    result: Option<&Path>,
) -> Done<Answer> {
    let case = load_case(case_path)?;
    let plan = load_plan(&case.case, plan_path)?;
    if let Some(result) = result {
        hold_apart(&[case_path, plan_path], &[result])?;
    }
    let (turns, results) = verdicts(&case, &[&plan])?;
    let [turn] = turns.as_slice() else {
        return Err(differs());
    };
    let told = said(&case, &plan, turn.verdict)?;
    if let (Some(result), Said::Accepted(_)) = (result, &told) {
        put_all(&[(result, &results[turn.completion.clone()])])?;
    }
    let text = if arguments.has("--json") {
        told.json(plan_path).line()
    } else {
        told.line() + "\n"
    };
    Ok(Answer::new(text, told.status()))
}

/// A line for each plan, its file ahead; a plan that is refused has its line too.
fn judge_many(arguments: &Arguments, case: &Path, plans: &[PathBuf]) -> Done<Answer> {
    let case = load_case(case)?;
    let load = |path: &PathBuf| load_plan(&case.case, path);
    let loaded: Vec<Done<Message>> = plans.iter().map(load).collect();
    let there: Vec<&Message> = loaded.iter().flatten().collect();
    let (turns, _) = verdicts(&case, &there)?;
    let mut turns = turns.into_iter();
    let mut progress = Progress::new(plans.len());
    let (mut text, mut status) = (String::new(), 0);
    for (path, plan) in plans.iter().zip(loaded) {
        progress.step();
        let found = plan.and_then(|plan| {
            let turn = turns.next().ok_or_else(differs)?;
            said(&case, &plan, turn.verdict)
        });
        let (line, json, own) = among_several(path, found)?;
        text += &match arguments.has("--json") {
            true => json.line(),
            false => format!("{}: {}\n", shown_path(path), shown(&line)),
        };
        status = status.max(own);
    }
    Ok(Answer::new(text, status))
}

/// How a plan is told among several, and its status; only a defect ends the others too.
fn among_several(plan: &Path, found: Done<Said>) -> Done<(String, Json, u8)> {
    match found {
        Ok(told) => Ok((told.line(), told.json(plan), told.status())),
        Err(trouble @ (Trouble::Refused(_) | Trouble::File { .. })) => {
            let told = trouble.to_string();
            let json = Json::Object(vec![
                plan_member(plan),
                ("verdict", Json::text("refused")),
                ("words", Json::text(told.clone())),
            ]);
            Ok((told, json, trouble.status()))
        }
        Err(defect) => Err(defect),
    }
}

/// Which breaches are asked for.
struct Filter {
    rule: Option<usize>,
    set: Option<usize>,
    interval: Option<usize>,
}

impl Filter {
    fn of(arguments: &Arguments) -> Done<Filter> {
        Ok(Filter {
            rule: arguments.number("--rule")?,
            set: arguments.number("--set")?,
            interval: arguments.number("--interval")?,
        })
    }

    fn passes(&self, breach: &Breach) -> bool {
        let is = |asked: Option<usize>, number: u8| {
            asked.is_none_or(|asked| asked == usize::from(number))
        };
        is(self.rule, breach.rule)
            && is(self.set, breach.device)
            && is(self.interval, breach.interval)
    }
}

/// `breaches CASE PLAN [--by rule|set] [--rule N] [--set N] [--interval N] [--csv] [--json]`.
pub fn breaches_verb(arguments: &Arguments) -> Done<Answer> {
    let [case, plan] = arguments.files.as_slice() else {
        return Err(Trouble::WrongUse);
    };
    let filter = Filter::of(arguments)?;
    let by = match arguments.value("--by").map(|by| by.to_string_lossy()) {
        None => None,
        Some(by) if by == "rule" => Some(By::Rule),
        Some(by) if by == "set" => Some(By::Set),
        Some(_) => return Trouble::usage("--by needs 'rule' or 'set'"),
    };
    let case = load_case(case)?;
    let plan = load_plan(&case.case, plan)?;
    let unjudged = |unjudged| trouble(&case, &plan, unjudged);
    let all = broken_rules(&case.message.bytes, &plan.bytes).map_err(unjudged)?;
    let day = day_of(&case.case, &plan.bytes).map_err(unjudged)?;
    let list: Vec<Breach> = all.iter().filter(|b| filter.passes(b)).copied().collect();
    let mut lines = Vec::new();
    for breach in &list {
        lines.push(told(&day, *breach).map_err(Trouble::Defect)?);
    }
    let text = match (arguments.has("--csv"), arguments.has("--json"), by) {
        (true, true, _) => return Trouble::usage("--csv or --json"),
        (true, false, _) => breaches_csv(&day, &list, &lines),
        (false, true, _) => breaches_json(&list, &lines).line(),
        (false, false, Some(by)) => summary(&day, &list, by),
        (false, false, None) => lines.iter().map(|line| format!("{line}\n")).collect(),
    };
    let text = match (text.is_empty(), all.len()) {
        (false, _) => text,
        (true, 0) => "no breaches\n".to_string(),
        (true, others) => format!("no such breaches; {others} others\n"),
    };
    Ok(Answer::new(text, u8::from(!all.is_empty())))
}

#[derive(Clone, Copy)]
enum By {
    Rule,
    Set,
}

/// How many breaches there are of each rule or set, and where the first is.
fn summary(day: &Day, list: &[Breach], by: By) -> String {
    let mut groups: BTreeMap<u8, Vec<&Breach>> = BTreeMap::new();
    for breach in list {
        let key = match by {
            By::Rule => breach.rule,
            By::Set => breach.device,
        };
        groups.entry(key).or_default().push(breach);
    }
    let line = |(key, breaches): (&u8, &Vec<&Breach>)| {
        let first = breaches.first().map_or(String::new(), |breach| match by {
            By::Rule => breach.place(&day.case),
            By::Set => format!("rule {}, {}", breach.rule, breach.place(&day.case)),
        });
        let head = match (by, *key) {
            (By::Rule, rule) => {
                format!("rule {rule} ({})", RULES[usize::from(rule) - 1])
            }
            (By::Set, 0) => "no set".to_string(),
            (By::Set, set) => day.case.device_name(usize::from(set) - 1),
        };
        format!("{head}: {}, first at {first}\n", breaches.len())
    };
    groups.iter().map(line).collect()
}

fn breaches_csv(day: &Day, list: &[Breach], lines: &[String]) -> String {
    let heads = ["rule", "interval", "set", "window", "name", "words"];
    let mut text = csv_row(&heads.map(String::from));
    for (breach, line) in list.iter().zip(lines) {
        let mut fields = breach.numbers().map(|number| number.to_string()).to_vec();
        let place = usize::from(breach.device).checked_sub(1);
        let name = place.map_or("", |j| day.case.devices[j].name.as_str());
        fields.push(name.to_string());
        fields.push(line.clone());
        text += &csv_row(&fields);
    }
    text
}

fn breaches_json(list: &[Breach], lines: &[String]) -> Json {
    let item = |(breach, line): (&Breach, &String)| {
        Json::Object(vec![
            ("place", place_json(breach)),
            ("words", Json::text(line.clone())),
        ])
    };
    Json::List(list.iter().zip(lines).map(item).collect())
}
