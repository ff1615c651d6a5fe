//! The verbs that write messages: `bytes`, `new`, `renew`, `market`, `renumber`, `split`, `join`.

use std::ffi::OsStr;
use std::iter;
use std::path::{Path, PathBuf};

use super::arguments::{is_stdin, Arguments};
use super::input::{load_case, load_plan, load_whole_plan, read, read_batch, LoadedCase, Message};
use super::output::{hold_apart, put_all, put_made};
use super::progress::Progress;
use super::trouble::{differs, not_as_long, shown, shown_path, unknown_word, Done, Trouble};
use super::Answer;
use crate::explain::Breach;
use crate::judged::{broken_rules, ruled};
use crate::messages::{read_case, Case};
use crate::renumber::Order;
use crate::text::template;
use crate::{
    framed, inspect, judge, market, messages, with_buffer, word, write_case, write_plan, Copied,
    Fault, Inspected, Written, LONGEST_MESSAGE,
};

/// A case and a plan of it.
struct Pair<'a> {
    case: &'a LoadedCase,
    plan: Message,
}

impl Pair<'_> {
    fn load<'a>(case: &'a LoadedCase, plan: &Path) -> Done<Pair<'a>> {
        let plan = load_plan(&case.case, plan)?;
        Ok(Pair { case, plan })
    }

    fn bytes(&self) -> (&[u8], &[u8]) {
        (&self.case.message.bytes, &self.plan.bytes)
    }
}

/// `bytes case TEXT OUT`, `bytes plan CASE TEXT OUT`: a text as a message that passes reading.
pub fn bytes_verb(arguments: &Arguments) -> Done<Answer> {
    let [kind, files @ ..] = arguments.files.as_slice() else {
        return Err(Trouble::WrongUse);
    };
    match (kind.to_str(), files) {
        (Some("case"), [text, place]) => {
            let case = load_case(text)?;
            put_made(&[text], place, case.message.bytes, 0)
        }
        (Some("plan"), [case_path, text, place]) => {
            let case = load_case(case_path)?;
            let plan = load_whole_plan(&case, text, read(text)?)?;
            put_made(&[case_path, text], place, plan.bytes, 0)
        }
        _ => Err(Trouble::WrongUse),
    }
}

/// `new case`, `new plan CASE`: a text to begin with.
pub fn new_verb(arguments: &Arguments) -> Done<Answer> {
    let words: Vec<Option<&str>> = arguments.files.iter().map(|word| word.to_str()).collect();
    match (words.as_slice(), arguments.files.as_slice()) {
        ([Some("case")], _) => Ok(Answer::new(template::CASE, 0)),
        ([Some("plan"), _], [_, case]) => {
            let case = load_case(case)?;
            Ok(Answer::new(template::plan(&case.case), 0))
        }
        _ => Err(Trouble::WrongUse),
    }
}

/// The bytes written of a message, as many as the plan unit says, or what is wrong.
fn written(
    case: &LoadedCase,
    plan: Option<&Message>,
    write: impl Fn(&mut [u8]) -> Written,
) -> Done<Vec<u8>> {
    let (written, message) = with_buffer(write);
    match (written, plan) {
        (Written::Message { bytes }, _) if bytes == message.len() => Ok(message),
        (Written::CaseRefused(fault), _) => Err(case.message.refused(fault)),
        (Written::PlanRefused(fault), Some(plan)) => Err(plan.refused(fault)),
        (Written::PlanRefused(_), None) => Err(unknown_word(word::PLAN_REFUSED)),
        (Written::Message { .. }, _) => Err(not_as_long()),
        (Written::TooShort { .. }, _) => Err(unknown_word(word::RESULT_REFUSED)),
        (Written::Unknown { word }, _) => Err(unknown_word(word)),
    }
}

fn renewed_case(case: &LoadedCase) -> Done<Vec<u8>> {
    written(case, None, |buffer| write_case(&case.message.bytes, buffer))
}

fn renewed_plan(pair: &Pair) -> Done<Vec<u8>> {
    let (case, plan) = pair.bytes();
    let write = |buffer: &mut [u8]| write_plan(case, plan, buffer);
    written(pair.case, Some(&pair.plan), write)
}

/// `renew CASE OUT [PLAN OUT]`.
pub fn renew_verb(arguments: &Arguments) -> Done<Answer> {
    match arguments.files.as_slice() {
        [case, place] => {
            let loaded = load_case(case)?;
            hold_apart(&[case], &[place])?;
            let message = renewed_case(&loaded)?;
            put_all(&[(place, &message)])?;
            Ok(Answer::new(format!("case {}\n", message.len()), 0))
        }
        [case, case_place, plan, plan_place] => {
            let loaded = load_case(case)?;
            let pair = Pair::load(&loaded, plan)?;
            hold_apart(&[case, plan], &[case_place, plan_place])?;
            let case = renewed_case(&loaded)?;
            let plan = renewed_plan(&pair)?;
            put_all(&[(case_place, &case), (plan_place, &plan)])?;
            let text = format!("case {}\nplan {}\n", case.len(), plan.len());
            Ok(Answer::new(text, 0))
        }
        _ => Err(Trouble::WrongUse),
    }
}

/// `market CASE PLAN OUT`.
pub fn market_verb(arguments: &Arguments) -> Done<Answer> {
    let [case, plan, place] = arguments.files.as_slice() else {
        return Err(Trouble::WrongUse);
    };
    let loaded = load_case(case)?;
    let pair = Pair::load(&loaded, plan)?;
    hold_apart(&[case, plan], &[place])?;
    let (case, plan) = pair.bytes();
    let (copied, copy) = with_buffer(|buffer| market(case, plan, buffer));
    match copied {
        Copied::Written { bytes } if bytes == copy.len() => {
            put_all(&[(place, &copy)])?;
            Ok(Answer::new(format!("copy {bytes}\n"), 0))
        }
        Copied::Broken(first) => Ok(Answer::new(format!("broken {first}\n"), 1)),
        Copied::CaseRefused(fault) => Err(pair.case.message.refused(fault)),
        Copied::PlanRefused(fault) => Err(pair.plan.refused(fault)),
        Copied::Written { .. } | Copied::TooShort { .. } => Err(not_as_long()),
        Copied::Unknown { word } => Err(unknown_word(word)),
    }
}

fn parse_order(text: &OsStr) -> Done<Order> {
    match text.to_str().and_then(Order::parse) {
        Some(order) => Ok(order),
        None => {
            let text = shown(&text.to_string_lossy());
            Trouble::usage(format!("--order {text} does not name each set once"))
        }
    }
}

/// `renumber CASE PLAN.. --order ORDER --out FOLDER`.
pub fn renumber_verb(arguments: &Arguments) -> Done<Answer> {
    let ([case_path, plan_paths @ ..], Some(order), Some(folder)) = (
        arguments.files.as_slice(),
        arguments.value("--order"),
        arguments.file("--out"),
    ) else {
        return Err(Trouble::WrongUse);
    };
    let order = parse_order(order)?;
    let places = places_in(folder, &arguments.files)?;
    let case = load_case(case_path)?;
    let mut pairs = Vec::new();
    for plan in plan_paths {
        pairs.push(Pair::load(&case, plan)?);
    }
    hold_apart(&arguments.files, &places)?;
    let messages = renumbered(&case, &pairs, &order)?;
    let placed: Vec<(&Path, &[u8])> = places
        .iter()
        .zip(&messages)
        .map(|(place, message)| (place.as_path(), message.as_slice()))
        .collect();
    put_all(&placed)?;
    let kinds = iter::once("case").chain(iter::repeat("plan"));
    let line = |(kind, message): (&str, &Vec<u8>)| format!("{kind} {}\n", message.len());
    let text: String = kinds.zip(&messages).map(line).collect();
    Ok(Answer::new(text, 0))
}

/// A case and its plans with their devices in another order.
fn renumbered(case: &LoadedCase, pairs: &[Pair], order: &Order) -> Done<Vec<Vec<u8>>> {
    let (figures, new_case) = renumbered_case(case, order)?;
    let mut messages = vec![new_case];
    let mut progress = Progress::new(pairs.len());
    for pair in pairs {
        progress.step();
        messages.push(renumbered_plan(pair, &figures, &messages[0], order)?);
    }
    Ok(messages)
}

/// Files of the same names in a folder.
fn places_in(folder: &Path, paths: &[PathBuf]) -> Done<Vec<PathBuf>> {
    let place = |path: &PathBuf| match path.file_name() {
        Some(name) if !is_stdin(path) => Ok(folder.join(name)),
        _ => Trouble::usage(format!("{} is no file", shown_path(path))),
    };
    paths.iter().map(place).collect()
}

/// The case's figures in the newest edition, and the message with its devices in another order.
fn renumbered_case(case: &LoadedCase, order: &Order) -> Done<(Case, Vec<u8>)> {
    let newest = renewed_case(case)?;
    let figures = read_case(&newest).ok_or_else(differs)?;
    let (named, there) = (order.devices(), figures.devices.len());
    if named != there {
        return Trouble::usage(format!("--order names {named} sets, the case has {there}"));
    }
    let renumbered = order.case(&newest).ok_or_else(differs)?;
    if !matches!(inspect(&renumbered), Inspected::Counts { .. }) {
        return Err(differs());
    }
    Ok((figures, renumbered))
}

/// The plan with its devices in another order, if it is told as before with the new case.
fn renumbered_plan(pair: &Pair, figures: &Case, new_case: &[u8], order: &Order) -> Done<Vec<u8>> {
    let newest = renewed_plan(pair)?;
    let renumbered = order.plan(figures, &newest).ok_or_else(differs)?;
    let (case, plan) = pair.bytes();
    let old = finding(case, plan);
    let new = finding(new_case, &renumbered);
    if old.is_none() || new != old.map(|old| old.renumbered(order)) {
        let plan = shown_path(&pair.plan.path);
        let what = format!("with its sets renumbered {plan} is not told as before");
        return Err(Trouble::Defect(what));
    }
    Ok(renumbered)
}

/// What the plan unit tells of a pair, wherever its sets stand.
#[derive(PartialEq, Eq)]
enum Finding {
    Accepted { surplus: i64 },
    Broken(Vec<[u8; 4]>),
}

impl Finding {
    fn renumbered(self, order: &Order) -> Finding {
        match self {
            Finding::Broken(list) => Finding::Broken(order.breaches(&list)),
            accepted => accepted,
        }
    }
}

/// The surplus of a pair, or every broken rule; `None` where it is neither.
fn finding(case: &[u8], plan: &[u8]) -> Option<Finding> {
    let (verdict, _) = with_buffer(|buffer| judge(case, plan, buffer));
    match ruled(verdict).ok()? {
        Ok(surplus) => Some(Finding::Accepted { surplus }),
        Err(_) => {
            let list = broken_rules(case, plan).ok()?;
            Some(Finding::Broken(list.iter().map(Breach::numbers).collect()))
        }
    }
}

/// `split BATCH FOLDER`: 000.case, 001.plan and so on, all or none.
pub fn split_verb(arguments: &Arguments) -> Done<Answer> {
    let [path, folder] = arguments.files.as_slice() else {
        return Err(Trouble::WrongUse);
    };
    let batch = read_batch(path)?;
    let mut parts = Vec::new();
    for (number, message) in messages(&batch).enumerate() {
        let message = message.map_err(|fault| framing(path, fault))?;
        let kind = if number == 0 { "case" } else { "plan" };
        parts.push((folder.join(format!("{number:03}.{kind}")), message));
    }
    let places: Vec<&Path> = parts.iter().map(|(place, _)| place.as_path()).collect();
    hold_apart(&[path], &places)?;
    let placed: Vec<(&Path, &[u8])> = parts
        .iter()
        .map(|(place, message)| (place.as_path(), *message))
        .collect();
    put_all(&placed)?;
    let line =
        |(place, message): &(PathBuf, &[u8])| format!("{} {}\n", shown_path(place), message.len());
    let text: String = parts.iter().map(line).collect();
    Ok(Answer::new(text, 0))
}

/// A length that the splitter refuses.
fn framing(path: &Path, Fault { number, bit }: Fault) -> Trouble {
    let what = match number {
        4 => format!("a length above {LONGEST_MESSAGE}"),
        _ => "a length or its message is cut short".to_string(),
    };
    let path = shown_path(path);
    Trouble::Refused(format!("framing {number} {bit}: batch {path}: {what}"))
}

/// `join CASE PLAN.. -o BATCH`.
pub fn join_verb(arguments: &Arguments) -> Done<Answer> {
    let [case_path, plans @ ..] = arguments.files.as_slice() else {
        return Err(Trouble::WrongUse);
    };
    let place = arguments.output()?;
    let case = load_case(case_path)?;
    let mut batch = framed(&case.message.bytes);
    let mut progress = Progress::new(plans.len());
    for path in plans {
        progress.step();
        let plan = load_whole_plan(&case, path, read(path)?)?;
        batch.extend(framed(&plan.bytes));
    }
    put_made(&arguments.files, place, batch, 0)
}
