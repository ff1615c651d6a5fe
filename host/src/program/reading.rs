//! The verbs that tell what a message holds: `inspect`, `show`, `text`, `field`, `diff`, `rules`.

use std::collections::HashMap;
use std::path::Path;

use super::arguments::Arguments;
use super::input::{
    is_text_of, load_case, load_case_message, load_message, load_outcome, load_whole_plan, plan_of,
    read, read_in, LoadedCase, Message,
};
use super::judging::judge_pair;
use super::machine::{billed_members, broken_members, count_member};
use super::trouble::{differs, not_as_long, shown_path, unknown_word, Done, Trouble};
use super::Answer;
use crate::describe::describe;
use crate::json::{Json, Member};
use crate::judged::{Findings, Judged};
use crate::messages::{
    field_at, fields_of, read_lone_outcome, read_lone_plan, read_outcome, read_plan, Kind, Place,
};
use crate::rules;
use crate::show::show;
use crate::table;
use crate::text;
use crate::{inspect, read_completion, read_market, Inspected, Read};

/// `inspect CASE [--json]`.
pub fn inspect_verb(arguments: &Arguments) -> Done<Answer> {
    let [case] = arguments.files.as_slice() else {
        return Err(Trouble::WrongUse);
    };
    let case = load_case(case)?.case;
    if arguments.has("--json") {
        let json = Json::Object(vec![
            ("edition", Json::number(case.edition)),
            ("devices", Json::count(case.devices.len())),
            ("intervals", Json::count(case.intervals.len())),
            ("zones", Json::count(case.zones.len())),
        ]);
        return Ok(Answer::new(json.line(), 0));
    }
    Ok(Answer::new(describe(&case), 0))
}

/// Whether a file holds a plan: its message, its text or its rows.
fn is_plan(bytes: &[u8]) -> bool {
    is_text_of(Kind::Plan, bytes)
        || Kind::of(bytes) == Some(Kind::Plan)
        || std::str::from_utf8(bytes).is_ok_and(text::is_csv)
}

/// `show CASE PLAN` and `show CASE MESSAGE [--json]`.
pub fn show_verb(arguments: &Arguments) -> Done<Answer> {
    let [case, path] = arguments.files.as_slice() else {
        return Err(Trouble::WrongUse);
    };
    let (message, names) = load_case_message(case)?;
    let bytes = read(path)?;
    let case = read_in(message, names)?;
    if !is_plan(&bytes) {
        if arguments.has("--json") {
            return Err(Trouble::WrongUse);
        }
        return show_outcome(&case, path, bytes);
    }
    let plan = plan_of(&case.case, path, bytes)?;
    let judged = judge_pair(&case, &plan)?;
    let status = judged.status();
    if arguments.has("--json") {
        return Ok(Answer::new(bill_json(&judged).line(), status));
    }
    let table = table::day(&judged).map_err(|what| Trouble::Defect(what.to_string()))?;
    Ok(Answer::new(table, status))
}

fn bill_json(judged: &Judged) -> Json {
    Json::Object(match &judged.findings {
        Findings::Accepted { surplus, bill, .. } => billed_members(*surplus, bill),
        Findings::Broken(_) => broken_members(judged, vec![count_member(judged)]),
    })
}

/// The numbers of a message, by a table of as many as its reader needs, or its answer.
fn numbers_of(kind: Kind, case: &[u8], message: &[u8]) -> Result<Vec<u64>, Read> {
    let read = match kind {
        Kind::MarketCopy => read_market,
        _ => read_completion,
    };
    let mut table = match read(case, message, &mut []) {
        Read::TooShort { bytes } => vec![0; bytes / size_of::<u64>()],
        other => return Err(other),
    };
    match read(case, message, &mut table) {
        Read::Figures { numbers } if numbers == table.len() => Ok(table),
        other => Err(other),
    }
}

/// The numbers of a completion or a copy; a message that is neither is refused as the desk reader
/// refuses it.
fn outcome_numbers(case: &LoadedCase, message: &Message) -> Done<Vec<u64>> {
    let name = match Kind::of(&message.bytes) == Some(message.kind) {
        true => message.kind.name(),
        false => "message",
    };
    let numbers = numbers_of(message.kind, &case.message.bytes, &message.bytes);
    numbers.map_err(|answer| match answer {
        Read::CaseRefused(fault) => case.message.refused(fault),
        Read::MessageRefused(fault) => message.refused_as(name, fault),
        Read::Figures { .. } | Read::TooShort { .. } => not_as_long(),
        Read::Unknown { word } => unknown_word(word),
    })
}

/// What a file says to be; that of neither a completion nor a copy is taken for a completion.
fn outcome_kind(bytes: &[u8]) -> Kind {
    match Kind::of(bytes) {
        Some(Kind::MarketCopy) => Kind::MarketCopy,
        _ => Kind::Completion,
    }
}

fn show_outcome(case: &LoadedCase, path: &Path, bytes: Vec<u8>) -> Done<Answer> {
    let kind = outcome_kind(&bytes);
    let message = load_outcome(case, path, kind, bytes);
    let numbers = outcome_numbers(case, &message)?;
    let text = show(&case.case, kind, &numbers).ok_or_else(differs)?;
    Ok(Answer::new(text, 0))
}

/// `text FILE`, `text CASE MESSAGE [--csv]`.
pub fn text_verb(arguments: &Arguments) -> Done<Answer> {
    let text = match (arguments.files.as_slice(), arguments.has("--csv")) {
        ([file], csv) => lone_text(file, csv)?,
        ([case, message], csv) => text_beside(case, message, csv)?,
        _ => return Err(Trouble::WrongUse),
    };
    Ok(Answer::new(text, 0))
}

/// A message as text without its case; of what is no case nothing but its length can be checked.
fn lone_text(path: &Path, csv: bool) -> Done<String> {
    let bytes = read(path)?;
    if is_text_of(Kind::Plan, &bytes) {
        return Trouble::usage("the text of a plan is read with its case: text CASE PLAN");
    }
    let not_whole = |kind: Kind| {
        let (path, name) = (shown_path(path), kind.name());
        Trouble::Refused(format!(
            "{path}: not a whole {name}; with its case 'text' tells where"
        ))
    };
    match Kind::of(&bytes) {
        Some(Kind::Plan) => {
            let plan = read_lone_plan(&bytes).ok_or_else(|| not_whole(Kind::Plan))?;
            Ok(match csv {
                true => text::plan_csv(&plan, None),
                false => text::plan_text(&plan, None),
            })
        }
        _ if csv => Err(Trouble::WrongUse),
        Some(kind @ (Kind::Completion | Kind::MarketCopy)) => {
            let outcome = read_lone_outcome(kind, &bytes).ok_or_else(|| not_whole(kind))?;
            Ok(text::outcome_text(kind, &outcome, None))
        }
        _ => Ok(text::case_text(&load_case(path)?.case)),
    }
}

/// A plan, a completion or a copy as text with the names and times of its case.
fn text_beside(case: &Path, path: &Path, csv: bool) -> Done<String> {
    let case = load_case(case)?;
    let bytes = read(path)?;
    if is_plan(&bytes) {
        let plan = load_whole_plan(&case, path, bytes)?;
        let plan = read_plan(&case.case, &plan.bytes).ok_or_else(differs)?;
        return Ok(match csv {
            true => text::plan_csv(&plan, Some(&case.case)),
            false => text::plan_text(&plan, Some(&case.case)),
        });
    }
    if csv {
        return Err(Trouble::WrongUse);
    }
    let kind = outcome_kind(&bytes);
    let message = load_outcome(&case, path, kind, bytes);
    outcome_numbers(&case, &message)?;
    let windows = case.case.energy_windows();
    let outcome = read_outcome(kind, windows, &message.bytes).ok_or_else(differs)?;
    Ok(text::outcome_text(kind, &outcome, Some(&case.case)))
}

/// A message of any kind, by its bytes, its text where it is a case, or a plan's text with its case.
fn any_message(arguments: &Arguments, path: &Path) -> Done<Message> {
    let case = match arguments.file("--case") {
        Some(case) => Some(load_case(case)?),
        None => None,
    };
    let bytes = read(path)?;
    let is_plans_text =
        is_text_of(Kind::Plan, &bytes) || std::str::from_utf8(&bytes).is_ok_and(text::is_csv);
    if is_text_of(Kind::Case, &bytes) {
        return Ok(load_case_message(path)?.0);
    }
    if is_plans_text {
        return match case {
            Some(case) => plan_of(&case.case, path, bytes),
            None => Trouble::usage("the text of a plan is read with its case: --case CASE"),
        };
    }
    match Kind::of(&bytes) {
        Some(kind) => Ok(load_message(path, kind, bytes)),
        None => {
            let message = load_message(path, Kind::Case, bytes);
            match inspect(&message.bytes) {
                Inspected::CaseRefused(fault) => Err(message.refused_as("message", fault)),
                Inspected::Counts { .. } => Err(differs()),
                Inspected::Unknown { word } => Err(unknown_word(word)),
            }
        }
    }
}

/// A field's value where the message has it.
fn value_words(place: &Place) -> String {
    let value = place.value.map(|value| value.to_string());
    value.unwrap_or("cut".to_string())
}

fn value_member(place: &Place) -> Option<Member> {
    place.value.map(|value| ("value", Json::number(value)))
}

fn place_words(place: &Place) -> String {
    let Place {
        name, bit, field, ..
    } = place;
    let (width, range) = (field.width, field.range());
    let value = value_words(place);
    format!("{bit} {width} {name}: {value} ({range})")
}

fn place_json(place: &Place) -> Json {
    let mut members = vec![
        ("bit", Json::count(place.bit)),
        ("width", Json::count(place.field.width)),
        ("name", Json::text(place.name.clone())),
        ("least", Json::number(place.field.least)),
        ("most", Json::number(place.field.most)),
    ];
    members.extend(value_member(place));
    Json::Object(members)
}

/// `field FILE [BIT] [--case CASE] [--json]`.
pub fn field_verb(arguments: &Arguments) -> Done<Answer> {
    let (path, bit) = match arguments.files.as_slice() {
        [path] => (path, None),
        [path, bit] => match bit.to_str().and_then(|digits| digits.parse().ok()) {
            Some(bit) => (path, Some(bit)),
            None => return Trouble::usage(format!("{} is not a bit", shown_path(bit))),
        },
        _ => return Err(Trouble::WrongUse),
    };
    let message = any_message(arguments, path)?;
    let places = match bit {
        None => fields_of(message.kind, &message.bytes, None),
        Some(bit) => field_at(message.kind, &message.bytes, bit, None)
            .into_iter()
            .collect(),
    };
    let text = if arguments.has("--json") {
        Json::List(places.iter().map(place_json).collect()).line()
    } else if places.is_empty() {
        format!("behind the last field of the {}\n", message.kind.name())
    } else {
        places
            .iter()
            .map(|place| place_words(place) + "\n")
            .collect()
    };
    Ok(Answer::new(text, 0))
}

/// `diff A B [--case CASE] [--json]`: the fields in which two messages of a kind differ; status 1 where
/// they do.
pub fn diff_verb(arguments: &Arguments) -> Done<Answer> {
    let [one, other] = arguments.files.as_slice() else {
        return Err(Trouble::WrongUse);
    };
    let (one, other) = (any_message(arguments, one)?, any_message(arguments, other)?);
    if one.kind != other.kind {
        let (one, other) = (one.kind.name(), other.kind.name());
        return Trouble::usage(format!("a {one} and a {other} have no field in common"));
    }
    let places = [&one, &other].map(|message| fields_of(message.kind, &message.bytes, None));
    let fields = differences(&places[0], &places[1]);
    let is_same = one.bytes == other.bytes;
    let text = if arguments.has("--json") {
        let fields = fields.iter().map(Difference::json).collect();
        let json = Json::Object(vec![
            ("same", Json::Flag(is_same)),
            ("fields", Json::List(fields)),
        ]);
        json.line()
    } else {
        match (fields.is_empty(), is_same) {
            (true, true) => "no differences\n".to_string(),
            (true, false) => "the same fields; other bits behind them\n".to_string(),
            (false, _) => fields.iter().map(Difference::words).collect(),
        }
    };
    Ok(Answer::new(text, u8::from(!is_same)))
}

/// A field that differs: where it is in either message.
struct Difference<'a> {
    first: Option<&'a Place>,
    second: Option<&'a Place>,
}

impl Difference<'_> {
    fn name(&self) -> &str {
        let place = self.first.or(self.second);
        place.map_or("", |place| place.name.as_str())
    }

    fn words(&self) -> String {
        let [first, second] = [self.first, self.second].map(|place| place.map(value_words));
        let values = match (first, second) {
            (Some(first), Some(second)) => format!("{first}, then {second}"),
            (Some(first), None) => format!("{first}, in the first alone"),
            (None, second) => format!("{}, in the second alone", second.unwrap_or_default()),
        };
        format!("{}: {values}\n", self.name())
    }

    fn json(&self) -> Json {
        let mut members = vec![("name", Json::text(self.name()))];
        for (which, place) in [("first", self.first), ("second", self.second)] {
            let there = place.map(|place| {
                let mut members = vec![("bit", Json::count(place.bit))];
                members.extend(value_member(place));
                (which, Json::Object(members))
            });
            members.extend(there);
        }
        Json::Object(members)
    }
}

/// The fields that differ, those of the second message alone behind all others.
fn differences<'a>(one: &'a [Place], other: &'a [Place]) -> Vec<Difference<'a>> {
    let [of_one, of_other] = [one, other].map(|places| {
        let named = places.iter().map(|place| (place.name.as_str(), place));
        named.collect::<HashMap<&str, &Place>>()
    });
    let of_first = one.iter().map(|place| Difference {
        first: Some(place),
        second: of_other.get(place.name.as_str()).copied(),
    });
    let is_new = |place: &&Place| !of_one.contains_key(place.name.as_str());
    let of_second = other.iter().filter(is_new).map(|place| Difference {
        first: None,
        second: Some(place),
    });
    let value = |place: Option<&Place>| place.map(|place| place.value);
    of_first
        .filter(|field| value(field.first) != value(field.second))
        .chain(of_second)
        .collect()
}

/// `rules [N]`.
pub fn rules_verb(arguments: &Arguments) -> Done<Answer> {
    let text = match arguments.files.as_slice() {
        [] => (1..=rules::COUNT)
            .filter_map(rules::rule)
            .map(|rule| rule + "\n")
            .collect(),
        [number] => {
            let parsed = number.to_str().and_then(|digits| digits.parse().ok());
            match parsed.and_then(rules::rule) {
                Some(rule) => rule + "\n",
                None => {
                    let (number, last) = (shown_path(number), rules::COUNT);
                    return Trouble::usage(format!("{number} is no rule; 1 to {last}"));
                }
            }
        }
        _ => return Err(Trouble::WrongUse),
    };
    Ok(Answer::new(text, 0))
}
