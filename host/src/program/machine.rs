//! Verdicts as a machine reads them.

use std::path::Path;

use super::trouble::{Done, Trouble};
use crate::bill::{Bill, Entry};
use crate::explain::Breach;
use crate::json::{Json, Member};
use crate::judged::{Findings, Judged};

/// The file of a plan.
pub fn plan_member(plan: &Path) -> Member {
    ("plan", Json::text(plan.to_string_lossy()))
}

fn verdict(word: &str) -> Member {
    ("verdict", Json::text(word))
}

/// Of a plan that is accepted.
pub fn accepted_members(surplus: i64) -> Vec<Member> {
    vec![verdict("accepted"), ("surplus", Json::number(surplus))]
}

/// Of a plan that is broken: what else is told of it, then its mend, if there is one.
pub fn broken_members(judged: &Judged, told: Vec<Member>) -> Vec<Member> {
    let mut members = vec![verdict("broken")];
    members.extend(told);
    members.extend(judged.offer.as_ref().map(|offer| ("mend", offer.json())));
    members
}

/// How many rules are broken.
pub fn count_member(judged: &Judged) -> Member {
    ("breaches", Json::count(judged.breaches().len()))
}

/// The first breach by its numbers and in words, and how many there are.
pub fn first_members(judged: &Judged, words: &str) -> Vec<Member> {
    let mut members = Vec::new();
    let first = judged.breaches().first();
    members.extend(first.map(|breach| ("place", place_json(breach))));
    members.push(("words", Json::text(words)));
    members.push(count_member(judged));
    members
}

/// A plan's file with its verdict: its bill, or its first breach and its mend.
pub fn judged_json(plan: &Path, judged: &Judged) -> Done<Json> {
    let mut members = vec![plan_member(plan)];
    members.extend(match &judged.findings {
        Findings::Accepted { surplus, bill, .. } => billed_members(*surplus, bill),
        Findings::Broken(_) => {
            let words = judged.lines(1).map_err(Trouble::Defect)?.concat();
            broken_members(judged, first_members(judged, &words))
        }
    });
    Ok(Json::Object(members))
}

/// Of a plan that is accepted, with its bill.
pub fn billed_members(surplus: i64, bill: &Bill) -> Vec<Member> {
    let mut members = accepted_members(surplus);
    let entries = bill.entries.iter().map(entry_json);
    members.push(("bill", Json::List(entries.collect())));
    members
}

fn entry_json(entry: &Entry) -> Json {
    Json::Object(vec![
        ("who", Json::text(entry.who.clone())),
        ("what", Json::text(entry.what.clone())),
        ("grains", Json::Number(entry.grains)),
        ("why", Json::text(entry.why.clone())),
    ])
}

/// A breach by its four numbers.
pub fn place_json(breach: &Breach) -> Json {
    let [rule, interval, device, window] = breach.numbers().map(Json::number);
    Json::Object(vec![
        ("rule", rule),
        ("interval", interval),
        ("device", device),
        ("window", window),
    ])
}
