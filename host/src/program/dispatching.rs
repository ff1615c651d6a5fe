//! The verb `dispatch`: the cheapest powers of sets in one interval.

use std::path::PathBuf;

use super::arguments::Arguments;
use super::input::load_case;
use super::trouble::{differs, unknown_word, Done, Trouble};
use super::Answer;
use crate::dispatch::words::Asked;
use crate::dispatch::{dispatch, Dispatched};

pub fn dispatch_verb(arguments: &Arguments) -> Done<Answer> {
    let Some((path, words)) = arguments.files.split_first() else {
        return Err(Trouble::WrongUse);
    };
    let words: Option<Vec<&str>> = words.iter().map(|word: &PathBuf| word.to_str()).collect();
    let loaded = load_case(path)?;
    let (case, message) = (&loaded.case, &loaded.message);
    let asked = words.and_then(|words| Asked::parse(case, &words));
    let asked = asked.ok_or(Trouble::WrongUse)?;
    let (mut powers, mut offers) = (asked.earlier_powers(), asked.offers(case));
    let (interval, sets, target) = (asked.interval, asked.sets(), asked.target);
    match dispatch(
        &message.bytes,
        interval,
        &sets,
        &mut powers,
        &mut offers,
        target,
    ) {
        Dispatched::Powers => {
            let text = asked.tell(case, &powers, &offers).ok_or_else(differs)?;
            Ok(Answer::new(text, 0))
        }
        Dispatched::CaseRefused(fault) => Err(message.refused(fault)),
        Dispatched::NotOfCase => Err(refused(8, 0, asked.not_of_case(case))),
        Dispatched::NoSuchPowers { target } => Err(refused(9, target, asked.no_such_powers(case))),
        Dispatched::Unknown { word } => Err(unknown_word(word)),
    }
}

/// A question that is refused, and why; a defect where this program finds no reason.
fn refused(number: u64, returned: u64, why: Option<String>) -> Trouble {
    match why {
        Some(why) => Trouble::Refused(format!("refused {number} {returned}: {why}")),
        None => differs(),
    }
}
