//! Answers a stream of questions for the cheapest dispatch on standard input, as the reference's
//! `dispatches` asks of a program: `dispatches`. With `dispatches TIMES dispatch|inspect`, answers the
//! stream's first question, or inspects its case, so many times: each reads the case each time, so the
//! difference of the two is what dispatching does besides.

use std::env;
use std::io::{self, Read, Write};
use std::process::ExitCode;

use host::dispatch::{dispatch, Dispatched, Offer};
use host::{inspect, Inspected};
use reference::dispatch::stream::questions;
use reference::dispatch::{self as expected, Question};
use reference::packed::unpack;

fn main() -> ExitCode {
    match perform() {
        Ok(()) => ExitCode::SUCCESS,
        Err(complaint) => {
            eprintln!("{complaint}");
            ExitCode::FAILURE
        }
    }
}

fn perform() -> Result<(), String> {
    let words: Vec<String> = env::args().skip(1).collect();
    let mut packed = Vec::new();
    let read = io::stdin().read_to_end(&mut packed);
    read.map_err(|error| error.to_string())?;
    let batches = unpack(&packed)?;
    match words.as_slice() {
        [] => answer(&batches),
        [times, what] => {
            let times = times.parse().map_err(|_| "a number of times")?;
            count(batches.first().ok_or("no batch")?, times, what)
        }
        _ => Err("usage: dispatches [TIMES dispatch|inspect] < STREAM".to_string()),
    }
}

fn answer(batches: &[&[u8]]) -> Result<(), String> {
    let mut out = io::stdout().lock();
    let mut print = |text: String| {
        let written = out.write_all(text.as_bytes());
        written.map_err(|error| error.to_string())
    };
    for (number, batch) in batches.iter().enumerate() {
        let (case, questions) = questions(batch)?;
        print(format!("batch {number}\n"))?;
        for (index, question) in (1..).zip(questions) {
            print(line(index, case, question))?;
        }
    }
    Ok(())
}

fn ours(offer: &expected::Offer) -> Offer {
    Offer {
        set: offer.set,
        block: offer.block,
        cap: offer.cap,
        floor: offer.floor,
        price: offer.price,
    }
}

fn theirs(offer: &Offer) -> expected::Offer {
    expected::Offer {
        set: offer.set,
        block: offer.block,
        cap: offer.cap,
        floor: offer.floor,
        price: offer.price,
    }
}

/// Asks the plan unit and leaves both lists in the question.
fn ask(case: &[u8], question: &mut Question) -> Dispatched {
    let mut offers: Vec<Offer> = question.offers.iter().map(ours).collect();
    let answer = dispatch(
        case,
        question.interval,
        &question.sets,
        &mut question.powers,
        &mut offers,
        question.target,
    );
    question.offers = offers.iter().map(theirs).collect();
    answer
}

fn line(index: usize, case: &[u8], mut question: Question) -> String {
    let told = match ask(case, &mut question) {
        Dispatched::Powers => "dispatched".to_string(),
        Dispatched::CaseRefused(fault) => format!("case refused {} {}", fault.number, fault.bit),
        Dispatched::NotOfCase => "not dispatched 8 0".to_string(),
        Dispatched::NoSuchPowers { target } => format!("not dispatched 9 {target}"),
        Dispatched::Unknown { word } => format!("word {word}"),
    };
    format!("{index} {told} {}\n", question.lent_crc())
}

fn count(batch: &[u8], times: usize, what: &str) -> Result<(), String> {
    let (case, questions) = questions(batch)?;
    let question = questions.first().ok_or("no question")?;
    let lent: Vec<Offer> = question.offers.iter().map(ours).collect();
    let (mut powers, mut offers) = (question.powers.clone(), lent.clone());
    let mut dispatch_again = || {
        powers.copy_from_slice(&question.powers);
        offers.copy_from_slice(&lent);
        let (interval, sets, target) = (question.interval, &question.sets, question.target);
        dispatch(case, interval, sets, &mut powers, &mut offers, target)
    };
    for _ in 0..times {
        let done = match what {
            "dispatch" => dispatch_again() == Dispatched::Powers,
            "inspect" => matches!(inspect(case), Inspected::Counts { .. }),
            _ => return Err("dispatch or inspect".to_string()),
        };
        if !done {
            return Err("the question is refused".to_string());
        }
    }
    Ok(())
}
