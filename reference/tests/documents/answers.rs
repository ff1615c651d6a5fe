//! What a day is answered, in the words of the documents.

use reference::batch::{join, run, Line};
use reference::breaches::breaches;
use reference::case::read_case;
use reference::clock::spans;
use reference::completion::Completion;
use reference::dispatch::{dispatch, offers_of, Answer, Question};
use reference::fault::Fault;
use reference::forced::forced;
use reference::form::Form;
use reference::judge::{judge, Refusal, Verdict};
use reference::many::{judge_many, Many, ROW_NUMBERS};
use reference::market::{market_copy, read_market, Copied};
use reference::meets::{meets, surplus_of};
use reference::mend::{mend, Mend, Mending};
use reference::ours::complete;
use reference::rewrite::{rewrite_case, rewrite_plan};
use reference::rules::Place;

use crate::day::{among, place, Asked, Message, Sheet, Told, ROOM, ZONE_PRODUCTS};
use crate::text::{number, numbers, printed};

/// The answers of the library and, where it has one, of the batch program.
pub struct Answers {
    pub library: String,
    pub batch: Option<String>,
}

impl Answers {
    /// Whether the documents' answer is this one: of both, unless both are named.
    pub fn are(&self, said: &str) -> Told<()> {
        let (library, batch) = match said.strip_prefix("library ") {
            Some(both) => {
                let named = both.split_once("; batch program ");
                let (library, batch) = named.ok_or("the batch program is not named")?;
                (library, Some(batch.to_string()))
            }
            None => (said, self.batch.as_ref().map(|_| said.to_string())),
        };
        if self.library != library {
            return Err(format!(
                "said {library}, the library answers {}",
                self.library
            ));
        }
        if self.batch != batch {
            let of = |answer: &Option<String>| answer.clone().unwrap_or("nothing".into());
            let (batch, found) = (of(&batch), of(&self.batch));
            return Err(format!("said {batch}, the batch program answers {found}"));
        }
        Ok(())
    }
}

/// What the second program answers.
pub fn answers(sheet: &Sheet) -> Answers {
    let (case, plan) = sheet.messages();
    match &sheet.asked {
        Asked::Verdict(room) => {
            let mut buffer = vec![0; room.unwrap_or(ROOM)];
            let library = verdict(judge(&case, &plan, &mut buffer));
            let lines = run(Form::BATCH, &join(&[case, plan]));
            let batch = room.is_none().then(|| of_lines(&lines));
            Answers { library, batch }
        }
        Asked::List(room) => {
            let mut buffer = vec![0; room.unwrap_or(ROOM)];
            let found = breaches(&case, &plan, &mut buffer);
            let library = match found {
                Ok(count) => list(&buffer[..4 * count]),
                Err(Refusal::BufferTooShort { bytes_needed }) => {
                    format!("list refused by 7 with {}", printed(bytes_needed as i128))
                }
                Err(other) => verdict(Verdict::Refused(other)),
            };
            Answers {
                library,
                batch: None,
            }
        }
        Asked::Market(room) => {
            let mut buffer = vec![0; room.unwrap_or(ROOM)];
            let library = match market_copy(&case, &plan, &mut buffer) {
                Copied::Written { bytes } => copy(&case, &buffer[..bytes]),
                Copied::Broken(place) => broken(&place),
                Copied::Refused(refusal) => verdict(Verdict::Refused(refusal)),
            };
            Answers {
                library,
                batch: None,
            }
        }
        Asked::Mend => Answers {
            library: mending(mend(&case, &plan)),
            batch: None,
        },
        Asked::Many(count, room) => Answers {
            library: many(&case, &plan, *count, room.unwrap_or(ROOM)),
            batch: None,
        },
        Asked::Dispatch {
            interval,
            target,
            devices,
            earlier,
        } => Answers {
            library: dispatched(&case, *interval, *target, devices, earlier),
            batch: None,
        },
        Asked::Writing(message, room) => {
            let mut buffer = vec![0; room.unwrap_or(ROOM)];
            let found = match message {
                Message::Case => rewrite_case(&case, &mut buffer),
                Message::Plan => rewrite_plan(&case, &plan, &mut buffer),
            };
            let library = match found {
                Ok(bytes) => format!("written in {} bytes", printed(bytes as i128)),
                Err(refusal) => verdict(Verdict::Refused(refusal)),
            };
            Answers {
                library,
                batch: None,
            }
        }
        Asked::Lines(batch) => {
            let text = lines_text(&run(Form::BATCH, batch));
            let host = lines_text(&run(Form::HOST, batch));
            Answers {
                library: host,
                batch: Some(text),
            }
        }
    }
}

/// The batch that is handed to the batch program, if the day is one for it.
pub fn batch_for_program(sheet: &Sheet) -> Option<Vec<u8>> {
    let (case, plan) = sheet.messages();
    match &sheet.asked {
        Asked::Verdict(None) => Some(join(&[case, plan])),
        Asked::Lines(batch) => Some(batch.clone()),
        _ => None,
    }
}

/// The lines that the batch program prints for a batch, by the second program.
pub fn program_text(batch: &[u8]) -> String {
    let lines = run(Form::BATCH, batch);
    lines.iter().map(|line| format!("{line}\n")).collect()
}

fn lines_text(lines: &[Line]) -> String {
    let texts: Vec<String> = lines.iter().map(Line::to_string).collect();
    format!("lines {}", texts.join(" / "))
}

fn verdict(verdict: Verdict) -> String {
    match verdict {
        Verdict::Accepted { surplus } => printed(surplus),
        Verdict::Broken(place) => broken(&place),
        Verdict::Refused(Refusal::Case(fault)) => refused("case", fault),
        Verdict::Refused(Refusal::Plan(fault)) => refused("plan", fault),
        Verdict::Refused(Refusal::BufferTooShort { bytes_needed }) => {
            format!("result refused by 7 with {}", printed(bytes_needed as i128))
        }
    }
}

fn of_lines(lines: &[Line]) -> String {
    match lines {
        [Line::Refused { fault, .. }] => refused("case", *fault),
        [_, Line::Accepted { surplus, .. }] => printed(*surplus),
        [_, Line::Broken { place, .. }] => broken(place),
        [_, Line::Refused { fault, .. }] => refused("plan", *fault),
        _ => lines_text(lines),
    }
}

fn refused(message: &str, fault: Fault) -> String {
    let bit = printed(fault.bit as i128);
    format!("{message} refused by {} at {bit}", fault.number.figure())
}

fn broken(place: &Place) -> String {
    let Place {
        rule,
        interval,
        device,
        window,
    } = place;
    format!("rule {rule} at {interval} {device} {window}")
}

/// The offers are those of the case, where it has the interval and the devices.
fn dispatched(case: &[u8], interval: u64, target: u64, sets: &[u64], earlier: &[u64]) -> String {
    let offers = match read_case(case) {
        Ok((_, read)) if fits(interval, read.durations.len()) => {
            let named: Vec<u64> = sets
                .iter()
                .copied()
                .filter(|&s| fits(s, read.devices.len()))
                .collect();
            offers_of(&read, interval as usize - 1, &named)
        }
        _ => Vec::new(),
    };
    let mut question = Question {
        interval,
        sets: sets.to_vec(),
        powers: earlier.to_vec(),
        offers,
        target,
    };
    match dispatch(case, &mut question) {
        Answer::Dispatched => {
            let powers = question
                .powers
                .iter()
                .map(|&power| printed(i128::from(power)));
            format!("powers {}", powers.collect::<Vec<_>>().join(" "))
                .trim_end()
                .to_owned()
        }
        Answer::CaseRefused(fault) => refused("case", fault),
        Answer::NotOfCase => "refused by 8 with 0".into(),
        Answer::NoSuchPowers { target } => {
            format!("refused by 9 with {}", printed(i128::from(target)))
        }
    }
}

/// A number from 1 to a count.
fn fits(number: u64, count: usize) -> bool {
    (1..=count as u64).contains(&number)
}

/// One plan so many times in one call: each time its verdict, then the bytes of all completions.
fn many(case: &[u8], plan: &[u8], count: usize, room: usize) -> String {
    let batch = join(&vec![plan; count]);
    match judge_many(case, &batch, &mut vec![0; room], ROW_NUMBERS * count) {
        Many::CaseRefused(fault) => refused("case", fault),
        Many::BatchRefused(fault) => refused("batch", fault),
        Many::TableTooShort { bytes_needed } => {
            format!("table refused by 7 with {}", printed(bytes_needed as i128))
        }
        Many::Judged(turns) => {
            let verdicts = turns.iter().map(|turn| verdict(turn.verdict));
            let bytes: usize = turns.iter().map(|turn| turn.bytes).sum();
            let verdicts = verdicts.collect::<Vec<_>>().join(", then ");
            format!("{verdicts}, in {} bytes", printed(bytes as i128))
        }
    }
}

fn mending(mending: Mending) -> String {
    match mending {
        Mending::Accepted { surplus } => printed(surplus),
        Mending::Mended(Mend {
            interval,
            device,
            power,
        }) => format!(
            "interval {interval}, device {device}, {} kW",
            printed(power)
        ),
        Mending::Nothing => "nothing mends it".into(),
        Mending::Refused(refusal) => verdict(Verdict::Refused(refusal)),
    }
}

/// A copy's length and its figures in the message's order, as the market reader gives them back.
fn copy(case: &[u8], bytes: &[u8]) -> String {
    let mut table = vec![0; ROOM];
    let count = read_market(case, bytes, &mut table).expect("a copy");
    let figures = table[..count].iter().map(|n| printed(i128::from(*n)));
    let figures = figures.collect::<Vec<_>>().join(" ");
    format!(
        "copy in {} bytes of {figures}",
        printed(bytes.len() as i128)
    )
}

fn list(bytes: &[u8]) -> String {
    if bytes.is_empty() {
        return "empty list".into();
    }
    let entries = bytes
        .chunks(4)
        .map(|b| format!("{} {} {} {}", b[0], b[1], b[2], b[3]));
    format!("list of {}", entries.collect::<Vec<_>>().join(", "))
}

/// Whether a choice put in the place of ours is allowed, and the surplus by the choices' own figures.
pub fn choice_answer(sheet: &Sheet, choice: &str) -> Told<String> {
    let (case, plan) = (&sheet.day.case, &sheet.day.plan);
    let spans = spans(&case.durations);
    let mut completion = complete(case, &spans, plan, &forced(case, &spans, plan)).completion;
    let words: Vec<&str> = choice.split_whitespace().collect();
    choose(&mut completion, &words).map_err(|e| format!("{choice}: {e}"))?;
    let allowed = if meets(case, plan, &completion) {
        "allowed"
    } else {
        "not allowed"
    };
    Ok(format!(
        "{allowed}, {}",
        printed(surplus_of(case, plan, &completion))
    ))
}

fn choose(completion: &mut Completion, words: &[&str]) -> Told<()> {
    if let ["device", d, "window", w, "overrun", v] = words {
        let windows = completion
            .overruns
            .get_mut(place(d)?)
            .ok_or("no such device")?;
        *windows.get_mut(place(w)?).ok_or("no such window")? = number(v)?;
        return Ok(());
    }
    let ["interval", t, rest @ ..] = words else {
        return Err("no such choice".into());
    };
    let interval = completion
        .intervals
        .get_mut(place(t)?)
        .ok_or("no such interval")?;
    match rest {
        ["mismatch", figures @ ..] => put(&mut interval.mismatches, figures)?,
        ["reactive", "mismatch", figures @ ..] => put(&mut interval.reactive_mismatches, figures)?,
        ["zone", z, product, v] => {
            let zone = interval
                .shortfalls
                .get_mut(place(z)?)
                .ok_or("no such zone")?;
            zone[among(&ZONE_PRODUCTS, product)?] = number(v)?;
        }
        ["device", d, what, figures @ ..] => {
            let device = interval
                .devices
                .get_mut(place(d)?)
                .ok_or("no such device")?;
            match (*what, figures) {
                ("started", [v]) => device.started = number(v)?,
                ("stopped", [v]) => device.stopped = number(v)?,
                ("state", [v]) => device.startup_state = number(v)?,
                ("blocks", figures) => put(&mut device.blocks, figures)?,
                _ => return Err("no such choice of a device".into()),
            }
        }
        _ => return Err("no such choice".into()),
    }
    Ok(())
}

/// The first figures in the place of what stands there.
fn put(places: &mut [i128], figures: &[&str]) -> Told<()> {
    let figures = numbers(figures)?;
    let front = places
        .get_mut(..figures.len())
        .ok_or("more figures than choices")?;
    front.copy_from_slice(&figures);
    Ok(())
}
