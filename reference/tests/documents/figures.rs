//! Every worked figure of FIGURES and every example of REPLY.

use std::collections::{BTreeMap, BTreeSet};
use std::io::Write;
use std::process::{Command, Stdio};

use reference::breaches::breaches;
use reference::completion::completion_bits;
use reference::edition::Edition;
use reference::encode::{encode_case, encode_plan, Field};
use reference::generate::prices::exchange_prices;
use reference::rng::Rng;
use reference::worked_day::{two_set_day, Day};

use crate::answers::{answers, batch_for_program, choice_answer, program_text};
use crate::day::{edition, in_newest, Asked, Sheet, Told, ROOM};
use crate::examples::example_days;
use crate::names::{document, root};
use crate::text::{blocks, is_numbered, printed, tables, unfenced, with_a_number_changed};
use crate::{no_errors, sums, FIGURES, LAST_GROUP, REPLY};

/// The days that FIGURES writes out, by their letter, and those of the examples, by their plan's name.
pub struct Days(pub BTreeMap<String, Sheet>);

impl Days {
    pub fn read() -> Days {
        let mut days: BTreeMap<String, Sheet> = example_days().into_iter().collect();
        for block in blocks(&document(FIGURES)) {
            let mut name = String::new();
            let mut sheet = Sheet::empty();
            for line in block.lines().map(str::trim).filter(|line| !line.is_empty()) {
                match line.split_once(' ') {
                    Some(("day", letter)) => name = letter.to_string(),
                    Some(("as", letter)) => sheet = days[letter].clone(),
                    _ => {
                        sheet = sheet
                            .with(line)
                            .unwrap_or_else(|e| panic!("day {name}: {e}"))
                    }
                }
            }
            days.insert(name, sheet);
        }
        Days(days)
    }

    /// `A`, or `A in edition 2`.
    pub fn day(&self, said: &str, changes: &str) -> Told<Sheet> {
        let (letter, later) = match said.split_once(" in edition ") {
            Some((letter, figure)) => (letter, Some(edition(figure)?)),
            None => (said, None),
        };
        let mut sheet = self
            .0
            .get(letter)
            .ok_or(format!("{said}: no such day"))?
            .clone();
        if let Some(edition) = later {
            sheet.day.edition = edition;
        }
        sheet.with(changes)
    }
}

/// A worked figure: a day, its changes, a choice if there is one, the answer and the sums beside it.
pub struct Figure {
    place: String,
    day: String,
    changes: String,
    choice: Option<String>,
    answer: String,
    why: String,
}

impl Figure {
    fn sheet(&self, days: &Days) -> Told<Sheet> {
        days.day(&self.day, &self.changes)
    }

    fn holds(&self, days: &Days) -> Told<()> {
        let told = |e: String| format!("{}: {e}", self.place);
        let sheet = self.sheet(days).map_err(told)?;
        match &self.choice {
            Some(choice) => {
                let found = choice_answer(&sheet, choice).map_err(told)?;
                if found != self.answer {
                    return Err(told(format!("said {}, it is {found}", self.answer)));
                }
            }
            None => answers(&sheet).are(&self.answer).map_err(told)?,
        }
        sums::held(&self.why).map_err(told)?;
        Ok(())
    }
}

/// The figures of FIGURES.
fn figures() -> Vec<Figure> {
    let mut all = Vec::new();
    for table in tables(&document(FIGURES)) {
        let header: Vec<&str> = table.header.iter().map(String::as_str).collect();
        let with_choice = match header[..] {
            ["No.", "Day", "Changes", "Answer", "Why"] => false,
            ["No.", "Day", "Changes", "Choice", "Answer"] => true,
            ["Change", "Says"]
            | ["Figure", "Value"]
            | ["Edition", "Case", "Plan", "Completion"] => continue,
            ["Edition", "Message", "Field", "Bit", "Bits"] => continue,
            _ => panic!("no such table: {header:?}"),
        };
        for row in table.rows {
            let [place, day, changes, fourth, fifth] =
                <[String; 5]>::try_from(row).expect("five cells");
            all.push(match with_choice {
                true => Figure {
                    place,
                    day,
                    changes,
                    choice: Some(fourth),
                    answer: fifth,
                    why: String::new(),
                },
                false => Figure {
                    place,
                    day,
                    changes,
                    choice: None,
                    answer: fourth,
                    why: fifth,
                },
            });
        }
    }
    all
}

/// The examples of REPLY: `- *Day A with CHANGES:* ANSWER (SUM).`
fn examples() -> Vec<Figure> {
    let reply = document(REPLY);
    let lines = unfenced(&reply).filter_map(|line| line.strip_prefix("- *Day "));
    let mut all = Vec::new();
    for line in lines {
        let (day, rest) = line
            .split_once(":* ")
            .unwrap_or_else(|| panic!("{line}: no answer"));
        let rest = rest
            .strip_suffix('.')
            .unwrap_or_else(|| panic!("{line}: no full stop"));
        let (answer, why) = match rest.split_once(" (") {
            Some((answer, why)) => (
                answer,
                why.strip_suffix(')').expect("a bracket that closes"),
            ),
            None => (rest, ""),
        };
        let (day, changes) = day.split_once(" with ").unwrap_or((day, ""));
        all.push(Figure {
            place: format!("{REPLY}: {line}"),
            day: day.to_string(),
            changes: changes.to_string(),
            choice: None,
            answer: answer.to_string(),
            why: why.to_string(),
        });
    }
    all
}

/// The rows of the table of FIGURES with this header.
pub fn rows_of(header: &[&str]) -> Vec<Vec<String>> {
    let all = tables(&document(FIGURES)).into_iter();
    let rows: Vec<_> = all
        .filter(|t| t.header == header)
        .flat_map(|t| t.rows)
        .collect();
    assert!(!rows.is_empty(), "{header:?}: no such table");
    rows
}

#[test]
fn day_a_is_the_worked_day() {
    assert_eq!(Days::read().0["A"].day, two_set_day());
}

#[test]
fn every_figure_and_every_example_is_as_printed() {
    let days = Days::read();
    let (figures, examples) = (figures(), examples());
    println!("{} figures, {} examples", figures.len(), examples.len());
    assert!(figures.len() > 100 && examples.len() >= LAST_GROUP - 1);
    let all = figures.iter().chain(&examples);
    no_errors(all.filter_map(|figure| figure.holds(&days).err()).collect());
}

#[test]
fn figures_are_numbered_by_their_group() {
    let document = document(FIGURES);
    let mut group = String::new();
    let mut last = 0;
    for line in unfenced(&document) {
        if let Some(title) = line.strip_prefix("## ") {
            group = title.split(' ').next().unwrap_or("").to_string();
            last = 0;
        } else if let Some(row) = line.strip_prefix("| F").filter(|row| is_numbered(row)) {
            let (found, index) = row
                .split(' ')
                .next()
                .and_then(|n| n.split_once('.'))
                .expect("a number");
            assert_eq!(
                (found, index),
                (group.as_str(), (last + 1).to_string().as_str()),
                "{line}"
            );
            last += 1;
        }
    }
}

/// "Each row of this table has the same answer in editions 2 to 5."
#[test]
fn the_worked_day_has_the_same_answers_in_every_edition() {
    let days = Days::read();
    let mut count = 0;
    for mut figure in figures().into_iter().filter(|f| f.place.starts_with("F4.")) {
        assert_eq!(figure.day, "A");
        for edition in &Edition::ALL[1..] {
            figure.day = format!("A in edition {}", edition.figure());
            assert_eq!(figure.holds(&days), Ok(()), "{}", figure.day);
            count += 1;
        }
    }
    assert!(count >= 4 * 13);
}

/// Sentences 1.2 and 1.9 on day A of every edition: each beginning is refused by 1 at the first field
/// that is not whole, each byte behind by 6.
#[test]
fn messages_cut_and_run_on_are_refused_where_the_reply_says() {
    let days = Days::read();
    for edition in Edition::ALL {
        let day = format!("A in edition {}", edition.figure());
        let Day { case, plan, .. } = days.day(&day, "").expect("a day").day;
        for (name, message) in [
            ("case", encode_case(edition, &case)),
            ("plan", encode_plan(edition, &plan)),
        ] {
            for bytes in 0..message.bytes.len() {
                let whole = |field: &&Field| field.end() > 8 * bytes;
                let cut = message.fields.iter().find(whole);
                let bit = cut.map_or(8 * bytes, |field| field.place) as i128;
                let said = format!("{name} refused by 1 at {}", printed(bit));
                let sheet = days
                    .day(&day, &format!("{name} cut {bytes}"))
                    .expect("a day");
                assert_eq!(answers(&sheet).are(&said), Ok(()), "{bytes} bytes");
            }
            for byte in [0, 1, 255] {
                let said = format!(
                    "{name} refused by 6 at {}",
                    printed(8 * message.bytes.len() as i128)
                );
                let sheet = days
                    .day(&day, &format!("{name} add byte {byte}"))
                    .expect("a day");
                assert_eq!(answers(&sheet).are(&said), Ok(()));
            }
        }
    }
}

/// Every verdict and every list is the same of messages written in the newest edition; written again
/// they are the same bytes.
#[test]
fn figures_have_the_same_answers_in_the_newest_edition() {
    let days = Days::read();
    let mut count = 0;
    for figure in figures().iter().filter(|figure| figure.choice.is_none()) {
        let sheet = figure.sheet(&days).expect("a day");
        let has_room = !matches!(sheet.asked, Asked::Verdict(Some(_)));
        let judged = matches!(sheet.asked, Asked::Verdict(_) | Asked::List(_));
        let Ok(newest) = sheet.clone().with("newest edition") else {
            continue;
        };
        let (case, plan) = newest.messages();
        assert_eq!(
            in_newest(&case, &plan),
            Ok((case, plan)),
            "{}",
            figure.place
        );
        if judged && has_room {
            let (old, new) = (answers(&sheet), answers(&newest));
            assert_eq!(new.library, old.library, "{}", figure.place);
            assert_eq!(new.batch, old.batch, "{}", figure.place);
            count += 1;
        }
    }
    println!("{count} figures in the newest edition");
    assert!(count > 100);
}

/// Every surplus is the same with the devices in the opposite order, and every list of breaches has the
/// same entries, the device numbers carried along; a plan is broken exactly when before.
#[test]
fn figures_go_along_with_the_opposite_order_of_the_devices() {
    let days = Days::read();
    let mut count = 0;
    for figure in figures().iter().filter(|figure| figure.choice.is_none()) {
        let sheet = figure.sheet(&days).expect("a day");
        if !sheet.is_unedited() || !matches!(sheet.asked, Asked::Verdict(None) | Asked::List(None))
        {
            continue;
        }
        let devices = sheet.day.case.devices.len();
        let order: Vec<String> = (1..=devices).rev().map(|i| i.to_string()).collect();
        let change = format!("devices in order {}", order.join(" "));
        let turned = sheet.clone().with(&change).expect("an order");
        let (old, new) = (entries(&sheet), entries(&turned));
        let carried = old.map(|list| {
            let along = |[rule, interval, device, window]: [u8; 4]| match device {
                0 => [rule, interval, 0, window],
                _ => [rule, interval, devices as u8 + 1 - device, window],
            };
            list.into_iter().map(along).collect::<BTreeSet<_>>()
        });
        let new = new.map(BTreeSet::from_iter);
        assert_eq!(new, carried, "{}", figure.place);
        if carried.is_some_and(|list| list.is_empty()) {
            let (old, new) = (answers(&sheet), answers(&turned));
            assert_eq!(new.library, old.library, "{}", figure.place);
            assert_eq!(new.batch, old.batch, "{}", figure.place);
        }
        count += 1;
    }
    println!("{count} figures in the opposite order");
    assert!(count > 100);
}

/// The list of breaches of a day, none where reading refuses.
fn entries(sheet: &Sheet) -> Option<Vec<[u8; 4]>> {
    let (case, plan) = sheet.messages();
    let mut buffer = vec![0; ROOM];
    let count = breaches(&case, &plan, &mut buffer).ok()?;
    let list = buffer.chunks(4).take(count);
    Some(list.map(|b| [b[0], b[1], b[2], b[3]]).collect())
}

/// Every day's copy, or what is answered in its place, is the same with all prices and costs exchanged.
#[test]
fn copies_do_not_go_by_prices_and_costs() {
    let days = Days::read();
    let mut rng = Rng::new(18);
    let mut count = 0;
    for figure in figures().iter().filter(|figure| figure.choice.is_none()) {
        let sheet = figure.sheet(&days).expect("a day");
        if !sheet.is_unedited() {
            continue;
        }
        let sheet = sheet.with("market").expect("a copy");
        let mut other = sheet.clone();
        exchange_prices(&mut rng, other.day.edition, &mut other.day.case);
        assert_ne!(other.day.case, sheet.day.case, "{}", figure.place);
        let (one, another) = (answers(&sheet), answers(&other));
        assert_eq!(one.library, another.library, "{}", figure.place);
        count += usize::from(one.library.starts_with("copy "));
    }
    println!("{count} copies with other prices");
    assert!(count > 60);
}

/// The batch program prints what the second program does, where it is built.
#[test]
fn the_batch_program_prints_every_figure() {
    let program = root().join("target/bin/batch");
    if !program.exists() {
        println!("target/bin/batch is not there: the figures were run by the second program alone");
        return;
    }
    let days = Days::read();
    let mut count = 0;
    for figure in figures().iter().chain(&examples()) {
        let sheet = figure.sheet(&days).expect("a day");
        let Some(batch) = batch_for_program(&sheet).filter(|_| figure.choice.is_none()) else {
            continue;
        };
        let mut child = Command::new(&program)
            .stdin(Stdio::piped())
            .stdout(Stdio::piped())
            .spawn()
            .expect("the batch program runs");
        // A refused case ends the run, and the rest of the batch is not read.
        let _ = child.stdin.take().expect("its input").write_all(&batch);
        let output = child.wait_with_output().expect("its output").stdout;
        assert_eq!(
            String::from_utf8_lossy(&output),
            program_text(&batch),
            "{}",
            figure.place
        );
        count += 1;
    }
    println!("{count} figures by the batch program");
}

#[test]
fn lengths_of_messages_are_as_printed() {
    let days = Days::read();
    for row in rows_of(&["Edition", "Case", "Plan", "Completion"]) {
        let sheet = days
            .day(&format!("A in edition {}", row[0]), "")
            .expect("a day");
        let (case, plan) = sheet.messages();
        let completion = completion_bits(sheet.day.edition, &sheet.day.case).div_ceil(8);
        let found = [case.len(), plan.len(), completion].map(|n| printed(n as i128));
        assert_eq!(row[1..], found, "edition {}", row[0]);
    }
}

#[test]
fn places_of_fields_are_as_printed() {
    let days = Days::read();
    for row in rows_of(&["Edition", "Message", "Field", "Bit", "Bits"]) {
        let Day {
            edition,
            case,
            plan,
        } = days
            .day(&format!("A in edition {}", row[0]), "")
            .expect("a day")
            .day;
        let fields: Vec<Field> = match row[1].as_str() {
            "case" => encode_case(edition, &case).fields,
            "plan" => encode_plan(edition, &plan).fields,
            other => panic!("{other}: no message"),
        };
        let field = fields
            .iter()
            .find(|field| field.name == row[2].trim_start_matches("DC "))
            .expect("a field of this name");
        let found = [field.place, field.width].map(|n| printed(n as i128));
        assert_eq!(row[3..], found, "{} of edition {}", row[2], row[0]);
    }
}
/// A figure of an answer that is changed by one fails, and so does one of a sum.
#[test]
fn a_figure_changed_by_hand_fails() {
    let days = Days::read();
    let mut changed = 0;
    for mut figure in figures().into_iter().chain(examples()) {
        let (answer, why) = (figure.answer.clone(), figure.why.clone());
        for wrong in with_a_number_changed(&answer) {
            figure.answer = wrong;
            assert!(
                figure.holds(&days).is_err(),
                "{}: {}",
                figure.place,
                figure.answer
            );
            changed += 1;
        }
        figure.answer = answer;
        for wrong in with_a_number_changed(&why)
            .into_iter()
            .filter(|_| sums::is_one_equation(&why))
        {
            figure.why = wrong;
            assert!(
                figure.holds(&days).is_err(),
                "{}: {}",
                figure.place,
                figure.why
            );
            changed += 1;
        }
    }
    println!("{changed} figures changed, each seen");
    assert!(changed > 500);
}
