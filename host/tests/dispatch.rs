//! The cheapest dispatch through the static library: figures by hand, random questions beside the
//! reference, the cases of the corpora, the promised stack, the header by a program in C, and the desk
//! program's verb.

mod common;

use std::path::PathBuf;
use std::process::Command;
use std::sync::LazyLock;

use common::{compiled, each_case, fault, in_promised_stack, ran, Scratch};
use host::dispatch::words::Asked;
use host::dispatch::{dispatch, Dispatched, Offer};
use host::Fault;
use reference::batch;
use reference::busiest::busiest_batch;
use reference::case::{read_case, Side};
use reference::dispatch::run::numbered_batch;
use reference::dispatch::stream::questions;
use reference::dispatch::{self as expected, dispatch_in, offers_of, Answer, Question};
use reference::edition::Edition;
use reference::encode::encode_case;
use reference::generate::dispatches::{random_question, widest_batch, Arrangement};
use reference::rng::Rng;
use reference::worked_day::{floor_days, two_set_day};

fn offer(set: u64, block: u64, cap: u64, floor: u64, price: i64) -> Offer {
    Offer {
        set,
        block,
        cap,
        floor,
        price,
    }
}

fn two_set_case(edition: Edition) -> Vec<u8> {
    encode_case(edition, &two_set_day().case).bytes
}

/// "interval 2, set 1, earlier 150, target 160: 160; target 149: 9, 149".
#[test]
fn the_two_set_day() {
    let list = [offer(1, 2, 100, 0, 5), offer(1, 1, 100, 0, 3)];
    for edition in Edition::ALL {
        let case = two_set_case(edition);
        let (mut powers, mut offers) = ([150], list);
        let answer = dispatch(&case, 2, &[1], &mut powers, &mut offers, 160);
        assert_eq!((answer, powers), (Dispatched::Powers, [160]));
        assert_eq!(offers, [list[1], list[0]]);
        let (mut powers, mut offers) = ([150], list);
        let answer = dispatch(&case, 2, &[1], &mut powers, &mut offers, 149);
        let refused = Dispatched::NoSuchPowers { target: 149 };
        assert_eq!((answer, powers, offers), (refused, [150], list));
        let answer = dispatch(&case, 3, &[1], &mut powers, &mut offers, 149);
        assert_eq!(
            (answer, powers, offers),
            (Dispatched::NotOfCase, [150], list)
        );
        let answer = dispatch(&case[..1], 3, &[1], &mut powers, &mut offers, 149);
        let refused = Dispatched::CaseRefused(Fault { number: 1, bit: 8 });
        assert_eq!((answer, powers, offers), (refused, [150], list));
        assert_eq!(
            dispatch(&case, 1, &[], &mut [], &mut [], 0),
            Dispatched::Powers
        );
        let answer = dispatch(&case, 1, &[], &mut [], &mut [], 1);
        assert_eq!(answer, Dispatched::NoSuchPowers { target: 1 });
    }
}

fn ours(offer: &expected::Offer) -> Offer {
    let &expected::Offer {
        set,
        block,
        cap,
        floor,
        price,
    } = offer;
    Offer {
        set,
        block,
        cap,
        floor,
        price,
    }
}

/// Asks both sides; the answers and both lists as they are left must be the same. Whether there are
/// powers.
fn hold(case: &[u8], question: &Question) -> bool {
    let mut theirs = question.clone();
    let expected = expected::dispatch(case, &mut theirs);
    let mut powers = question.powers.clone();
    let mut offers: Vec<Offer> = question.offers.iter().map(ours).collect();
    let Question {
        interval,
        sets,
        target,
        ..
    } = question;
    let answer = dispatch(case, *interval, sets, &mut powers, &mut offers, *target);
    let expected = match expected {
        Answer::Dispatched => Dispatched::Powers,
        Answer::CaseRefused(refused) => Dispatched::CaseRefused(fault(refused)),
        Answer::NotOfCase => Dispatched::NotOfCase,
        Answer::NoSuchPowers { target } => Dispatched::NoSuchPowers { target },
    };
    assert_eq!(answer, expected, "{question:?}");
    assert_eq!(powers, theirs.powers, "{question:?}");
    let listed: Vec<Offer> = theirs.offers.iter().map(ours).collect();
    assert_eq!(offers, listed, "{question:?}");
    answer == Dispatched::Powers
}

#[test]
fn random_questions() {
    let (mut asked, mut dispatched) = (0, 0);
    for number in 0..250 {
        let batch = numbered_batch(10, number);
        let (case, questions) = questions(&batch).expect("questions");
        for question in questions {
            asked += 1;
            dispatched += usize::from(hold(case, &question));
        }
    }
    assert!(asked == 10_000 && dispatched > 4_000, "{dispatched}");
}

/// Questions for every case of the corpora, refused ones included.
#[test]
fn cases_of_the_corpora() {
    let mut rng = Rng::new(11);
    let (mut refused, mut dispatched) = (0, 0);
    let two_sets = two_set_day().case;
    each_case(|message, _| {
        let Ok((_, case)) = read_case(message) else {
            refused += 1;
            hold(message, &random_question(&mut rng, &two_sets));
            return;
        };
        for _ in 0..3 {
            let question = random_question(&mut rng, &case);
            dispatched += usize::from(hold(message, &question));
        }
    });
    assert!(refused > 100 && dispatched > 300, "{refused}, {dispatched}");
}

/// 256 offers of 64 sets; and the producing sets of the largest day, in its last interval.
#[test]
fn promised_stack_is_enough() {
    for thousandths in [0, 333, 1_000] {
        let batch = widest_batch(&mut Rng::new(2), thousandths, Arrangement::Against);
        let (case, questions) = questions(&batch).expect("a question");
        assert!(in_promised_stack(|| hold(case, &questions[0])));
    }
    let batch = busiest_batch(Edition::NEWEST, 1, 64, 96);
    let message = batch::messages(&batch)[0];
    let (_, case) = read_case(message).expect("it passes reading");
    let numbered = (1..).zip(&case.devices);
    let sets: Vec<u64> = numbered
        .filter(|(_, device)| device.side == Side::Producing)
        .map(|(number, _)| number)
        .collect();
    let mut question = Question {
        interval: 96,
        powers: vec![60; sets.len()],
        offers: offers_of(&case, 95, &sets),
        target: 0,
        sets,
    };
    let targets = (0..10_000).step_by(7);
    let is_answered = |target: &u64| {
        let mut tried = question.clone();
        tried.target = *target;
        dispatch_in(&case, &mut tried) == Answer::Dispatched
    };
    question.target = targets.into_iter().find(is_answered).expect("a target");
    assert!(in_promised_stack(|| hold(message, &question)));
}

static PROGRAM: LazyLock<PathBuf> = LazyLock::new(|| compiled("dispatch"));

/// The two-set day from C: answered, refused with 9, with 8 and with the case's fault, and not done
/// with three figures.
#[test]
fn header_in_c() {
    let case = two_set_case(Edition::One);
    let scratch = Scratch::new("c");
    let tell = |name: &str, case: &[u8], words: &str| {
        ran(Command::new(&*PROGRAM)
            .arg(scratch.file(name, case))
            .args(words.split(' '))
            .args("1 150 / 1 2 100 0 5 1 1 100 0 3".split(' ')))
    };
    let kept = "set 1 power 150\noffer 1 2 100 0 5\noffer 1 1 100 0 3\n";
    let told = tell("case", &case, "2 160 4");
    let sorted = "set 1 power 160\noffer 1 1 100 0 3\noffer 1 2 100 0 5\n";
    assert_eq!(told, format!("0 figures 0 0 0 0\n{sorted}"));
    for (words, figures) in [
        ("2 149 4", "7 figures 9 149 0 0"),
        ("3 160 4", "7 figures 8 0 0 0"),
        ("2 160 3", "5 figures 1 2 3 4"),
    ] {
        let told = tell("case", &case, words);
        assert_eq!(told, format!("{figures}\n{kept}"));
    }
    let told = tell("cut", &case[..1], "3 149 4");
    assert_eq!(told, format!("2 figures 1 8 0 0\n{kept}"));
}

/// What the desk program prints, what it complains of, and its exit status.
fn desk(words: &[&str]) -> (String, String, Option<i32>) {
    let done = Command::new(env!("CARGO_BIN_EXE_desk"))
        .args(words)
        .output()
        .expect("the desk program runs");
    let text = |bytes: Vec<u8>| String::from_utf8(bytes).expect("text");
    (text(done.stdout), text(done.stderr), done.status.code())
}

fn desk_dispatch(file: &str, words: &str) -> (String, String, Option<i32>) {
    let mut all = vec!["dispatch", file];
    all.extend(words.split(' '));
    desk(&all)
}

/// 100 kW at 3 and 60 at 5 are 600 grains a minute, 36,000 in the hour.
#[test]
fn desk_tells_powers_blocks_and_cost() {
    let file = Scratch::new("desk-case").file("case", &two_set_case(Edition::One));
    let (out, err, status) = desk_dispatch(&file, "2 160 1=150");
    assert_eq!((err.as_str(), status), ("", Some(0)));
    assert_eq!(
        out,
        "interval 2, 60 min: 160 kW\n\
         device 1: 160 kW (from 150 to 200 kW, earlier 150 kW)\n\
         device 1, block 1: 100 kW of 100 kW, at 3 grains per kW min\n\
         device 1, block 2: 60 kW of 100 kW, at 5 grains per kW min\n\
         cost 600 grains a minute, 36000 grains\n"
    );
    let (out, _, status) = desk_dispatch(&file, "1 0");
    assert_eq!(status, Some(0));
    assert_eq!(
        out,
        "interval 1, 60 min: 0 kW\ncost 0 grains a minute, 0 grains\n"
    );
}

/// Floors 0 and 80 of device 1: of 160 kW, 80 in each block: 80 · 3 + 80 · 5 = 640.
#[test]
fn desk_tells_floors() {
    let (case, _) = floor_days()[0].1.messages();
    let file = Scratch::new("desk-floors").file("case", &case);
    let (out, err, status) = desk_dispatch(&file, "2 160 1=150");
    assert_eq!((err.as_str(), status), ("", Some(0)));
    assert_eq!(
        out,
        "interval 2, 60 min: 160 kW\n\
         device 1: 160 kW (from 150 to 200 kW, earlier 150 kW)\n\
         device 1, block 1: 80 kW of 100 kW, at 3 grains per kW min\n\
         device 1, block 2: 80 kW of 100 kW, at least 80 kW, at 5 grains per kW min\n\
         cost 640 grains a minute, 38400 grains\n"
    );
}

#[test]
fn desk_tells_refusals() {
    let file = Scratch::new("desk-refusals").file("case", &two_set_case(Edition::One));
    for (words, complaint) in [
        (
            "2 149 1=150",
            "9 149: the devices have from 150 to 200 kW together",
        ),
        (
            "2 201 1=150",
            "9 201: the devices have from 150 to 200 kW together",
        ),
        (
            "2 200 1=801",
            "9 200: device 1 needs at least 201 kW and has at most 200 kW",
        ),
        ("2 5", "9 5: the devices have from 0 to 0 kW together"),
        ("0 160 1=150", "8 0: interval 0 is not among the case's 2"),
        ("3 160 1=150", "8 0: interval 3 is not among the case's 2"),
        ("2 160 3=150", "8 0: device 3 is not among the case's 2"),
        ("2 160 1=150 2=0", "8 0: device 2 consumes"),
        ("2 160 1=150 1=150", "8 0: device 1 is named twice"),
    ] {
        let (out, err, status) = desk_dispatch(&file, words);
        assert_eq!((out.as_str(), status), ("", Some(2)), "{words}: {err}");
        assert_eq!(err, format!("refused {complaint}\n"));
    }
    let cut = Scratch::new("desk-cut").file("case", &two_set_case(Edition::One)[..1]);
    let (_, err, status) = desk_dispatch(&cut, "2 160 1=150");
    assert_eq!(status, Some(2));
    assert!(
        err.starts_with(&format!("refused 1 8: case {cut}: ")),
        "{err}"
    );
}

#[test]
fn desk_tells_wrong_usage() {
    let file = Scratch::new("desk-usage").file("case", &two_set_case(Edition::One));
    for words in ["2", "2 x", "2 160 1", "2 160 1=", "2 160 =1", "2 160 1=-1"] {
        let (out, err, status) = desk_dispatch(&file, words);
        assert_eq!((out.as_str(), status), ("", Some(3)), "{words}");
        let right = "usage: desk dispatch CASE INTERVAL TARGET SET=POWER..";
        assert_eq!(err, format!("desk: {right} (see desk --help)\n"));
    }
    let (_, _, status) = desk(&["dispatch"]);
    assert_eq!(status, Some(3));
    let (out, _, _) = desk(&["--help"]);
    assert!(out.contains("dispatch CASE INTERVAL TARGET SET=POWER.."));
    let (_, _, status) = desk_dispatch("no such file", "2 160 1=150");
    assert_eq!(status, Some(3));
}

/// The desk's words of random answers: the block powers of its lines add up to the target within their
/// bounds, at the least cost, and nothing is told of powers or lists that are not the answer.
#[test]
fn words_bear_out_answers() {
    let mut told = 0;
    for number in 0..60 {
        let batch = numbered_batch(12, number);
        let (message, questions) = questions(&batch).expect("questions");
        let (Ok((_, content)), Some(case)) =
            (read_case(message), host::messages::read_case(message))
        else {
            continue;
        };
        for question in questions {
            let mut left = question.clone();
            let answer = dispatch_in(&content, &mut left);
            let named = question.sets.iter().zip(&question.powers);
            let asked = Asked {
                interval: question.interval,
                target: question.target,
                named: named.map(|(&set, &power)| (set, power)).collect(),
            };
            let offers: Vec<Offer> = left.offers.iter().map(ours).collect();
            match answer {
                Answer::Dispatched => {
                    told += 1;
                    hold_words(&asked, &case, &content, &question, &left.powers, &offers);
                }
                Answer::NoSuchPowers { .. } => {
                    assert!(asked.no_such_powers(&case).is_some(), "{question:?}");
                    assert_eq!(asked.tell(&case, &left.powers, &offers), None);
                }
                Answer::NotOfCase => {}
                Answer::CaseRefused(fault) => panic!("{fault:?}"),
            }
        }
    }
    assert!(told > 500, "{told}");
}

fn hold_words(
    asked: &Asked,
    case: &host::messages::Case,
    content: &reference::case::Case,
    question: &Question,
    powers: &[u64],
    offers: &[Offer],
) {
    let text = asked.tell(case, powers, offers).expect("words");
    let task = expected::Task::of(content, question).expect("a task");
    let blocks = expected::exchange::cheapest(&task).expect("block powers");
    let block_lines = text.lines().filter(|line| line.contains(", block "));
    let told: Vec<i128> = block_lines.map(power_of).collect();
    assert_eq!(told, blocks);
    let minutes = content.durations[question.interval as usize - 1];
    let cost = task.cost(&blocks);
    let line = format!("cost {cost} grains a minute, {} grains\n", cost * minutes);
    assert!(text.ends_with(&line), "{text}");
    assert_eq!(asked.no_such_powers(case), None);
    assert_eq!(asked.not_of_case(case), None);
    if let [first, .., last] = offers {
        let mut turned = offers.to_vec();
        turned.reverse();
        assert!(first == last || asked.tell(case, powers, &turned).is_none());
    }
    if let [first, ..] = powers {
        let mut more = powers.to_vec();
        more[0] = first + 1;
        assert_eq!(asked.tell(case, &more, offers), None);
    }
}

/// The figure ahead of the first `kW` behind the colon.
fn power_of(line: &str) -> i128 {
    let (_, behind) = line.split_once(": ").expect("a colon");
    let (power, _) = behind.split_once(" kW").expect("a power");
    power.parse().expect("a number")
}
