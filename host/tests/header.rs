//! The header by a program in C: compiled with every warning an error, linked with the static
//! library and run on files.

mod common;

use std::path::PathBuf;
use std::process::Command;
use std::sync::LazyLock;

use common::{compiled, ran, Scratch};
use host::{
    BATCH_NUMBERS, LONGEST_CASE, LONGEST_COMPLETION, LONGEST_COPY, LONGEST_LIST, LONGEST_MESSAGE,
    LONGEST_PLAN, MOST_NUMBERS, STACK,
};
use reference::batch;
use reference::busiest::busiest_batch;
use reference::case::read_case;
use reference::completion::completion_bits;
use reference::edition::Edition;
use reference::worked_day::{
    example_batch, floor_days, lettered_days, link_days, reactive_days, two_set_day, Day,
};

const HEADER: &str = include_str!("../include/kadunfo.h");

static PROGRAM: LazyLock<PathBuf> = LazyLock::new(|| compiled("header"));

/// What the program prints of files with these contents.
fn run(test: &str, contents: &[&[u8]]) -> String {
    run_with(&[], test, contents)
}

/// The same behind words of its own.
fn run_with(words: &[&str], test: &str, contents: &[&[u8]]) -> String {
    let scratch = Scratch::new(test);
    let numbered = contents.iter().enumerate();
    let files = numbered.map(|(number, bytes)| scratch.file(&number.to_string(), bytes));
    ran(Command::new(&*PROGRAM).args(words).args(files))
}

#[test]
fn edition_1_in_c() {
    let tell = |case: &[u8], plan: &[u8]| run("edition-1", &[case, plan]);
    let days = lettered_days();
    let (case, plan_a) = days[0].1.messages();
    let (_, plan_b) = days[1].1.messages();
    assert_eq!(
        tell(&case, &plan_a),
        "inspect 0 2 2 0 0\njudge 0 167860 0 0 0\nshort 0 0 0 0 0\nbreaches 0 0 0 0 0\n\
         write-short 4 7 111 0 0\nwrite-case 0 258 0 0 0\nwrite-plan 0 111 0 0 0\nnew-judge 0 167860 0 0 0\n"
    );
    assert_eq!(
        tell(&case, &plan_b),
        "inspect 0 2 2 0 0\njudge 1 5 2 1 0\nshort 4 7 4 0 0\nbreaches 0 1 0 0 0\n5 2 1 0\n\
         write-short 4 7 111 0 0\nwrite-case 0 258 0 0 0\nwrite-plan 0 111 0 0 0\nnew-judge 1 5 2 1 0\n"
    );
    assert_eq!(
        tell(&case, &plan_a[..1]),
        "inspect 0 2 2 0 0\njudge 3 1 8 0 0\nshort 3 1 8 0 0\nbreaches 3 1 8 0 0\n\
         write-short 3 1 8 0 0\nwrite-case 0 258 0 0 0\nwrite-plan 3 1 8 0 0\n"
    );
    assert_eq!(
        tell(&case[..1], &plan_a[..1]),
        "inspect 2 1 8 0 0\njudge 2 1 8 0 0\nshort 2 1 8 0 0\nbreaches 2 1 8 0 0\n\
         write-short 2 1 8 0 0\nwrite-case 2 1 8 0 0\nwrite-plan 2 1 8 0 0\n"
    );
}

/// q 1 of device 2 in interval 1 at qmax 1, then qrd 1 besides; a plan of edition 1.
#[test]
fn edition_2_in_c() {
    let tell = |case: &[u8], plan: &[u8]| run("edition-2", &[case, plan]);
    let days = reactive_days();
    let (case, accepted) = days[0].1.messages();
    let (_, broken) = days[2].1.messages();
    assert_eq!(
        tell(&case, &accepted),
        "inspect 0 2 2 0 0\njudge 0 107860 0 0 0\nshort 0 0 0 0 0\nbreaches 0 0 0 0 0\n\
         write-short 4 7 111 0 0\nwrite-case 0 258 0 0 0\nwrite-plan 0 111 0 0 0\nnew-judge 0 107860 0 0 0\n"
    );
    assert_eq!(
        tell(&case, &broken),
        "inspect 0 2 2 0 0\njudge 1 21 1 2 0\nshort 4 7 4 0 0\nbreaches 0 1 0 0 0\n21 1 2 0\n\
         write-short 4 7 111 0 0\nwrite-case 0 258 0 0 0\nwrite-plan 0 111 0 0 0\nnew-judge 1 21 1 2 0\n"
    );
    let (_, of_edition_1) = two_set_day().messages();
    assert_eq!(
        tell(&case, &of_edition_1),
        "inspect 0 2 2 0 0\njudge 3 2 4 0 0\nshort 3 2 4 0 0\nbreaches 3 2 4 0 0\n\
         write-short 3 2 4 0 0\nwrite-case 0 258 0 0 0\nwrite-plan 3 2 4 0 0\n"
    );
}

/// Floors 0 and 80 of device 1, then 71 and 80.
#[test]
fn edition_3_in_c() {
    let tell = |day: &Day| {
        let (case, plan) = day.messages();
        run("edition-3", &[&case, &plan])
    };
    let days = floor_days();
    assert_eq!(
        tell(&days[0].1),
        "inspect 0 2 2 0 0\njudge 0 164260 0 0 0\nshort 0 0 0 0 0\nbreaches 0 0 0 0 0\n\
         write-short 4 7 111 0 0\nwrite-case 0 258 0 0 0\nwrite-plan 0 111 0 0 0\nnew-judge 0 164260 0 0 0\n"
    );
    assert_eq!(
        tell(&days[1].1),
        "inspect 0 2 2 0 0\njudge 1 19 2 1 0\nshort 4 7 4 0 0\nbreaches 0 1 0 0 0\n19 2 1 0\n\
         write-short 4 7 111 0 0\nwrite-case 0 258 0 0 0\nwrite-plan 0 111 0 0 0\nnew-judge 1 19 2 1 0\n"
    );
}

/// Plans (a) and (b), and a plan that ends inside its count of devices.
#[test]
fn edition_4_in_c() {
    let tell = |case: &[u8], plan: &[u8]| run("edition-4", &[case, plan]);
    let days = lettered_days().into_iter().take(2);
    let mut messages = days.map(|(_, day)| {
        let edition = Edition::Four;
        Day { edition, ..day }.messages()
    });
    let (case, plan_a) = messages.next().expect("day (a)");
    let (_, plan_b) = messages.next().expect("day (b)");
    assert_eq!(
        tell(&case, &plan_a),
        "inspect 0 2 2 0 0\njudge 0 167860 0 0 0\nshort 0 0 0 0 0\nbreaches 0 0 0 0 0\n\
         write-short 4 7 111 0 0\nwrite-case 0 258 0 0 0\nwrite-plan 0 111 0 0 0\nnew-judge 0 167860 0 0 0\n"
    );
    assert_eq!(
        tell(&case, &plan_b),
        "inspect 0 2 2 0 0\njudge 1 5 2 1 0\nshort 4 7 4 0 0\nbreaches 0 1 0 0 0\n5 2 1 0\n\
         write-short 4 7 111 0 0\nwrite-case 0 258 0 0 0\nwrite-plan 0 111 0 0 0\nnew-judge 1 5 2 1 0\n"
    );
    assert_eq!(
        tell(&case, &plan_a[..1]),
        "inspect 0 2 2 0 0\njudge 3 1 8 0 0\nshort 3 1 8 0 0\nbreaches 3 1 8 0 0\n\
         write-short 3 1 8 0 0\nwrite-case 0 258 0 0 0\nwrite-plan 3 1 8 0 0\n"
    );
}

/// Device 2 on bar 1: flows of 30 and 150 within a link limit of 150, then above one of 149.
#[test]
fn edition_5_in_c() {
    let tell = |day: &Day| {
        let (case, plan) = day.messages();
        run("edition-5", &[&case, &plan])
    };
    let days = link_days();
    assert_eq!(
        tell(&days[0].1),
        "inspect 0 2 2 0 0\njudge 0 167860 0 0 0\nshort 0 0 0 0 0\nbreaches 0 0 0 0 0\n\
         write-short 4 7 111 0 0\nwrite-case 0 258 0 0 0\nwrite-plan 0 111 0 0 0\nnew-judge 0 167860 0 0 0\n"
    );
    assert_eq!(
        tell(&days[1].1),
        "inspect 0 2 2 0 0\njudge 1 27 2 0 0\nshort 4 7 4 0 0\nbreaches 0 1 0 0 0\n27 2 0 0\n\
         write-short 4 7 111 0 0\nwrite-case 0 258 0 0 0\nwrite-plan 0 111 0 0 0\nnew-judge 1 27 2 0 0\n"
    );
}

/// The two-set day's copy has 10 bytes and 10 numbers, its completion 31; 30 in the first block, then
/// a start in state 2 with 100 and 50, the load at 30, then 150. Plan (b), and a plan that is cut.
#[test]
fn market_in_c() {
    let tell = |case: &[u8], plan: &[u8]| run_with(&["market"], "market", &[case, plan]);
    let days = lettered_days();
    let (case, plan_a) = days[0].1.messages();
    let (_, plan_b) = days[1].1.messages();
    assert_eq!(
        tell(&case, &plan_a),
        "short 4 7 10 0 0\nmarket 0 10 0 0 0\ndesk-short 4 7 248 0 0\ndesk 0 31 0 0 0\n\
         0 0 0 30 0 0 0 0 0 0 30 0 0 0 0 1 0 2 100 50 0 0 0 0 0 150 0 0 0 0 167860\n\
         desk 3 2 0 0 0\ncopy 0 10 0 0 0\n0 0 0 0 0 1 0 0 0 0\ncopy 3 2 0 0 0\n"
    );
    assert_eq!(tell(&case, &plan_b), "short 1 5 2 1 0\nmarket 1 5 2 1 0\n");
    assert_eq!(
        tell(&case, &plan_a[..1]),
        "short 3 1 8 0 0\nmarket 3 1 8 0 0\n"
    );
    assert_eq!(
        tell(&case[..1], &plan_a[..1]),
        "short 2 1 8 0 0\nmarket 2 1 8 0 0\n"
    );
}

/// Days (a) and (b), in the newest edition too, case (g), and messages that are cut.
#[test]
fn mend_in_c() {
    let tell = |case: &[u8], plan: &[u8]| run_with(&["mend"], "mend", &[case, plan]);
    let days = lettered_days();
    for edition in [Edition::One, Edition::Five] {
        let messages = |place: usize| {
            let day = days[place].1.clone();
            Day { edition, ..day }.messages()
        };
        let (case, plan_a) = messages(0);
        let (_, plan_b) = messages(1);
        let (case_g, plan_g) = messages(6);
        assert_eq!(tell(&case, &plan_a), "mend 0 167860 0 0 0\n");
        assert_eq!(tell(&case, &plan_b), "mended 1 2 1 150 0\n");
        assert_eq!(tell(&case_g, &plan_g), "unmendable 6 0 0 0 0\n");
        assert_eq!(tell(&case, &plan_b[..1]), "mend 3 1 8 0 0\n");
        assert_eq!(tell(&case[..1], &plan_b[..1]), "mend 2 1 8 0 0\n");
    }
}

/// Plans (a), (b), (a) cut behind its first byte and (a): in 106 bytes both completions of 53, in one
/// byte fewer the first alone. The lengths stand at bytes 0, 83, 166 and 170, and the table takes 8
/// times 24 bytes; the batch is cut inside its last length and inside its last message.
#[test]
fn judge_batch_in_c() {
    let days = lettered_days();
    let (case, plan_a) = days[0].1.messages();
    let (_, plan_b) = days[1].1.messages();
    let plans = batch::join(&[&plan_a[..], &plan_b, &plan_a[..1], &plan_a]);
    let tell = |room: &str, case: &[u8], plans: &[u8]| {
        run_with(&["batch", room], "judge-batch", &[case, plans])
    };
    let judged = "0 167860 0 0 0 53\n1 5 2 1 0 0\n3 1 8 0 0 0\n";
    assert_eq!(
        tell("106", &case, &plans),
        format!("table-short 4 7 192 0 0\njudge-batch 0 4 106 0 0\n{judged}0 167860 0 0 0 53\n")
    );
    assert_eq!(
        tell("105", &case, &plans),
        format!("table-short 4 7 192 0 0\njudge-batch 0 4 53 0 0\n{judged}4 7 53 0 0 0\n")
    );
    for cut in [&plans[..172], &plans[..plans.len() - 1]] {
        let refused = "table-short 3 1 1360 0 0\njudge-batch 3 1 1360 0 0\n";
        assert_eq!(tell("106", &case, cut), refused);
        let refused = "table-short 2 1 8 0 0\njudge-batch 2 1 8 0 0\n";
        assert_eq!(tell("106", &case[..1], cut), refused);
    }
    let empty = "table-short 0 0 0 0 0\njudge-batch 0 0 0 0 0\n";
    assert_eq!(tell("106", &case, &[]), empty);
}

/// The example batch has a case of 210 bytes (66, 455 and 430, 361 and 366 bits), two plans of 80
/// (19 and 616) and one of 1.
#[test]
fn split_in_c() {
    let tell = |batch: &[u8]| run("split", &[batch]);
    assert_eq!(
        tell(&example_batch()),
        "split 0 3 213 0 0\nsplit 0 216 296 0 0\nsplit 0 299 379 0 0\nsplit 0 382 383 0 0\n\
         split 1 0 0 0 0\n"
    );
    assert_eq!(tell(&[]), "split 1 0 0 0 0\n");
    assert_eq!(tell(&[0x10, 0, 1]), "split 2 4 0 0 0\n");
    assert_eq!(
        tell(&[0, 0, 1, 7, 0, 0]),
        "split 0 3 4 0 0\nsplit 2 1 32 0 0\n"
    );
    assert_eq!(
        tell(&[0, 0, 1, 7, 0, 0, 1]),
        "split 0 3 4 0 0\nsplit 2 1 32 0 0\n"
    );
}

/// The header and the wrappers have the same figures, worked by hand.
#[test]
fn figures_are_the_headers() {
    let defined = |name: &str| -> Option<usize> {
        let (_, behind) = HEADER.split_once(&format!("#define KADUNFO_{name} "))?;
        behind.split_whitespace().next()?.parse().ok()
    };
    for (name, wrapper, by_hand) in [
        ("LONGEST_LIST", LONGEST_LIST, 615_808),
        ("LONGEST_COMPLETION", LONGEST_COMPLETION, 70_876),
        ("LONGEST_COPY", LONGEST_COPY, 16_340),
        ("MOST_NUMBERS", MOST_NUMBERS, 46_721),
        ("LONGEST_CASE", LONGEST_CASE, 328_113),
        ("LONGEST_PLAN", LONGEST_PLAN, 158_427),
        ("LONGEST_MESSAGE", LONGEST_MESSAGE, 1_048_576),
        ("BATCH_NUMBERS", BATCH_NUMBERS, 6),
        ("STACK", STACK, 1_500_000),
    ] {
        assert_eq!(wrapper, by_hand, "{name}");
        assert_eq!(defined(name), Some(by_hand), "{name}");
    }
}

/// The desk program's version is the header's, with a number behind it.
#[test]
fn version_is_the_headers() {
    let (_, behind) = HEADER.split_once("#define KADUNFO_VERSION \"").expect("it");
    let (version, _) = behind.split_once('"').expect("its end");
    let own = env!("CARGO_PKG_VERSION").rsplit_once('.').map(|own| own.0);
    assert_eq!(own, Some(version));
}

/// The length of the largest case's completion, by edition.
#[test]
fn longest_completion_is_that_of_the_largest_case() {
    let longest = Edition::ALL.map(|edition| {
        let most = edition.largest();
        let largest = busiest_batch(edition, 1, most.devices, most.intervals);
        let (_, case) = read_case(batch::messages(&largest)[0]).expect("it passes reading");
        completion_bits(edition, &case).div_ceil(8)
    });
    assert_eq!(
        longest,
        [12_165, 13_887, 13_887, 70_324, LONGEST_COMPLETION]
    );
}
