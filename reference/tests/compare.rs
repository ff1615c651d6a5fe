//! The long run, against products that agree and products that do not.

use reference::batch::messages;
use reference::case::read_case;
use reference::compare::{compare, output_of_program, Difference, Settings, Until};
use reference::edition::Edition;
use reference::form::Form;
use reference::packed::{output, output_to, unpack, Extent};

fn settings(until: Until) -> Settings {
    Settings {
        form: Form::BATCH,
        drawn: Form::BATCH,
        seed: 3,
        first_batch: 0,
        until,
        plans_per_batch: 10,
        mends: false,
    }
}

fn reference_output(packed: &[u8]) -> String {
    output(Form::BATCH, &unpack(packed).expect("batches are packed"))
}

/// Compares with a product that gives the reference's output, changed.
fn difference_when(change: impl Fn(String) -> String) -> Option<Difference> {
    let mut product = |packed: &[u8]| Ok(change(reference_output(packed)).into_bytes());
    let settings = settings(Until::Batches(60));
    let (_, difference) = compare(&settings, &mut product, |_| {}).expect("nothing fails");
    difference
}

#[test]
fn the_reference_agrees_with_itself() {
    assert_eq!(difference_when(|output| output), None);
}

#[test]
fn a_run_goes_on_until_its_plans_are_judged() {
    let mut product = |packed: &[u8]| Ok(reference_output(packed).into_bytes());
    let settings = settings(Until::Plans(300));
    let (census, _) = compare(&settings, &mut product, |_| {}).expect("nothing fails");
    assert!((300..310).contains(&census.plans()), "{census}");
}

#[test]
fn a_program_of_its_own_agrees() {
    let program = env!("CARGO_BIN_EXE_packed");
    let mut product = |packed: &[u8]| output_of_program(program, packed);
    let settings = settings(Until::Batches(300));
    let (census, difference) = compare(&settings, &mut product, |_| {}).expect("it runs");
    assert_eq!((census.batches, difference), (300, None));
}

/// What the long run asks of a product in the host form.
fn host_output(packed: &[u8]) -> String {
    let batches = unpack(packed).expect("batches are packed");
    output_to(Extent::of_run(Form::HOST), Form::HOST, &batches)
}

fn host_settings(batches: u64) -> Settings {
    Settings {
        form: Form::HOST,
        drawn: Form::HOST,
        plans_per_batch: 2,
        ..settings(Until::Batches(batches))
    }
}

/// In the host form the batches are others, and most of their days are beyond the batch form.
#[test]
fn a_run_in_the_host_form_has_large_days() {
    let mut product = |packed: &[u8]| Ok(host_output(packed).into_bytes());
    let (census, difference) =
        compare(&host_settings(120), &mut product, |_| {}).expect("nothing fails");
    assert_eq!(difference, None);
    assert_eq!(census.greatest[..2], [64, 96], "{census}");
    assert!(2 * census.large.cases > census.cases, "{census}");
    assert!(
        census.large.accepted > 20 && census.large.broken > 10,
        "{census}"
    );
}

/// In the host form a product tells copies, and what its readers make of whole and damaged messages;
/// a line that it changes is told, and so is one that it leaves out.
#[test]
fn copies_and_readings_are_compared_in_the_host_form() {
    for (line, changed) in [
        ("copy ", "copy 1"),
        ("copy ", ""),
        ("desk read ", "desk read 1"),
        ("desk refused ", "desk refused 1"),
        ("market read ", ""),
        ("market refused ", "market refused 1"),
        ("mend accepted ", "mend accepted 1"),
        ("mend refused ", ""),
        ("mend none", "mend 1 1 1 1"),
    ] {
        let mut product = |packed: &[u8]| {
            let output = host_output(packed);
            let mut lines: Vec<String> = output.split_inclusive('\n').map(String::from).collect();
            if let Some(given) = lines.iter_mut().find(|given| given.starts_with(line)) {
                let left_out = changed.is_empty();
                *given = if left_out {
                    String::new()
                } else {
                    given.replacen(line, changed, 1)
                };
            }
            Ok(lines.concat().into_bytes())
        };
        let (_, difference) =
            compare(&host_settings(8), &mut product, |_| {}).expect("nothing fails");
        let expected = difference.and_then(|difference| difference.expected);
        assert!(expected.is_some_and(|expected| expected.starts_with(line)));
    }
}

/// Batches for mending reach every kind of mend, and a power that is changed in a line is told.
#[test]
fn batches_for_mending() {
    let settings = Settings {
        mends: true,
        plans_per_batch: 20,
        ..host_settings(150)
    };
    let mut product = |packed: &[u8]| Ok(host_output(packed).into_bytes());
    let (census, difference) = compare(&settings, &mut product, |_| {}).expect("nothing fails");
    assert_eq!(difference, None);
    let mends = &census.mends;
    for rule in [5, 6, 16, 17, 19, 23, 24, 25] {
        assert!(mends.by_rule[rule] > 50, "rule {rule}: {census}");
    }
    assert_eq!(
        mends.by_rule.iter().filter(|&&count| count > 0).count(),
        8,
        "{census}"
    );
    for count in [
        mends.several,
        mends.earlier,
        mends.at_zero,
        mends.at_highest,
        mends.unmended_one,
        mends.unmended_several,
    ] {
        assert!(count > 5, "{census}");
    }
    for edition in Edition::ALL {
        let counts = census.of(edition);
        assert!(counts.accepted > 50 && counts.broken > 100, "{census}");
    }
    let mut product = |packed: &[u8]| {
        let output = host_output(packed);
        Ok(output
            .replacen("\nmend 1 1 0 ", "\nmend 1 1 1 ", 1)
            .into_bytes())
    };
    let (_, difference) = compare(&settings, &mut product, |_| {}).expect("nothing fails");
    let expected = difference.and_then(|difference| difference.expected);
    assert!(expected.is_some_and(|expected| expected.starts_with("mend 1 1 0 ")));
}

/// Days of the batch program's sizes can be sent to the host library too; what is told of copies and
/// readings is counted, line for line.
#[test]
fn a_run_in_the_host_form_can_have_small_days() {
    let settings = Settings {
        drawn: Form::BATCH,
        plans_per_batch: 10,
        ..host_settings(60)
    };
    let (mut copies, mut read, mut refused) = (0, [0; 2], 0);
    let mut product = |packed: &[u8]| {
        let output = host_output(packed);
        let count = |beginning: &str| output.lines().filter(|l| l.starts_with(beginning)).count();
        copies += count("copy ");
        read[0] += count("desk read ");
        read[1] += count("market read ");
        refused += count("desk refused ") + count("market refused ");
        Ok(output.into_bytes())
    };
    let (census, difference) = compare(&settings, &mut product, |_| {}).expect("nothing fails");
    assert_eq!(difference, None);
    assert!(census.large.cases == 0 && census.cases > 40, "{census}");
    let told = census.copies;
    assert_eq!((told.copies, told.read), (copies, read));
    assert_eq!(told.refused.iter().sum::<usize>(), refused);
    // Each accepted plan is sent four times: as it is, in the newest edition, with its devices in
    // another order, and at other prices.
    assert!(told.copies == 4 * census.accepted, "{census}");
    assert!(read.iter().all(|&read| read > 50), "{census}");
    assert!([1, 2, 3, 6].iter().all(|&number| told.refused[number] > 0));
    assert_eq!([told.refused[4], told.refused[5]], [0; 2]);
}

/// The batch form tells nothing of copies: neither do the corpora.
#[test]
fn the_batch_form_has_no_copies() {
    let mut product = |packed: &[u8]| {
        let output = reference_output(packed);
        for line in ["copy", "desk", "mend"] {
            assert!(!output.contains(&format!("\n{line} ")));
        }
        Ok(output.into_bytes())
    };
    let settings = settings(Until::Batches(20));
    let (_, difference) = compare(&settings, &mut product, |_| {}).expect("nothing fails");
    assert_eq!(difference, None);
}

#[test]
fn the_first_difference_stops_the_run_and_is_told() {
    let difference = difference_when(|output| output.replacen("broken 7 ", "broken 8 ", 1))
        .expect("a rule is changed");
    assert!(difference.shows_alone);
    let batches = unpack(&difference.packed).expect("the batch is packed");
    assert_eq!(batches.len(), 1);
    let expected = output(Form::BATCH, &batches);
    let line = expected
        .lines()
        .nth(difference.line - 1)
        .expect("the line is there");
    assert!(line.contains("broken 7 "));
    assert_eq!(difference.expected, Some(format!("{line}\\n")));
    assert_eq!(
        difference.given,
        Some(format!("{}\\n", line.replace("broken 7", "broken 8")))
    );
    // Nothing before it was different.
    let earlier: String = expected.lines().take(difference.line - 1).collect();
    assert!(!earlier.contains("broken 7 "));
}

/// A list with another count or other bytes is told at its line; so is a list that is not printed.
#[test]
fn lists_of_breaches_are_compared() {
    let changes: [fn(&str) -> String; 3] = [
        |line| line.replacen("breaches ", "breaches 1", 1),
        |line| line.replacen('\n', "1\n", 1),
        |_| String::new(),
    ];
    for change in changes {
        let difference = difference_when(|output| {
            let mut lines: Vec<String> = output.split_inclusive('\n').map(String::from).collect();
            let is_list = |line: &String| line.starts_with("breaches ");
            let first = lines.iter().position(is_list).expect("a plan is broken");
            lines[first] = change(&lines[first]);
            lines.concat()
        });
        let expected = difference.and_then(|difference| difference.expected);
        assert!(expected.is_some_and(|line| line.starts_with("breaches ")));
    }
}

/// A message in the newest edition with another length or other bytes is told at its line.
#[test]
fn messages_in_the_newest_edition_are_compared() {
    for change in [(" ", " 1"), ("\n", "1\n")] {
        let difference = difference_when(|output| {
            let mut lines: Vec<String> = output.split_inclusive('\n').map(String::from).collect();
            let is_one = |line: &String| line.starts_with("rewritten ");
            let first = lines.iter().position(is_one).expect("a case passes");
            lines[first] = lines[first].replacen(change.0, change.1, 1);
            lines.concat()
        });
        let expected = difference.and_then(|difference| difference.expected);
        assert!(expected.is_some_and(|line| line.starts_with("rewritten ")));
    }
}

/// Behind each batch its messages go to the product in the newest edition, whatever theirs is.
#[test]
fn written_pairs_are_judged() {
    let mut written = 0;
    let mut product = |packed: &[u8]| {
        let batches = unpack(packed).expect("batches are packed");
        for three in batches.chunks(3) {
            let [_, rewritten, _] = three else {
                panic!("a batch, its messages in the newest edition and in another order");
            };
            for message in messages(rewritten) {
                assert_eq!(message[0] & 15, 5);
                written += 1;
            }
        }
        Ok(output(Form::BATCH, &batches).into_bytes())
    };
    let settings = settings(Until::Batches(60));
    let (census, difference) = compare(&settings, &mut product, |_| {}).expect("nothing fails");
    assert_eq!(difference, None);
    assert!(
        written > 60 && written <= census.cases + census.plans(),
        "{census}"
    );
}

/// Behind these its pairs go to the product with their devices in another order, and must be
/// answered as before, carried along: what is told of them alone is a difference.
#[test]
fn renumbered_pairs_are_judged() {
    for word in [
        "accepted ",
        "broken ",
        "completion ",
        "breaches ",
        "rewritten ",
    ] {
        let mut product = |packed: &[u8]| {
            let batches = unpack(packed).expect("batches are packed");
            let output = output(Form::BATCH, &batches);
            let changed = change_in_thirds(&output, word);
            assert!(batches.len() == 1 || changed != output, "{word}");
            Ok(changed.into_bytes())
        };
        let settings = settings(Until::Batches(60));
        let (_, difference) = compare(&settings, &mut product, |_| {}).expect("nothing fails");
        let difference = difference.expect("a line is changed");
        assert!(difference.expected.is_some_and(|line| line.contains(word)));
        assert!(!difference.shows_alone);
    }
}

/// A 1 behind the first such word in the output for every third batch.
fn change_in_thirds(output: &str, word: &str) -> String {
    let mut batch = 0;
    let mut is_done = false;
    let change = |line: &str| {
        if let Some(number) = line.trim_end().strip_prefix("batch ") {
            batch = number.parse().expect("a number");
        }
        if batch % 3 != 2 || is_done || !line.contains(word) {
            return line.to_string();
        }
        is_done = true;
        line.replacen(word, &format!("{word}1"), 1)
    };
    output.split_inclusive('\n').map(change).collect()
}

/// Most batches come back with the same devices in another order, and their plans with them.
#[test]
fn renumbered_pairs_have_the_same_devices() {
    let (mut cases, mut moved) = (0, 0);
    let mut product = |packed: &[u8]| {
        let batches = unpack(packed).expect("batches are packed");
        for three in batches.chunks(3) {
            let [old, written, new] = [three[0], three[1], three[2]].map(messages);
            assert_eq!(written.len(), new.len());
            if let Some(case) = new.first() {
                let (_, new_case) = read_case(case).expect("it passes reading");
                let (_, old_case) = read_case(old[0]).expect("it passes reading");
                cases += 1;
                moved += usize::from(new_case.devices != old_case.devices);
                let has_it = |device| old_case.devices.contains(device);
                assert!(new_case.devices.iter().all(has_it));
            }
        }
        Ok(output(Form::BATCH, &batches).into_bytes())
    };
    let settings = settings(Until::Batches(60));
    let (_, difference) = compare(&settings, &mut product, |_| {}).expect("nothing fails");
    assert_eq!(difference, None);
    assert!(cases > 45 && moved > 35, "{moved} of {cases}");
}

#[test]
fn lines_that_miss_or_exceed_are_differences() {
    let missing = difference_when(|output| {
        let mut lines: Vec<&str> = output.split_inclusive('\n').collect();
        lines.pop();
        lines.concat()
    });
    assert_eq!(missing.expect("a line is missing").given, None);
    let exceeding = difference_when(|output| output + "batch 60\n");
    assert_eq!(exceeding.expect("a line is too many").expected, None);
    let unended = difference_when(|output| output.trim_end().to_string());
    assert!(unended.is_some());
    let nothing = difference_when(|_| String::new());
    assert_eq!(nothing.expect("nothing is printed").line, 1);
}

/// A product that fails only behind other batches is shown by the whole chunk.
#[test]
fn a_difference_that_needs_others_stores_them_all() {
    let mut product = |packed: &[u8]| {
        let output = reference_output(packed);
        let alone = unpack(packed).expect("batches are packed").len() == 1;
        let changed = output.replacen("accepted ", "accepted 1", 1);
        Ok(if alone { output } else { changed }.into_bytes())
    };
    let settings = settings(Until::Batches(20));
    let (_, difference) = compare(&settings, &mut product, |_| {}).expect("nothing fails");
    let difference = difference.expect("a surplus is changed");
    assert!(!difference.shows_alone);
    // Twenty, and each in the newest edition and with its devices in another order.
    assert_eq!(
        unpack(&difference.packed).map(|batches| batches.len()),
        Ok(60)
    );
}
