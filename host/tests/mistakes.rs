//! Mistakes that an engineer makes in a text: each is told at its file and line. The texts are the
//! island's day of the examples, one place changed in each.

use std::fs;
use std::path::{Path, PathBuf};
use std::process::Command;

const EXAMPLES: &str = concat!(env!("CARGO_MANIFEST_DIR"), "/../examples");

/// What stands in the text, what is written instead, and what is told: by the program with the line
/// ahead, by the plan unit with `refused`, its number and the line ahead of the field.
type Mistake = (&'static str, &'static str, &'static str);

const IN_CASE: [Mistake; 45] = [
    ("intervals 24x60", "intervals 24x61", "3: 61: an interval lasts an even number of minutes, 2 to 360"),
    ("intervals 24x60", "intervals 24x600", "3: 600: an interval lasts 2 to 360 minutes"),
    ("intervals 24x60", "intervals 23x60", "45: pmax has 24 figures, the day has 23 intervals"),
    ("intervals 24x60", "intervals 97x60", "3: '97x60': 97 times; a day has up to 96 intervals"),
    ("intervals 24x60", "intervals 24x400", "refused 4 at 3: half the minutes, interval 1 is 200: out of its range, 1..180"),
    ("intervals 24x60\n", "", "6: 'intervals' must stand ahead of this line"),
    ("mismatch price 2_000", "mismatch price 20_000", "4: mismatch price: 20000 is out of its range, 1..10000"),
    ("mismatch price 2_000", "mismatch price 0", "refused 4 at 4: mismatch price is 0: out of its range, 1..10000"),
    ("mismatch price 2_000", "mismatch price _2000", "4: '_2000' is not a whole number"),
    ("mismatch price 2_000\n", "", "refused 4: mismatch price is 0: out of its range, 1..10000"),
    ("share rgu 20", "share rgu 1001", "refused 4 at 8: zone 1: share rgu is 1001: out of its range, 0..1000"),
    ("share rgu 20", "share qru 20", "8: unknown word 'qru'; one of: rgu rgd scr nsc"),
    ("zone 1\n  share", "zone 2\n  share", "7: zone 1 comes next"),
    ("pmin 400", "pmin 400\n  pmin 300", "21: 'set 1: pmin' was said in line 20 already"),
    ("pmin 400", "pmim 400", "20: unknown line 'pmim 400' of a set"),
    ("pmin 400", "pmin 400 500", "20: pmin has 2 figures, the day has 24 intervals"),
    ("pmin 400", "pmin 1001", "refused 5 at 21: set 1, interval 1: pmax is 1000: pmin is above it"),
    ("pmin 400", "pmin 4e2", "20: '4e2' is not a whole number"),
    ("pmin 400", "pmin 400 \"kW", "20: a quote is not closed"),
    ("pmax 6x200 6x300", "pmax 6x200 3x300", "45: pmax has 21 figures, the day has 24 intervals"),
    ("pmax 6x200 6x300 6x400 6x250", "pmax 200 6:30 300", "45: no interval starts at 6:30"),
    ("pmax 6x200 6x300 6x400 6x250", "pmax 200 6:00 300 5:00 200", "45: 5:00 comes too late: 7 figures stand ahead of it"),
    ("pmax 6x200 6x300 6x400 6x250", "pmax 6:00 300", "45: what holds before 6:00?"),
    ("status on", "status onn", "43: 'onn'; one of: free on off"),
    ("initially on 600", "initially onn 600", "13: unknown line 'initially onn 600 700' of a set"),
    ("ramp up 20 down 20 starting 10", "ramp up 20 down 20 starting 0", "refused 4 at 15: set 1: ramp starting is 0: out of its range, 1..100000"),
    ("ramp up 20 down 20 starting 10", "ramp 20 down 20 starting 10", "15: '20': a word must stand ahead of it"),
    ("ramp up 20 down 20 starting 10", "ramp up 20 up 20 starting 10", "15: 'up' twice"),
    ("ramp up 20 down 20 starting 10", "ramp up 20 dwn 20 starting 10", "15: unknown word 'dwn'; one of: up down starting stopping"),
    ("starts 0:00 24:00 at most 1", "starts 0:00 25:00 at most 1", "refused 5 at 33: set 2: starts 1 until is 1500: the window ends before its start, or after the day"),
    ("starts 0:00 24:00 at most 1", "starts 0:00 24:00 at most 49", "refused 4 at 33: set 2: starts 1 most is 49: out of its range, 0..48"),
    ("starts 0:00 24:00 at most 1", "starts 0:00 24:00 at most 200", "33: set 2: starts 1 most: 200 is out of its range, 0..48"),
    ("starts 0:00 24:00 at most 1", "starts 0:75 24:00 at most 1", "33: '0:75' is not a time"),
    ("state 8:00 -100_000", "state 8:00 -100_000\n  state 9:00 0\n  state 10:00 0", "refused 3 at 21: set 1: state count is 4: out of its range, 0..3"),
    ("floor 100 price 120", "floor 601 price 120", "refused 5 at 37: set 2, interval 1: block 1 floor is 601: above its cap"),
    ("block 1 cap 600 floor 100", "block 2 cap 600 floor 100", "37: block 2 in interval 1 without block 1"),
    ("zones 1", "zones 2", "refused 5 at 12: set 1: zones: a zone that the case does not have"),
    ("zones 1", "zones 5", "12: zones are 1 to 4"),
    ("\"Diesel A\"", "Diesel A", "11: a name of several words stands in quotes"),
    ("\"Diesel A\"", "\"Diesel\u{1b}[31m\"", "11: a name has a control character"),
    (
        "limit rgu 100 rgd 100",
        "limit rgu 100 all 50 rgd 100",
        "17: 'all' comes first",
    ),
    ("  zones 1\n  initially on 600", "  zones 1 1\n  initially on 600", "12: zone 1 twice"),
    (
        "producing \"Diesel A\"",
        "producing kW min",
        "11: a name of several words stands in quotes",
    ),
    ("case edition 3", "case edition 2", "22: 'floor' is of edition 3 on, and this is 2"),
    ("case edition 3", "case edition 6", "refused 2 at 1: edition is 6: an edition that is unknown"),
];

const IN_PLAN: [Mistake; 10] = [
    ("set \"Diesel A\" power 550", "set 1 power 100001", "refused 4 at 4: set 1, interval 1: power is 100001: out of its range, 0..100000"),
    ("set \"Diesel A\" power 550", "set 1 power 200000", "4: set 1, interval 1: power: 200000 is out of its range, 0..100000"),
    ("set \"Diesel A\" power 550", "set \"Diesel C\" power 550", "4: the case has no set \"Diesel C\""),
    ("set \"Diesel B\" on 0 7:00 1", "set \"Diesel B\" on 0 7:00 2", "8: '2'; one of: 1 0 on off"),
    ("set \"Diesel B\" on 0 7:00 1 15:00 0\n", "", "14: set 2 has no line 'set 2 on ..'"),
    ("set \"Mill\" power", "set 6 power", "15: set 6: the case has 5 sets"),
    ("set \"Mill\" power", "set \"Mill\" load", "15: unknown figure 'load'; one of: on power rgu rgd scr nsc rru_on rru_off rrd_on rrd_off qru qrd q"),
    ("set \"Mill\" power", "set \"Mill\" on", "15: 'set 5: on' was said in line 14 already"),
    ("set \"Mill\" power", "flow 0\nset \"Mill\" power", "15: 'flow' is of edition 5 on, and this is 3"),
    ("plan edition 3", "plan edition 4", "refused 2 at 1: edition is 4: unlike the case's"),
];

fn folder(name: &str) -> PathBuf {
    let path = Path::new(env!("CARGO_TARGET_TMPDIR")).join(format!("mistakes-{name}"));
    fs::create_dir_all(&path).expect("a scratch directory");
    path
}

/// What `judge` says of the two texts in a folder, of which it says nothing else.
fn complaint(folder: &Path) -> String {
    let done = Command::new(env!("CARGO_BIN_EXE_kadunfo"))
        .args(["judge", "a.case", "a.plan"])
        .current_dir(folder)
        .output()
        .expect("the program runs");
    assert_eq!(done.status.code(), Some(2), "{done:?}");
    assert!(done.stdout.is_empty(), "{done:?}");
    let told = String::from_utf8(done.stderr).expect("text");
    told.strip_suffix('\n').expect("a line's end").to_string()
}

/// A complaint without the bit of a refusal, in the form of the lists above.
fn in_short(kind: &str, told: &str) -> String {
    let file = format!("a.{kind}");
    let Some(refusal) = told.strip_prefix("refused ") else {
        return told
            .strip_prefix(&format!("{file}:"))
            .expect("the file")
            .to_string();
    };
    let (numbers, words) = refusal.split_once(": ").expect("words");
    let (number, bit) = numbers.split_once(' ').expect("two numbers");
    assert!(bit.parse::<usize>().is_ok(), "{told}");
    let words = words
        .strip_prefix(&format!("{kind} {file}"))
        .expect("the file");
    match words
        .strip_prefix(':')
        .map(|words| words.trim_start().to_string())
    {
        Some(words) if words.starts_with(|letter: char| letter.is_ascii_digit()) => {
            format!("refused {number} at {words}")
        }
        Some(words) => format!("refused {number}: {words}"),
        None => panic!("{told}"),
    }
}

fn hold(kind: &str, mistakes: &[Mistake]) {
    let folder = folder(kind);
    for (instead, written, told) in mistakes {
        for name in ["case", "plan"] {
            let text = fs::read_to_string(format!("{EXAMPLES}/island.{name}")).expect("an example");
            let text = if name == kind {
                assert!(text.contains(instead), "{instead}");
                text.replacen(instead, written, 1)
            } else {
                text
            };
            fs::write(folder.join(format!("a.{name}")), text).expect("a scratch file");
        }
        assert_eq!(in_short(kind, &complaint(&folder)), *told, "{written}");
    }
}

#[test]
fn mistakes_in_a_case_are_told_at_their_lines() {
    hold("case", &IN_CASE);
}

#[test]
fn mistakes_in_a_plan_are_told_at_their_lines() {
    hold("plan", &IN_PLAN);
}

/// A plan of rows: a row too few, a row twice, a figure out of its range, an unknown column, another
/// flow in the same interval.
#[test]
fn mistakes_in_rows_are_told_at_their_lines() {
    let folder = folder("rows");
    let case = fs::read_to_string(format!("{EXAMPLES}/mine.case")).expect("an example");
    fs::write(folder.join("a.case"), case).expect("a scratch file");
    let plan = format!("{EXAMPLES}/mine.plan");
    let done = Command::new(env!("CARGO_BIN_EXE_kadunfo"))
        .args(["text", "a.case", &plan, "--csv"])
        .current_dir(&folder)
        .output()
        .expect("the program runs");
    let rows = String::from_utf8(done.stdout).expect("text");
    let lines: Vec<&str> = rows.lines().collect();
    assert_eq!(lines.len(), 1 + 28 * 6);
    assert_eq!(lines[2], "1,Gas 2,0,0,0,0,0,0,0,0,0,0,0,0,0,400");
    let with = |changed: &[(usize, &str)]| -> String {
        let mut lines: Vec<String> = lines.iter().map(|line| line.to_string()).collect();
        for (index, line) in changed {
            lines[*index] = line.to_string();
        }
        lines.join("\n") + "\n"
    };
    for (text, told) in [
        (with(&[(2, "")]), "169: interval 1 has no row of set 2"),
        (
            with(&[(2, lines[1])]),
            "3: 'set 1, interval 1' was said in line 2 already",
        ),
        (
            with(&[(2, "1,Gas 2,0,0,0,0,0,0,0,0,0,0,0,0,0,401")]),
            "3: flow is 401, and 400 in another row of interval 1",
        ),
        (
            with(&[(2, "1,Gas 3,0,0,0,0,0,0,0,0,0,0,0,0,0,400")]),
            "3: the case has no set Gas 3",
        ),
        (
            with(&[(2, "1,Gas 2,0,0")]),
            "3: 4 fields, the first line has 16",
        ),
        (
            with(&[(2, "29,Gas 2,0,0,0,0,0,0,0,0,0,0,0,0,0,400")]),
            "3: interval 29: the day has 28",
        ),
        (
            with(&[(2, "1,Gas 2,2,0,0,0,0,0,0,0,0,0,0,0,0,400")]),
            "3: on is 2: 0 or 1",
        ),
        (
            with(&[(2, "1,Gas 2,0,100001,0,0,0,0,0,0,0,0,0,0,0,400")]),
            "refused 4 at 3: set 2, interval 1: power is 100001: out of its range, 0..100000",
        ),
        (
            with(&[(0, &lines[0].replace("power", "load"))]),
            "1: unknown column 'load'",
        ),
    ] {
        fs::write(folder.join("a.plan"), &text).expect("a scratch file");
        assert_eq!(in_short("plan", &complaint(&folder)), told);
    }
}
