//! The program `kadunfo` as it is run on the examples: every verb, its files, its complaints and its
//! exit statuses.

mod common;

use std::ffi::OsStr;
use std::fs;
use std::io::Write;
use std::process::{Command, Stdio};

use common::Scratch;
use host::bill::grouped;
use host::explain::Breach;
use host::judged::broken_rules;
use host::{with_buffer, Mend, Mended, LONGEST_MESSAGE};
use reference::day_text::read_day;
use reference::judge::{judge, Verdict};
use reference::rng::Rng;
use reference::worked_day::{lettered_days, two_set_day, Day};

const EXAMPLES: &str = concat!(env!("CARGO_MANIFEST_DIR"), "/../examples");
const PROGRAM: &str = env!("CARGO_BIN_EXE_kadunfo");

/// Case and plan of each example, and whether it is accepted.
const DAYS: [(&str, &str, bool); 7] = [
    ("two-sets", "two-sets", true),
    ("two-sets", "two-sets-ramp", false),
    ("island", "island", true),
    ("island", "island-broken", false),
    ("mine", "mine", true),
    ("metered", "metered", false),
    ("grid", "grid", true),
];

fn case(name: &str) -> String {
    format!("{EXAMPLES}/{name}.case")
}

fn plan(name: &str) -> String {
    format!("{EXAMPLES}/{name}.plan")
}

#[derive(Debug)]
struct Ran {
    out: Vec<u8>,
    err: String,
    status: Option<i32>,
}

fn run_in<W: AsRef<OsStr>>(words: &[W], input: &[u8]) -> Ran {
    let mut child = Command::new(PROGRAM)
        .args(words)
        .stdin(Stdio::piped())
        .stdout(Stdio::piped())
        .stderr(Stdio::piped())
        .spawn()
        .expect("the program runs");
    // It need not read its input.
    let _ = child.stdin.take().expect("an input").write_all(input);
    let done = child.wait_with_output().expect("the program ends");
    Ran {
        out: done.stdout,
        err: String::from_utf8(done.stderr).expect("text"),
        status: done.status.code(),
    }
}

/// What a run prints that does not complain.
fn answer<W: AsRef<OsStr>>(words: &[W], status: i32) -> String {
    let ran = run_in(words, b"");
    assert_eq!(
        (ran.err.as_str(), ran.status),
        ("", Some(status)),
        "{ran:?}"
    );
    String::from_utf8(ran.out).expect("text")
}

/// What a run complains of in one line, printing nothing.
fn complaint<W: AsRef<OsStr>>(words: &[W], status: i32) -> String {
    let ran = run_in(words, b"");
    assert_eq!(
        (ran.out.as_slice(), ran.status),
        (&b""[..], Some(status)),
        "{ran:?}"
    );
    let line = ran.err.strip_suffix('\n').expect("a line's end");
    assert!(!line.is_empty() && !line.contains('\n'), "{line}");
    line.to_string()
}

impl Scratch {
    /// The messages of an example.
    fn messages(&self, case_name: &str, plan_name: &str) -> [String; 2] {
        let outs = [self.path("message.case"), self.path("message.plan")];
        let (case, plan) = (case(case_name), plan(plan_name));
        answer(&["bytes", "case", &case, &outs[0]], 0);
        answer(&["bytes", "plan", &case, &plan, &outs[1]], 0);
        outs
    }
}

fn bytes(path: &str) -> Vec<u8> {
    fs::read(path).expect("it is there")
}

/// The example of two sets is the worked day of the scope bit for bit, with the other plan day (b).
#[test]
fn the_two_set_example_is_the_worked_day() {
    let hold = |plan_name: &str, day: &Day| {
        let messages = Scratch::new(plan_name).messages("two-sets", plan_name);
        let (case, plan) = day.messages();
        assert_eq!(messages.map(|path| bytes(&path)), [case, plan]);
    };
    hold("two-sets", &two_set_day());
    let (letter, day_b) = &lettered_days()[1];
    assert_eq!(*letter, 'b');
    hold("two-sets-ramp", day_b);
}

/// The reference's own reading of each text comes to the program's bytes, bit for bit.
#[test]
fn examples_are_read_as_the_reference_reads_their_texts() {
    let scratch = Scratch::new("texts");
    for (case_name, plan_name, _) in DAYS {
        let text = |path: String| String::from_utf8(bytes(&path)).expect("text");
        let day = read_day(&text(case(case_name)), &text(plan(plan_name))).expect("a right text");
        let (case, plan) = day.messages();
        let messages = scratch.messages(case_name, plan_name);
        assert!(
            messages.map(|path| bytes(&path)) == [case, plan],
            "{plan_name}"
        );
    }
}

/// What the library answers to what FIGURES asks of a day, in FIGURES' words.
fn figured(asked: &str, case: &[u8], plan: &[u8]) -> String {
    match asked {
        "" => match with_buffer(|buffer| host::judge(case, plan, buffer)).0 {
            host::Verdict::Accepted { surplus } => grouped(surplus.into()),
            host::Verdict::Broken(first) => {
                let [rule, interval, device, window] = first.numbers();
                format!("rule {rule} at {interval} {device} {window}")
            }
            other => panic!("{other:?}"),
        },
        "list" => {
            let breaches = broken_rules(case, plan).expect("it is judged");
            let entries: Vec<String> = breaches.iter().map(Breach::to_string).collect();
            format!("list of {}", entries.join(", "))
        }
        "mend" => match host::mend(case, plan) {
            Mended::By(Mend {
                interval,
                device,
                power,
            }) => format!("interval {interval}, device {device}, {power} kW"),
            Mended::Nothing => "nothing mends it".to_string(),
            other => panic!("{other:?}"),
        },
        other => panic!("{other}: not asked of an example"),
    }
}

/// The rows of `docs/reply/FIGURES.md` on the examples, which the reference's tests hold to its own
/// reading, are what the library answers to the desk's bytes.
#[test]
fn examples_are_answered_as_the_figures_print() {
    let scratch = Scratch::new("figures");
    let figures = bytes(concat!(
        env!("CARGO_MANIFEST_DIR"),
        "/../docs/reply/FIGURES.md"
    ));
    let figures = String::from_utf8(figures).expect("text");
    let rows = figures.lines().filter(|line| line.starts_with("| T"));
    let mut judged = Vec::new();
    for row in rows {
        let cells: Vec<&str> = row.split('|').map(str::trim).collect();
        let [_, _, name, asked, said, ..] = cells[..] else {
            panic!("{row}: too few cells");
        };
        let day = DAYS.into_iter().find(|(_, plan, _)| *plan == name);
        let (case, plan, _) = day.expect("an example");
        let [case, plan] = scratch.messages(case, plan).map(|path| bytes(&path));
        let said = match said.strip_prefix("library ") {
            Some(both) => both.split("; batch program ").next().expect("an answer"),
            None => said,
        };
        assert_eq!(figured(asked, &case, &plan), said, "{row}");
        judged.extend(asked.is_empty().then_some(name));
    }
    assert_eq!(judged, DAYS.map(|(_, plan, _)| plan));
}

/// The reference judges the bytes of each text as the program judges the text; the text of the bytes
/// gives them again.
#[test]
fn examples_are_judged_as_the_reference_judges_their_bytes() {
    let scratch = Scratch::new("examples");
    for (case_name, plan_name, accepted) in DAYS {
        let [case_file, plan_file] = scratch.messages(case_name, plan_name);
        let mut buffer = vec![0; 100_000];
        let verdict = judge(&bytes(&case_file), &bytes(&plan_file), &mut buffer);
        let expected = match verdict {
            Verdict::Accepted { surplus } => format!("accepted {surplus}"),
            Verdict::Broken(place) => format!(
                "broken {} {} {} {}: ",
                place.rule, place.interval, place.device, place.window
            ),
            Verdict::Refused(refusal) => panic!("{refusal:?}"),
        };
        assert_eq!(expected.starts_with("accepted"), accepted);
        let status = i32::from(!accepted);
        for files in [
            [case(case_name), plan(plan_name)],
            [case_file.clone(), plan_file.clone()],
        ] {
            let line = answer(&["judge", &files[0], &files[1]], status);
            assert!(line.starts_with(&expected), "{line}");
        }
        let text = scratch.file("case.text", answer(&["text", &case_file], 0).as_bytes());
        let again = scratch.path("again");
        answer(&["bytes", "case", &text, &again], 0);
        assert_eq!(bytes(&again), bytes(&case_file));
        for words in [
            vec!["text", &plan_file],
            vec!["text", &case_file, &plan_file],
            vec!["text", &case_file, &plan_file, "--csv"],
        ] {
            let text = scratch.file("plan.text", answer(&words, 0).as_bytes());
            answer(&["bytes", "plan", &case_file, &text, &again], 0);
            assert_eq!(bytes(&again), bytes(&plan_file));
        }
    }
}

#[test]
fn several_plans_are_judged_with_the_highest_status() {
    let scratch = Scratch::new("several");
    let [_, whole] = scratch.messages("two-sets", "two-sets");
    let cut = scratch.file("cut", &bytes(&whole)[..1]);
    let (case, a, b) = (case("two-sets"), plan("two-sets"), plan("two-sets-ramp"));
    let text = answer(&["judge", &case, &a, &b, &cut, &a], 2);
    let lines: Vec<&str> = text.lines().collect();
    assert_eq!(lines[0], format!("{a}: accepted 167860"));
    let broken =
        "broken 5 2 1 0: rule 5 (ramp up) at interval 2, device 1 (Diesel): power rises by \
                  121 kW (from 30 to 151), at most 120 kW (60 min at 2 kW/min starting)";
    let mend =
        "mend: interval 2, device 1 (Diesel): online power 150 kW in place of 151 kW, 1 kW less; \
         then accepted 109060";
    assert_eq!(lines[1], format!("{b}: {broken}; {mend}"));
    assert!(lines[2].starts_with(&format!("{cut}: refused 1 8: plan {cut}: count of sets: ")));
    assert_eq!(lines[3], lines[0]);
    assert_eq!(answer(&["judge", &case, &a, &b], 1).lines().count(), 2);
    let json = answer(&["judge", &case, &a, &b, "--json"], 1);
    let lines: Vec<&str> = json.lines().collect();
    assert_eq!(
        lines[0],
        format!("{{\"plan\":\"{a}\",\"verdict\":\"accepted\",\"surplus\":167860}}")
    );
    assert!(lines[1].contains("\"place\":{\"rule\":5,\"interval\":2,\"device\":1,\"window\":0}"));
    assert!(lines[1].ends_with(&format!("\"breaches\":1,\"mend\":{MEND_JSON}}}")));
}

/// What is told of a plan alone, whether it is an answer or a complaint.
fn told_alone(case: &str, plan: &str) -> String {
    let ran = run_in(&["judge", case, plan], b"");
    let complaint = ran.err.strip_prefix("kadunfo: ").unwrap_or(&ran.err);
    String::from_utf8(ran.out).expect("text") + complaint
}

/// A message cut, longer than a batch takes it and of another day, a text that is wrong and a file
/// that is not there: among several each plan is told as it is alone.
#[test]
fn a_plan_is_told_among_several_as_alone() {
    let scratch = Scratch::new("among");
    let [_, other] = Scratch::new("among-other").messages("island", "island");
    let [_, whole] = scratch.messages("two-sets", "two-sets");
    let message = bytes(&whole);
    let mut behind = message.clone();
    behind.resize(LONGEST_MESSAGE + 1, 0);
    let long = scratch.file("long", &behind);
    let plans = [
        plan("two-sets"),
        scratch.file("cut", &message[..1]),
        scratch.path("missing"),
        plan("two-sets-ramp"),
        long.clone(),
        scratch.file("wrong", b"plan\nset 3 on 1\n"),
        other,
        whole,
    ];
    let case = case("two-sets");
    let mut words = vec!["judge", &case];
    words.extend(plans.iter().map(String::as_str));
    let expected: String = plans
        .iter()
        .map(|plan| format!("{plan}: {}", told_alone(&case, plan)))
        .collect();
    assert_eq!(answer(&words, 3), expected);
    assert_eq!(expected.lines().count(), plans.len());
    let told = format!("{long}: refused 6 640: plan {long}: a byte behind the message's end\n");
    assert!(expected.contains(&told), "{expected}");
}

/// Completions of 64 sets in 96 intervals, one for each plan.
#[test]
fn large_plans_are_judged_together() {
    let (case, plan) = (case("grid"), plan("grid"));
    let line = answer(&["judge", &case, &plan], 0);
    let text = answer(&["judge", &case, &plan, &plan, &plan], 0);
    assert_eq!(text, format!("{plan}: {line}").repeat(3));
}

/// 150 kW of the Diesel in place of 151: 109,060 by hand, see `tests/desk.rs`.
const MEND_JSON: &str =
    "{\"interval\":2,\"device\":1,\"power\":150,\"old\":151,\"surplus\":109060}";

/// The mend goes to standard output as a message and from there back into `judge`; whoever reads the
/// verdict of a broken plan reads its mend beside it.
#[test]
fn the_mend_is_offered_beside_a_broken_plan() {
    let scratch = Scratch::new("mend");
    let (two, ramp) = (case("two-sets"), plan("two-sets-ramp"));
    let words = "interval 2, device 1 (Diesel): online power 150 kW in place of 151 kW, 1 kW less";
    let told = answer(&["mend", &two, &ramp], 0);
    assert_eq!(told.lines().nth(1), Some(words));
    let json = answer(&["mend", &two, &ramp, "--json"], 0);
    assert_eq!(
        json,
        format!("{{\"verdict\":\"broken\",\"mend\":{MEND_JSON}}}\n")
    );
    let out = scratch.path("mended");
    answer(&["mend", &two, &ramp, "-o", &out], 0);
    let piped = run_in(&["mend", &two, &ramp, "-o", "-"], b"");
    assert_eq!((piped.out.clone(), piped.status), (bytes(&out), Some(0)));
    let judged = run_in(&["judge", &two, "-"], &piped.out);
    assert_eq!(judged.out, b"accepted 109060\n");
    let shown = answer(&["show", &two, &ramp], 1);
    assert!(
        shown.ends_with(&format!("\nmend: {words}; then accepted 109060\n")),
        "{shown}"
    );
    let shown = answer(&["show", &two, &ramp, "--json"], 1);
    assert!(shown.contains(&format!("\"mend\":{MEND_JSON}")), "{shown}");
    let page = answer(&["report", &two, &ramp, "-o", "-"], 1);
    assert!(
        page.contains(&format!(
            "<p class=\"mend\">mend: {words}; then accepted 109060</p>"
        )),
        "{page}"
    );
}

/// Nothing is offered where nothing mends, or nothing is broken.
#[test]
fn no_mend_is_told_as_such() {
    let (metered, broken) = (case("metered"), plan("metered"));
    let none = "no mend: no replacement of one online power makes this plan accepted";
    assert_eq!(answer(&["mend", &metered, &broken], 1), format!("{none}\n"));
    assert_eq!(
        answer(&["mend", &metered, &broken, "--json"], 1),
        "{\"verdict\":\"broken\"}\n"
    );
    assert_eq!(answer(&["mend", &metered, &broken, "-o", "-"], 1), "");
    assert!(answer(&["judge", &metered, &broken], 1).ends_with(&format!("; {none}\n")));
    let json = answer(&["judge", &metered, &broken, "--json"], 1);
    assert!(!json.contains("mend"), "{json}");
    let (two, whole) = (case("two-sets"), plan("two-sets"));
    assert_eq!(
        answer(&["mend", &two, &whole, "--json"], 0),
        "{\"verdict\":\"accepted\",\"surplus\":167860}\n"
    );
    assert_eq!(answer(&["mend", &two, &whole, "-o", "-"], 0), "");
    assert!(!answer(&["show", &two, &whole], 0).contains("mend"));
}

/// The metered day: rules 4, 5, 16, 20 and 21.
#[test]
fn breaches_are_chosen_counted_and_tabulated() {
    let (case, plan) = (case("metered"), plan("metered"));
    let all = answer(&["breaches", &case, &plan], 1);
    let count = all.lines().count();
    let by_rule = answer(&["breaches", &case, &plan, "--by", "rule"], 1);
    let rules: Vec<&str> = by_rule
        .lines()
        .filter_map(|line| line.split(' ').nth(1))
        .collect();
    assert_eq!(rules, ["4", "5", "16", "20", "21"]);
    let counted: usize = by_rule
        .lines()
        .map(|line| {
            let (_, behind) = line.split_once("): ").expect("a count");
            behind
                .split(',')
                .next()
                .expect("a count")
                .parse::<usize>()
                .expect("a number")
        })
        .sum();
    assert_eq!(counted, count);
    let steam = answer(&["breaches", &case, &plan, "--set", "1"], 1);
    let diesel = answer(&["breaches", &case, &plan, "--set", "2"], 1);
    assert_eq!(steam.lines().count() + diesel.lines().count(), count);
    let chosen = answer(
        &["breaches", &case, &plan, "--rule", "16", "--interval", "7"],
        1,
    );
    assert_eq!(chosen.lines().count(), 1);
    assert!(all.contains(&chosen));
    let none = answer(&["breaches", &case, &plan, "--rule", "1"], 1);
    assert_eq!(none, format!("no such breaches; {count} others\n"));
    let csv = answer(&["breaches", &case, &plan, "--csv"], 1);
    assert_eq!(
        csv.lines().next(),
        Some("rule,interval,set,window,name,words")
    );
    assert_eq!(csv.lines().count(), 1 + count);
    let json = answer(&["breaches", &case, &plan, "--json"], 1);
    assert_eq!(json.matches("\"place\":").count(), count);
    let wrong = complaint(&["breaches", &case, &plan, "--by", "day"], 3);
    assert_eq!(
        wrong,
        "kadunfo: --by needs 'rule' or 'set' (see kadunfo --help)"
    );
}

#[test]
fn show_prints_the_day_and_its_bill() {
    let text = answer(&["show", &case("two-sets"), &plan("two-sets")], 0);
    let lines: Vec<&str> = text.lines().map(str::trim_end).collect();
    assert_eq!(lines[0], "accepted: surplus 167,860 grains");
    let has = |part: &str| assert!(text.contains(part), "{part}: {text}");
    has("  1   0:00-1:00            30~           30\n");
    has("  2   1:00-2:00            150          150\n");
    // 216,000 of load, less 5,400 and 33,000 of blocks, 240 while on, 10,000 of the start and -500.
    for entry in [
        "216,000  2 Load                 energy taken         10,800 kW min",
        "-38,400  1 Diesel               energy given         10,800 kW min",
        "-240  1 Diesel               minutes on           60 at 4",
        "-10,000  1 Diesel               starts               1 at 10,000",
        "500  1 Diesel               startup state 2      1 at -500",
    ] {
        has(entry);
    }
    assert!(text.ends_with("167,860  surplus\n"), "{text}");
    let broken = answer(&["show", &case("metered"), &plan("metered")], 1);
    assert!(broken.starts_with("broken: rule 5 (ramp up) at interval 4, device 1 (Steam): "));
    let json = answer(&["show", &case("two-sets"), &plan("two-sets"), "--json"], 0);
    assert!(json.starts_with("{\"verdict\":\"accepted\",\"surplus\":167860,\"bill\":[{\"who\":"));
}

#[test]
fn draw_and_report_write_files_that_are_no_inputs() {
    let scratch = Scratch::new("draw");
    let (case, plan) = (case("mine"), plan("mine"));
    let [picture, page] = [scratch.path("a.svg"), scratch.path("a.html")];
    let said = answer(&["draw", &case, &plan, "-o", &picture], 0);
    assert_eq!(said, format!("{picture} {}\n", bytes(&picture).len()));
    let drawn = answer(&["draw", &case, &plan, "-o", "-"], 0);
    assert_eq!(drawn.as_bytes(), bytes(&picture));
    answer(&["report", &case, &plan, &plan, "-o", &page], 0);
    assert!(bytes(&page).starts_with(b"<!DOCTYPE html>"));
    let copy = scratch.file("mine.case", &bytes(&case));
    let told = complaint(&["draw", &copy, &plan, "-o", &copy], 3);
    assert_eq!(
        told,
        format!("kadunfo: {copy} is an input (see kadunfo --help)")
    );
    assert_eq!(bytes(&copy), bytes(&case));
    let told = complaint(&["draw", &case, &plan], 3);
    assert_eq!(
        told,
        "kadunfo: usage: kadunfo draw CASE PLAN -o FILE (see kadunfo --help)"
    );
    let nowhere = scratch.path("nowhere/a.svg");
    let told = complaint(&["draw", &case, &plan, "-o", &nowhere], 3);
    assert!(told.starts_with("kadunfo: cannot write "), "{told}");
}

/// The picture of the README is as the program draws it, and its verdicts are as it judges.
#[test]
fn the_readme_shows_what_the_program_does() {
    let picture = answer(&["draw", &case("island"), &plan("island"), "-o", "-"], 0);
    let kept = format!("{EXAMPLES}/island.svg");
    assert_eq!(
        picture.as_bytes(),
        bytes(&kept),
        "kadunfo draw .. -o examples/island.svg"
    );
    let readme = bytes(concat!(env!("CARGO_MANIFEST_DIR"), "/../README.md"));
    let readme = String::from_utf8(readme).expect("text");
    let words = [case("two-sets"), plan("two-sets"), plan("two-sets-ramp")];
    let [case, one, other] = words.each_ref().map(String::as_str);
    let judged = answer(&["judge", case, one, other], 1);
    for line in judged.lines() {
        let line = line.replace(EXAMPLES, "examples");
        assert!(readme.contains(&format!("\n    {line}\n")), "{line}");
    }
    let text = String::from_utf8(bytes(case)).expect("text");
    let (_, shown) = readme.split_once("    case edition 1\n").expect("the text");
    let (shown, _) = shown.split_once("      ..\n").expect("its end");
    for line in shown.lines().filter_map(|line| line.strip_prefix("    ")) {
        assert!(text.lines().any(|there| there == line), "{line}");
    }
}

/// The browser that is there, if one is.
fn browser() -> Option<&'static str> {
    ["chromium", "chromium-browser", "google-chrome"]
        .into_iter()
        .find(|name| {
            let tried = Command::new(name).arg("--version").output();
            tried.is_ok_and(|done| done.status.success())
        })
}

/// Every picture of a page is laid out by a browser without one request; where no browser is there
/// (`apt install chromium`), the test says so.
#[test]
fn a_browser_shows_the_page() {
    let Some(browser) = browser() else {
        eprintln!("no chromium here: the page was not shown by a browser");
        return;
    };
    let scratch = Scratch::new("browser");
    let page = scratch.path("page.html");
    answer(
        &[
            "report",
            &case("island"),
            &plan("island"),
            &plan("island-broken"),
            "-o",
            &page,
        ],
        1,
    );
    let profile = scratch.path("profile");
    let done = Command::new("timeout")
        .args(["60", browser])
        .args(["--headless", "--no-sandbox", "--disable-gpu", "--dump-dom"])
        .arg(format!("--user-data-dir={profile}"))
        .arg(format!("file://{page}"))
        .output()
        .expect("the browser runs");
    let shown = String::from_utf8_lossy(&done.stdout);
    assert_eq!(shown.matches("<svg ").count(), 2, "{:?}", done.stderr);
    assert_eq!(shown.matches("class=\"set\"").count(), 2 * 5);
    assert!(shown.contains("accepted: surplus 354,335,200 grains"));
}

#[test]
fn a_field_is_named_by_its_bit() {
    let scratch = Scratch::new("field");
    let [case_file, plan_file] = scratch.messages("two-sets", "two-sets");
    let named = answer(&["field", &case_file, "0"], 0);
    assert_eq!(named, "0 4 kind: 1 (1..1)\n");
    // Behind 50 bits of the front and 16 of the durations: side, zones, initially on.
    let named = answer(&["field", &case_file, "66"], 0);
    assert_eq!(named, "66 1 set 1: side: 0 (0..1)\n");
    assert_eq!(
        answer(&["field", &case("two-sets"), "70"], 0),
        "67 4 set 1: zones: 0 (0..15)\n"
    );
    let all = answer(&["field", &plan_file], 0);
    // Kind, edition, two counts; two intervals of two sets with ten figures.
    assert_eq!(all.lines().count(), 4 + 2 * 2 * 10);
    assert!(all.contains(" 17 set 1, interval 2: power: 150 (0..100000)\n"));
    assert_eq!(
        answer(&["field", &plan_file, "9999"], 0),
        "behind the last field of the plan\n"
    );
    let json = answer(&["field", &case_file, "4", "--json"], 0);
    assert_eq!(
        json,
        "[{\"bit\":4,\"width\":4,\"name\":\"edition\",\"least\":1,\"most\":5,\"value\":1}]\n"
    );
}

#[test]
fn differences_are_told_by_field() {
    let scratch = Scratch::new("diff");
    let [case_file, plan_file] = scratch.messages("two-sets", "two-sets");
    assert_eq!(
        answer(&["diff", &case_file, &case("two-sets")], 0),
        "no differences\n"
    );
    let (case, other) = (case("two-sets"), plan("two-sets-ramp"));
    let text = answer(&["diff", &plan_file, &other, "--case", &case], 1);
    assert_eq!(
        text,
        "set 1, interval 2: power: 150, then 151\nset 2, interval 2: power: 150, then 151\n"
    );
    let told = complaint(&["diff", &plan_file, &other], 3);
    assert!(
        told.contains("is read with its case: --case CASE"),
        "{told}"
    );
    let told = complaint(&["diff", &plan_file, &case_file], 3);
    assert!(
        told.contains("a plan and a case have no field in common"),
        "{told}"
    );
}

/// Power of set 1 in interval 2: behind 19 bits of the front, an interval of two sets, each with a bit,
/// 17 of power and eight reserves of 17, and a bit. Set 2 is 154 bits behind.
#[test]
fn differences_are_told_to_a_machine() {
    let scratch = Scratch::new("diff-json");
    let [case_file, plan_file] = scratch.messages("two-sets", "two-sets");
    let (case, other) = (case("two-sets"), plan("two-sets-ramp"));
    let json = answer(&["diff", &plan_file, &other, "--case", &case, "--json"], 1);
    let field = |set: u8, bit: u16| {
        format!(
            "{{\"name\":\"set {set}, interval 2: power\",\"first\":{{\"bit\":{bit},\"value\":150}},\
             \"second\":{{\"bit\":{bit},\"value\":151}}}}"
        )
    };
    let (one, two) = (field(1, 19 + 2 * 154 + 1), field(2, 19 + 3 * 154 + 1));
    assert_eq!(
        json,
        format!("{{\"same\":false,\"fields\":[{one},{two}]}}\n")
    );
    let same = answer(&["diff", &case_file, &case, "--json"], 0);
    assert_eq!(same, "{\"same\":true,\"fields\":[]}\n");
    let mut filled = bytes(&plan_file);
    filled.push(0);
    let filled = scratch.file("filled", &filled);
    let behind = answer(&["diff", &plan_file, &filled, "--json"], 1);
    assert_eq!(behind, "{\"same\":false,\"fields\":[]}\n");
    // A state more: its fields are of the second alone, and those behind it are not told.
    let text = String::from_utf8(bytes(&case)).expect("text");
    let more = text.replace(
        "  state 700 min -500",
        "  state 700 min -500\n  state 800 min -7",
    );
    assert_ne!(more, text);
    let more = scratch.file("more.case", more.as_bytes());
    let json = answer(&["diff", &case, &more, "--json"], 1);
    assert_eq!(json.matches("\"name\":").count(), 3, "{json}");
    assert!(
        json.contains("\"first\":{\"bit\":418,\"value\":2},\"second\":{\"bit\":418,\"value\":3}")
    );
    assert!(json.ends_with("\"value\":-7}}]}\n"), "{json}");
}

/// 151 kW instead of 150 on both sets; then the mended plan, whose load alone has 151 kW for an hour:
/// 60 at 20 more, and a mismatch of 60 at 1,000.
#[test]
fn plans_are_compared_for_a_machine() {
    let scratch = Scratch::new("compare-json");
    let (case, one, other) = (case("two-sets"), plan("two-sets"), plan("two-sets-ramp"));
    let json = answer(&["compare", &case, &one, &other, "--json"], 1);
    let has = |json: &str, part: &str| assert!(json.contains(part), "{part}: {json}");
    has(
        &json,
        &format!("{{\"first\":{{\"plan\":\"{one}\",\"verdict\":\"accepted\",\"surplus\":167860,\"bill\":[{{\"who\":"),
    );
    let second = answer(&["judge", &case, &other, "--json"], 1);
    has(
        &json,
        &format!("\"second\":{},\"changes\":[", second.trim_end()),
    );
    let figure = |name: &str, values: [i64; 2]| {
        let [first, second] = values;
        format!("{{\"name\":\"{name}\",\"first\":{first},\"second\":{second}}}")
    };
    let both = [
        figure("online power", [150, 151]),
        figure("power", [150, 151]),
    ]
    .join(",");
    let changes = format!(
        "\"changes\":[{{\"interval\":2,\"device\":1,\"figures\":[{both}]}},\
         {{\"interval\":2,\"device\":2,\"figures\":[{both}]}}]}}\n"
    );
    assert!(json.ends_with(&changes), "{json}");

    let mended = scratch.path("mended");
    answer(&["mend", &case, &other, "-o", &mended], 0);
    let json = answer(&["compare", &case, &one, &mended, "--json"], 0);
    has(
        &json,
        "{\"who\":\"2 Load\",\"what\":\"energy taken\",\"first\":216000,\"second\":217200,\"difference\":1200}",
    );
    let end = "{\"who\":\"the bar\",\"what\":\"mismatch\",\"first\":0,\"second\":-60000,\"difference\":-60000}],\
               \"difference\":-58800}\n";
    assert!(json.ends_with(end), "{json}");

    let same = answer(&["compare", &case, &one, &one, "--json"], 0);
    has(&same, ",\"changes\":[],\"bill\":[");
    assert!(same.ends_with("],\"difference\":0}\n"), "{same}");
}

/// The flow stands behind the sets, with no device.
#[test]
fn flows_are_compared() {
    let scratch = Scratch::new("compare-flow");
    let (case, one) = (case("mine"), plan("mine"));
    let text = String::from_utf8(bytes(&one)).expect("text");
    let other = text.replace("flow 400 8:00 400", "flow 400 8:00 401");
    assert_ne!(other, text);
    let other = scratch.file("other.plan", other.as_bytes());
    let told = answer(&["compare", &case, &one, &other], 0);
    let lines: Vec<&str> = told.lines().filter(|line| line.contains(" -> ")).collect();
    assert_eq!(lines.len(), 4, "{told}");
    assert_eq!(lines[0], "interval 9 (8:00): flow 400 -> 401");
    let json = answer(&["compare", &case, &one, &other, "--json"], 0);
    let change = "\"changes\":[{\"interval\":9,\"figures\":[{\"name\":\"flow\",\"first\":400,\"second\":401}]},";
    assert!(json.contains(change), "{json}");
}

/// A set by its number or by its name in the text: Diesel A, at 600 kW before, gives 600 at 90 and 100 at
/// 110, which is 65,000 a minute.
#[test]
fn sets_of_a_dispatch_have_their_names() {
    let island = case("island");
    let by_number = answer(&["dispatch", &island, "5", "700", "1=600"], 0);
    let by_name = answer(&["dispatch", &island, "5", "700", "Diesel A=600"], 0);
    assert_eq!(by_name, by_number);
    let lines: Vec<&str> = by_name.lines().collect();
    assert_eq!(
        lines[1],
        "device 1 (Diesel A): 700 kW (from 400 to 1000 kW, earlier 600 kW)"
    );
    assert_eq!(
        lines[3],
        "device 1 (Diesel A), block 2: 100 kW of 400 kW, at 110 grains per kW min"
    );
    assert_eq!(lines[4], "cost 65000 grains a minute, 3900000 grains");
    let told = complaint(&["dispatch", &island, "5", "700", "Town=600"], 2);
    assert_eq!(told, "refused 8 0: device 4 (Town) consumes");
    complaint(&["dispatch", &island, "5", "700", "Diesel C=600"], 3);
}

#[test]
fn rules_are_told() {
    let all = answer(&["rules"], 0);
    assert_eq!(all.lines().count(), 27);
    for (number, line) in (1..).zip(all.lines()) {
        assert!(
            line.starts_with(&format!("{} ", i32::to_string(&number))),
            "{line}"
        );
    }
    let one = answer(&["rules", "27"], 0);
    assert_eq!(Some(one.trim_end()), all.lines().last());
    let told = complaint(&["rules", "28"], 3);
    assert_eq!(told, "kadunfo: 28 is no rule; 1 to 27 (see kadunfo --help)");
}

#[test]
fn a_batch_is_joined_and_split() {
    let scratch = Scratch::new("batch");
    let [case_file, plan_file] = scratch.messages("two-sets", "two-sets");
    let batch = scratch.path("batch");
    let (case, a, b) = (case("two-sets"), plan("two-sets"), plan("two-sets-ramp"));
    answer(&["join", &case, &a, &b, "-o", &batch], 0);
    let parts = scratch.path("parts");
    fs::create_dir(&parts).expect("a folder");
    let said = answer(&["split", &batch, &parts], 0);
    assert_eq!(said.lines().count(), 3);
    assert_eq!(bytes(&format!("{parts}/000.case")), bytes(&case_file));
    assert_eq!(bytes(&format!("{parts}/001.plan")), bytes(&plan_file));
    let told = complaint(&["judge", &batch, &plan_file], 2);
    let hint = "kind is 0: this is no case (a batch of messages; 'split' makes files of it)";
    assert_eq!(told, format!("refused 2 0: case {batch}: {hint}"));
    let cut = scratch.file("cut", &bytes(&batch)[..10]);
    let told = complaint(&["split", &cut, &parts], 2);
    assert_eq!(
        told,
        format!("framing 1 0: batch {cut}: a length or its message is cut short")
    );
}

#[test]
fn a_template_is_judged() {
    let scratch = Scratch::new("new");
    let case = scratch.file("new.case", answer(&["new", "case"], 0).as_bytes());
    let plan = scratch.file("new.plan", answer(&["new", "plan", &case], 0).as_bytes());
    assert!(answer(&["judge", &case, &plan], 0).starts_with("accepted "));
    assert!(answer(&["inspect", &case], 0).starts_with("case 2 24 1\n"));
}

#[test]
fn standard_input_is_a_file() {
    let (case, plan) = (case("two-sets"), plan("two-sets"));
    let ran = run_in(&["judge", &case, "-"], &bytes(&plan));
    assert_eq!(
        (ran.out.as_slice(), ran.status),
        (&b"accepted 167860\n"[..], Some(0))
    );
    let told = complaint(&["judge", "-", "-"], 3);
    assert!(
        told.contains("standard input, which is read once"),
        "{told}"
    );
    let told = complaint(&["judge", "--", "--json", "x"], 3);
    assert!(told.starts_with("kadunfo: cannot read --json: "), "{told}");
}

#[test]
fn control_letters_are_shown_and_long_inputs_refused() {
    let scratch = Scratch::new("letters");
    let odd = scratch.file("a\u{1b}[31m.plan", b"plan\nset 1 on \x07\n");
    let told = complaint(&["judge", &case("two-sets"), &odd], 2);
    assert!(
        told.contains("\\u{1b}[31m.plan:2: '\\u{7}'; one of: 1 0 on off"),
        "{told}"
    );
    assert!(!told.contains(char::is_control));
    let long = scratch.file("long", &vec![b' '; (8 << 20) + 1]);
    let told = complaint(&["text", &long], 3);
    assert!(told.ends_with(": longer than 8388608 bytes"), "{told}");
}

#[test]
fn a_closed_pipe_ends_quietly() {
    let mut child = Command::new(PROGRAM)
        .args(["field", &case("grid")])
        .stdout(Stdio::piped())
        .stderr(Stdio::piped())
        .spawn()
        .expect("the program runs");
    drop(child.stdout.take());
    let done = child.wait_with_output().expect("the program ends");
    assert_eq!(
        (done.stderr.as_slice(), done.status.code()),
        (&b""[..], Some(0))
    );
}

#[test]
fn every_verb_has_help_and_a_place_in_the_manual() {
    let version = format!("kadunfo {}\n", env!("CARGO_PKG_VERSION"));
    assert_eq!(answer(&["--version"], 0), version);
    let manual = answer(&["--man"], 0);
    let kept = concat!(env!("CARGO_MANIFEST_DIR"), "/man/kadunfo.1");
    assert_eq!(
        manual.as_bytes(),
        bytes(kept),
        "kadunfo --man > man/kadunfo.1"
    );
    for line in manual.lines() {
        let is_macro = [".TH ", ".SH ", ".B ", ".TP", ".br", ".PP"]
            .iter()
            .any(|m| line.starts_with(m));
        assert!(is_macro || !line.starts_with(['.', '\'']), "{line}");
    }
    let help = answer(&["--help"], 0);
    let usages = help
        .lines()
        .filter(|line| line.starts_with("  ") && !line.starts_with("   "));
    let verbs: Vec<&str> = usages
        .filter_map(|line| line.split_whitespace().next())
        .filter(|word| word.starts_with(|letter: char| letter.is_ascii_lowercase()))
        .collect();
    assert!(verbs.len() >= 18, "{verbs:?}");
    for verb in verbs {
        let help = answer(&[verb, "--help"], 0);
        assert!(
            help.starts_with(&format!("usage: kadunfo {verb}")),
            "{help}"
        );
        for status in 0..=4 {
            assert!(help.contains(&format!("\n  {status}  ")), "{help}");
        }
        assert!(manual.contains(&format!("\n.B {verb}")), "{verb}");
    }
}

/// A text with letters taken away, put in and changed.
fn damaged(rng: &mut Rng, text: &[u8]) -> Vec<u8> {
    const PUT_IN: [&str; 10] = [
        "x",
        "999999999999999999999",
        "-",
        "0x",
        "1x",
        "8:00 ",
        " on ",
        "\n",
        "\"",
        "€",
    ];
    let mut bytes = text.to_vec();
    for _ in 0..rng.below(3) + 1 {
        let at = rng.below(bytes.len() + 1);
        match rng.below(4) {
            0 => {
                let end = bytes.len().min(at + 1 + 39 * rng.below(2));
                bytes.drain(at..end);
            }
            1 if at < bytes.len() => {
                let letters = b"0123456789x:-_ \n\"#ab";
                bytes[at] = letters[rng.below(letters.len())];
            }
            2 => {
                let part = PUT_IN[rng.below(PUT_IN.len())];
                bytes.splice(at..at, part.bytes());
            }
            _ => {
                let end = bytes.len().min(at + 30);
                let part = bytes[at..end].to_vec();
                bytes.splice(at..at, part);
            }
        }
    }
    bytes
}

/// Damaged texts and messages through the verbs: told, judged or drawn, never a crash or a defect.
#[test]
fn damage_is_told() {
    let scratch = Scratch::new("damage");
    let mut rng = Rng::new(7);
    let mut statuses = [0; 3];
    let picture = scratch.path("out");
    for round in 0..400 {
        let (case_name, plan_name, _) = DAYS[rng.below(6)];
        let files = if round % 4 == 0 {
            scratch.messages(case_name, plan_name)
        } else {
            [case(case_name), plan(plan_name)]
        };
        let which = rng.below(2);
        let hurt = damaged(&mut rng, &bytes(&files[which]));
        let hurt = scratch.file("hurt", &hurt);
        let [case, plan] = [0, 1].map(|k| if k == which { &hurt } else { &files[k] }.as_str());
        let words = match rng.below(7) {
            0 => vec!["show", case, plan],
            1 => vec!["draw", case, plan, "-o", &picture],
            2 => vec!["text", case, plan],
            3 => vec!["field", case],
            4 => vec!["report", case, plan, "-o", &picture],
            5 => vec!["mend", case, plan, "-o", &picture],
            _ => vec!["judge", case, plan],
        };
        let ran = run_in(&words, b"");
        match ran.status {
            Some(status @ 0..=2) => statuses[status as usize] += 1,
            _ => panic!("{words:?} {ran:?}"),
        }
    }
    assert!(statuses.iter().all(|&count| count > 10), "{statuses:?}");
}
