//! Bills, tables, pictures and pages of both corpora and of the examples, by what is in them.

mod common;

use common::each_case;
use host::bill::grouped;
use host::compare::compare;
use host::judged::{judged, Findings, Judged, Unjudged};
use host::messages::{case_message, plan_message, read_case};
use host::page::{page, Reported};
use host::picture::picture;
use host::{inspect, table, text, Inspected};

/// Calls `visit` with every pair of the corpora that is judged.
fn each_judged(mut visit: impl FnMut(&Judged)) {
    each_case(|message, plans| {
        if !matches!(inspect(message), Inspected::Counts { .. }) {
            return;
        }
        let case = read_case(message).expect("the case passes reading");
        for plan in plans {
            match judged(&case, message, plan) {
                Ok(judged) => visit(&judged),
                Err(Unjudged::PlanRefused(_)) => {}
                Err(other) => panic!("{other:?}"),
            }
        }
    });
}

/// The bill comes to the surplus, and so do its kinds; a bill with an entry less does not.
#[test]
fn every_bill_comes_to_the_surplus() {
    let (mut accepted, mut entries) = (0, 0);
    each_judged(|judged| {
        if let Findings::Accepted { surplus, bill, .. } = &judged.findings {
            let surplus = i128::from(*surplus);
            assert_eq!(bill.total(), surplus);
            let by_kind = bill.by_kind();
            let sum: i128 = by_kind.iter().map(|entry| entry.grains).sum();
            assert_eq!(sum, surplus);
            assert!(bill.entries.iter().all(|entry| entry.grains != 0));
            accepted += 1;
            entries += bill.entries.len();
        }
    });
    assert!(accepted > 1_000 && entries > 5_000, "{accepted} {entries}");
}

/// Every fourth table: its first line is the verdict, and it tells each breach or the surplus.
#[test]
fn tables_tell_verdict_and_bill_or_breaches() {
    let (mut number, mut broken) = (0, 0);
    each_judged(|judged| {
        number += 1;
        if number % 4 != 0 || judged.breaches().len() > 2_000 {
            return;
        }
        let table = table::day(judged).expect("its breaches are borne out");
        let headline = judged.headline().expect("its first breach is borne out");
        assert!(table.starts_with(&format!("{headline}\n")));
        match &judged.findings {
            Findings::Accepted { surplus, .. } => {
                let surplus = grouped(i128::from(*surplus));
                assert!(
                    table.ends_with(&format!(" {surplus}  surplus\n")),
                    "{table}"
                );
            }
            Findings::Broken(list) => {
                let is_breach = |line: &&str| {
                    line.starts_with(|letter: char| letter.is_ascii_digit())
                        && line.contains(" rule ")
                };
                assert_eq!(table.lines().filter(is_breach).count(), list.len());
                let mend = judged.mend().expect("it is broken");
                assert!(table.ends_with(&format!("\n{mend}\n")), "{table}");
                broken += 1;
            }
        }
    });
    assert!(broken > 200, "{broken}");
}

/// Tags that open and close one another in turn, and no letter that would end a text.
fn hold_well_formed(markup: &str) {
    let mut open: Vec<&str> = Vec::new();
    for part in markup.split('<').skip(1) {
        let (tag, text) = part.split_once('>').expect("a tag's end");
        assert!(!text.contains('>') || tag.starts_with("style"), "{text}");
        let name = tag.split([' ', '/', '\n']).next().unwrap_or("");
        if let Some(closed) = tag.strip_prefix('/') {
            assert_eq!(open.pop(), Some(closed));
        } else if !tag.ends_with('/') && !["!DOCTYPE", "meta"].contains(&name) {
            open.push(name);
        }
    }
    assert!(open.is_empty(), "{open:?}");
}

fn count(text: &str, part: &str) -> usize {
    text.matches(part).count()
}

/// The places of a list that are framed: one for each interval and set, or link and bar, and window.
fn framed(judged: &Judged) -> usize {
    let mut places: Vec<[u8; 3]> = judged
        .breaches()
        .iter()
        .map(|breach| [breach.interval, breach.device, breach.window])
        .collect();
    places.sort();
    places.dedup();
    let of_link = places.iter().filter(|[_, device, _]| *device == 0).count();
    // The flow is framed in the chart of each bar.
    places.len() + of_link
}

fn hold_picture(judged: &Judged) {
    let drawn = picture(judged).expect("its breaches are borne out");
    hold_well_formed(&drawn);
    let case = &judged.day.case;
    assert_eq!(count(&drawn, "<g class='set'>"), case.devices.len());
    assert_eq!(count(&drawn, "class='broken'"), framed(judged));
    assert_eq!(count(&drawn, "class='verdict'"), 1);
    assert!(count(&drawn, "<g class='bar'>") >= case.bars());
    match &judged.findings {
        Findings::Accepted {
            surplus,
            bill,
            completion,
        } => {
            let surplus = grouped(i128::from(*surplus));
            assert!(drawn.contains(&format!(">accepted: surplus {surplus} grains</text>")));
            assert!(count(&drawn, "<g class='entry'>") <= bill.entries.len());
            let short = completion.rows.iter().flat_map(|row| &row.shortfalls);
            let is_short = short.flatten().any(|shortfall| *shortfall > 0);
            assert_eq!(drawn.contains("<g class='zone'>"), is_short);
            let apart = completion.rows.iter().map(|row| {
                let all = row.mismatches.iter().chain(&row.reactive_mismatches);
                all.filter(|mismatch| **mismatch > 0).count()
            });
            assert_eq!(count(&drawn, "class='mismatch'"), apart.sum::<usize>());
        }
        Findings::Broken(list) => {
            let told = if list.len() > 40 { 10 } else { list.len() };
            assert_eq!(count(&drawn, "class='breach'"), told);
            let all = grouped(list.len() as i128);
            assert!(drawn.contains(&format!(": {all} in all</text>")));
            let mend = judged.mend().expect("it is broken");
            assert!(drawn.contains(&format!(">{mend}</text>")), "{mend}");
        }
    }
}

#[test]
fn pictures_have_a_row_for_each_set_and_frame_what_is_broken() {
    let (mut number, mut sizes) = (0, Vec::new());
    each_judged(|judged| {
        number += 1;
        let sets = judged.day.case.devices.len();
        if number % 8 == 0 || sets > 24 && number % 2 == 0 {
            hold_picture(judged);
            sizes.push(sets);
        }
    });
    let largest = sizes.iter().max();
    assert!(
        sizes.len() > 300 && largest == Some(&64),
        "{} {largest:?}",
        sizes.len()
    );
}

const EXAMPLES: &str = concat!(env!("CARGO_MANIFEST_DIR"), "/../examples");

/// A day of the examples.
fn example(case: &str, plan: &str) -> Judged {
    let read = |name: String| std::fs::read_to_string(format!("{EXAMPLES}/{name}")).expect("text");
    let (case, _) = text::read_case(&read(format!("{case}.case"))).expect("a right text");
    let (plan, _) = text::read_plan(&case, &read(format!("{plan}.plan"))).expect("a right text");
    let message = case_message(&case).expect("it fits");
    let plan = plan_message(&plan).expect("it fits");
    judged(&case, &message, &plan).expect("it passes reading")
}

const DAYS: [(&str, &str); 7] = [
    ("two-sets", "two-sets"),
    ("two-sets", "two-sets-ramp"),
    ("island", "island"),
    ("island", "island-broken"),
    ("mine", "mine"),
    ("metered", "metered"),
    ("grid", "grid"),
];

#[test]
fn pages_have_every_plan_of_the_examples() {
    for (case, plan) in DAYS {
        let judged = example(case, plan);
        hold_picture(&judged);
        let headline = judged.headline().expect("borne out");
        let breaches = judged.breaches().len();
        let names = ["<plan> & 'one'", "two"];
        let reported = names.map(|name| Reported {
            name: name.to_string(),
            judged: example(case, plan),
        });
        let made = page(case, &reported).expect("borne out");
        hold_well_formed(&made);
        assert_eq!(count(&made, "<svg "), 2);
        assert_eq!(count(&made, "<section "), 2);
        assert_eq!(count(&made, "verdict\">"), 2);
        assert!(made.contains("&lt;plan&gt; &amp; &#39;one&#39;"));
        assert!(made.contains(&host::picture::escaped(&headline)));
        assert_eq!(count(&made, "<li>"), 2 * breaches);
        let offered = judged.mend().map_or(0, |mend| {
            count(&made, &format!("<p class=\"mend\">{mend}</p>"))
        });
        assert_eq!(offered, if breaches == 0 { 0 } else { 2 });
        assert_eq!(
            count(&made, "class=\"bill\""),
            if breaches == 0 { 2 } else { 0 }
        );
        assert!(
            !made.contains("http://") || count(&made, "http://") == 2,
            "no network"
        );
        assert!(!made.contains("<script") && !made.contains("href=\"h"));
    }
}

/// 151 kW instead of 150 on both sets: 60 minutes of 1 kW more, taken at 20 and given at 5.
#[test]
fn plans_are_compared() {
    let (one, other) = (
        example("two-sets", "two-sets"),
        example("two-sets", "two-sets-ramp"),
    );
    let text = compare(&one, &other).expect("borne out");
    assert!(text.contains("interval 2 (1:00), 1 Diesel: online power 150 -> 151, power 150 -> 151"));
    assert!(text.starts_with("first   accepted: surplus 167,860 grains\nsecond  broken: rule 5"));
    assert!(text
        .contains("\n        mend: interval 2, device 1 (Diesel): online power 150 kW in place"));
    let same = compare(&one, &one).expect("borne out");
    assert!(same.contains("the plans have the same figures"));
    assert!(same.ends_with("167,860                167,860                      0  surplus\n"));
}
