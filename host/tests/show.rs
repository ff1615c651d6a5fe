//! Completions and copies in words, of both corpora: every line beside the figures that the reference
//! reads of the same message.

mod common;

use common::{accepted, each_pair};
use host::messages::{read_case, Kind};
use host::show::show;
use host::{market, read_completion, read_market, Copied, Read, LONGEST_COPY};
use reference::case::read_case as expected_case;
use reference::case::Case;
use reference::completion::{Audience, DeviceChoices, IntervalChoices};
use reference::edition::Edition;
use reference::market::{read_for, Figures};

/// The text of a message, by the reference's figures.
fn expected(edition: Edition, case: &Case, name: &str, figures: &Figures) -> String {
    let completion = &figures.completion;
    let mut lines = vec![
        format!(
            "{name} {} {} {}",
            case.devices.len(),
            case.intervals(),
            case.zones.len()
        ),
        format!("edition {}", edition.figure()),
    ];
    for i in 0..case.devices.len() {
        for (t, interval) in (1..).zip(&completion.intervals) {
            let words = device_words(&interval.devices[i], figures.surplus.is_some());
            lines.push(format!("device {}, interval {t}: {words}", i + 1));
        }
        for (window, overrun) in (1..).zip(&completion.overruns[i]) {
            let place = format!("device {}, energy window {window}", i + 1);
            lines.push(format!("{place}: overrun {overrun} kW min"));
        }
    }
    for z in 0..case.zones.len() {
        for (t, interval) in (1..).zip(&completion.intervals) {
            let words = shortfall_words(edition, &interval.shortfalls[z]);
            lines.push(format!("zone {}, interval {t}: shortfalls {words}", z + 1));
        }
    }
    for (t, interval) in (1..).zip(&completion.intervals) {
        lines.push(format!(
            "interval {t}: {}",
            mismatch_words(edition, interval)
        ));
    }
    if let Some(surplus) = figures.surplus {
        lines.push(format!("surplus {surplus} grains"));
    }
    lines.join("\n") + "\n"
}

fn device_words(choices: &DeviceChoices, is_whole: bool) -> String {
    let change = match (choices.started, choices.stopped) {
        (1, 0) => "starts",
        (0, 1) => "stops",
        (0, 0) => "neither starts nor stops",
        other => panic!("{other:?} is none of our completions"),
    };
    if !is_whole {
        return change.to_string();
    }
    let state = match choices.startup_state {
        0 => "no startup state".to_string(),
        state => format!("startup state {state}"),
    };
    let [a, b, c, d] = choices.blocks;
    format!("{change}; {state}; block powers {a}, {b}, {c}, {d} kW")
}

fn shortfall_words(edition: Edition, all: &[i128; 8]) -> String {
    let [rgu, rgd, scr, nsc, rru, rrd, qru, qrd] = all;
    let real =
        format!("rgu {rgu} W, rgd {rgd} W, scr {scr} W, nsc {nsc} W, rru {rru} W, rrd {rrd} W");
    if edition.has_reactive_power() {
        format!("{real}; qru {qru} var, qrd {qrd} var")
    } else {
        real
    }
}

fn mismatch_words(edition: Edition, interval: &IntervalChoices) -> String {
    let of_bars = |[zero, one]: [i128; 2], unit: &str| match edition.bars() {
        1 => format!("{zero} {unit}"),
        _ => format!("{zero} {unit} on bar 0, {one} {unit} on bar 1"),
    };
    let real = format!("mismatch {}", of_bars(interval.mismatches, "kW"));
    if edition.has_reactive_power() {
        let reactive = of_bars(interval.reactive_mismatches, "kvar");
        format!("{real}; reactive mismatch {reactive}")
    } else {
        real
    }
}

/// The numbers of a message by its reader.
fn numbers(reader: fn(&[u8], &[u8], &mut [u64]) -> Read, case: &[u8], message: &[u8]) -> Vec<u64> {
    let Read::TooShort { bytes } = reader(case, message, &mut []) else {
        panic!("our own message has figures");
    };
    let mut table = vec![0; bytes / 8];
    let numbers = table.len();
    assert_eq!(reader(case, message, &mut table), Read::Figures { numbers });
    table
}

#[test]
fn every_line_has_the_figures_of_its_place() {
    let mut shown = 0;
    each_pair(|case, plan| {
        let mut copy = vec![0; LONGEST_COPY];
        let Copied::Written { bytes } = market(case, plan, &mut copy) else {
            return;
        };
        copy.truncate(bytes);
        let (_, completion) = accepted(case, plan).expect("an accepted plan has a copy");
        let ours = read_case(case).expect("it passes reading");
        let (edition, theirs) = expected_case(case).expect("it passes reading");
        let figures = |audience, message| {
            read_for(audience, edition, &theirs, message).expect("it is our own")
        };
        let desk = numbers(read_completion, case, &completion);
        assert_eq!(
            show(&ours, Kind::Completion, &desk),
            Some(expected(
                edition,
                &theirs,
                "completion",
                &figures(Audience::Desk, &completion)
            ))
        );
        let market = numbers(read_market, case, &copy);
        assert_eq!(
            show(&ours, Kind::MarketCopy, &market),
            Some(expected(
                edition,
                &theirs,
                "market copy",
                &figures(Audience::Market, &copy)
            ))
        );
        // One number more or fewer is not what the case has.
        assert_eq!(show(&ours, Kind::Completion, &desk[1..]), None);
        let more = [&market[..], &[0]].concat();
        assert_eq!(show(&ours, Kind::MarketCopy, &more), None);
        shown += 1;
    });
    assert!(shown > 1_000);
}
