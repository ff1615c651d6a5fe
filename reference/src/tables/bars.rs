//! Rows of edition 5 (A.12), each about one sentence on two busbars and the link between them.
//!
//! Unless a row says otherwise: one producing device, on for one interval of 10 minutes at 20 kW, at
//! a block price of 7 and a mismatch price of 1: 1,400 of its block, 200 of mismatch without flow.

use super::reactive::with_fields;
use super::{draft, mixed, rewritten, told_row, Draft, Row};
use crate::bits::overwrite;
use crate::case::{Side, StartWindow, Zone};
use crate::edition::Edition;
use crate::worked_day::{floor_days, lettered_days, link_days, reactive_days};

/// Every row of edition 5; those whose lists are worked out come last.
pub(super) fn rows() -> Vec<Row> {
    let mut rows = worked_rows();
    rows.extend(neutral_rows());
    rows.extend(flow_rows());
    rows.extend(limit_rows());
    rows.extend(rows_of_two_bars());
    rows.extend(refused_rows());
    rows.extend(cut_rows());
    rows.extend(rows_of_two_editions());
    rows.extend(list_rows());
    rows
}

fn worked_rows() -> Vec<Row> {
    link_days()
        .iter()
        .map(|(about, day)| told_row(about, day))
        .collect()
}

/// Days of older editions in edition 5: the same verdict.
fn neutral_rows() -> Vec<Row> {
    let (_, day_a) = &lettered_days()[0];
    let (_, day_b) = &lettered_days()[1];
    let (about_zone, in_zone) = &reactive_days()[4];
    let (about_floors, floored) = &floor_days()[0];
    [
        told_row("day (a)", day_a),
        told_row("day (b)", day_b),
        told_row(about_zone, in_zone),
        told_row(about_floors, floored),
    ]
    .map(|row| rewritten(&row, Edition::Five))
    .into()
}

fn running(bar: usize, link_limit: i128, flow: i128) -> Draft {
    let mut draft = draft(Side::Producing, true, 10, &[true]);
    draft.edition = Edition::Five;
    draft.setting(1).online_power = 20;
    draft.device().bar = bar;
    draft.case.link_limit = link_limit;
    draft.plan.flows[0] = flow;
    draft
}

/// "Flow counts as load on bar 0 and as production on bar 1".
fn flow_rows() -> Vec<Row> {
    vec![
        running(0, 30, 0).row("bar 0 without flow"),
        running(0, 30, 20).row("bar 0: 20 kW leave it"),
        running(0, 30, -20).row("bar 0: 20 kW more come"),
        running(1, 30, 0).row("bar 1 without flow"),
        running(1, 30, -20).row("bar 1: 20 kW leave it"),
        running(1, 30, 20).row("bar 1: 20 kW more come"),
    ]
}

/// Rule 27, "flow within the limit either way".
fn limit_rows() -> Vec<Row> {
    vec![
        running(0, 20, 20).row("flow at the limit"),
        running(0, 20, 21).row("flow one above the limit"),
        running(0, 20, -20).row("flow at the limit the other way"),
        running(0, 20, -21).row("flow one above the limit the other way"),
        running(0, 0, 1).row("flow 1 with a limit of 0"),
        running(0, 100_000, 100_000).row("the greatest flow"),
        running(0, 100_000, -100_000).row("the greatest flow the other way"),
    ]
}

/// A producing device on bar 0 and a consuming one like it on another bar.
fn pair(bar: usize, link_limit: i128, flow: i128) -> Draft {
    let mut pair = running(0, link_limit, flow);
    pair.add_twin();
    pair.case.devices[1].side = Side::Consuming;
    pair.case.devices[1].bar = bar;
    pair
}

/// "Each bar has its own mismatch, real and reactive; the link carries no reactive power", "and zone
/// needs ignore it".
fn rows_of_two_bars() -> Vec<Row> {
    let reactive = |bar: usize| {
        let mut pair = pair(bar, 20, if bar == 0 { 0 } else { 20 });
        for device in &mut pair.case.devices {
            device.terms[0].qmax = 5;
        }
        for setting in &mut pair.plan.intervals[0] {
            setting.reactive_power = 5;
        }
        pair
    };
    let zoned = |flow: i128| {
        let mut pair = pair(1, 21, flow);
        let mut zone = Zone::plain(1);
        zone.shares[0] = 50;
        pair.case.zones.push(zone);
        for device in &mut pair.case.devices {
            device.zone_bits[0] = true;
        }
        pair
    };
    vec![
        pair(0, 0, 0).row("both on bar 0, in balance"),
        pair(1, 20, 0).row("a bar each, no flow"),
        pair(1, 20, 20).row("a bar each, in balance"),
        pair(1, 21, 21).row("a bar each, 1 kW too much"),
        pair(1, 20, -20).row("a bar each, 20 kW the wrong way"),
        reactive(0).row("5 kvar of both on bar 0"),
        reactive(1).row("5 kvar on either bar"),
        zoned(20).row("a zone over both bars"),
        zoned(21).row("a zone over both bars, 1 kW too much"),
    ]
}

/// The limit is at 53. Behind the duration at 70 and 352 bits and three counts of the device, its
/// link kind is at 439 and its bar at 441; the case ends at 706. A plan's flow is at 228, behind 22
/// of header and 206 of its device.
fn refused_rows() -> Vec<Row> {
    let day = running(0, 20, 20);
    let with_plan = |about: &str, (place, width, value): (usize, usize, i128)| {
        let mut row = day.row(about);
        overwrite(&mut row.plan, place, width, value);
        row
    };
    vec![
        with_fields(&day, "link limit 100,001", &[(53, 17, 100_001)]),
        with_fields(&day, "link limit 131,071", &[(53, 17, 131_071)]),
        with_fields(
            &day,
            "the overrun price before the link limit",
            &[(39, 14, 0), (53, 17, 100_001)],
        ),
        with_fields(&day, "the bar is read as it stands", &[(441, 1, 1)]),
        with_fields(&day, "link kind 3 before the bar", &[(439, 2, 3)]),
        with_fields(&day, "a fill bit in edition 5", &[(706, 1, 1)]),
        with_plan("flow 100,001", (228, 18, 100_001)),
        with_plan("flow −100,001", (228, 18, -100_001)),
        with_plan("flow −131,072", (228, 18, -131_072)),
        with_plan("a fill bit behind the flow", (246, 1, 1)),
    ]
}

/// A case cut inside its limit and behind it, a plan inside its flow.
fn cut_rows() -> Vec<Row> {
    let cut = |bytes: usize, field: &str| {
        let mut row = running(0, 20, 20).row(&format!("edition 5: case cut in {field}"));
        row.case.truncate(bytes);
        row
    };
    let cut_plan = |bytes: usize, field: &str| {
        let mut row = running(0, 20, 20).row(&format!("edition 5: plan cut in {field}"));
        row.plan.truncate(bytes);
        row
    };
    vec![
        cut(7, "the link limit"),
        cut(9, "the duration"),
        cut_plan(28, "the last reserve"),
        cut_plan(29, "the flow"),
        cut_plan(30, "the flow's end"),
    ]
}

/// Plans of edition 4 for a case of edition 5 and the other way round.
fn rows_of_two_editions() -> Vec<Row> {
    let neutral = running(0, 0, 0);
    let in_edition_4 = Draft {
        edition: Edition::Four,
        ..neutral.clone()
    };
    vec![
        mixed(
            "case of edition 5, plan of edition 4",
            &neutral,
            &in_edition_4,
        ),
        mixed(
            "case of edition 4, plan of edition 5",
            &in_edition_4,
            &neutral,
        ),
        neutral.row("bar, limit and flow 0 in edition 5"),
        in_edition_4.row("the same in edition 4"),
    ]
}

/// Lists: rule 27 behind the devices of its interval, before the next interval and before rule 20.
fn list_rows() -> Vec<Row> {
    let mut day = draft(Side::Producing, false, 10, &[true, true]);
    day.edition = Edition::Five;
    day.device().start_windows.push(StartWindow {
        start: 0,
        end: 10,
        most_starts: 0,
    });
    day.setting(1).online_power = 50;
    day.setting(2).online_power = 50;
    day.setting(2).reserves.rgu = 21;
    day.plan.flows = vec![1, -1];
    let mut of_two = day.clone();
    of_two.add_twin();
    of_two.case.devices[1].bar = 1;
    let mut flow_alone = running(0, 0, 1);
    flow_alone.add_twin();
    vec![
        day.row("rule 27 in both intervals, rule 7 and its like in the second, rule 20"),
        of_two.row("the same of two devices"),
        flow_alone.row("rule 27 alone"),
    ]
}
