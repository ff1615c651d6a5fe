//! Rows of edition 4 (A.8), each about one sentence on counts and most starts.
//!
//! Unless a row says otherwise: one device, on for one interval of 10 minutes at 20 kW, which the
//! mismatch price of 1 and the block price of 7 make cost 1,600.

use super::reactive::with_fields;
use super::{draft, mixed, rewritten, told_row, Draft, Row};
use crate::bits::overwrite;
use crate::case::{Side, StartWindow};
use crate::edition::Edition;
use crate::worked_day::{floor_days, lettered_days, reactive_days};

/// Every row of edition 4.
pub(super) fn rows() -> Vec<Row> {
    let mut rows = neutral_rows();
    rows.extend(count_rows());
    rows.extend(most_starts_rows());
    rows.extend(cut_rows());
    rows.extend(plan_rows());
    rows
}

fn running() -> Draft {
    let mut draft = draft(Side::Producing, true, 10, &[true]);
    draft.edition = Edition::Four;
    draft.setting(1).online_power = 20;
    draft
}

/// "Stored cases and plans of editions 1 to 3 [...] get the verdicts they had", as written in
/// edition 4.
fn neutral_rows() -> Vec<Row> {
    let lettered = lettered_days();
    let worked = |letter: usize| {
        let (name, day) = &lettered[letter];
        told_row(&format!("day ({name})"), day)
    };
    let (reactive, floored) = (reactive_days(), floor_days());
    let later = [&reactive[4], &floored[0], &floored[1]];
    let later = later.map(|(about, day)| told_row(about, day));
    [worked(0), worked(1), worked(9)]
        .iter()
        .chain(&later)
        .map(|row| rewritten(row, Edition::Four))
        .collect()
}

/// "7-bit device and interval counts", at bits 8 and 15; the zone count at 22.
fn count_rows() -> Vec<Row> {
    let day = running();
    vec![
        day.row("a day of edition 4"),
        with_fields(&day, "edition 4: no device", &[(8, 7, 0)]),
        with_fields(&day, "edition 4: 65 devices", &[(8, 7, 65)]),
        with_fields(&day, "edition 4: 127 devices", &[(8, 7, 127)]),
        with_fields(&day, "edition 4: no interval", &[(15, 7, 0)]),
        with_fields(&day, "edition 4: 97 intervals", &[(15, 7, 97)]),
        with_fields(&day, "edition 4: 127 intervals", &[(15, 7, 127)]),
        with_fields(
            &day,
            "edition 4: the device count comes first",
            &[(8, 7, 65), (15, 7, 97)],
        ),
        with_fields(&day, "edition 4: 5 zones", &[(22, 3, 5)]),
        with_fields(
            &day,
            "edition 4: the interval count before the zone count",
            &[(15, 7, 97), (22, 3, 5)],
        ),
    ]
}

/// "7-bit most starts (0..96)": behind a header of 53 bits, 8 of a duration, 352 of the device, two
/// counts and the window's start and end at 451.
fn most_starts_rows() -> Vec<Row> {
    let windowed = |most_starts| {
        let mut day = running();
        day.device().initially_on = false;
        day.device().start_windows.push(StartWindow {
            start: 0,
            end: 10,
            most_starts,
        });
        day
    };
    let day = windowed(1);
    let mut older = windowed(48);
    older.edition = Edition::Three;
    vec![
        windowed(96).row("96 starts allowed"),
        windowed(49).row("49 starts allowed"),
        windowed(0).row("no start allowed"),
        with_fields(&day, "97 starts allowed", &[(451, 7, 97)]),
        with_fields(&day, "127 starts allowed", &[(451, 7, 127)]),
        older.row("edition 3: 48 starts allowed"),
        with_fields(&older, "edition 3: 49 starts allowed", &[(448, 6, 49)]),
    ]
}

/// A case and a plan cut inside their headers, and a plan inside its first power.
fn cut_rows() -> Vec<Row> {
    let cut = |bytes: usize, field: &str| {
        let mut row = running().row(&format!("edition 4: case cut in {field}"));
        row.case.truncate(bytes);
        row
    };
    let cut_plan = |bytes: usize, field: &str| {
        let mut row = running().row(&format!("edition 4: plan cut in {field}"));
        row.plan.truncate(bytes);
        row
    };
    vec![
        cut(1, "the device count"),
        cut(2, "the interval count"),
        cut(3, "the zone count"),
        cut(4, "the mismatch price"),
        cut_plan(1, "the device count"),
        cut_plan(2, "the interval count"),
        cut_plan(3, "the first power"),
    ]
}

/// Counts of a plan unlike the case's; a plan of edition 3 for a case of edition 4 and the other way
/// round; a case whose header names edition 3, with a device count of 0 in five bits.
fn plan_rows() -> Vec<Row> {
    let with = |about: &str, (place, width, value): (usize, usize, i128)| {
        let mut row = running().row(about);
        overwrite(&mut row.plan, place, width, value);
        row
    };
    let in_edition_3 = Draft {
        edition: Edition::Three,
        ..running()
    };
    vec![
        with("edition 4: plan of 2 devices", (8, 7, 2)),
        with("edition 4: plan of 65 devices", (8, 7, 65)),
        with("edition 4: plan of 2 intervals", (15, 7, 2)),
        mixed(
            "case of edition 4, plan of edition 3",
            &running(),
            &in_edition_3,
        ),
        mixed(
            "case of edition 3, plan of edition 4",
            &in_edition_3,
            &running(),
        ),
        in_edition_3.row("the same day in edition 3"),
        with_fields(&running(), "counts of edition 4 in edition 3", &[(4, 4, 3)]),
    ]
}
