//! Rows of edition 2 (A.1), each about one sentence on reactive power.
//!
//! Unless a row says otherwise: one device, on for one interval of 10 minutes, mismatch price 1.

use super::{crossing, draft, mixed, rewritten, slow, told_row, two_starts, Draft, Row};
use crate::bits::overwrite;
use crate::case::{Link, LinkLine, ReactiveReserves, Side, StartWindow, Zone};
use crate::edition::Edition;
use crate::worked_day::reactive_days;

/// Every row of edition 2; those whose lists are worked out come last.
pub(super) fn rows() -> Vec<Row> {
    let mut rows = worked_rows();
    rows.extend(limit_rows());
    rows.extend(limit_rows_while_off());
    rows.extend(line_rows());
    rows.extend(rows_of_other_lines());
    rows.extend(equality_rows());
    rows.extend(crossing_rows());
    rows.extend(rows_of_many_trajectories());
    rows.extend(need_rows());
    rows.extend(mismatch_rows());
    rows.extend(refused_case_rows());
    rows.extend(refused_zone_rows());
    rows.extend(refused_plan_rows());
    rows.extend(neutral_rows());
    rows.extend(list_rows());
    rows
}

/// The two-set day of edition 2.
fn worked_rows() -> Vec<Row> {
    reactive_days()
        .iter()
        .map(|(about, day)| told_row(about, day))
        .collect()
}

fn line(offset: i128, slope: i128) -> LinkLine {
    LinkLine { offset, slope }
}

/// A draft of edition 2 with the same limits in every interval.
fn reactive(draft: Draft, qmin: i128, qmax: i128) -> Draft {
    let mut draft = Draft {
        edition: Edition::Two,
        ..draft
    };
    for terms in &mut draft.device().terms {
        (terms.qmin, terms.qmax) = (qmin, qmax);
    }
    draft
}

/// A device on for one interval at some power.
fn running(side: Side, power: i128, qmin: i128, qmax: i128) -> Draft {
    let mut draft = reactive(draft(side, true, 10, &[true]), qmin, qmax);
    draft.setting(1).online_power = power;
    draft
}

impl Draft {
    /// With q, qru and qrd in an interval.
    fn with_reactive_power(mut self, interval: usize, [q, qru, qrd]: [i128; 3]) -> Draft {
        self.setting(interval).reactive_power = q;
        self.setting(interval).reactive_reserves = ReactiveReserves { qru, qrd };
        self
    }

    fn with_link(mut self, link: Link) -> Draft {
        self.device().link = link;
        self
    }
}

/// Rules 21 and 22: a producing device holds qru against qmax and qrd against qmin, a consuming
/// device the other way round.
fn limit_rows() -> Vec<Row> {
    use Side::{Consuming, Producing};
    let days = [
        (
            Producing,
            [7, 3, 12],
            "producing: 7 + 3 at qmax 10, 7 − 12 at qmin −5",
        ),
        (Producing, [7, 4, 12], "producing: 7 + qru 4 above qmax 10"),
        (Producing, [7, 3, 13], "producing: 7 − qrd 13 below qmin −5"),
        (Producing, [11, 0, 0], "producing: q 11 above qmax 10"),
        (Producing, [-6, 0, 0], "producing: q −6 below qmin −5"),
        (
            Consuming,
            [7, 12, 3],
            "consuming: 7 + 3 at qmax 10, 7 − 12 at qmin −5",
        ),
        (Consuming, [7, 12, 4], "consuming: 7 + qrd 4 above qmax 10"),
        (Consuming, [7, 13, 3], "consuming: 7 − qru 13 below qmin −5"),
        (Consuming, [11, 0, 0], "consuming: q 11 above qmax 10"),
        (Consuming, [-6, 0, 0], "consuming: q −6 below qmin −5"),
    ];
    let mut rows: Vec<Row> = days
        .into_iter()
        .map(|(side, figures, about)| {
            let day = running(side, 0, -5, 10);
            day.with_reactive_power(1, figures).row(about)
        })
        .collect();
    let above_zero = |q| running(Producing, 0, 2, 4).with_reactive_power(1, [q, 0, 0]);
    rows.push(above_zero(2).row("q 2 at qmin 2"));
    rows.push(above_zero(1).row("q 1 below qmin 2"));
    rows
}

/// "The appropriate upper and lower bounds are applied when the device is dispatchable or in its
/// startup or shutdown power curve": neither, and q is 0, whatever the limits.
fn limit_rows_while_off() -> Vec<Row> {
    let off = |figures| {
        let idle = draft(Side::Consuming, false, 10, &[false]);
        reactive(idle, 2, 4)
            .with_link(Link::Equality(line(3, 1_000)))
            .with_reactive_power(1, figures)
    };
    vec![
        off([0, 0, 0]).row("off: limits 2 to 4 and an equality, q 0"),
        off([1, 0, 0]).row("off: q 1 above 0"),
        off([-1, 0, 0]).row("off: q −1 below 0"),
        off([0, 1, 0]).row("off, consuming: qru 1 held against 0"),
        off([0, 0, 1]).row("off, consuming: qrd 1 held against 0"),
    ]
}

/// Rules 23 and 24 at 7 kW: the upper line, 2 and 333 thousandths, lies at 4.331 kvar, the lower
/// one, −3 and −200, at −4.4 kvar.
fn line_rows() -> Vec<Row> {
    use Side::{Consuming, Producing};
    let days = [
        (Producing, [1, 3, 5], "producing: 4 and −4 between lines"),
        (Producing, [1, 4, 5], "producing: 1 + qru 4 above 4.331"),
        (Producing, [1, 3, 6], "producing: 1 − qrd 6 below −4.4"),
        (Consuming, [1, 5, 3], "consuming: 4 and −4 between lines"),
        (Consuming, [1, 5, 4], "consuming: 1 + qrd 4 above 4.331"),
        (Consuming, [1, 6, 3], "consuming: 1 − qru 6 below −4.4"),
    ];
    let link = Link::TwoLines {
        upper: line(2, 333),
        lower: line(-3, -200),
    };
    days.into_iter()
        .map(|(side, figures, about)| {
            let day = running(side, 7, -100, 100).with_link(link);
            day.with_reactive_power(1, figures).row(about)
        })
        .collect()
}

/// Lines met exactly, falling, below the limits, and lines that cross, which no refusal forbids.
fn rows_of_other_lines() -> Vec<Row> {
    let between = |upper, lower, power, limits: (i128, i128), q| {
        running(Side::Producing, power, limits.0, limits.1)
            .with_link(Link::TwoLines { upper, lower })
            .with_reactive_power(1, [q, 0, 0])
    };
    let wide = (-100, 100);
    let low = line(-100, 0);
    let exact = |q| between(line(2, 250), low, 8, wide, q);
    let falling = |q| between(line(10, -1_000), low, 7, wide, q);
    let rising_floor = |q| between(line(100, 0), line(-5, 1_000), 7, wide, q);
    vec![
        exact(4).row("4 kvar on a line at 4"),
        exact(5).row("5 kvar above a line at 4"),
        falling(3).row("3 kvar on a falling line at 3"),
        falling(4).row("4 kvar above a falling line at 3"),
        rising_floor(2).row("2 kvar on a rising lower line at 2"),
        rising_floor(1).row("1 kvar below a rising lower line at 2"),
        between(line(100, 0), low, 7, (-3, 3), 4).row("4 kvar above qmax 3, far below the line"),
        between(line(-1, 0), line(1, 0), 7, wide, 0).row("lines that cross leave no q"),
    ]
}

/// Rules 25 and 26: "1000·q = 1000·offset·n + slope·p", and no reserves.
fn equality_rows() -> Vec<Row> {
    let equal = |side, power, link_line, figures| {
        running(side, power, -8, 100)
            .with_link(Link::Equality(link_line))
            .with_reactive_power(1, figures)
    };
    let whole = |figures| equal(Side::Producing, 7, line(1, 1_000), figures);
    let half = |power, q| equal(Side::Producing, power, line(1, 500), [q, 0, 0]);
    let consuming = |offset, q| equal(Side::Consuming, 7, line(offset, -1_000), [q, 0, 0]);
    vec![
        whole([8, 0, 0]).row("equality 1 and 1,000: 8 kvar at 7 kW"),
        whole([7, 0, 0]).row("equality 1 and 1,000: 7 kvar at 7 kW"),
        whole([9, 0, 0]).row("equality 1 and 1,000: 9 kvar at 7 kW"),
        whole([8, 1, 0]).row("equality: qru 1"),
        whole([8, 0, 1]).row("equality: qrd 1"),
        half(8, 5).row("equality 1 and 500: 5 kvar at 8 kW"),
        half(7, 4).row("equality 1 and 500: 4 kvar at 7 kW, where it is 4.5"),
        half(7, 5).row("equality 1 and 500: 5 kvar at 7 kW, where it is 4.5"),
        consuming(-1, -8).row("consuming: equality −1 and −1,000: −8 kvar at 7 kW, qmin −8"),
        consuming(-2, -9).row("consuming: equality −2 and −1,000: −9 kvar below qmin −8"),
    ]
}

/// Where 10 kW fall and 10 kW rise the bracket is 2: limits and offsets count twice.
fn crossing_rows() -> Vec<Row> {
    let limited = |q| reactive(crossing(), -3, 3).with_reactive_power(2, [q, 0, 0]);
    let upper = Link::TwoLines {
        upper: line(2, 100),
        lower: line(-100, 0),
    };
    let lined = |q| {
        let day = reactive(crossing(), -9, 9).with_link(upper);
        day.with_reactive_power(2, [q, 0, 0])
    };
    let lower = Link::TwoLines {
        upper: line(100, 0),
        lower: line(-2, -100),
    };
    let floored = |q| {
        let day = reactive(crossing(), -9, 9).with_link(lower);
        day.with_reactive_power(2, [q, 0, 0])
    };
    let equal = |side, q| {
        let mut day = reactive(crossing(), -9, 9)
            .with_link(Link::Equality(line(2, 100)))
            .with_reactive_power(1, [5, 0, 0])
            .with_reactive_power(2, [q, 0, 0])
            .with_reactive_power(3, [5, 0, 0]);
        day.device().side = side;
        day
    };
    let consuming = |figures| {
        let mut day = reactive(crossing(), -3, 3).with_reactive_power(2, figures);
        day.device().side = Side::Consuming;
        day
    };
    vec![
        limited(6).row("two trajectories: 6 kvar at twice qmax 3"),
        limited(7).row("two trajectories: 7 kvar above twice qmax 3"),
        limited(-6).row("two trajectories: −6 kvar at twice qmin −3"),
        limited(-7).row("two trajectories: −7 kvar below twice qmin −3"),
        lined(6).row("two trajectories: 6 kvar on a line at 2·2 + 2"),
        lined(7).row("two trajectories: 7 kvar above a line at 2·2 + 2"),
        floored(-6).row("two trajectories: −6 kvar on a lower line at −2·2 − 2"),
        floored(-7).row("two trajectories: −7 kvar below a lower line at −2·2 − 2"),
        equal(Side::Producing, 6).row("two trajectories: equality of 2·2 + 2 at 20 kW"),
        equal(Side::Producing, 4).row("two trajectories: 4 kvar, as if the offset counted once"),
        equal(Side::Consuming, 6).row("consuming, two trajectories: equality of 2·2 + 2 at 20 kW"),
        equal(Side::Consuming, 7).row("consuming, two trajectories: 7 kvar"),
        consuming([4, 10, 2]).row("consuming, two trajectories: 4 + 2 at 6, 4 − 10 at −6"),
        consuming([4, 10, 3]).row("consuming, two trajectories: 4 + qrd 3 above 6"),
        consuming([4, 11, 2]).row("consuming, two trajectories: 4 − qru 11 below −6"),
    ]
}

/// Two later starts, and a stop besides: a bracket of 2 and of 3 in interval 1. A trajectory passes
/// an on interval, so that a later interval breaks a rule where the first keeps all.
fn rows_of_many_trajectories() -> Vec<Row> {
    let of_starts = |q| reactive(two_starts(60), 0, 3).with_reactive_power(1, [q, 0, 0]);
    let of_all = |q| reactive(stop_and_two_starts(), 0, 3).with_reactive_power(1, [q, 0, 0]);
    vec![
        of_starts(6).row("two later starts: 6 kvar at twice qmax 3; rule 5 in interval 2"),
        of_starts(7).row("two later starts: 7 kvar above twice qmax 3"),
        of_all(9).row("a stop and two later starts: 9 kvar at thrice qmax 3; rule 18 then"),
        of_all(10).row("a stop and two later starts: 10 kvar above thrice qmax 3"),
    ]
}

/// Stopped from 20 kW in interval 1, where 10 kW are left; starts in intervals 2 and 4 of pmin 11
/// and 31 that each give 1 kW there.
fn stop_and_two_starts() -> Draft {
    let mut draft = slow(true, &[false, true, false, true], 0);
    draft.device().initial_power = 20;
    (draft.device().ramps.starting, draft.device().ramps.stopping) = (1, 1);
    draft.device().terms[1].pmin = 11;
    draft.device().terms[3].pmin = 31;
    draft.setting(2).online_power = 11;
    draft.setting(4).online_power = 31;
    draft
}

/// Needs of reactive reserves in var, and their costs.
fn need_rows() -> Vec<Row> {
    let holding = |side, [qru, qrd]: [i128; 2]| {
        let mut day = running(side, 0, -10, 10).with_reactive_power(1, [0, qru, qrd]);
        day.case.zones.push(Zone {
            shortfall_prices: [1, 1, 1, 1, 1, 1, 2, 3],
            minima: vec![[0, 0, 5, 4]],
            ..Zone::plain(1)
        });
        day.device().zone_bits[0] = true;
        day
    };
    let mut both_sides = holding(Side::Producing, [2, 2]);
    both_sides.add_twin();
    both_sides.device().side = Side::Consuming;
    let mut outside = both_sides.clone();
    outside.device().zone_bits[0] = false;
    let mut priced = running(Side::Producing, 0, -10, 10).with_reactive_power(1, [0, 2, 3]);
    priced.device().terms[0].reactive_prices = ReactiveReserves { qru: 7, qrd: 11 };
    vec![
        holding(Side::Producing, [2, 4]).row("needs qru 5, qrd 4: 3 kvar of qru missing"),
        holding(Side::Consuming, [5, 1]).row("consuming: 3 kvar of qrd missing"),
        holding(Side::Producing, [6, 5]).row("more held than needed"),
        both_sides.row("reserves of both sides count: 1 kvar of qru missing"),
        outside.row("a device outside the zone does not count"),
        priced.row("qru 2 at 7, qrd 3 at 11"),
    ]
}

/// The reactive mismatch, "|consuming q − producing q|".
fn mismatch_rows() -> Vec<Row> {
    let of_two = |producing, consuming, about: &str| {
        let mut day = running(Side::Producing, 0, -100, 100);
        day.case.mismatch_price = 3;
        day.add_twin();
        day.case.devices[1].side = Side::Consuming;
        day.plan.intervals[0][0].reactive_power = producing;
        day.plan.intervals[0][1].reactive_power = consuming;
        day.row(about)
    };
    vec![
        of_two(5, 3, "5 kvar produced, 3 consumed"),
        of_two(3, 5, "3 kvar produced, 5 consumed"),
        of_two(-4, 4, "−4 kvar produced, 4 consumed"),
        of_two(-4, -4, "−4 kvar produced, −4 consumed"),
    ]
}

/// The draft's case with fields overwritten, each as first bit, width and value.
pub(super) fn with_fields(draft: &Draft, about: &str, fields: &[(usize, usize, i128)]) -> Row {
    let mut row = draft.row(about);
    for &(place, width, value) in fields {
        overwrite(&mut row.case, place, width, value);
    }
    row
}

/// Refusals of a case. Without lines the link kind is at 419, qmin at 604, qmax at 622, the prices
/// at 640 and 654; with two lines these at 421, 439, 454 and 472, qmin at 670, qmax at 688.
fn refused_case_rows() -> Vec<Row> {
    let plain = running(Side::Producing, 0, -5, 10);
    let level = line(0, 0);
    let lined = plain.clone().with_link(Link::TwoLines {
        upper: level,
        lower: level,
    });
    let equal = plain.clone().with_link(Link::Equality(level));
    vec![
        with_fields(&plain, "edition 0", &[(4, 4, 0)]),
        with_fields(&plain, "edition 15", &[(4, 4, 15)]),
        with_fields(&plain, "link kind 3", &[(419, 2, 3)]),
        with_fields(&lined, "upper offset 100,001", &[(421, 18, 100_001)]),
        with_fields(&lined, "upper slope −10,001", &[(439, 15, -10_001)]),
        with_fields(&lined, "lower offset −100,001", &[(454, 18, -100_001)]),
        with_fields(&lined, "lower slope 10,001", &[(472, 15, 10_001)]),
        with_fields(&equal, "equality's slope −16,384", &[(439, 15, -16_384)]),
        with_fields(&plain, "qmin −100,001", &[(604, 18, -100_001)]),
        with_fields(&plain, "qmax 131,071", &[(622, 18, 131_071)]),
        with_fields(&plain, "qru price 10,001", &[(640, 14, 10_001)]),
        with_fields(&plain, "qrd price 10,001", &[(654, 14, 10_001)]),
        with_fields(&plain, "qmin 11 above qmax 10", &[(604, 18, 11)]),
        with_fields(&lined, "qmax −6 below qmin −5", &[(688, 18, -6)]),
        with_fields(
            &plain,
            "pmin above pmax comes first",
            &[(440, 17, 0), (423, 17, 1), (604, 18, 11)],
        ),
        with_fields(
            &plain,
            "qmin above qmax, and a price: 4 before 5",
            &[(604, 18, 11), (654, 14, 10_001)],
        ),
    ]
}

/// Refusals of a zone's prices, at 140 and 147, and minima, at 200 and 223.
fn refused_zone_rows() -> Vec<Row> {
    let mut day = running(Side::Producing, 0, -10, 10);
    day.case.zones.push(Zone::plain(1));
    let with = |about: &str, field| with_fields(&day, about, &[field]);
    vec![
        with("zone's price of qru 0", (140, 7, 0)),
        with("zone's price of qru 101", (140, 7, 101)),
        with("zone's price of qrd 0", (147, 7, 0)),
        with("zone's price of qrd 101", (147, 7, 101)),
        with("zone's minimum of qru 6,400,001", (200, 23, 6_400_001)),
        with("zone's minimum of qrd 8,388,607", (223, 23, 8_388_607)),
    ]
}

/// Refusals of a plan: q at 173, qru at 191, qrd at 208; its edition, and its case's, at 4.
fn refused_plan_rows() -> Vec<Row> {
    let day = running(Side::Producing, 0, -5, 10);
    let with = |about: &str, (place, width, value): (usize, usize, i128)| {
        let mut row = day.row(about);
        overwrite(&mut row.plan, place, width, value);
        row
    };
    let neutral = running(Side::Producing, 0, 0, 0);
    let in_edition_1 = Draft {
        edition: Edition::One,
        ..neutral.clone()
    };
    vec![
        with("plan's q 100,001", (173, 18, 100_001)),
        with("plan's q −131,072", (173, 18, -131_072)),
        with("plan's qru 100,001", (191, 17, 100_001)),
        with("plan's qrd 131,071", (208, 17, 131_071)),
        mixed(
            "case of edition 2, plan of edition 1",
            &neutral,
            &in_edition_1,
        ),
        mixed(
            "case of edition 1, plan of edition 2",
            &in_edition_1,
            &neutral,
        ),
        neutral.row("neutral figures in edition 2"),
        in_edition_1.row("the same in edition 1"),
    ]
}

/// A day of edition 1 in edition 2: the same verdict.
fn neutral_rows() -> Vec<Row> {
    let zones = super::zone_rows();
    let others = super::trajectory_rows();
    [&zones[2], &zones[3], &others[8]]
        .map(|row| rewritten(row, Edition::Two))
        .into()
}

/// Lists: rules 21 to 26 behind 19 of their place, before the next place and before rule 20.
fn list_rows() -> Vec<Row> {
    let lines = Link::TwoLines {
        upper: line(0, 0),
        lower: line(0, 0),
    };
    let all_lines = running(Side::Producing, 0, -1, 1)
        .with_link(lines)
        .with_reactive_power(1, [0, 2, 2]);
    let all_equal = running(Side::Consuming, 0, -1, 1)
        .with_link(Link::Equality(line(5, 0)))
        .with_reactive_power(1, [0, 2, 2]);
    let mut ordered = running(Side::Producing, 101, 0, 0).with_reactive_power(1, [1, 0, 0]);
    ordered.device().initially_on = false;
    ordered.device().start_windows.push(StartWindow {
        start: 0,
        end: 10,
        most_starts: 0,
    });
    ordered.add_twin();
    let mut windowed = ordered.clone();
    for setting in &mut windowed.plan.intervals[0] {
        setting.online_power = 100;
    }
    let mut lined = reactive(draft(Side::Producing, false, 10, &[true, true]), -1, 1)
        .with_link(lines)
        .with_reactive_power(1, [0, 2, 2])
        .with_reactive_power(2, [0, 2, 2]);
    for interval in [1, 2] {
        lined.setting(interval).online_power = 60;
        lined.device().terms[interval - 1].blocks[0].cap = 50;
    }
    lined.device().start_windows.push(StartWindow {
        start: 0,
        end: 10,
        most_starts: 0,
    });
    let mut two_intervals = reactive(draft(Side::Producing, true, 10, &[true, true]), 0, 0);
    two_intervals = two_intervals.with_reactive_power(1, [-1, 0, 0]);
    two_intervals.setting(2).reserves.rgu = 21;
    vec![
        all_lines.row("rules 21 to 24 at one place"),
        all_equal.row("rules 21, 22, 25 and 26 at one place, 26 by both reserves: once"),
        ordered.row("rules 16, 19 and 21 of two devices, then rule 20"),
        two_intervals.row("rule 22 in interval 1 before rule 7 in interval 2"),
        windowed.row("rule 21 of two devices before rule 20"),
        lined.row("rules 19 and 21 to 24 in each of two intervals, then rule 20"),
    ]
}
