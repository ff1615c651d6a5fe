//! Rows of edition 3 (A.6), each about one sentence on take-or-pay blocks.
//!
//! Unless a row says otherwise: one device, on for one interval of 10 minutes, mismatch price 1.

use super::reactive::with_fields;
use super::{crossing, draft, mixed, rewritten, slow, told_row, Draft, Row};
use crate::case::{Block, Side, StartWindow};
use crate::edition::Edition;
use crate::worked_day::{floor_days, reactive_days};

/// Every row of edition 3; those whose lists are worked out come last.
pub(super) fn rows() -> Vec<Row> {
    let mut rows = worked_rows();
    rows.extend(bound_rows());
    rows.extend(filling_rows());
    rows.extend(rows_while_off());
    rows.extend(refused_rows());
    rows.extend(cut_rows());
    rows.extend(rows_of_two_editions());
    rows.extend(neutral_rows());
    rows.extend(list_rows());
    rows
}

/// The two-set day of edition 3.
fn worked_rows() -> Vec<Row> {
    floor_days()
        .iter()
        .map(|(about, day)| told_row(about, day))
        .collect()
}

/// Blocks as cap, floor and price.
type Floored = [i128; 3];

fn blocks(floored: &[Floored]) -> Vec<Block> {
    let block = |&[cap, floor, price]: &Floored| Block { cap, floor, price };
    floored.iter().map(block).collect()
}

/// A draft in edition 3.
fn in_edition_3(draft: Draft) -> Draft {
    Draft {
        edition: Edition::Three,
        ..draft
    }
}

/// A device on for one interval at some power, with pmax 200.
fn running(side: Side, floored: &[Floored], power: i128) -> Draft {
    let mut draft = in_edition_3(draft(side, true, 10, &[true]));
    draft.device().terms[0].pmax = 200;
    draft.device().terms[0].blocks = blocks(floored);
    draft.setting(1).online_power = power;
    draft
}

impl Draft {
    /// With one block in each interval, of these floors.
    fn with_floors(mut self, floors: &[i128]) -> Draft {
        for (terms, &floor) in self.device().terms.iter_mut().zip(floors) {
            terms.blocks[0].floor = floor;
        }
        self
    }
}

/// Rule 19, "both bounds": floors of 20 and 30 in caps of 60 and 60.
fn bound_rows() -> Vec<Row> {
    use Side::{Consuming, Producing};
    let bounds = |side, power| running(side, &[[60, 20, 5], [60, 30, 3]], power);
    let single = |floor, power| running(Producing, &[[100, floor, 7]], power);
    vec![
        bounds(Producing, 50).row("producing: 50 kW at floors 20 + 30"),
        bounds(Producing, 49).row("producing: 49 kW below floors 20 + 30"),
        bounds(Producing, 51).row("producing: 51 kW, one above floors 20 + 30"),
        bounds(Consuming, 50).row("consuming: 50 kW at floors 20 + 30"),
        bounds(Consuming, 49).row("consuming: 49 kW below floors 20 + 30"),
        bounds(Consuming, 51).row("consuming: 51 kW, one above floors 20 + 30"),
        bounds(Producing, 120).row("producing: 120 kW at caps 60 + 60"),
        bounds(Producing, 121).row("producing: 121 kW above caps 60 + 60"),
        single(1, 0).row("on at 0 kW below a floor of 1"),
        single(0, 0).row("on at 0 kW, floor 0"),
    ]
}

/// "Floors first, then price order", lower number first among equals.
fn filling_rows() -> Vec<Row> {
    use Side::{Consuming, Producing};
    let dear = [[30, 30, 9], [70, 0, 2]];
    let full = [[30, 30, 9], [20, 20, 2]];
    let tied = |floors: [i128; 3]| floors.map(|floor| [40, floor, 7]);
    let paid = [[50, 10, 9], [50, 0, -4]];
    let forced = [[50, 10, -4], [50, 0, 2]];
    let first = [[50, 0, 9], [50, 40, -4]];
    let near_0 = [[50, 10, 0], [50, 10, -1], [50, 0, 1]];
    let four = [[25, 1, 4], [25, 2, 3], [25, 3, 2], [25, 4, 1]];
    vec![
        running(Producing, &dear, 50).row("floor at its cap in the dear block"),
        running(Producing, &full, 50).row("every floor at its cap"),
        running(Producing, &full, 49).row("every floor at its cap, one below"),
        running(Producing, &tied([0, 20, 0]), 50)
            .row("equal prices: a floor of block 2, the rest in block 1"),
        running(Consuming, &tied([0, 0, 20]), 50)
            .row("consuming, equal prices: a floor of block 3, the rest in block 1"),
        running(Producing, &paid, 40)
            .row("a floor of the dear block, the rest at a negative price"),
        running(Consuming, &forced, 40).row("consuming: a floor of a block of negative price"),
        running(Producing, &first, 45).row("a floor of the block that comes first by price"),
        running(Producing, &near_0, 65).row("floors of blocks of price 0 and −1"),
        running(Producing, &four, 40).row("floors in four blocks"),
    ]
}

/// "while u = 0 floors don't bind": 30 kW, 20 kW while off, 30 kW; and a start of 10 and 30 kW
/// before 50.
fn rows_while_off() -> Vec<Row> {
    let passing = |floors: [i128; 3]| in_edition_3(crossing()).with_floors(&floors);
    let mut consuming = passing([30, 60, 30]);
    consuming.device().side = Side::Consuming;
    let mut above_caps = passing([30, 19, 30]);
    above_caps.device().terms[1].blocks[0].cap = 19;
    let idle = in_edition_3(draft(Side::Producing, false, 10, &[false])).with_floors(&[100]);
    let starting = |floors: [i128; 3]| {
        let mut rising = in_edition_3(slow(false, &[false, false, true], 50)).with_floors(&floors);
        rising.setting(3).online_power = 50;
        rising
    };
    vec![
        passing([30, 60, 30]).row("off: 20 kW of trajectories below a floor of 60"),
        passing([31, 60, 30]).row("the same, a floor of 31 while on at 30 kW"),
        consuming.row("consuming, off: 20 kW of trajectories below a floor of 60"),
        idle.row("off without power: a floor of 100"),
        starting([50; 3]).row("startup power of 10 and 30 kW below a floor of 50"),
        starting([50, 50, 51]).row("the same, a floor of 51 at the start"),
        above_caps.row("off: 20 kW of trajectories above a cap and floor of 19"),
    ]
}

/// Refusals of a case. Block 1 is at 460: its floor at 477, its price at 494; the floor of block 2
/// at 526. With one block qmin is at 621, qmax at 639, the last price at 671, fill bits from 685.
fn refused_rows() -> Vec<Row> {
    let one = running(Side::Producing, &[[100, 20, 7]], 20);
    let two = running(Side::Producing, &[[60, 20, 5], [60, 30, 3]], 50);
    vec![
        with_fields(&one, "floor 100,001", &[(477, 17, 100_001)]),
        with_fields(&one, "floor 131,071", &[(477, 17, 131_071)]),
        with_fields(&one, "floor 101 above cap 100", &[(477, 17, 101)]),
        with_fields(&one, "cap 19 below floor 20", &[(460, 17, 19)]),
        with_fields(&two, "block 2: floor 61 above cap 60", &[(526, 17, 61)]),
        with_fields(&two, "block 2: floor 100,001", &[(526, 17, 100_001)]),
        with_fields(
            &one,
            "pmin above pmax comes before the floor",
            &[(423, 17, 201), (477, 17, 101)],
        ),
        with_fields(
            &one,
            "the floor comes before qmin above qmax",
            &[(477, 17, 101), (621, 18, 11)],
        ),
        with_fields(
            &two,
            "block 1 before block 2",
            &[(477, 17, 61), (526, 17, 61)],
        ),
        with_fields(
            &one,
            "floor above cap, and a price: 4 before 5",
            &[(477, 17, 101), (671, 14, 10_001)],
        ),
        with_fields(
            &one,
            "floor above cap, and a fill bit: 6 before 5",
            &[(477, 17, 101), (687, 1, 1)],
        ),
    ]
}

/// A case cut inside the cap, the floor and the price of its block.
fn cut_rows() -> Vec<Row> {
    let day = running(Side::Producing, &[[100, 20, 7]], 20);
    [(59, "cap"), (60, "floor"), (62, "price")]
        .into_iter()
        .map(|(bytes, field)| {
            let mut row = day.row(&format!("cut inside the {field} of a block"));
            row.case.truncate(bytes);
            row
        })
        .collect()
}

/// Plans of edition 2 for a case of edition 3 and the other way round; a case whose header names
/// edition 2, read without floors.
fn rows_of_two_editions() -> Vec<Row> {
    let neutral = running(Side::Producing, &[[100, 0, 7]], 20);
    let in_edition_2 = Draft {
        edition: Edition::Two,
        ..neutral.clone()
    };
    let floored = running(Side::Producing, &[[100, 20, 7]], 20);
    vec![
        mixed(
            "case of edition 3, plan of edition 2",
            &neutral,
            &in_edition_2,
        ),
        mixed(
            "case of edition 2, plan of edition 3",
            &in_edition_2,
            &neutral,
        ),
        neutral.row("floor 0 in edition 3"),
        in_edition_2.row("the same in edition 2"),
        with_fields(&floored, "a floor in edition 2", &[(4, 4, 2)]),
    ]
}

/// Days of editions 1 and 2 in edition 3: the same verdict.
fn neutral_rows() -> Vec<Row> {
    let zones = super::zone_rows();
    let others = super::trajectory_rows();
    let days = reactive_days();
    let worked: Vec<Row> = days
        .iter()
        .map(|(about, day)| told_row(about, day))
        .collect();
    [&zones[2], &others[8], &worked[4], &worked[6]]
        .map(|row| rewritten(row, Edition::Three))
        .into()
}

/// Lists: rule 19 below floors once at a place, in its turn; p is the whole power.
fn list_rows() -> Vec<Row> {
    let passing_on = |floors: [i128; 3]| {
        let mut day = in_edition_3(slow(true, &[true, false, true], 50)).with_floors(&floors);
        day.device().initial_power = 50;
        day.setting(1).online_power = 50;
        day.setting(3).online_power = 50;
        day
    };
    let mut ordered = running(Side::Consuming, &[[60, 20, 5], [60, 30, 3]], 49);
    ordered.device().initially_on = false;
    ordered.device().terms[0].pmin = 50;
    ordered.setting(1).reactive_power = 1;
    ordered.device().start_windows.push(StartWindow {
        start: 0,
        end: 10,
        most_starts: 0,
    });
    ordered.add_twin();
    vec![
        passing_on([60, 0, 60]).row("floors of 60 kept by 50 kW and 10 of a trajectory; rule 18"),
        passing_on([61, 0, 60]).row("a floor of 61 above 50 kW and 10 of a trajectory"),
        ordered.row("rules 17, 19 below floors and 21 of two devices, then rule 20"),
    ]
}
