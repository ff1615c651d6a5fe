//! The tables: rows written by hand against verdicts worked out by hand, and what all rows reach.

use std::collections::BTreeSet;

use reference::breaches::bytes_of;
use reference::judge::{Refusal, Verdict};
use reference::tables::{rows, written_rows, Row};

/// What each written row of edition 1 must give, in order. One interval of 10 minutes or more of 60
/// (10 in the rows about trajectories), block price 7 unless given, mismatch price 1, overrun price
/// 3.
const VERDICTS: [&str; 76] = [
    // Consuming reserves: 90 or 60 kW at 7 − 1 for 10 minutes.
    "accepted 5400",
    "broken 17 1 1 0",
    "broken 17 1 1 0",
    "broken 17 1 1 0",
    "accepted 3600",
    "broken 16 1 1 0",
    "accepted 3600",
    // Blocks for 70 kW: 70·3; 40·9 + 30·7; 50·2 − 20·4; −70·2; each with 70 of mismatch.
    "accepted -2800",
    "accepted 5000",
    "accepted -500",
    "accepted 700",
    // States. Four are refused at their count: header 50, three durations of 8, 352 of the device.
    "accepted 500",
    "accepted 500",
    "accepted 0",
    "accepted 0",
    "accepted 500",
    "refused case 3 426",
    "accepted 500",
    "accepted 0",
    "accepted 500",
    "accepted 0",
    "accepted 500",
    "accepted 0",
    // Zones. Shortfalls in W: 331, 539, 331, 331; then 0, 0, 1331, 1870; then 11,000 three times
    // with 3,000 and 2,000; then 2,000 and 2,000.
    "accepted -36840",
    "accepted -115290",
    "accepted -1147600",
    "accepted -223200",
    // Start windows.
    "broken 20 0 1 1",
    "accepted 0",
    "accepted 0",
    "broken 20 0 1 1",
    "accepted 0",
    // Energy windows: −24,000 less 3 for each of 30·20 − 100, 29·20 − 100, 30·20 + 60·30 − 100,
    // 31·20 + 60·30 − 100, 2,000 − 30·20 − 30·30, 50, 0 kW·min;
    "accepted -25500",
    "accepted -25440",
    "accepted -30900",
    "accepted -30960",
    "accepted -25500",
    "accepted -24150",
    "accepted -24000",
    // of 10·30, 20·30, 60·30, 60·20 + 60·30, 20, 30, 20 + 30;
    "accepted -24900",
    "accepted -25800",
    "accepted -29400",
    "accepted -33000",
    "accepted -24060",
    "accepted -24090",
    "accepted -24150",
    // of 0 and 1, twice.
    "accepted -24000",
    "accepted -24003",
    "accepted -24000",
    "accepted -24003",
    // −43,200 less 3·(10·20 + 60·30 + 10·40); −22,400 less 3·(5·20 + 60·30 + 5·40); 18,000 less
    // 3·20; −24,000 less 3·(20 + 4,970); −7,200 less 3·(5·10 + 5·30).
    "accepted -50400",
    "accepted -28700",
    "accepted 17940",
    "accepted -38970",
    "accepted -7800",
    // Trajectories: 10, 30, 50; its break; 50, 30, 10; 25, 5; nothing left; its break; reaching
    // into an on interval; that with too little online; 30, 20, 30; two starts.
    "accepted -7200",
    "broken 5 3 1 0",
    "accepted -7200",
    "accepted -2400",
    "accepted 0",
    "broken 6 1 1 0",
    "broken 18 1 1 0",
    "broken 17 1 1 0",
    "accepted -6400",
    "broken 18 1 1 0",
    "broken 5 2 1 0",
    // Order.
    "broken 17 1 1 0",
    "broken 19 1 1 0",
    "broken 8 1 1 0",
    "broken 16 2 1 0",
    "broken 20 0 1 2",
    // Lists.
    "broken 3 2 1 0",
    "broken 15 1 1 0",
    "broken 7 1 2 0",
    "broken 16 2 1 0",
    "broken 7 1 1 0",
];

/// What each written row of edition 2 must give, in order, behind those of edition 1.
const REACTIVE_VERDICTS: [&str; 119] = [
    // The two-set day.
    "accepted 107860",
    "accepted 167860",
    "broken 21 1 2 0",
    "accepted 107440",
    "accepted -372560",
    "accepted 164920",
    "broken 23 2 1 0",
    "broken 23 2 1 0",
    "accepted 165580",
    "broken 25 1 1 0",
    // Limits −5 and 10: a mismatch of 7 kvar for 10 minutes; then limits 2 and 4.
    "accepted -70",
    "broken 21 1 1 0",
    "broken 22 1 1 0",
    "broken 21 1 1 0",
    "broken 22 1 1 0",
    "accepted -70",
    "broken 21 1 1 0",
    "broken 22 1 1 0",
    "broken 21 1 1 0",
    "broken 22 1 1 0",
    "accepted -20",
    "broken 22 1 1 0",
    // Off.
    "accepted 0",
    "broken 21 1 1 0",
    "broken 22 1 1 0",
    "broken 22 1 1 0",
    "broken 21 1 1 0",
    // Lines at 7 kW: 7·(−7 − 1)·10 producing, 7·(7 − 1)·10 consuming, and 1 kvar of mismatch.
    "accepted -570",
    "broken 23 1 1 0",
    "broken 24 1 1 0",
    "accepted 410",
    "broken 23 1 1 0",
    "broken 24 1 1 0",
    // Other lines: 8 kW and 4 kvar; 7 kW and 3 kvar; 7 kW and 2 kvar.
    "accepted -680",
    "broken 23 1 1 0",
    "accepted -590",
    "broken 23 1 1 0",
    "accepted -580",
    "broken 24 1 1 0",
    "broken 21 1 1 0",
    "broken 23 1 1 0",
    // Equalities: 7 kW and 8 kvar; 8 kW and 5 kvar; 7 kW consumed and −8 kvar.
    "accepted -640",
    "broken 25 1 1 0",
    "broken 25 1 1 0",
    "broken 26 1 1 0",
    "broken 26 1 1 0",
    "accepted -690",
    "broken 25 1 1 0",
    "broken 25 1 1 0",
    "accepted 340",
    "broken 22 1 1 0",
    // Two trajectories: −6,400 less 10 for each of 6 kvar, or of 5, 6 and 5; consuming 80·(7 − 1)·10
    // less 10 for each of 5, 6 and 5, or of 4.
    "accepted -6460",
    "broken 21 2 1 0",
    "accepted -6460",
    "broken 22 2 1 0",
    "accepted -6460",
    "broken 23 2 1 0",
    "accepted -6460",
    "broken 24 2 1 0",
    "accepted -6560",
    "broken 25 2 1 0",
    "accepted 4640",
    "broken 25 2 1 0",
    "accepted 4760",
    "broken 21 2 1 0",
    "broken 22 2 1 0",
    // Two starts, and a stop besides.
    "broken 5 2 1 0",
    "broken 21 1 1 0",
    "broken 18 2 1 0",
    "broken 21 1 1 0",
    // Needs: 3,000 var at 2; 3,000 at 3; none; 1,000 at 2; 3,000 at 2 and 2,000 at 3; 14 + 33 of
    // costs; all for 10 minutes.
    "accepted -60000",
    "accepted -90000",
    "accepted 0",
    "accepted -20000",
    "accepted -120000",
    "accepted -470",
    // Mismatches of 2, 2, 8 and 0 kvar at 3.
    "accepted -60",
    "accepted -60",
    "accepted -240",
    "accepted 0",
    // Cases refused: header 50, one duration of 8, 352 of the device and three counts of 3 before
    // the link kind; 2 of it and 183 up to qmin, 66 more of two lines.
    "refused case 2 4",
    "refused case 2 4",
    "refused case 4 419",
    "refused case 4 421",
    "refused case 4 439",
    "refused case 4 454",
    "refused case 4 472",
    "refused case 4 439",
    "refused case 4 604",
    "refused case 4 622",
    "refused case 4 640",
    "refused case 4 654",
    "refused case 5 622",
    "refused case 5 688",
    "refused case 5 440",
    "refused case 4 654",
    // Of a zone: behind 58 its shares and six prices, 82; behind two more prices and two minima, 60.
    "refused case 4 140",
    "refused case 4 140",
    "refused case 4 147",
    "refused case 4 147",
    "refused case 4 200",
    "refused case 4 223",
    // Plans refused: header 19, on 1, nine powers of 17 before q.
    "refused plan 4 173",
    "refused plan 4 173",
    "refused plan 4 191",
    "refused plan 4 208",
    "refused plan 2 4",
    "refused plan 2 4",
    "accepted 0",
    "accepted 0",
    // Days of edition 1 in edition 2: their surpluses there.
    "accepted -1147600",
    "accepted -223200",
    "accepted -6400",
    // Lists.
    "broken 21 1 1 0",
    "broken 21 1 1 0",
    "broken 16 1 1 0",
    "broken 22 1 1 0",
    "broken 21 1 1 0",
    "broken 19 1 1 0",
];

/// The lists of the last six rows of edition 2.
const REACTIVE_LISTS: [List; 6] = [
    &[[21, 1, 1, 0], [22, 1, 1, 0], [23, 1, 1, 0], [24, 1, 1, 0]],
    &[[21, 1, 1, 0], [22, 1, 1, 0], [25, 1, 1, 0], [26, 1, 1, 0]],
    &[
        [16, 1, 1, 0],
        [19, 1, 1, 0],
        [21, 1, 1, 0],
        [16, 1, 2, 0],
        [19, 1, 2, 0],
        [21, 1, 2, 0],
        [20, 0, 1, 1],
        [20, 0, 2, 1],
    ],
    &[[22, 1, 1, 0], [7, 2, 1, 0], [9, 2, 1, 0], [10, 2, 1, 0]],
    &[[21, 1, 1, 0], [21, 1, 2, 0], [20, 0, 1, 1], [20, 0, 2, 1]],
    &[
        [19, 1, 1, 0],
        [21, 1, 1, 0],
        [22, 1, 1, 0],
        [23, 1, 1, 0],
        [24, 1, 1, 0],
        [19, 2, 1, 0],
        [21, 2, 1, 0],
        [22, 2, 1, 0],
        [23, 2, 1, 0],
        [24, 2, 1, 0],
        [20, 0, 1, 1],
    ],
];

/// What each written row of edition 3 must give, in order, behind those of edition 2.
const FLOOR_VERDICTS: [&str; 55] = [
    // The two-set day.
    "accepted 164260",
    "broken 19 2 1 0",
    // Bounds, over 10 minutes with a mismatch of p: 20·5 + 30·3 and 1 more at the best price.
    "accepted -2400",
    "broken 19 1 1 0",
    "accepted -2440",
    "accepted 1400",
    "broken 19 1 1 0",
    "accepted 1440",
    "accepted -6000",
    "broken 19 1 1 0",
    "broken 19 1 1 0",
    "accepted 0",
    // Filling: 30·9 + 20·2 twice, and one kW less; 50·7 twice; 10·9 − 30·4; −10·4 + 30·2; −45·4;
    // 15·0 − 50; 1·4 + 2·3 + 12·2 + 25.
    "accepted -3600",
    "accepted -3600",
    "broken 19 1 1 0",
    "accepted -4000",
    "accepted 3000",
    "accepted -100",
    "accepted -200",
    "accepted 1350",
    "accepted -150",
    "accepted -990",
    // Off: 80 kW at 7 and 1 of mismatch; 90 kW.
    "accepted -6400",
    "broken 19 1 1 0",
    "accepted 4800",
    "accepted 0",
    "accepted -7200",
    "broken 19 3 1 0",
    "broken 19 2 1 0",
    // Cases refused: 457 up to the blocks' count, 3 of it, 17 of the cap before the floor; 49 each.
    "refused case 4 477",
    "refused case 4 477",
    "refused case 5 477",
    "refused case 5 477",
    "refused case 5 526",
    "refused case 4 526",
    "refused case 5 440",
    "refused case 5 477",
    "refused case 5 477",
    "refused case 4 671",
    "refused case 6 687",
    "refused case 1 460",
    "refused case 1 477",
    "refused case 1 494",
    // Editions: the last is read as a price of 5 and, from bit 506 on, a reserve price of 14,336.
    "refused plan 2 4",
    "refused plan 2 4",
    "accepted -1600",
    "accepted -1600",
    "refused case 4 506",
    // Days of editions 1 and 2 in edition 3: their verdicts there.
    "accepted -1147600",
    "accepted -6400",
    "accepted -372560",
    "broken 23 2 1 0",
    // Lists.
    "broken 18 1 1 0",
    "broken 18 1 1 0",
    "broken 17 1 1 0",
];

/// What each written row of edition 4 must give, in order.
const COUNT_VERDICTS: [&str; 37] = [
    // Days of editions 1 to 3: their verdicts there.
    "accepted 167860",
    "broken 5 2 1 0",
    "broken 20 0 1 1",
    "accepted -372560",
    "accepted 164260",
    "broken 19 2 1 0",
    // Counts: devices at 8, intervals at 15, zones at 22.
    "accepted -1600",
    "refused case 3 8",
    "refused case 3 8",
    "refused case 3 8",
    "refused case 3 15",
    "refused case 3 15",
    "refused case 3 15",
    "refused case 3 8",
    "refused case 3 22",
    "refused case 3 15",
    // Most starts: 53 of header, 8, 352, two counts of 3, 32 before it; in edition 3 three less.
    "accepted -1600",
    "accepted -1600",
    "broken 20 0 1 1",
    "refused case 4 451",
    "refused case 4 451",
    "accepted -1600",
    "refused case 4 448",
    // Cut.
    "refused case 1 8",
    "refused case 1 15",
    "refused case 1 22",
    "refused case 1 25",
    "refused plan 1 8",
    "refused plan 1 15",
    "refused plan 1 23",
    // Plans; the last case has 0 in the five bits that edition 3 has for its devices.
    "refused plan 3 8",
    "refused plan 3 8",
    "refused plan 3 15",
    "refused plan 2 4",
    "refused plan 2 4",
    "accepted -1600",
    "refused case 3 8",
];

/// What each written row of edition 5 must give, in order.
const BAR_VERDICTS: [&str; 51] = [
    // The two-set day.
    "accepted 167860",
    "broken 27 2 0 0",
    "accepted -7032140",
    // Days of older editions: their verdicts there.
    "accepted 167860",
    "broken 5 2 1 0",
    "accepted -372560",
    "accepted 164260",
    // 1,400 and, for 10 minutes, 20 + 0; 0 + 20; 40 + 20; 0 + 20; 20 + 0; 20 + 40 kW of mismatch.
    "accepted -1600",
    "accepted -1600",
    "accepted -2000",
    "accepted -1600",
    "accepted -1600",
    "accepted -2000",
    // 0 + 20; 40 + 20; 99,980 + 100,000; 100,020 + 100,000 kW of mismatch.
    "accepted -1600",
    "broken 27 1 0 0",
    "accepted -2000",
    "broken 27 1 0 0",
    "broken 27 1 0 0",
    "accepted -2001200",
    "accepted -2001600",
    // Blocks of both sides cancel: 0; 20 + 20; 0; 1 + 1; 40 + 40 kW; 0, then 5 + 5 kvar; a share of
    // 1,000 W in rgu, scr and nsc, then 1 + 1 kW more.
    "accepted 0",
    "accepted -400",
    "accepted 0",
    "accepted -20",
    "accepted -800",
    "accepted 0",
    "accepted -100",
    "accepted -30000",
    "accepted -30020",
    // Refusals; bar 1 leaves 20 kW of mismatch on bar 0 and 40 on bar 1.
    "refused case 4 53",
    "refused case 4 53",
    "refused case 4 39",
    "accepted -2000",
    "refused case 4 439",
    "refused case 6 706",
    "refused plan 4 228",
    "refused plan 4 228",
    "refused plan 4 228",
    "refused plan 6 246",
    "refused case 1 53",
    "refused case 1 70",
    "refused plan 1 211",
    "refused plan 1 228",
    "refused plan 1 228",
    // Editions.
    "refused plan 2 4",
    "refused plan 2 4",
    "accepted -1600",
    "accepted -1600",
    // Lists.
    "broken 27 1 0 0",
    "broken 27 1 0 0",
    "broken 27 1 0 0",
];

/// What each written row about exchanges must give, in order.
const EXCHANGE_VERDICTS: [&str; 32] = [
    // Limits: 50 kW at 7 and 1 of mismatch for 10 minutes.
    "accepted -4000",
    "broken 7 1 1 0",
    "broken 8 1 1 0",
    "broken 9 1 1 0",
    "broken 10 1 1 0",
    "broken 11 1 1 0",
    "accepted 0",
    "broken 12 1 1 0",
    "broken 13 1 1 0",
    "accepted 0",
    "broken 14 1 1 0",
    // Reserves that a side may not hold.
    "broken 15 1 1 0",
    "broken 15 1 1 0",
    "broken 15 1 1 0",
    // 10 kW at 7, consumed, then produced, and 1 of mismatch.
    "accepted 600",
    "broken 18 1 1 0",
    "accepted -800",
    "broken 18 1 1 0",
    "broken 18 1 1 0",
    // 700 of blocks less 10 for each of 14 + 24 + 5 + 3; 26 + 36 + 5 + 3; 16 + 6 + 2.
    "accepted 240",
    "accepted 0",
    "accepted 460",
    // Whole messages. Of real power: 10·(40·8 − 20·7) of blocks, 130 of on cost, 2 won by a start
    // in its state, 690 of reserves, 10·(3·14,000 + 4·38,000 + 5·1,000 + 6·1,000) of shortfalls,
    // 1,200 of mismatch (in edition 5 of 5 and 55 kW), 3·(8·60 − 17) of overrun. Of reactive power:
    // 290 of reserves, 10·(7·6,000 + 8·6,000) of shortfalls, 140 of mismatch.
    "accepted -2051607",
    "accepted -2952037",
    "accepted -2952037",
    "accepted -2952037",
    "accepted -2952037",
    // Refusals.
    "refused case 2 4",
    "refused case 4 686",
    "refused case 4 703",
    // Turns.
    "broken 7 1 1 0",
    "broken 8 1 2 0",
];

/// The lists of the last two rows about exchanges.
const EXCHANGE_LISTS: [List; 2] = [
    &[[7, 1, 1, 0], [9, 1, 1, 0], [10, 1, 1, 0], [27, 1, 0, 0]],
    &[
        [8, 1, 2, 0],
        [11, 1, 2, 0],
        [27, 1, 0, 0],
        [7, 2, 1, 0],
        [9, 2, 1, 0],
        [10, 2, 1, 0],
    ],
];

/// A list of breaches.
type List = &'static [[u8; 4]];

/// The lists of the last three rows of edition 5.
const BAR_LISTS: [List; 3] = [
    &[
        [27, 1, 0, 0],
        [7, 2, 1, 0],
        [9, 2, 1, 0],
        [10, 2, 1, 0],
        [27, 2, 0, 0],
        [20, 0, 1, 1],
    ],
    &[
        [27, 1, 0, 0],
        [7, 2, 1, 0],
        [9, 2, 1, 0],
        [10, 2, 1, 0],
        [7, 2, 2, 0],
        [9, 2, 2, 0],
        [10, 2, 2, 0],
        [27, 2, 0, 0],
        [20, 0, 1, 1],
        [20, 0, 2, 1],
    ],
    &[[27, 1, 0, 0]],
];

/// The lists of the last three rows of edition 3.
const FLOOR_LISTS: [List; 3] = [
    &[[18, 1, 1, 0], [18, 3, 1, 0]],
    &[[18, 1, 1, 0], [19, 1, 1, 0], [18, 3, 1, 0]],
    &[
        [17, 1, 1, 0],
        [19, 1, 1, 0],
        [21, 1, 1, 0],
        [17, 1, 2, 0],
        [19, 1, 2, 0],
        [21, 1, 2, 0],
        [20, 0, 1, 1],
        [20, 0, 2, 1],
    ],
];

/// The lists of the last ten rows of edition 1, those about order and about lists.
const LISTS: [List; 10] = [
    &[[17, 1, 1, 0], [7, 1, 2, 0], [9, 1, 2, 0], [10, 1, 2, 0]],
    &[[19, 1, 1, 0], [1, 2, 1, 0]],
    &[
        [8, 1, 1, 0],
        [9, 1, 1, 0],
        [10, 1, 1, 0],
        [11, 1, 1, 0],
        [12, 1, 1, 0],
        [13, 1, 1, 0],
        [17, 1, 1, 0],
        [18, 1, 1, 0],
    ],
    &[[16, 2, 1, 0], [19, 2, 1, 0], [20, 0, 1, 1]],
    &[[20, 0, 1, 2]],
    &[[3, 2, 1, 0], [4, 3, 1, 0], [3, 4, 1, 0]],
    &[[15, 1, 1, 0]],
    &[[7, 1, 2, 0], [9, 1, 2, 0], [10, 1, 2, 0], [1, 2, 1, 0]],
    &[
        [16, 2, 1, 0],
        [19, 2, 1, 0],
        [16, 2, 2, 0],
        [19, 2, 2, 0],
        [20, 0, 1, 1],
        [20, 0, 1, 3],
        [20, 0, 2, 1],
        [20, 0, 2, 3],
    ],
    &[
        [7, 1, 1, 0],
        [8, 1, 1, 0],
        [9, 1, 1, 0],
        [10, 1, 1, 0],
        [11, 1, 1, 0],
        [12, 1, 1, 0],
        [13, 1, 1, 0],
        [14, 1, 1, 0],
        [15, 1, 1, 0],
        [16, 1, 1, 0],
        [17, 1, 1, 0],
        [18, 1, 1, 0],
    ],
];

#[test]
fn written_rows_give_what_was_worked_out() {
    let rows = written_rows();
    let of_older = [&VERDICTS[..], &REACTIVE_VERDICTS, &FLOOR_VERDICTS].concat();
    let verdicts = [
        &of_older[..],
        &COUNT_VERDICTS,
        &BAR_VERDICTS,
        &EXCHANGE_VERDICTS,
    ]
    .concat();
    assert_eq!(rows.len(), verdicts.len());
    for (row, verdict) in rows.iter().zip(verdicts) {
        let printed = row.printed();
        let expected: Vec<&str> = printed.split(' ').skip(2).collect();
        let fields = verdict.split(' ').count();
        assert_eq!(expected[..fields].join(" "), verdict, "{}", row.about);
    }
}

#[test]
fn lists_of_written_rows_are_what_was_worked_out() {
    let rows = written_rows();
    let (of_edition_1, later) = rows.split_at(VERDICTS.len());
    let (of_edition_2, later) = later.split_at(REACTIVE_VERDICTS.len());
    let (of_edition_3, later) = later.split_at(FLOOR_VERDICTS.len());
    let (_, later) = later.split_at(COUNT_VERDICTS.len());
    let (of_edition_5, of_exchanges) = later.split_at(BAR_VERDICTS.len());
    let of_editions: [(&[Row], &[List]); 5] = [
        (of_edition_1, &LISTS),
        (of_edition_2, &REACTIVE_LISTS),
        (of_edition_3, &FLOOR_LISTS),
        (of_edition_5, &BAR_LISTS),
        (of_exchanges, &EXCHANGE_LISTS),
    ];
    let with_lists = of_editions.into_iter().flat_map(|(rows, lists)| {
        let last = &rows[rows.len() - lists.len()..];
        last.iter().zip(lists)
    });
    for (row, list) in with_lists {
        assert_eq!(row.list(), list.concat(), "{}", row.about);
        let list_hex: String = list.iter().flatten().map(|b| format!("{b:02x}")).collect();
        let printed = format!("{} {list_hex}", row.printed());
        assert_eq!(row.printed_with_list(), printed);
    }
}

/// Only a broken row has a list, and it begins with the breach that the verdict names.
#[test]
fn lists_begin_with_the_verdict() {
    for row in rows(1, 8) {
        let list = row.list();
        let named = match row.judged().0 {
            Verdict::Broken(place) => bytes_of(&[place]),
            _ => Vec::new(),
        };
        assert!(list.starts_with(&named) && list.is_empty() == named.is_empty());
        let is_longer = row.printed_with_list() != row.printed();
        assert_eq!(is_longer, !list.is_empty());
    }
}

/// Small enough to be worked out by hand; the paper's worked case has 210 bytes, in edition 2 and
/// with a zone 278, in edition 3 290, in edition 4 291, in edition 5 293.
const MOST_CASE_BYTES: usize = 293;

#[test]
fn rows_reach_every_rule_and_every_refusal() {
    let mut reached = BTreeSet::new();
    for row in rows(1, 8) {
        assert!((1..=MOST_CASE_BYTES).contains(&row.case.len()) && !row.plan.is_empty());
        reached.insert(match row.judged().0 {
            Verdict::Accepted { .. } => ("accepted", 0),
            Verdict::Broken(place) => ("rule", place.rule),
            Verdict::Refused(Refusal::Case(fault)) => ("case", fault.number.figure()),
            Verdict::Refused(Refusal::Plan(fault)) => ("plan", fault.number.figure()),
            Verdict::Refused(Refusal::BufferTooShort { .. }) => ("buffer", 7),
        });
    }
    assert!((1..=27).all(|rule| reached.contains(&("rule", rule))));
    assert!((1..=6).all(|number| reached.contains(&("case", number))));
    assert!([1, 2, 3, 4, 6]
        .iter()
        .all(|&number| reached.contains(&("plan", number))));
    assert!(reached.contains(&("accepted", 0)));
}
