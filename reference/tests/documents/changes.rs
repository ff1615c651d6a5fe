//! What CHANGES says of answers before and since request A.3, by both energy rules.

use reference::energy::EnergyRule;
use reference::judge::{find_by, Finding};

use crate::figures::Days;
use crate::names::document;
use crate::text::{printed, tables};
use crate::CHANGES;

#[test]
fn answers_before_and_since_are_as_printed() {
    let days = Days::read();
    let all = tables(&document(CHANGES)).into_iter();
    let table = all.filter(|table| table.header == ["Day", "Changes", "Since", "Before"]);
    let rows: Vec<Vec<String>> = table.flat_map(|table| table.rows).collect();
    assert!(rows.len() >= 3);
    for row in rows {
        let day = days.day(&row[0], &row[1]).expect("a day").day;
        let by = |rule| match find_by(rule, day.edition, &day.case, &day.plan) {
            Finding::Accepted { surplus, .. } => printed(surplus),
            Finding::Broken(place) => panic!("{place:?}"),
        };
        assert_eq!(row[2], by(EnergyRule::ByMinute), "{}", row[1]);
        assert_eq!(row[3], by(EnergyRule::ByMidpoint), "{}", row[1]);
    }
}
