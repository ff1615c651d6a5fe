//! What each bar is given and takes in an interval, real and reactive.

use crate::day::Day;

/// What one bar is given and takes; the DC link's flow is among it.
#[derive(Clone, Copy, PartialEq, Eq, Debug, Default)]
pub struct Balance {
    pub given: i64,
    pub taken: i64,
}

impl Balance {
    pub fn mismatch(self) -> i64 {
        (self.taken - self.given).abs()
    }

    /// Adds a figure to one side; below 0 it is on the other.
    fn add(&mut self, figure: i64, is_taken: bool) {
        if is_taken == (figure >= 0) {
            self.taken += figure.abs();
        } else {
            self.given += figure.abs();
        }
    }
}

/// Power p of each interval and device.
pub fn powers(day: &Day) -> Vec<Vec<i64>> {
    let power = |t: usize, j: usize| day.point(t + 1, j + 1).map_or(0, |point| point.power());
    let devices = day.case.devices.len();
    (0..day.case.intervals.len())
        .map(|t| (0..devices).map(|j| power(t, j)).collect())
        .collect()
}

/// For each interval bar 0 and bar 1, in kW; before edition 5 all is on bar 0.
pub fn balances(day: &Day, powers: &[Vec<i64>]) -> Vec<[Balance; 2]> {
    let of = |(row, powers): (&crate::messages::Row, &Vec<i64>)| {
        let mut bars = [Balance::default(); 2];
        for (device, power) in day.case.devices.iter().zip(powers) {
            bars[device.bar as usize].add(*power, device.consuming);
        }
        bars[0].add(row.flow, true);
        bars[1].add(row.flow, false);
        bars
    };
    day.plan.rows.iter().zip(powers).map(of).collect()
}

/// The same of reactive power, in kvar, which the link does not carry.
pub fn reactive_balances(day: &Day) -> Vec<[Balance; 2]> {
    let of = |row: &crate::messages::Row| {
        let mut bars = [Balance::default(); 2];
        for (device, setting) in day.case.devices.iter().zip(&row.settings) {
            bars[device.bar as usize].add(setting.reactive.q, device.consuming);
        }
        bars
    };
    day.plan.rows.iter().map(of).collect()
}
