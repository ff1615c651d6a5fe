//! A case with a plan of it, and the figures that both force: starts and stops, startup and
//! shutdown power.

use crate::messages::{read_case, read_plan, Case, Cell, Device, Interval, Plan, Reserve, Setting};

pub struct Day {
    pub case: Case,
    pub plan: Plan,
}

impl Day {
    /// The day of two messages that passed reading.
    pub fn read(case: &[u8], plan: &[u8]) -> Option<Day> {
        let case = read_case(case)?;
        let plan = read_plan(&case, plan)?;
        Some(Day { case, plan })
    }

    /// One device in one interval, both counted from 1 as in a breach.
    pub fn point(&self, interval: usize, device: usize) -> Option<Point<'_>> {
        let (t, j) = (interval.checked_sub(1)?, device.checked_sub(1)?);
        let is_there = t < self.case.intervals.len() && j < self.case.devices.len();
        is_there.then_some(Point { day: self, t, j })
    }

    /// The flow from bar 0 to bar 1 in an interval, counted from 1 as in a breach.
    pub fn flow(&self, interval: usize) -> Option<i64> {
        let row = self.plan.rows.get(interval.checked_sub(1)?)?;
        Some(row.flow)
    }
}

/// One device in one interval, both counted from 0.
#[derive(Clone, Copy)]
pub struct Point<'a> {
    day: &'a Day,
    t: usize,
    j: usize,
}

impl<'a> Point<'a> {
    pub fn device(self) -> &'a Device {
        &self.day.case.devices[self.j]
    }

    pub fn cell(self) -> &'a Cell {
        &self.device().cells[self.t]
    }

    pub fn setting(self) -> &'a Setting {
        &self.day.plan.rows[self.t].settings[self.j]
    }

    pub fn reserve(self, reserve: Reserve) -> i64 {
        self.setting().reserves[reserve as usize]
    }

    pub fn time(self) -> Interval {
        self.day.case.intervals[self.t]
    }

    pub fn duration(self) -> i64 {
        self.time().end - self.time().start
    }

    /// The interval's number, from 1.
    pub fn interval(self) -> usize {
        self.t + 1
    }

    /// The device in the interval before; `None` in the first.
    fn before(self) -> Option<Point<'a>> {
        let t = self.t.checked_sub(1)?;
        Some(Point { t, ..self })
    }

    /// The device in the intervals before, the latest first.
    pub fn earlier(self) -> impl Iterator<Item = Point<'a>> {
        (0..self.t).rev().map(move |t| Point { t, ..self })
    }

    fn later(self) -> impl Iterator<Item = Point<'a>> {
        (self.t + 1..self.day.case.intervals.len()).map(move |t| Point { t, ..self })
    }

    pub fn on(self) -> bool {
        self.setting().on
    }

    fn was_on(self) -> bool {
        self.before()
            .map_or(self.device().initially_on, |before| before.on())
    }

    /// su.
    pub fn starts(self) -> bool {
        self.on() && !self.was_on()
    }

    /// sd.
    pub fn stops(self) -> bool {
        !self.on() && self.was_on()
    }

    /// What each later start leaves of its pmin here, where above 0.
    fn startup_terms(self) -> impl Iterator<Item = i64> + 'a {
        let starts = self.later().filter(|start| start.starts());
        let left = starts.map(move |start| {
            let lead = start.time().end - self.time().end;
            start.cell().pmin - self.device().starting_ramp * lead
        });
        left.filter(|&power| power > 0)
    }

    /// What each stop so far leaves here of pmin in the interval before it, where above 0.
    fn shutdown_terms(self) -> impl Iterator<Item = i64> + 'a {
        let stops = self.earlier().chain([self]).filter(|stop| stop.stops());
        let left = stops.map(move |stop| {
            let from = stop
                .before()
                .map_or(self.device().initial_power, |before| before.cell().pmin);
            from - self.device().stopping_ramp * (self.time().end - stop.time().start)
        });
        left.filter(|&power| power > 0)
    }

    /// psu.
    pub fn startup_power(self) -> i64 {
        self.startup_terms().sum()
    }

    /// psd.
    pub fn shutdown_power(self) -> i64 {
        self.shutdown_terms().sum()
    }

    /// u, later starts with power here and stops so far with power here: together n, how often
    /// reactive limits and offsets count.
    pub fn counted(self) -> [i64; 3] {
        [
            i64::from(self.on()),
            self.startup_terms().map(|_| 1).sum(),
            self.shutdown_terms().map(|_| 1).sum(),
        ]
    }

    /// p.
    pub fn power(self) -> i64 {
        self.setting().online + self.startup_power() + self.shutdown_power()
    }

    /// p in the interval before, initial power in the first.
    pub fn previous_power(self) -> i64 {
        self.before()
            .map_or(self.device().initial_power, |before| before.power())
    }
}
