//! What the messages hold. Power kW, reactive power kvar, time minutes, money grains.
//!
//! What an edition's messages lack is neutral: reactive figures 0, prices of a reactive shortfall 1,
//! no link, floors 0, every device on bar 0, link limit and flows 0.

/// The newest edition.
pub const NEWEST_EDITION: i64 = 5;
/// The edition that brought reactive power.
pub const REACTIVE: i64 = 2;
/// The edition that brought floors.
pub const FLOORS: i64 = 3;
/// The edition that brought larger days.
pub const LARGER: i64 = 4;
/// The edition that brought a second bar.
pub const BARS: i64 = 5;

/// The reserves of a device: the eight, then the two reactive ones.
pub const RESERVES: [&str; 10] = [
    "rgu", "rgd", "scr", "nsc", "rru_on", "rru_off", "rrd_on", "rrd_off", "qru", "qrd",
];
/// How many of them are of real power.
pub const REAL_RESERVES: usize = 8;
/// What a zone needs: the first four by shares, the others by minima; the last two are reactive.
pub const NEEDS: [&str; 8] = ["rgu", "rgd", "scr", "nsc", "rru", "rrd", "qru", "qrd"];
/// How many of them go by shares.
pub const SHARED_NEEDS: usize = 4;
/// How many of them are of real power.
pub const REAL_NEEDS: usize = 6;
/// Blocks of a device in an interval, at most.
pub const MOST_BLOCKS: usize = 4;
/// Zones of a case, at most.
pub const MOST_ZONES: usize = 4;

/// How many of `NEEDS` an edition has.
pub fn needs_of(edition: i64) -> usize {
    if edition < REACTIVE {
        REAL_NEEDS
    } else {
        NEEDS.len()
    }
}

/// How many of `RESERVES` an edition has.
pub fn reserves_of(edition: i64) -> usize {
    if edition < REACTIVE {
        REAL_RESERVES
    } else {
        RESERVES.len()
    }
}

/// How many bars an edition has.
pub fn bars_of(edition: i64) -> usize {
    if edition < BARS {
        1
    } else {
        2
    }
}

/// What a message is, by its first four bits.
#[derive(Clone, Copy, PartialEq, Eq, Debug)]
pub enum Kind {
    Case,
    Plan,
    Completion,
    MarketCopy,
}

impl Kind {
    pub const ALL: [Kind; 4] = [Kind::Case, Kind::Plan, Kind::Completion, Kind::MarketCopy];

    /// Its number in a message.
    pub fn number(self) -> i64 {
        1 + self as i64
    }

    /// What a message says to be.
    pub fn of(message: &[u8]) -> Option<Kind> {
        let number = i64::from(message.first()? >> 4);
        Kind::ALL.into_iter().find(|kind| kind.number() == number)
    }

    pub fn name(self) -> &'static str {
        match self {
            Kind::Case => "case",
            Kind::Plan => "plan",
            Kind::Completion => "completion",
            Kind::MarketCopy => "market copy",
        }
    }
}

/// A day to be planned.
#[derive(Clone, PartialEq, Eq, Debug, Default)]
pub struct Case {
    pub edition: i64,
    pub zones: Vec<Zone>,
    pub mismatch_price: i64,
    pub overrun_price: i64,
    /// The most that flows between the bars, either way.
    pub link_limit: i64,
    pub intervals: Vec<Interval>,
    pub devices: Vec<Device>,
}

impl Case {
    /// Whether the messages of its edition have reactive figures.
    pub fn has_reactive_power(&self) -> bool {
        self.edition >= REACTIVE
    }

    /// Whether the blocks of its edition have floors.
    pub fn has_floors(&self) -> bool {
        self.edition >= FLOORS
    }

    /// Whether its edition has two bars.
    pub fn has_bars(&self) -> bool {
        self.edition >= BARS
    }

    pub fn bars(&self) -> usize {
        bars_of(self.edition)
    }

    /// The minutes at which intervals start, and the end of the day.
    pub fn moments(&self) -> Vec<i64> {
        let ends = self.intervals.iter().map(|interval| interval.end);
        [0].into_iter().chain(ends).collect()
    }

    /// How many energy windows all devices have together.
    pub fn energy_windows(&self) -> usize {
        let windows = self
            .devices
            .iter()
            .map(|device| device.energy_windows.len());
        windows.sum()
    }

    /// A device by its number from 1, with its name where it has one.
    pub fn device_name(&self, j: usize) -> String {
        let number = j + 1;
        match self.devices.get(j).map(|device| device.name.as_str()) {
            None | Some("") => format!("set {number}"),
            Some(name) => format!("{number} {name}"),
        }
    }
}

/// What the case says of a zone.
#[derive(Clone, PartialEq, Eq, Debug)]
pub struct Zone {
    /// Thousandths, of the needs that go by shares.
    pub shares: [i64; SHARED_NEEDS],
    /// Of a shortfall, per W min, of qru and qrd per var min.
    pub prices: [i64; NEEDS.len()],
    /// Per interval, of rru, rrd, qru, qrd.
    pub minima: Vec<[i64; NEEDS.len() - SHARED_NEEDS]>,
}

impl Default for Zone {
    fn default() -> Zone {
        Zone {
            shares: [0; SHARED_NEEDS],
            prices: [1; NEEDS.len()],
            minima: Vec::new(),
        }
    }
}

/// S and E of an interval.
#[derive(Clone, Copy, PartialEq, Eq, Debug, Default)]
pub struct Interval {
    pub start: i64,
    pub end: i64,
}

impl Interval {
    pub fn minutes(self) -> i64 {
        self.end - self.start
    }
}

/// Intervals of so many minutes, one behind the other.
pub fn intervals_of(minutes: &[i64]) -> Vec<Interval> {
    let mut end = 0;
    let mut next = |minutes: &i64| {
        let start = end;
        end += minutes;
        Interval { start, end }
    };
    minutes.iter().map(&mut next).collect()
}

/// A figure for each of the eight reserves, in the order of [`Reserve`].
pub type Eight = [i64; REAL_RESERVES];

/// The eight reserves, in the order of the messages.
#[derive(Clone, Copy, PartialEq, Eq, Debug)]
pub enum Reserve {
    Rgu,
    Rgd,
    Scr,
    Nsc,
    RruOn,
    RruOff,
    RrdOn,
    RrdOff,
}

impl Reserve {
    pub fn name(self) -> &'static str {
        RESERVES[self as usize]
    }
}

#[derive(Clone, PartialEq, Eq, Debug, Default)]
pub struct Device {
    /// Of the text form alone; messages have none.
    pub name: String,
    pub consuming: bool,
    /// Membership in zones 1 to 4.
    pub in_zone: [bool; MOST_ZONES],
    pub initially_on: bool,
    pub initial_power: i64,
    pub minutes_already_so: i64,
    pub minimum_up: i64,
    pub minimum_down: i64,
    pub up_ramp: i64,
    pub down_ramp: i64,
    pub starting_ramp: i64,
    pub stopping_ramp: i64,
    pub on_cost: i64,
    pub start_cost: i64,
    pub stop_cost: i64,
    pub reserve_limits: Eight,
    pub startup_states: Vec<StartupState>,
    pub start_windows: Vec<StartWindow>,
    pub energy_windows: Vec<EnergyWindow>,
    pub link: Link,
    /// 0 or 1.
    pub bar: i64,
    /// Per interval.
    pub cells: Vec<Cell>,
}

#[derive(Clone, Copy, PartialEq, Eq, Debug, Default)]
pub struct StartupState {
    pub longest_downtime: i64,
    pub cost: i64,
}

#[derive(Clone, Copy, PartialEq, Eq, Debug, Default)]
pub struct StartWindow {
    pub start: i64,
    pub end: i64,
    pub most_starts: i64,
}

#[derive(Clone, Copy, PartialEq, Eq, Debug, Default)]
pub struct EnergyWindow {
    /// Whether the energy is a least one; else a most one.
    pub is_minimum: bool,
    pub start: i64,
    pub end: i64,
    /// kW min.
    pub energy: i64,
}

/// What holds a device's reactive power to its power.
#[derive(Clone, Copy, PartialEq, Eq, Debug, Default)]
pub enum Link {
    #[default]
    None,
    TwoLines {
        upper: Line,
        lower: Line,
    },
    Equality(Line),
}

/// An offset in kvar and a slope in thousandths.
#[derive(Clone, Copy, PartialEq, Eq, Debug, Default)]
pub struct Line {
    pub offset: i64,
    pub slope: i64,
}

/// What the case says of a device in an interval.
#[derive(Clone, PartialEq, Eq, Debug, Default)]
pub struct Cell {
    /// Whether the device must be on; `None` where it is free.
    pub fixed: Option<bool>,
    pub pmin: i64,
    pub pmax: i64,
    pub blocks: Vec<Block>,
    /// Of the reserves, in the order of `RESERVES`.
    pub prices: [i64; RESERVES.len()],
    pub qmin: i64,
    pub qmax: i64,
}

impl Cell {
    pub fn caps(&self) -> Vec<i64> {
        self.blocks.iter().map(|block| block.cap).collect()
    }

    pub fn floors(&self) -> Vec<i64> {
        self.blocks.iter().map(|block| block.floor).collect()
    }
}

#[derive(Clone, Copy, PartialEq, Eq, Debug, Default)]
pub struct Block {
    pub cap: i64,
    /// Binds while the device is on.
    pub floor: i64,
    pub price: i64,
}

/// What a plan sets, by interval.
#[derive(Clone, PartialEq, Eq, Debug, Default)]
pub struct Plan {
    pub edition: i64,
    pub rows: Vec<Row>,
}

/// What a plan sets in an interval.
#[derive(Clone, PartialEq, Eq, Debug, Default)]
pub struct Row {
    /// Per device.
    pub settings: Vec<Setting>,
    /// From bar 0 to bar 1.
    pub flow: i64,
}

#[derive(Clone, Copy, PartialEq, Eq, Debug, Default)]
pub struct Setting {
    pub on: bool,
    pub online: i64,
    pub reserves: Eight,
    pub reactive: Reactive,
}

impl Setting {
    /// A reserve by its place in `RESERVES`.
    pub fn reserve(&self, index: usize) -> i64 {
        match index.checked_sub(REAL_RESERVES) {
            None => self.reserves[index],
            Some(0) => self.reactive.qru,
            Some(_) => self.reactive.qrd,
        }
    }

    /// The same, to be set.
    pub fn reserve_mut(&mut self, index: usize) -> &mut i64 {
        match index.checked_sub(REAL_RESERVES) {
            None => &mut self.reserves[index],
            Some(0) => &mut self.reactive.qru,
            Some(_) => &mut self.reactive.qrd,
        }
    }
}

/// q and the two reactive reserves.
#[derive(Clone, Copy, PartialEq, Eq, Debug, Default)]
pub struct Reactive {
    pub q: i64,
    pub qru: i64,
    pub qrd: i64,
}

/// What a completion or a market copy holds.
#[derive(Clone, PartialEq, Eq, Debug, Default)]
pub struct Outcome {
    pub edition: i64,
    /// By interval.
    pub rows: Vec<Chosen>,
    /// Of the energy windows, by device, then window.
    pub overruns: Vec<i64>,
    /// Of a completion.
    pub surplus: Option<i64>,
}

/// What is chosen in an interval.
#[derive(Clone, PartialEq, Eq, Debug, Default)]
pub struct Chosen {
    /// Per device.
    pub choices: Vec<Choice>,
    /// Per zone, in W, of qru and qrd in var.
    pub shortfalls: Vec<[i64; NEEDS.len()]>,
    /// Of each bar, in kW.
    pub mismatches: [i64; 2],
    /// Of each bar, in kvar.
    pub reactive_mismatches: [i64; 2],
}

/// What is chosen for a device in an interval; a market copy has no state and no blocks.
#[derive(Clone, Copy, PartialEq, Eq, Debug, Default)]
pub struct Choice {
    pub started: bool,
    pub stopped: bool,
    /// From 1; 0 where there is none.
    pub state: i64,
    pub blocks: [i64; MOST_BLOCKS],
}
