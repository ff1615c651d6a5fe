//! The case: its figures and its reading ("Messages", paragraph **Case**, A.1, A.6, A.8 and
//! A.12).

use crate::bits::FieldReader;
use crate::edition::{read_edition, Edition};
use crate::fault::Fault;
use crate::form::Form;

pub const KIND_CASE: i128 = 1;
pub const MOST_ZONES: usize = 4;
/// Startup states of a device: "Three becomes the limit in every edition." (A.4)
pub const MOST_STATES: usize = 3;
/// Start windows and energy windows of a device, blocks of an interval.
pub const MOST_ITEMS: usize = 4;
/// Busbars: bar 0 and bar 1, joined by a DC link (A.12).
pub const BARS: usize = 2;
/// Shortfalls of a zone, those of reactive reserves included.
pub const MOST_SHORTFALLS: usize = 8;
/// Minima of a zone in an interval, those of reactive reserves included.
pub const MOST_MINIMA: usize = 4;
/// The price of a reactive shortfall where the edition has none: the least that is in range.
const NEUTRAL_PRICE: i128 = 1;

/// A day to be planned. Power kW, reactive power kvar, time minutes, energy kW·min, money grains.
///
/// Where an edition's messages lack a figure, it has its neutral value: reactive limits, prices and
/// minima 0, prices of reactive shortfalls 1, no link, "floors of 0", "the sets of older editions on
/// bar 0, limit 0".
#[derive(Clone, PartialEq, Eq, Debug)]
pub struct Case {
    pub mismatch_price: i128,
    pub overrun_price: i128,
    /// The most kW that may flow between the bars, either way.
    pub link_limit: i128,
    pub durations: Vec<i128>,
    pub zones: Vec<Zone>,
    pub devices: Vec<Device>,
}

/// A reserve zone.
#[derive(Clone, PartialEq, Eq, Debug)]
pub struct Zone {
    /// Thousandths, for rgu, rgd, scr, nsc.
    pub shares: [i128; 4],
    /// Per W·min, for rgu, rgd, scr, nsc, rru, rrd; then per var·min, for qru, qrd.
    pub shortfall_prices: [i128; MOST_SHORTFALLS],
    /// Per interval, the rru and the rrd minimum in kW, the qru and the qrd minimum in kvar.
    pub minima: Vec<[i128; MOST_MINIMA]>,
}

impl Zone {
    /// A zone that needs nothing, with prices of 1.
    pub fn plain(intervals: usize) -> Zone {
        Zone {
            shares: [0; 4],
            shortfall_prices: [1; MOST_SHORTFALLS],
            minima: vec![[0; MOST_MINIMA]; intervals],
        }
    }

    fn has_reactive_power(&self) -> bool {
        let [_, _, _, _, _, _, qru_price, qrd_price] = self.shortfall_prices;
        [qru_price, qrd_price] != [NEUTRAL_PRICE; 2]
            || self.minima.iter().any(|[_, _, qru, qrd]| qru + qrd > 0)
    }
}

#[derive(Clone, Copy, PartialEq, Eq, Debug)]
pub enum Side {
    Producing,
    Consuming,
}

/// One figure for each of the eight reserve products: limits, prices or amounts.
#[derive(Clone, Copy, PartialEq, Eq, Debug, Default)]
pub struct Reserves {
    pub rgu: i128,
    pub rgd: i128,
    pub scr: i128,
    pub nsc: i128,
    pub rru_on: i128,
    pub rru_off: i128,
    pub rrd_on: i128,
    pub rrd_off: i128,
}

impl Reserves {
    /// From "the eight, in order".
    pub fn from_order(eight: [i128; 8]) -> Reserves {
        let [rgu, rgd, scr, nsc, rru_on, rru_off, rrd_on, rrd_off] = eight;
        Reserves {
            rgu,
            rgd,
            scr,
            nsc,
            rru_on,
            rru_off,
            rrd_on,
            rrd_off,
        }
    }

    /// "The eight, in order".
    pub fn in_order(&self) -> [i128; 8] {
        [
            self.rgu,
            self.rgd,
            self.scr,
            self.nsc,
            self.rru_on,
            self.rru_off,
            self.rrd_on,
            self.rrd_off,
        ]
    }
}

/// One figure for each of the two reactive reserves, "up before down": prices or amounts.
#[derive(Clone, Copy, PartialEq, Eq, Debug, Default)]
pub struct ReactiveReserves {
    pub qru: i128,
    pub qrd: i128,
}

impl ReactiveReserves {
    pub fn from_order([qru, qrd]: [i128; 2]) -> ReactiveReserves {
        ReactiveReserves { qru, qrd }
    }

    pub fn in_order(&self) -> [i128; 2] {
        [self.qru, self.qrd]
    }
}

/// A line that bounds reactive power by real power: "an offset (18, ±100,000) and a slope in
/// thousandths (15, ±10,000)".
#[derive(Clone, Copy, PartialEq, Eq, Debug)]
pub struct LinkLine {
    pub offset: i128,
    pub slope: i128,
}

/// What links a device's reactive power to its real power: "a link kind (2 bits: 0 none, 1 two
/// lines, 2 equality)".
#[derive(Clone, Copy, PartialEq, Eq, Debug, Default)]
pub enum Link {
    #[default]
    None,
    TwoLines {
        upper: LinkLine,
        lower: LinkLine,
    },
    Equality(LinkLine),
}

/// Ramps in kW/min.
#[derive(Clone, Copy, PartialEq, Eq, Debug)]
pub struct Ramps {
    pub up: i128,
    pub down: i128,
    pub starting: i128,
    pub stopping: i128,
}

/// A startup state.
#[derive(Clone, Copy, PartialEq, Eq, Debug)]
pub struct StartupState {
    pub longest_downtime: i128,
    pub cost: i128,
}

#[derive(Clone, Copy, PartialEq, Eq, Debug)]
pub struct StartWindow {
    pub start: i128,
    pub end: i128,
    pub most_starts: i128,
}

#[derive(Clone, Copy, PartialEq, Eq, Debug)]
pub enum EnergyKind {
    Maximum,
    Minimum,
}

#[derive(Clone, Copy, PartialEq, Eq, Debug)]
pub struct EnergyWindow {
    pub kind: EnergyKind,
    pub start: i128,
    pub end: i128,
    pub energy: i128,
}

#[derive(Clone, Copy, PartialEq, Eq, Debug, Default)]
pub enum Status {
    #[default]
    Free,
    On,
    Off,
}

/// A price block.
#[derive(Clone, Copy, PartialEq, Eq, Debug)]
pub struct Block {
    pub cap: i128,
    /// "While u = 1 each block power is at least its floor; while u = 0 floors don't bind."
    pub floor: i128,
    pub price: i128,
}

impl Block {
    /// A block with a floor of 0.
    pub fn plain(cap: i128, price: i128) -> Block {
        Block {
            cap,
            floor: 0,
            price,
        }
    }
}

/// What the case says of one device in one interval.
#[derive(Clone, PartialEq, Eq, Debug, Default)]
pub struct Terms {
    pub status: Status,
    pub pmin: i128,
    pub pmax: i128,
    pub blocks: Vec<Block>,
    pub reserve_prices: Reserves,
    pub qmin: i128,
    pub qmax: i128,
    pub reactive_prices: ReactiveReserves,
}

impl Terms {
    pub fn sum_of_caps(&self) -> i128 {
        self.blocks.iter().map(|block| block.cap).sum()
    }

    pub fn sum_of_floors(&self) -> i128 {
        self.blocks.iter().map(|block| block.floor).sum()
    }
}

#[derive(Clone, PartialEq, Eq, Debug)]
pub struct Device {
    pub side: Side,
    /// Membership in zones 1 to 4.
    pub zone_bits: [bool; MOST_ZONES],
    pub initially_on: bool,
    pub initial_power: i128,
    pub minutes_already_so: i128,
    pub minimum_up: i128,
    pub minimum_down: i128,
    pub ramps: Ramps,
    pub on_cost: i128,
    pub start_cost: i128,
    pub stop_cost: i128,
    pub reserve_limits: Reserves,
    pub startup_states: Vec<StartupState>,
    pub start_windows: Vec<StartWindow>,
    pub energy_windows: Vec<EnergyWindow>,
    pub link: Link,
    /// 0 or 1.
    pub bar: usize,
    /// Per interval.
    pub terms: Vec<Terms>,
}

impl Device {
    /// A device that is off: ramps 100, reserve limits 20, no other figure.
    pub fn plain(side: Side, terms: Vec<Terms>) -> Device {
        Device {
            side,
            zone_bits: [false; 4],
            initially_on: false,
            initial_power: 0,
            minutes_already_so: 0,
            minimum_up: 0,
            minimum_down: 0,
            ramps: Ramps {
                up: 100,
                down: 100,
                starting: 100,
                stopping: 100,
            },
            on_cost: 0,
            start_cost: 0,
            stop_cost: 0,
            reserve_limits: Reserves::from_order([20; 8]),
            startup_states: Vec::new(),
            start_windows: Vec::new(),
            energy_windows: Vec::new(),
            link: Link::None,
            bar: 0,
            terms,
        }
    }

    fn has_reactive_power(&self) -> bool {
        self.link != Link::None
            || self.terms.iter().any(|terms| {
                (terms.qmin, terms.qmax) != (0, 0)
                    || terms.reactive_prices != ReactiveReserves::default()
            })
    }
}

impl Case {
    pub fn intervals(&self) -> usize {
        self.durations.len()
    }

    /// Whether any block has a floor above 0.
    pub fn has_floors(&self) -> bool {
        let terms = self.devices.iter().flat_map(|device| &device.terms);
        terms.map(Terms::sum_of_floors).any(|floors| floors > 0)
    }

    /// Whether any figure of A.12 has another than its neutral value.
    pub fn has_bars(&self) -> bool {
        self.link_limit != 0 || self.devices.iter().any(|device| device.bar != 0)
    }

    /// Whether any figure of A.1 has another than its neutral value.
    pub fn has_reactive_power(&self) -> bool {
        self.zones.iter().any(Zone::has_reactive_power)
            || self.devices.iter().any(Device::has_reactive_power)
    }
}

/// Reads a case and its edition in the host form, or gives back its first fault.
pub fn read_case(message: &[u8]) -> Result<(Edition, Case), Fault> {
    read_case_in(Form::HOST, message)
}

/// The same in a form, which takes no larger day than it can hold.
pub fn read_case_in(form: Form, message: &[u8]) -> Result<(Edition, Case), Fault> {
    let mut fields = FieldReader::new(message);
    fields.fixed(4, KIND_CASE)?;
    let edition = read_edition(&mut fields)?;
    let case = read_content(&mut fields, form, edition)?;
    fields.finish()?;
    Ok((edition, case))
}

fn read_content(fields: &mut FieldReader, form: Form, edition: Edition) -> Result<Case, Fault> {
    let largest = edition.largest().within(form.largest);
    let devices = fields.count(edition.devices().width, 1, largest.devices)?;
    let intervals = fields.count(edition.intervals().width, 1, largest.intervals)?;
    let zones = fields.count(edition.zones().width, 0, edition.zones().most)?;
    let mismatch_price = fields.figure(14, 1, 10_000)?;
    let overrun_price = fields.figure(14, 1, 10_000)?;
    let link_limit = read_link_limit(fields, edition)?;
    let durations = list(intervals, || Ok(2 * fields.figure(8, 1, 180)?))?;
    let frame = Frame {
        edition,
        intervals,
        zones,
        last_end: durations.iter().sum(),
    };
    Ok(Case {
        mismatch_price,
        overrun_price,
        link_limit,
        durations,
        zones: list(zones, || read_zone(fields, &frame))?,
        devices: list(devices, || read_device(fields, &frame))?,
    })
}

/// "the case a link limit (17 bits, after the overrun price)".
fn read_link_limit(fields: &mut FieldReader, edition: Edition) -> Result<i128, Fault> {
    if edition.has_bars() {
        fields.power()
    } else {
        Ok(0)
    }
}

/// What the reading of a zone or a device needs of the fields before it.
struct Frame {
    edition: Edition,
    intervals: usize,
    zones: usize,
    last_end: i128,
}

fn list<T>(count: usize, mut read: impl FnMut() -> Result<T, Fault>) -> Result<Vec<T>, Fault> {
    (0..count).map(|_| read()).collect()
}

fn array<const N: usize>(read: impl FnMut() -> Result<i128, Fault>) -> Result<[i128; N], Fault> {
    leading(N, 0, read)
}

/// The first `count` figures as they are read, those behind them neutral: an edition's messages
/// lack them.
fn leading<const N: usize>(
    count: usize,
    neutral: i128,
    mut read: impl FnMut() -> Result<i128, Fault>,
) -> Result<[i128; N], Fault> {
    let mut figures = [neutral; N];
    for figure in &mut figures[..count] {
        *figure = read()?;
    }
    Ok(figures)
}

/// "Zones gain two minima in kvar and two prices, with rru's widths and ranges".
fn read_zone(fields: &mut FieldReader, frame: &Frame) -> Result<Zone, Fault> {
    let Frame {
        edition, intervals, ..
    } = *frame;
    Ok(Zone {
        shares: array(|| fields.figure(10, 0, 1_000))?,
        shortfall_prices: leading(edition.shortfalls(), NEUTRAL_PRICE, || {
            fields.figure(7, 1, 100)
        })?,
        minima: list(intervals, || {
            leading(edition.minima(), 0, || fields.figure(23, 0, 6_400_000))
        })?,
    })
}

fn read_device(fields: &mut FieldReader, frame: &Frame) -> Result<Device, Fault> {
    let edition = frame.edition;
    Ok(Device {
        side: read_side(fields)?,
        zone_bits: read_zone_bits(fields, frame.zones)?,
        initially_on: fields.flag()?,
        initial_power: fields.power()?,
        minutes_already_so: fields.figure(16, 0, 60_000)?,
        minimum_up: fields.figure(16, 0, 60_000)?,
        minimum_down: fields.figure(16, 0, 60_000)?,
        ramps: read_ramps(fields)?,
        on_cost: fields.figure(17, 0, 100_000)?,
        start_cost: fields.figure(30, 0, 1_000_000_000)?,
        stop_cost: fields.figure(30, 0, 1_000_000_000)?,
        reserve_limits: Reserves::from_order(array(|| fields.power())?),
        startup_states: list(fields.count(3, 0, MOST_STATES)?, || {
            read_startup_state(fields)
        })?,
        start_windows: list(fields.count(3, 0, MOST_ITEMS)?, || {
            read_start_window(fields, frame)
        })?,
        energy_windows: list(fields.count(3, 0, MOST_ITEMS)?, || {
            read_energy_window(fields, frame.last_end)
        })?,
        link: read_link(fields, edition)?,
        bar: read_bar(fields, edition)?,
        terms: list(frame.intervals, || read_terms(fields, edition))?,
    })
}

fn read_side(fields: &mut FieldReader) -> Result<Side, Fault> {
    Ok(if fields.flag()? {
        Side::Consuming
    } else {
        Side::Producing
    })
}

/// "zone bits 4, zone 1 first"; "zone bit above the zone count (that field)" is number 5.
fn read_zone_bits(fields: &mut FieldReader, zones: usize) -> Result<[bool; MOST_ZONES], Fault> {
    let first_bit = fields.place();
    let value = fields.unbounded(4)?;
    let bits = [8, 4, 2, 1].map(|weight| value & weight != 0);
    if bits[zones..].contains(&true) {
        fields.contradiction_at(first_bit);
    }
    Ok(bits)
}

fn read_ramps(fields: &mut FieldReader) -> Result<Ramps, Fault> {
    let [up, down, starting, stopping] = array(|| fields.figure(17, 1, 100_000))?;
    Ok(Ramps {
        up,
        down,
        starting,
        stopping,
    })
}

fn read_startup_state(fields: &mut FieldReader) -> Result<StartupState, Fault> {
    Ok(StartupState {
        longest_downtime: fields.figure(16, 0, 60_000)?,
        cost: fields.signed(31, 1_000_000_000)?,
    })
}

/// The start and end of a window; "window start after end; window end after the last E" are
/// number 5 at the later field, the end.
fn read_span(fields: &mut FieldReader, last_end: i128) -> Result<(i128, i128), Fault> {
    let start = fields.unbounded(16)?;
    let first_bit_of_end = fields.place();
    let end = fields.unbounded(16)?;
    if start > end || end > last_end {
        fields.contradiction_at(first_bit_of_end);
    }
    Ok((start, end))
}

fn read_start_window(fields: &mut FieldReader, frame: &Frame) -> Result<StartWindow, Fault> {
    let (start, end) = read_span(fields, frame.last_end)?;
    let most_starts = frame.edition.most_starts();
    Ok(StartWindow {
        start,
        end,
        most_starts: fields.figure(most_starts.width, 0, most_starts.most as i128)?,
    })
}

fn read_energy_window(fields: &mut FieldReader, last_end: i128) -> Result<EnergyWindow, Fault> {
    let kind = if fields.flag()? {
        EnergyKind::Minimum
    } else {
        EnergyKind::Maximum
    };
    let (start, end) = read_span(fields, last_end)?;
    Ok(EnergyWindow {
        kind,
        start,
        end,
        energy: fields.figure(32, 0, 4_000_000_000)?,
    })
}

/// "Per device comes a link kind (2 bits: 0 none, 1 two lines, 2 equality), then per line, upper
/// before lower, the equality once, an offset [...] and a slope". A kind of 3 is out of range like
/// any other figure.
fn read_link(fields: &mut FieldReader, edition: Edition) -> Result<Link, Fault> {
    if !edition.has_reactive_power() {
        return Ok(Link::None);
    }
    Ok(match fields.figure(2, 0, 2)? {
        0 => Link::None,
        1 => Link::TwoLines {
            upper: read_link_line(fields)?,
            lower: read_link_line(fields)?,
        },
        _ => Link::Equality(read_link_line(fields)?),
    })
}

/// "each device a bar (1 bit, last before its intervals)".
fn read_bar(fields: &mut FieldReader, edition: Edition) -> Result<usize, Fault> {
    Ok(usize::from(edition.has_bars() && fields.flag()?))
}

fn read_link_line(fields: &mut FieldReader) -> Result<LinkLine, Fault> {
    Ok(LinkLine {
        offset: fields.power_either_way()?,
        slope: fields.signed(15, 10_000)?,
    })
}

fn read_terms(fields: &mut FieldReader, edition: Edition) -> Result<Terms, Fault> {
    let status = match fields.figure(2, 0, 2)? {
        0 => Status::Free,
        1 => Status::On,
        _ => Status::Off,
    };
    let pmin = fields.power()?;
    let first_bit_of_pmax = fields.place();
    let pmax = fields.power()?;
    if pmin > pmax {
        fields.contradiction_at(first_bit_of_pmax);
    }
    let mut terms = Terms {
        status,
        pmin,
        pmax,
        blocks: list(fields.count(3, 0, MOST_ITEMS)?, || {
            read_block(fields, edition)
        })?,
        reserve_prices: Reserves::from_order(array(|| fields.figure(14, 0, 10_000))?),
        ..Terms::default()
    };
    if edition.has_reactive_power() {
        read_reactive_terms(fields, &mut terms)?;
    }
    Ok(terms)
}

/// "each cap 17 and price 15 (±10,000)", and "a floor (17 bits) after each block's cap". "A floor
/// above its cap is a contradiction at the floor."
fn read_block(fields: &mut FieldReader, edition: Edition) -> Result<Block, Fault> {
    let cap = fields.power()?;
    let floor = if edition.has_floors() {
        read_floor(fields, cap)?
    } else {
        0
    };
    Ok(Block {
        cap,
        floor,
        price: fields.signed(15, 10_000)?,
    })
}

fn read_floor(fields: &mut FieldReader, cap: i128) -> Result<i128, Fault> {
    let first_bit = fields.place();
    let floor = fields.power()?;
    if floor > cap {
        fields.contradiction_at(first_bit);
    }
    Ok(floor)
}

/// "Per device and interval come qmin and qmax in kvar (18 bits, ±100,000)", behind the eight
/// prices, and the reactive reserves' "prices of 14 bits (0..10,000)". "A qmin above qmax is a
/// contradiction at qmax."
fn read_reactive_terms(fields: &mut FieldReader, terms: &mut Terms) -> Result<(), Fault> {
    terms.qmin = fields.power_either_way()?;
    let first_bit_of_qmax = fields.place();
    terms.qmax = fields.power_either_way()?;
    if terms.qmin > terms.qmax {
        fields.contradiction_at(first_bit_of_qmax);
    }
    let prices = array(|| fields.figure(14, 0, 10_000))?;
    terms.reactive_prices = ReactiveReserves::from_order(prices);
    Ok(())
}
