//! Writing of case and plan messages, with a record of every field: what it is, where it lies and
//! which values it may hold. The generator builds and damages messages with it.

use crate::bits::{BitWriter, HIGHEST_POWER};
use crate::case::{
    Case, Device, EnergyKind, Link, LinkLine, Side, StartupState, Status, Terms, Zone, KIND_CASE,
    MOST_STATES,
};
use crate::edition::{CountField, Edition};
use crate::plan::{Plan, Setting, KIND_PLAN};

/// Which number a wrong value of a field is refused with.
#[derive(Clone, Copy, PartialEq, Eq, PartialOrd, Ord, Debug)]
pub enum Class {
    /// Number 2.
    Kind,
    /// Number 3.
    Count,
    /// Number 4.
    Figure,
}

/// A field of a written message.
#[derive(Clone, Copy, PartialEq, Eq, Debug)]
pub struct Field {
    pub name: &'static str,
    pub class: Class,
    pub place: usize,
    pub width: usize,
    pub low: i128,
    pub high: i128,
}

impl Field {
    pub fn end(&self) -> usize {
        self.place + self.width
    }

    /// The least and the greatest value that the field's bits can say.
    pub fn sayable(&self) -> (i128, i128) {
        if self.low < 0 {
            (-(1 << (self.width - 1)), (1 << (self.width - 1)) - 1)
        } else {
            (0, (1 << self.width) - 1)
        }
    }
}

/// A message and its fields.
#[derive(Clone, PartialEq, Eq, Debug)]
pub struct Encoded {
    pub bytes: Vec<u8>,
    pub fields: Vec<Field>,
}

#[derive(Default)]
struct Encoder {
    message: BitWriter,
    fields: Vec<Field>,
}

impl Encoder {
    fn put(
        &mut self,
        name: &'static str,
        class: Class,
        width: usize,
        range: (i128, i128),
        value: i128,
    ) {
        let (low, high) = range;
        assert!(
            (low..=high).contains(&value),
            "{name}: {value} is outside {low}..{high}"
        );
        self.put_as_it_stands(name, class, width, range, value);
    }

    /// Writes a value of the field's width, in its range or not.
    fn put_as_it_stands(
        &mut self,
        name: &'static str,
        class: Class,
        width: usize,
        (low, high): (i128, i128),
        value: i128,
    ) {
        self.fields.push(Field {
            name,
            class,
            place: self.message.place(),
            width,
            low,
            high,
        });
        if low < 0 {
            self.message.put_signed(width, value);
        } else {
            self.message.put(width, value);
        }
    }

    fn kind(&mut self, name: &'static str, value: i128) {
        self.put(name, Class::Kind, 4, (value, value), value);
    }

    fn count(&mut self, name: &'static str, width: usize, range: (i128, i128), count: usize) {
        self.put(name, Class::Count, width, range, count as i128);
    }

    /// A count of a case's header, in the edition's range or not.
    fn header_count(&mut self, name: &'static str, field: CountField, least: i128, count: usize) {
        let range = (least, field.most as i128);
        self.put_as_it_stands(name, Class::Count, field.width, range, count as i128);
    }

    fn figure(&mut self, name: &'static str, width: usize, high: i128, value: i128) {
        self.put(name, Class::Figure, width, (0, high), value);
    }

    fn price(&mut self, name: &'static str, width: usize, high: i128, value: i128) {
        self.put(name, Class::Figure, width, (1, high), value);
    }

    fn signed(&mut self, name: &'static str, width: usize, size: i128, value: i128) {
        self.put(name, Class::Figure, width, (-size, size), value);
    }

    fn power(&mut self, name: &'static str, value: i128) {
        self.figure(name, 17, HIGHEST_POWER, value);
    }

    fn power_either_way(&mut self, name: &'static str, value: i128) {
        self.signed(name, 18, HIGHEST_POWER, value);
    }

    fn into_encoded(self) -> Encoded {
        Encoded {
            bytes: self.message.into_bytes(),
            fields: self.fields,
        }
    }
}

const PRODUCTS: [&str; 8] = [
    "rgu", "rgd", "scr", "nsc", "rru_on", "rru_off", "rrd_on", "rrd_off",
];

/// The message of a case in an edition. Contradictions (number 5), devices, intervals and zones,
/// and a device's startup states, also where they are more than may be, are written as they stand;
/// the ranges of their counts are those of the host form. Figures that the edition lacks must have
/// their neutral values.
pub fn encode_case(edition: Edition, case: &Case) -> Encoded {
    assert!(
        edition.has_reactive_power() || !case.has_reactive_power(),
        "edition 1 cannot say a reactive figure"
    );
    assert!(
        edition.has_floors() || !case.has_floors(),
        "editions 1 and 2 cannot say a floor"
    );
    assert!(
        edition.has_bars() || !case.has_bars(),
        "editions 1 to 4 cannot say a bar or a limit"
    );
    let mut message = Encoder::default();
    message.kind("case kind", KIND_CASE);
    let editions = (Edition::ALL[0].figure(), Edition::NEWEST.figure());
    message.put("case edition", Class::Kind, 4, editions, edition.figure());
    message.header_count("devices", edition.devices(), 1, case.devices.len());
    message.header_count("intervals", edition.intervals(), 1, case.intervals());
    message.header_count("zones", edition.zones(), 0, case.zones.len());
    message.price("mismatch price", 14, 10_000, case.mismatch_price);
    message.price("overrun price", 14, 10_000, case.overrun_price);
    if edition.has_bars() {
        message.power("link limit", case.link_limit);
    }
    for &duration in &case.durations {
        assert!(duration % 2 == 0, "a duration is sent as its half");
        message.price("d/2", 8, 180, duration / 2);
    }
    for zone in &case.zones {
        put_zone(&mut message, edition, zone);
    }
    for device in &case.devices {
        put_device(&mut message, edition, device);
    }
    message.into_encoded()
}

fn put_zone(message: &mut Encoder, edition: Edition, zone: &Zone) {
    const SHARES: [&str; 4] = ["rgu share", "rgd share", "scr share", "nsc share"];
    const PRICES: [&str; 8] = [
        "rgu shortfall price",
        "rgd shortfall price",
        "scr shortfall price",
        "nsc shortfall price",
        "rru shortfall price",
        "rrd shortfall price",
        "qru shortfall price",
        "qrd shortfall price",
    ];
    const MINIMA: [&str; 4] = ["rru minimum", "rrd minimum", "qru minimum", "qrd minimum"];
    for (name, share) in SHARES.into_iter().zip(zone.shares) {
        message.figure(name, 10, 1_000, share);
    }
    let prices = &zone.shortfall_prices[..edition.shortfalls()];
    for (name, &price) in PRICES.into_iter().zip(prices) {
        message.price(name, 7, 100, price);
    }
    for minima in &zone.minima {
        for (name, &minimum) in MINIMA.into_iter().zip(&minima[..edition.minima()]) {
            message.figure(name, 23, 6_400_000, minimum);
        }
    }
}

fn put_device(message: &mut Encoder, edition: Edition, device: &Device) {
    message.figure("side", 1, 1, i128::from(device.side == Side::Consuming));
    let zone_bits = device
        .zone_bits
        .iter()
        .fold(0, |bits, &member| 2 * bits + i128::from(member));
    message.figure("zone bits", 4, 15, zone_bits);
    message.figure("initially on", 1, 1, i128::from(device.initially_on));
    message.power("initial power", device.initial_power);
    message.figure("minutes already so", 16, 60_000, device.minutes_already_so);
    message.figure("minimum up", 16, 60_000, device.minimum_up);
    message.figure("minimum down", 16, 60_000, device.minimum_down);
    message.price("ramp up", 17, 100_000, device.ramps.up);
    message.price("ramp down", 17, 100_000, device.ramps.down);
    message.price("ramp starting", 17, 100_000, device.ramps.starting);
    message.price("ramp stopping", 17, 100_000, device.ramps.stopping);
    message.figure("on cost", 17, 100_000, device.on_cost);
    message.figure("start cost", 30, 1_000_000_000, device.start_cost);
    message.figure("stop cost", 30, 1_000_000_000, device.stop_cost);
    put_reserve_limits(message, device);
    put_startup_states(message, &device.startup_states);
    put_windows(message, edition, device);
    if edition.has_reactive_power() {
        put_link(message, &device.link);
    }
    if edition.has_bars() {
        message.figure("bar", 1, 1, device.bar as i128);
    }
    for terms in &device.terms {
        put_terms(message, edition, terms);
    }
}

fn put_reserve_limits(message: &mut Encoder, device: &Device) {
    const LIMITS: [&str; 8] = [
        "rgu limit",
        "rgd limit",
        "scr limit",
        "nsc limit",
        "rru_on limit",
        "rru_off limit",
        "rrd_on limit",
        "rrd_off limit",
    ];
    for (name, limit) in LIMITS.into_iter().zip(device.reserve_limits.in_order()) {
        message.power(name, limit);
    }
}

fn put_windows(message: &mut Encoder, edition: Edition, device: &Device) {
    message.count("start windows", 3, (0, 4), device.start_windows.len());
    let CountField { width, most } = edition.most_starts();
    for window in &device.start_windows {
        message.figure("start window start", 16, 65_535, window.start);
        message.figure("start window end", 16, 65_535, window.end);
        message.figure("most starts", width, most as i128, window.most_starts);
    }
    message.count("energy windows", 3, (0, 4), device.energy_windows.len());
    for window in &device.energy_windows {
        let kind = i128::from(window.kind == EnergyKind::Minimum);
        message.figure("energy window kind", 1, 1, kind);
        message.figure("energy window start", 16, 65_535, window.start);
        message.figure("energy window end", 16, 65_535, window.end);
        message.figure("energy", 32, 4_000_000_000, window.energy);
    }
}

fn put_link(message: &mut Encoder, link: &Link) {
    let mut kind = |value| message.figure("link kind", 2, 2, value);
    match link {
        Link::None => kind(0),
        Link::TwoLines { upper, lower } => {
            kind(1);
            put_link_line(message, ["upper offset", "upper slope"], upper);
            put_link_line(message, ["lower offset", "lower slope"], lower);
        }
        Link::Equality(line) => {
            kind(2);
            put_link_line(message, ["equality offset", "equality slope"], line);
        }
    }
}

fn put_link_line(message: &mut Encoder, [offset, slope]: [&'static str; 2], line: &LinkLine) {
    message.power_either_way(offset, line.offset);
    message.signed(slope, 15, 10_000, line.slope);
}

/// The states of a device behind their count, in the reading's range or not.
fn put_startup_states(message: &mut Encoder, states: &[StartupState]) {
    let taken = (0, MOST_STATES as i128);
    let count = states.len() as i128;
    message.put_as_it_stands("startup states", Class::Count, 3, taken, count);
    for state in states {
        message.figure("longest downtime", 16, 60_000, state.longest_downtime);
        message.signed("state cost", 31, 1_000_000_000, state.cost);
    }
}

fn put_terms(message: &mut Encoder, edition: Edition, terms: &Terms) {
    let status = match terms.status {
        Status::Free => 0,
        Status::On => 1,
        Status::Off => 2,
    };
    message.figure("status", 2, 2, status);
    message.power("pmin", terms.pmin);
    message.power("pmax", terms.pmax);
    message.count("blocks", 3, (0, 4), terms.blocks.len());
    for block in &terms.blocks {
        message.power("block cap", block.cap);
        if edition.has_floors() {
            message.power("block floor", block.floor);
        }
        message.signed("block price", 15, 10_000, block.price);
    }
    const PRICES: [&str; 8] = [
        "rgu price",
        "rgd price",
        "scr price",
        "nsc price",
        "rru_on price",
        "rru_off price",
        "rrd_on price",
        "rrd_off price",
    ];
    for (name, price) in PRICES.into_iter().zip(terms.reserve_prices.in_order()) {
        message.figure(name, 14, 10_000, price);
    }
    if edition.has_reactive_power() {
        message.power_either_way("qmin", terms.qmin);
        message.power_either_way("qmax", terms.qmax);
        message.figure("qru price", 14, 10_000, terms.reactive_prices.qru);
        message.figure("qrd price", 14, 10_000, terms.reactive_prices.qrd);
    }
}

/// The message of a plan in an edition. Its counts must be the plan's own.
pub fn encode_plan(edition: Edition, plan: &Plan) -> Encoded {
    assert!(
        edition.has_reactive_power() || !plan.has_reactive_power(),
        "edition 1 cannot say a reactive figure"
    );
    assert!(
        edition.has_bars() || !plan.has_flows(),
        "editions 1 to 4 cannot say a flow"
    );
    let mut message = Encoder::default();
    let devices = plan.intervals[0].len();
    let intervals = plan.intervals.len();
    assert_eq!(plan.flows.len(), intervals, "an interval has one flow");
    message.kind("plan kind", KIND_PLAN);
    message.kind("plan edition", edition.figure());
    let only = |count: usize| (count as i128, count as i128);
    let (device_bits, interval_bits) = (edition.devices().width, edition.intervals().width);
    message.count("plan devices", device_bits, only(devices), devices);
    message.count("plan intervals", interval_bits, only(intervals), intervals);
    for (settings, &flow) in plan.intervals.iter().zip(&plan.flows) {
        for setting in settings {
            put_setting(&mut message, edition, setting);
        }
        if edition.has_bars() {
            message.power_either_way("flow", flow);
        }
    }
    message.into_encoded()
}

fn put_setting(message: &mut Encoder, edition: Edition, setting: &Setting) {
    message.figure("on", 1, 1, i128::from(setting.on));
    message.power("online power", setting.online_power);
    for (name, reserve) in PRODUCTS.into_iter().zip(setting.reserves.in_order()) {
        message.power(name, reserve);
    }
    if edition.has_reactive_power() {
        message.power_either_way("q", setting.reactive_power);
        message.power("qru", setting.reactive_reserves.qru);
        message.power("qrd", setting.reactive_reserves.qrd);
    }
}
