//! "Renumbering sets" (A.11): the devices of a case and of its plan rearranged alike, and what goes
//! with them.
//!
//! "if the devices of a case and of its plan are rearranged alike, the plan is accepted exactly when
//! it was, the surplus is equal, zone shortfalls and mismatches are equal, and each device's part of
//! the completion goes with it. The named first breach may differ; the set of breaches from A.5,
//! with device numbers carried along, may not." A device's part is "started, stopped, state, block
//! powers and its overruns". "Renumbering carries the bars along." (A.12)

use crate::bits::{BitWriter, FieldReader};
use crate::case::Case;
use crate::completion::{
    header_bits, needs_bits, Completion, IntervalChoices, DEVICE_BITS, OVERRUN_BITS, SURPLUS_BITS,
};
use crate::edition::Edition;
use crate::plan::Plan;
use crate::rules::Place;

/// An order of a case's devices.
#[derive(Clone, PartialEq, Eq, Debug)]
pub struct Order {
    /// Of each device in the new order, its old place, from 0.
    old_places: Vec<usize>,
}

impl Order {
    /// The order in which the device at place `old_places[k]` comes to place k; none if a place is
    /// missing or named twice.
    pub fn new(old_places: Vec<usize>) -> Option<Order> {
        let mut sorted = old_places.clone();
        sorted.sort();
        let names_each = sorted.into_iter().eq(0..old_places.len());
        names_each.then_some(Order { old_places })
    }

    /// Whether every device stays where it is.
    pub fn is_old(&self) -> bool {
        self.old_places.iter().copied().eq(0..self.old_places.len())
    }

    /// What belongs to the devices, one behind the other, in the new order.
    pub fn of<T: Clone>(&self, by_device: &[T]) -> Vec<T> {
        assert_eq!(by_device.len(), self.old_places.len());
        let at = |&place: &usize| by_device[place].clone();
        self.old_places.iter().map(at).collect()
    }

    /// The new number of a device, from 1. "Device 0 of rule 27 stays 0".
    pub fn new_number(&self, old_number: usize) -> usize {
        if old_number == 0 {
            return 0;
        }
        let is_it = |&place: &usize| place + 1 == old_number;
        let place = self.old_places.iter().position(is_it);
        1 + place.expect("a device of the case")
    }

    /// All that a device has goes with it: zone bits, bar, limits, windows, link, cells, prices.
    /// "flow, limit, zones and durations stay".
    pub fn case(&self, case: &Case) -> Case {
        Case {
            devices: self.of(&case.devices),
            ..case.clone()
        }
    }

    pub fn plan(&self, plan: &Plan) -> Plan {
        Plan {
            intervals: plan.intervals.iter().map(|row| self.of(row)).collect(),
            flows: plan.flows.clone(),
        }
    }

    pub fn completion(&self, completion: &Completion) -> Completion {
        let interval = |choices: &IntervalChoices| IntervalChoices {
            devices: self.of(&choices.devices),
            ..choices.clone()
        };
        Completion {
            intervals: completion.intervals.iter().map(interval).collect(),
            overruns: self.of(&completion.overruns),
        }
    }

    /// The message of a completion for a case of an edition, each device's part at its new place.
    pub fn message(&self, edition: Edition, case: &Case, message: &[u8]) -> Vec<u8> {
        let mut fields = FieldReader::new(message);
        let mut take = |bits: usize| fields.unbounded(bits).expect("the message is whole");
        let mut renumbered = BitWriter::new();
        renumbered.put(header_bits(edition), take(header_bits(edition)));
        for _ in 0..case.intervals() {
            let parts: Vec<i128> = case.devices.iter().map(|_| take(DEVICE_BITS)).collect();
            for part in self.of(&parts) {
                renumbered.put(DEVICE_BITS, part);
            }
            for _ in 0..needs_bits(edition, case) {
                renumbered.put(1, take(1));
            }
        }
        let mut overruns = Vec::new();
        for device in &case.devices {
            let windows = device.energy_windows.iter();
            overruns.push(windows.map(|_| take(OVERRUN_BITS)).collect::<Vec<i128>>());
        }
        for overrun in self.of(&overruns).into_iter().flatten() {
            renumbered.put(OVERRUN_BITS, overrun);
        }
        renumbered.put(SURPLUS_BITS, take(SURPLUS_BITS));
        renumbered.into_bytes()
    }

    /// "with device numbers carried along", in paper 01's order of the new numbers.
    pub fn breaches(&self, breaches: &[Place]) -> Vec<Place> {
        let carried = |place: &Place| Place {
            device: self.new_number(place.device),
            ..*place
        };
        let mut carried: Vec<Place> = breaches.iter().map(carried).collect();
        carried.sort_by_key(place_in_order);
        carried
    }
}

/// "Checked by interval, then device, then number. Rule 20 comes after all intervals, by device,
/// then window." Rule 27, without a device, "stands after an interval's devices".
fn place_in_order(place: &Place) -> (bool, usize, bool, usize, u8, usize) {
    let comes_last = place.interval == 0;
    let has_no_device = place.device == 0;
    let Place {
        rule,
        interval,
        device,
        window,
    } = *place;
    (comes_last, interval, has_no_device, device, rule, window)
}
