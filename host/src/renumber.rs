//! A case and its plans with their devices in another order, and a list of breaches with
//! the devices' numbers carried along.

use crate::messages::{case_message, plan_message, read_case, read_plan, Case, Plan, Row};

/// An order of a case's devices.
#[derive(Clone, PartialEq, Eq, Debug)]
pub struct Order {
    /// Of each device in the new order, its old place, from 0.
    old_places: Vec<usize>,
}

impl Order {
    /// From the devices' old numbers, from 1, in the new order, as in `2,1,3`; each must be there
    /// once.
    pub fn parse(text: &str) -> Option<Order> {
        let place = |number: &str| number.parse::<usize>().ok()?.checked_sub(1);
        let old_places: Vec<usize> = text.split(',').map(place).collect::<Option<_>>()?;
        let mut sorted = old_places.clone();
        sorted.sort();
        let names_each = sorted.into_iter().eq(0..old_places.len());
        names_each.then_some(Order { old_places })
    }

    /// How many devices it names.
    pub fn devices(&self) -> usize {
        self.old_places.len()
    }

    /// A case that passed reading, its devices in this order; `None` where it is not read.
    pub fn case(&self, message: &[u8]) -> Option<Vec<u8>> {
        let case = read_case(message)?;
        let renumbered = Case {
            devices: self.of(&case.devices),
            ..case
        };
        case_message(&renumbered).ok()
    }

    /// A plan that passed reading for a case of as many devices, likewise.
    pub fn plan(&self, case: &Case, message: &[u8]) -> Option<Vec<u8>> {
        let plan = read_plan(case, message)?;
        let row = |row: &Row| Row {
            settings: self.of(&row.settings),
            flow: row.flow,
        };
        let renumbered = Plan {
            edition: plan.edition,
            rows: plan.rows.iter().map(row).collect(),
        };
        plan_message(&renumbered).ok()
    }

    /// A list of breaches with device numbers carried along, in the order of judging; a breach
    /// without a device keeps its 0.
    pub fn breaches(&self, list: &[[u8; 4]]) -> Vec<[u8; 4]> {
        let carried = |&[rule, interval, device, window]: &[u8; 4]| {
            [rule, interval, self.new_number(device), window]
        };
        let mut list: Vec<[u8; 4]> = list.iter().map(carried).collect();
        list.sort_by_key(|&[rule, interval, device, window]| {
            (interval == 0, interval, device == 0, device, rule, window)
        });
        list
    }

    fn new_number(&self, old: u8) -> u8 {
        let place = usize::from(old).checked_sub(1);
        let at = |place| self.old_places.iter().position(|&old| old == place);
        place.and_then(at).map_or(0, |place| place as u8 + 1)
    }

    fn of<T: Clone>(&self, by_device: &[T]) -> Vec<T> {
        let at = |&place: &usize| by_device[place].clone();
        self.old_places.iter().map(at).collect()
    }
}
