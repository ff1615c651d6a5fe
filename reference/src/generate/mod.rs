//! Random cases and plans, broken plans, damaged messages and batches, all from a seed.
//!
//! - [`shape`]: how large a case is.
//! - [`device`]: a device built around a commitment that it can follow.
//! - [`sample`]: a case with the schedules that its devices can and cannot follow.
//! - [`schedule`]: the dispatch that a commitment leaves open.
//! - [`reactive`]: reactive power of devices and plans.
//! - [`floors`]: floors of blocks.
//! - [`bars`]: bars of devices, the link between them and its flows.
//! - [`plans`]: plans that keep every rule, and wild ones.
//! - [`breaks`]: plans broken at a chosen rule.
//! - [`damage`]: messages damaged in every way that numbers 1 to 6 name.
//! - [`prices`]: cases with other prices and costs.
//! - [`readings`]: completions and market copies damaged for their readers.
//! - [`extreme`]: days with the greatest figures that messages can say.
//! - [`mends`]: plans that one power mends, and such that none does.
//! - [`dispatches`]: questions for the cheapest dispatch of an interval.
//! - [`order`]: other orders of a case's devices.
//! - [`batches`]: batches of all of these.

pub mod bars;
pub mod batches;
pub mod breaks;
pub mod damage;
pub mod device;
pub mod dispatches;
pub mod extreme;
pub mod floors;
pub mod mends;
pub mod order;
pub mod plans;
pub mod prices;
pub mod reactive;
pub mod readings;
pub mod sample;
pub mod schedule;
pub mod shape;
