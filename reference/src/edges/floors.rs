//! Edges of A.6: floors, the lower bound of rule 19, and the filling of blocks above them.

use super::{AcceptedEdge, BrokenDay, BrokenEdge, Day, Spot};
use crate::case::{Block, Side, Terms, MOST_ITEMS};
use crate::edition::Edition;
use crate::ours::fill_blocks;

impl Spot<'_> {
    fn terms(&self) -> &Terms {
        &self.unit.device.terms[self.t]
    }

    fn power(&self) -> i128 {
        self.unit.forced.power[self.t]
    }

    fn is_of(&self, side: Side) -> bool {
        self.unit.device.side == side
    }

    /// Whether a device of a side is on at so many kW above floors that ask for some.
    fn runs_above_floors(&self, side: Side, by: impl Fn(i128) -> bool) -> bool {
        let floors = self.terms().sum_of_floors();
        self.is_of(side) && self.is_on() && floors > 0 && by(self.power() - floors)
    }

    /// Whether a device of a side has less power on a trajectory than its floors would ask for.
    fn is_off_below_floors(&self, side: Side) -> bool {
        let power = self.power();
        let is_below = 0 < power && power < self.terms().sum_of_floors();
        self.is_of(side) && !self.is_on() && is_below
    }

    /// Whether a block of a running device has a floor above 0, and lies so with its power.
    fn has_floor(&self, lies: impl Fn(&Block, i128) -> bool) -> bool {
        let filled = self.chosen().blocks;
        let mut blocks = self.terms().blocks.iter().zip(filled);
        self.is_on() && blocks.any(|(block, power)| block.floor > 0 && lies(block, power))
    }

    /// Whether a block that price order would leave lower is filled for its floor.
    fn floors_change_filling(&self) -> bool {
        let blocks = &self.terms().blocks;
        let without = fill_blocks(self.unit.device.side, blocks, false, self.power());
        self.chosen().blocks != without
    }

    /// Whether two blocks of one price are filled, the later one for its floor, and the earlier one
    /// takes what is left first.
    fn tied_blocks_above_floors(&self) -> bool {
        let blocks = &self.terms().blocks;
        let filled = &self.chosen().blocks;
        self.is_on()
            && (0..blocks.len()).any(|first| {
                (first + 1..blocks.len()).any(|second| {
                    blocks[first].price == blocks[second].price
                        && filled[first] > blocks[first].floor
                        && blocks[second].floor > 0
                        && filled[second] < blocks[second].cap
                })
            })
    }
}

impl Day<'_> {
    /// Whether one device is on with floors in one interval and without in another.
    fn any_unit_with_floors_at_times(&self) -> bool {
        self.any_unit(|unit| {
            let on = &unit.forced.commitment.on;
            let has = |t: usize| on[t] && unit.device.terms[t].sum_of_floors() > 0;
            let lacks = |t: usize| on[t] && unit.device.terms[t].sum_of_floors() == 0;
            (0..on.len()).any(has) && (0..on.len()).any(lacks)
        })
    }
}

/// What accepted plans can show of floors.
pub(super) const FLOOR_ACCEPTED_EDGES: &[AcceptedEdge] = &[
    ("edition 3", |day| day.edition == Edition::Three),
    ("edition 3 with every floor 0", |day| {
        day.edition == Edition::Three && !day.case.has_floors()
    }),
    (
        "edition 3 with every figure of editions 2 and 3 neutral",
        |day| {
            day.edition == Edition::Three
                && !day.case.has_floors()
                && !day.case.has_reactive_power()
                && !day.plan.has_reactive_power()
        },
    ),
    ("p at the sum of floors, producing", |day| {
        day.any_spot(|spot| spot.runs_above_floors(Side::Producing, |by| by == 0))
    }),
    ("p at the sum of floors, consuming", |day| {
        day.any_spot(|spot| spot.runs_above_floors(Side::Consuming, |by| by == 0))
    }),
    ("p one above the sum of floors", |day| {
        day.any_spot(|spot| {
            spot.runs_above_floors(Side::Producing, |by| by == 1)
                || spot.runs_above_floors(Side::Consuming, |by| by == 1)
        })
    }),
    ("p between floors and caps, producing", |day| {
        day.any_spot(|spot| {
            let caps = spot.terms().sum_of_caps();
            spot.power() < caps && spot.runs_above_floors(Side::Producing, |by| by > 0)
        })
    }),
    ("p between floors and caps, consuming", |day| {
        day.any_spot(|spot| {
            let caps = spot.terms().sum_of_caps();
            spot.power() < caps && spot.runs_above_floors(Side::Consuming, |by| by > 0)
        })
    }),
    ("floors above pmin", |day| {
        day.any_spot(|spot| spot.is_on() && spot.terms().sum_of_floors() > spot.terms().pmin)
    }),
    ("power below the floors while off, producing", |day| {
        day.any_spot(|spot| spot.is_off_below_floors(Side::Producing))
    }),
    ("power below the floors while off, consuming", |day| {
        day.any_spot(|spot| spot.is_off_below_floors(Side::Consuming))
    }),
    ("no power while off where there are floors", |day| {
        day.any_spot(|spot| !spot.is_on() && spot.power() == 0 && spot.terms().sum_of_floors() > 0)
    }),
    ("floor equal to its cap", |day| {
        day.any_spot(|spot| spot.has_floor(|block, _| block.floor == block.cap))
    }),
    ("every floor equal to its cap", |day| {
        day.any_spot(|spot| {
            let floors = spot.terms().sum_of_floors();
            spot.is_on() && floors > 0 && floors == spot.terms().sum_of_caps()
        })
    }),
    ("floors in four blocks", |day| {
        day.any_spot(|spot| {
            let blocks = &spot.terms().blocks;
            let floored = blocks.iter().filter(|block| block.floor > 0).count();
            spot.is_on() && floored == MOST_ITEMS
        })
    }),
    ("block at its floor beside one above its own", |day| {
        day.any_spot(|spot| {
            spot.has_floor(|block, power| power == block.floor && power < block.cap)
                && spot.has_floor(|block, power| power > block.floor)
        })
    }),
    ("floors fill a block that price order would not", |day| {
        day.any_spot(|spot| spot.is_on() && spot.floors_change_filling())
    }),
    ("floor of a producing block of negative price", |day| {
        day.any_spot(|spot| {
            spot.is_of(Side::Producing) && spot.has_floor(|block, _| block.price < 0)
        })
    }),
    ("floor of a consuming block of negative price", |day| {
        day.any_spot(|spot| {
            spot.is_of(Side::Consuming) && spot.has_floor(|block, _| block.price < 0)
        })
    }),
    ("floor of a block of price 0", |day| {
        day.any_spot(|spot| spot.has_floor(|block, _| block.price == 0))
    }),
    ("equal prices decide above floors", |day| {
        day.any_spot(|spot| spot.tied_blocks_above_floors())
    }),
    ("floors in some intervals of a device alone", |day| {
        day.any_unit_with_floors_at_times()
    }),
];

impl BrokenDay<'_> {
    /// Whether a device breaks rule 19 at a place that lies so.
    fn breaks_19(&self, lies: impl Fn(Side, &Terms, i128) -> bool) -> bool {
        self.any_device_interval(|j, t| {
            let device = &self.case.devices[j];
            let power = self.forced[j].power[t];
            self.breaks(19, j, t) && lies(device.side, &device.terms[t], power)
        })
    }
}

/// What only plans that break a rule can show of floors.
pub(super) const FLOOR_BROKEN_EDGES: &[BrokenEdge] = &[
    ("(broken) rule 19 by one below floors, producing", |day| {
        day.breaks_19(|side, terms, power| {
            side == Side::Producing && power == terms.sum_of_floors() - 1
        })
    }),
    ("(broken) rule 19 by one below floors, consuming", |day| {
        day.breaks_19(|side, terms, power| {
            side == Side::Consuming && power == terms.sum_of_floors() - 1
        })
    }),
    ("(broken) rule 19 first and by floors", |day| {
        let first = &day.breaches[0];
        first.rule == 19 && {
            let (j, t) = (first.device - 1, first.interval - 1);
            day.forced[j].power[t] < day.case.devices[j].terms[t].sum_of_floors()
        }
    }),
    ("(broken) rule 19 above caps, with floors", |day| {
        day.breaks_19(|_, terms, power| terms.sum_of_floors() > 0 && power > terms.sum_of_caps())
    }),
    ("(broken) floors kept by startup or shutdown power", |day| {
        day.any_device_interval(|j, t| {
            let floors = day.case.devices[j].terms[t].sum_of_floors();
            let setting = &day.plan.intervals[t][j];
            let is_below = setting.on && setting.online_power < floors;
            is_below && floors <= day.forced[j].power[t]
        })
    }),
    (
        "(broken) rules 17 and 19 at one place, below floors",
        |day| {
            day.any_device_interval(|j, t| {
                let floors = day.case.devices[j].terms[t].sum_of_floors();
                day.breaks(17, j, t) && day.breaks(19, j, t) && day.forced[j].power[t] < floors
            })
        },
    ),
];
