//! Both sides of rules 21 to 26. Limits are compared in kvar, lines in var: thousandths of a kvar, in
//! which a slope times a power is whole.

use crate::comparison::{Comparison, Figure, Relation, Unit};
use crate::day::Point;
use crate::messages::{Line, Link};

/// Var in a kvar.
const VARS: i64 = 1_000;

/// Both sides of a rule; `None` where it is of another kind of link.
pub fn compare(point: Point, rule: u8) -> Option<Comparison> {
    match (rule, point.device().link) {
        (21, _) => Some(highest(point)),
        (22, _) => Some(lowest(point)),
        (23, Link::TwoLines { upper, .. }) => Some(below(point, upper)),
        (24, Link::TwoLines { lower, .. }) => Some(above(point, lower)),
        (25, Link::Equality(line)) => Some(on(point, line)),
        (26, Link::Equality(_)) => Some(no_reserves(point)),
        _ => None,
    }
}

/// n, and how it comes about.
fn counted(point: Point) -> (i64, String) {
    let [on, startups, shutdowns] = point.counted();
    let mut origin = format!("n is on {on}");
    for (name, count) in [("startups", startups), ("shutdowns", shutdowns)] {
        if count > 0 {
            origin += &format!(" + {name} {count}");
        }
    }
    (on + startups + shutdowns, origin)
}

/// q with the reserve that would raise it.
fn raised(point: Point) -> (&'static str, Figure) {
    let reactive = point.setting().reactive;
    let (subject, reserve) = if point.device().consuming {
        (
            "reactive power with down reserve is #",
            ("qrd", reactive.qrd),
        )
    } else {
        ("reactive power with up reserve is #", ("qru", reactive.qru))
    };
    (subject, Figure::sum(&[("q", reactive.q), reserve]))
}

/// q less the reserve that would lower it.
fn lowered(point: Point) -> (&'static str, Figure) {
    let reactive = point.setting().reactive;
    let (subject, reserve) = if point.device().consuming {
        (
            "reactive power less up reserve is #",
            ("qru", -reactive.qru),
        )
    } else {
        (
            "reactive power less down reserve is #",
            ("qrd", -reactive.qrd),
        )
    };
    (subject, Figure::sum(&[("q", reactive.q), reserve]))
}

/// A limit counts n times.
fn limit(point: Point, name: &str, kvar: i64) -> Figure {
    let (n, origin) = counted(point);
    Figure::new(n * kvar, format!("{name} {kvar} x n {n}; {origin}"))
}

/// Rule 21.
fn highest(point: Point) -> Comparison {
    let (subject, left) = raised(point);
    Comparison {
        subject,
        left,
        relation: Relation::AtMost,
        right: limit(point, "qmax", point.cell().qmax),
        unit: Unit::Kilovars,
    }
}

/// Rule 22.
fn lowest(point: Point) -> Comparison {
    let (subject, left) = lowered(point);
    Comparison {
        subject,
        left,
        relation: Relation::AtLeast,
        right: limit(point, "qmin", point.cell().qmin),
        unit: Unit::Kilovars,
    }
}

/// What a line gives, in var: its offset counts n times, its slope is of the whole power.
fn vars_of(point: Point, line: Line) -> Figure {
    let Line { offset, slope } = line;
    let (n, origin) = counted(point);
    let power = point.power();
    Figure::new(
        VARS * offset * n + slope * power,
        format!("{VARS} x offset {offset} x n {n} + slope {slope} x p {power}; {origin}"),
    )
}

/// Rule 23.
fn below(point: Point, upper: Line) -> Comparison {
    let (subject, left) = raised(point);
    Comparison {
        subject,
        left: left.in_units(VARS),
        relation: Relation::AtMost,
        right: vars_of(point, upper),
        unit: Unit::Vars,
    }
}

/// Rule 24.
fn above(point: Point, lower: Line) -> Comparison {
    let (subject, left) = lowered(point);
    Comparison {
        subject,
        left: left.in_units(VARS),
        relation: Relation::AtLeast,
        right: vars_of(point, lower),
        unit: Unit::Vars,
    }
}

/// Rule 25.
fn on(point: Point, line: Line) -> Comparison {
    Comparison {
        subject: "reactive power is #",
        left: Figure::sum(&[("q", point.setting().reactive.q)]).in_units(VARS),
        relation: Relation::MustBe,
        right: vars_of(point, line),
        unit: Unit::Vars,
    }
}

/// Rule 26.
fn no_reserves(point: Point) -> Comparison {
    let reactive = point.setting().reactive;
    Comparison {
        subject: "reactive reserves are #",
        left: Figure::sum(&[("qru", reactive.qru), ("qrd", reactive.qrd)]),
        relation: Relation::MustBe,
        right: Figure::new(0, "equality"),
        unit: Unit::Kilovars,
    }
}
