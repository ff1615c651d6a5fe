//! Two figures that a rule holds against one another, and how they are told.

use std::fmt;

pub enum Relation {
    AtMost,
    AtLeast,
    MustBe,
}

pub enum Unit {
    State,
    Kilowatts,
    Kilovars,
    /// Thousandths of a kvar.
    Vars,
    Minutes,
    Starts,
}

impl Unit {
    fn told(&self, figure: i64) -> String {
        match self {
            Unit::State if figure == 1 => "on".to_string(),
            Unit::State => "off".to_string(),
            Unit::Kilowatts => format!("{figure} kW"),
            Unit::Kilovars => format!("{figure} kvar"),
            Unit::Vars => format!("{figure} var"),
            Unit::Minutes => format!("{figure} min"),
            Unit::Starts if figure == 1 => "1 start".to_string(),
            Unit::Starts => format!("{figure} starts"),
        }
    }
}

/// A figure, and how it comes about.
pub struct Figure {
    value: i64,
    origin: String,
}

impl Figure {
    pub fn new(value: i64, origin: impl Into<String>) -> Figure {
        let origin = origin.into();
        Figure { value, origin }
    }

    /// A sum of named figures; those after the first are told where they are not 0.
    pub fn sum(terms: &[(&str, i64)]) -> Figure {
        let mut origin = String::new();
        for (name, value) in terms {
            if origin.is_empty() {
                origin = format!("{name} {value}");
            } else if *value != 0 {
                let sign = if *value < 0 { '-' } else { '+' };
                origin += &format!(" {sign} {name} {}", value.abs());
            }
        }
        Figure::new(terms.iter().map(|(_, value)| value).sum(), origin)
    }

    /// The same in a unit of which so many make one.
    pub fn in_units(self, of_one: i64) -> Figure {
        Figure::new(of_one * self.value, self.origin)
    }
}

/// Both sides of a rule in one place.
pub struct Comparison {
    /// What is compared, with `#` for its figure.
    pub subject: &'static str,
    pub left: Figure,
    pub relation: Relation,
    pub right: Figure,
    pub unit: Unit,
}

impl Comparison {
    pub fn holds(&self) -> bool {
        let (left, right) = (self.left.value, self.right.value);
        match self.relation {
            Relation::AtMost => left <= right,
            Relation::AtLeast => left >= right,
            Relation::MustBe => left == right,
        }
    }

    pub fn kilowatts(
        subject: &'static str,
        left: Figure,
        relation: Relation,
        right: Figure,
    ) -> Comparison {
        Comparison {
            subject,
            left,
            relation,
            right,
            unit: Unit::Kilowatts,
        }
    }
}

impl fmt::Display for Comparison {
    fn fmt(&self, out: &mut fmt::Formatter) -> fmt::Result {
        let behind = |origin: &str| match origin {
            "" => String::new(),
            origin => format!(" ({origin})"),
        };
        let relation = match self.relation {
            Relation::AtMost => "at most",
            Relation::AtLeast => "at least",
            Relation::MustBe => "must be",
        };
        let left = self.unit.told(self.left.value);
        write!(
            out,
            "{}{}, {relation} {}{}",
            self.subject.replace('#', &left),
            behind(&self.left.origin),
            self.unit.told(self.right.value),
            behind(&self.right.origin)
        )
    }
}
