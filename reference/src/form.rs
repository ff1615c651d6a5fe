//! The forms in which plans are judged: "The batch program stays at 16 and 48 and refuses larger
//! counts with 3; the larger form is for the host library. The host splitter's length limit is
//! 1,048,576; the batch program's stays." (A.8)

/// The most devices and intervals of a day.
#[derive(Clone, Copy, PartialEq, Eq, Debug)]
pub struct Largest {
    pub devices: usize,
    pub intervals: usize,
}

impl Largest {
    /// "devices 5 (1..16); intervals 6 (1..48)".
    pub const SMALL: Largest = Largest {
        devices: 16,
        intervals: 48,
    };
    /// "raises the limits to 64 and 96".
    pub const LARGE: Largest = Largest {
        devices: 64,
        intervals: 96,
    };

    /// The most that both allow.
    pub fn within(self, other: Largest) -> Largest {
        Largest {
            devices: self.devices.min(other.devices),
            intervals: self.intervals.min(other.intervals),
        }
    }

    /// Whether a day of such counts may be said.
    pub fn holds(self, devices: usize, intervals: usize) -> bool {
        devices <= self.devices && intervals <= self.intervals
    }
}

/// A form: the largest day that it takes, and the longest message, in bytes, that its splitter
/// hands back.
#[derive(Clone, Copy, PartialEq, Eq, Debug)]
pub struct Form {
    pub largest: Largest,
    pub longest_message: usize,
}

impl Form {
    /// The batch program.
    pub const BATCH: Form = Form {
        largest: Largest::SMALL,
        longest_message: 65_536,
    };
    /// The host library.
    pub const HOST: Form = Form {
        largest: Largest::LARGE,
        longest_message: 1_048_576,
    };

    /// The host form where it is asked for, else the batch form.
    pub fn host_if(is_host: bool) -> Form {
        if is_host {
            Form::HOST
        } else {
            Form::BATCH
        }
    }
}
