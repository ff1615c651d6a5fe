//! Times: "d = an interval's duration; S, E, M = its start, end, midpoint from time 0."

/// One interval in time.
#[derive(Clone, Copy, PartialEq, Eq, Debug)]
pub struct Span {
    pub start: i128,
    pub end: i128,
}

impl Span {
    pub fn duration(&self) -> i128 {
        self.end - self.start
    }

    /// A whole number, because every duration is even.
    pub fn midpoint(&self) -> i128 {
        self.start + self.duration() / 2
    }
}

/// The intervals of a day in time, from 0.
pub fn spans(durations: &[i128]) -> Vec<Span> {
    let mut start = 0;
    durations
        .iter()
        .map(|duration| {
            let span = Span {
                start,
                end: start + duration,
            };
            start = span.end;
            span
        })
        .collect()
}
