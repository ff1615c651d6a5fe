//! What the plan unit answers, an enum for each function, by the header's words and figures.

use crate::explain::Breach;
use crate::{word, Fault, Told};

/// The number with which a buffer that is too short is refused.
const TOO_SHORT: u64 = 7;

/// What judging a plan comes to.
#[derive(Clone, Copy, PartialEq, Eq, Debug)]
pub enum Verdict {
    /// The completion stands at the front of the buffer.
    Accepted {
        surplus: i64,
    },
    /// The first broken rule.
    Broken(Breach),
    CaseRefused(Fault),
    PlanRefused(Fault),
    /// The completion takes so many bytes.
    TooShort {
        bytes: usize,
    },
    /// A word, or figures with it, that the header does not have.
    Unknown {
        word: u64,
    },
}

/// What listing a plan's broken rules comes to.
#[derive(Clone, Copy, PartialEq, Eq, Debug)]
pub enum Listed {
    /// So many stand at the front of the buffer, four bytes each; none of a plan that is accepted.
    Breaches {
        count: usize,
    },
    CaseRefused(Fault),
    PlanRefused(Fault),
    /// The list takes so many bytes.
    TooShort {
        bytes: usize,
    },
    /// A word, or figures with it, that the header does not have.
    Unknown {
        word: u64,
    },
}

/// What inspecting a case comes to.
#[derive(Clone, Copy, PartialEq, Eq, Debug)]
pub enum Inspected {
    Counts {
        devices: usize,
        intervals: usize,
        zones: usize,
    },
    CaseRefused(Fault),
    /// A word, or figures with it, that the header does not have.
    Unknown {
        word: u64,
    },
}

/// What writing a case or a plan in the newest edition comes to.
#[derive(Clone, Copy, PartialEq, Eq, Debug)]
pub enum Written {
    /// So many bytes of it stand at the front of the buffer.
    Message {
        bytes: usize,
    },
    CaseRefused(Fault),
    /// From `write_plan` alone.
    PlanRefused(Fault),
    /// The message takes so many bytes.
    TooShort {
        bytes: usize,
    },
    /// A word, or figures with it, that the header does not have.
    Unknown {
        word: u64,
    },
}

/// What is at a byte of a batch.
#[derive(Clone, Copy, PartialEq, Eq, Debug)]
pub enum Framed {
    /// The message stands from one byte until another.
    Message {
        from: usize,
        until: usize,
    },
    End,
    /// Of the length there.
    Refused(Fault),
    /// A word, or figures with it, that the header does not have.
    Unknown {
        word: u64,
    },
}

/// What several functions answer in the place of what they were asked for.
pub enum Refused {
    Case(Fault),
    /// Of the plan, of the batch, or of the message that is read.
    Message(Fault),
    TooShort {
        bytes: usize,
    },
    /// A word, or figures with it, that the header does not have.
    Unknown {
        word: u64,
    },
}

impl Told {
    /// What is told by a word that is not the function's own.
    pub fn refused(self) -> Refused {
        match (self.word, self.figures) {
            (word::CASE_REFUSED, [number, bit, 0, 0]) => Refused::Case(Fault { number, bit }),
            (word::MESSAGE_REFUSED, [number, bit, 0, 0]) => Refused::Message(Fault { number, bit }),
            (word::RESULT_REFUSED, [TOO_SHORT, bytes, 0, 0]) => Refused::TooShort {
                bytes: bytes as usize,
            },
            (word, _) => Refused::Unknown { word },
        }
    }
}

impl From<Told> for Verdict {
    fn from(told: Told) -> Verdict {
        match (told.word, told.figures) {
            (word::ACCEPTED, [surplus, 0, 0, 0]) => Verdict::Accepted {
                surplus: surplus as i64,
            },
            (word @ word::BROKEN, place) => {
                Breach::of(place).map_or(Verdict::Unknown { word }, Verdict::Broken)
            }
            _ => match told.refused() {
                Refused::Case(fault) => Verdict::CaseRefused(fault),
                Refused::Message(fault) => Verdict::PlanRefused(fault),
                Refused::TooShort { bytes } => Verdict::TooShort { bytes },
                Refused::Unknown { word } => Verdict::Unknown { word },
            },
        }
    }
}

impl From<Told> for Listed {
    fn from(told: Told) -> Listed {
        match (told.word, told.figures) {
            (word::LISTED, [count, 0, 0, 0]) => Listed::Breaches {
                count: count as usize,
            },
            _ => match told.refused() {
                Refused::Case(fault) => Listed::CaseRefused(fault),
                Refused::Message(fault) => Listed::PlanRefused(fault),
                Refused::TooShort { bytes } => Listed::TooShort { bytes },
                Refused::Unknown { word } => Listed::Unknown { word },
            },
        }
    }
}

impl From<Told> for Inspected {
    fn from(Told { word, figures }: Told) -> Inspected {
        match (word, figures) {
            (word::INSPECTED, [devices, intervals, zones, 0]) => Inspected::Counts {
                devices: devices as usize,
                intervals: intervals as usize,
                zones: zones as usize,
            },
            (word::CASE_REFUSED, [number, bit, 0, 0]) => {
                Inspected::CaseRefused(Fault { number, bit })
            }
            (word, _) => Inspected::Unknown { word },
        }
    }
}

impl From<Told> for Written {
    fn from(told: Told) -> Written {
        match (told.word, told.figures) {
            (word::WRITTEN, [bytes, 0, 0, 0]) => Written::Message {
                bytes: bytes as usize,
            },
            _ => match told.refused() {
                Refused::Case(fault) => Written::CaseRefused(fault),
                Refused::Message(fault) => Written::PlanRefused(fault),
                Refused::TooShort { bytes } => Written::TooShort { bytes },
                Refused::Unknown { word } => Written::Unknown { word },
            },
        }
    }
}

impl From<Told> for Framed {
    fn from(Told { word, figures }: Told) -> Framed {
        match (word, figures) {
            (word::MESSAGE, [from, until, 0, 0]) => Framed::Message {
                from: from as usize,
                until: until as usize,
            },
            (word::END, [0, 0, 0, 0]) => Framed::End,
            (word::FRAMING_REFUSED, [number, bit, 0, 0]) => Framed::Refused(Fault { number, bit }),
            (word, _) => Framed::Unknown { word },
        }
    }
}

/// The answer of a function that is lent a buffer.
pub trait Lent {
    /// The bytes that it needs, where the buffer is too short.
    fn needed(&self) -> Option<usize>;
}

impl Lent for Verdict {
    fn needed(&self) -> Option<usize> {
        match *self {
            Verdict::TooShort { bytes } => Some(bytes),
            _ => None,
        }
    }
}

impl Lent for Written {
    fn needed(&self) -> Option<usize> {
        match *self {
            Written::TooShort { bytes } => Some(bytes),
            _ => None,
        }
    }
}

/// Calls with no buffer, then with one of the bytes needed, if any are.
pub fn with_buffer<T: Lent>(call: impl Fn(&mut [u8]) -> T) -> (T, Vec<u8>) {
    let answer = call(&mut []);
    let Some(bytes) = answer.needed() else {
        return (answer, Vec::new());
    };
    let mut buffer = vec![0; bytes];
    (call(&mut buffer), buffer)
}

#[cfg(test)]
mod tests {
    use super::{Framed, Inspected, Listed, Verdict, Written};
    use crate::dispatch::Dispatched;
    use crate::explain::Breach;
    use crate::{word, Copied, Fault, Mend, Mended, Read, Told};

    const HEADER: &str = include_str!("../include/kadunfo.h");

    #[test]
    fn words_are_the_headers() {
        let named = [
            ("ACCEPTED", word::ACCEPTED),
            ("JUDGED", word::JUDGED),
            ("INSPECTED", word::INSPECTED),
            ("LISTED", word::LISTED),
            ("WRITTEN", word::WRITTEN),
            ("COPIED", word::COPIED),
            ("READ", word::READ),
            ("DISPATCHED", word::DISPATCHED),
            ("MESSAGE", word::MESSAGE),
            ("BROKEN", word::BROKEN),
            ("MENDED", word::MENDED),
            ("END", word::END),
            ("CASE_REFUSED", word::CASE_REFUSED),
            ("FRAMING_REFUSED", word::FRAMING_REFUSED),
            ("PLAN_REFUSED", word::PLAN_REFUSED),
            ("MESSAGE_REFUSED", word::MESSAGE_REFUSED),
            ("BATCH_REFUSED", word::BATCH_REFUSED),
            ("RESULT_REFUSED", word::RESULT_REFUSED),
            ("UNMENDABLE", word::UNMENDABLE),
            ("NOT_DISPATCHED", word::NOT_DISPATCHED),
        ];
        for (name, word) in named {
            let (_, behind) = HEADER
                .split_once(&format!("    KADUNFO_{name} = "))
                .expect(name);
            let figures = behind.split(|letter: char| !letter.is_ascii_digit()).next();
            assert_eq!(figures, Some(word.to_string().as_str()), "{name}");
        }
    }

    fn told(word: u64, figures: [u64; 4]) -> Told {
        Told { word, figures }
    }

    #[test]
    fn answers_have_the_headers_figures() {
        let fault = Fault { number: 4, bit: 9 };
        let refused = |word| told(word, [4, 9, 0, 0]);
        let short = || told(4, [7, 53, 0, 0]);
        let surplus = -5;
        let accepted = told(0, [surplus as u64, 0, 0, 0]);
        assert_eq!(Verdict::from(accepted), Verdict::Accepted { surplus });
        let first = Breach::from([27, 2, 0, 0]);
        let broken = told(1, [27, 2, 0, 0]);
        assert_eq!(Verdict::from(broken), Verdict::Broken(first));
        assert_eq!(Verdict::from(refused(2)), Verdict::CaseRefused(fault));
        assert_eq!(Verdict::from(refused(3)), Verdict::PlanRefused(fault));
        assert_eq!(Verdict::from(short()), Verdict::TooShort { bytes: 53 });
        let listed = told(0, [3, 0, 0, 0]);
        assert_eq!(Listed::from(listed), Listed::Breaches { count: 3 });
        assert_eq!(Listed::from(refused(2)), Listed::CaseRefused(fault));
        assert_eq!(Listed::from(refused(3)), Listed::PlanRefused(fault));
        assert_eq!(Listed::from(short()), Listed::TooShort { bytes: 53 });
        let counts = Inspected::Counts {
            devices: 3,
            intervals: 2,
            zones: 1,
        };
        assert_eq!(Inspected::from(told(0, [3, 2, 1, 0])), counts);
        assert_eq!(Inspected::from(refused(2)), Inspected::CaseRefused(fault));
        let written = told(0, [53, 0, 0, 0]);
        assert_eq!(Written::from(written), Written::Message { bytes: 53 });
        assert_eq!(Written::from(refused(2)), Written::CaseRefused(fault));
        assert_eq!(Written::from(refused(3)), Written::PlanRefused(fault));
        assert_eq!(Written::from(short()), Written::TooShort { bytes: 53 });
        let message = Framed::Message { from: 3, until: 5 };
        assert_eq!(Framed::from(told(0, [3, 5, 0, 0])), message);
        assert_eq!(Framed::from(told(1, [0; 4])), Framed::End);
        assert_eq!(Framed::from(refused(2)), Framed::Refused(fault));
    }

    #[test]
    fn answers_of_the_later_functions_have_the_headers_figures() {
        let fault = Fault { number: 4, bit: 9 };
        let refused = |word| told(word, [4, 9, 0, 0]);
        let bytes = 53;
        let short = || told(4, [7, 53, 0, 0]);
        let full = || told(0, [53, 0, 0, 0]);
        let broken = told(1, [27, 2, 0, 0]);
        let first = Breach::from([27, 2, 0, 0]);
        assert_eq!(Copied::from(full()), Copied::Written { bytes });
        assert_eq!(Copied::from(broken), Copied::Broken(first));
        assert_eq!(Copied::from(refused(2)), Copied::CaseRefused(fault));
        assert_eq!(Copied::from(refused(3)), Copied::PlanRefused(fault));
        assert_eq!(Copied::from(short()), Copied::TooShort { bytes });
        assert_eq!(Read::from(full()), Read::Figures { numbers: bytes });
        assert_eq!(Read::from(refused(2)), Read::CaseRefused(fault));
        assert_eq!(Read::from(refused(3)), Read::MessageRefused(fault));
        assert_eq!(Read::from(short()), Read::TooShort { bytes });
        assert_eq!(Mended::from(full()), Mended::Accepted { surplus: 53 });
        let mend = Mend {
            interval: 2,
            device: 1,
            power: 150,
        };
        assert_eq!(Mended::from(told(1, [2, 1, 150, 0])), Mended::By(mend));
        assert_eq!(Mended::from(told(6, [0; 4])), Mended::Nothing);
        assert_eq!(Mended::from(refused(2)), Mended::CaseRefused(fault));
        assert_eq!(Mended::from(refused(3)), Mended::PlanRefused(fault));
        assert_eq!(Dispatched::from(told(0, [0; 4])), Dispatched::Powers);
        assert_eq!(Dispatched::from(refused(2)), Dispatched::CaseRefused(fault));
        let not_of_case = told(7, [8, 0, 0, 0]);
        assert_eq!(Dispatched::from(not_of_case), Dispatched::NotOfCase);
        let target = 149;
        let none = told(7, [9, target, 0, 0]);
        assert_eq!(Dispatched::from(none), Dispatched::NoSuchPowers { target });
    }

    /// Other words, a figure too many, another number of a short buffer, a place above any list's.
    #[test]
    fn what_the_header_does_not_have_is_unknown() {
        let unknown = |word| Verdict::Unknown { word };
        for (word, figures) in [
            (0, [1, 0, 0, 1]),
            (1, [256, 1, 1, 0]),
            (1, [1, 1, 1, 256]),
            (2, [4, 9, 1, 0]),
            (3, [4, 9, 0, 1]),
            (4, [6, 53, 0, 0]),
            (5, [0; 4]),
            (6, [0; 4]),
        ] {
            assert_eq!(Verdict::from(told(word, figures)), unknown(word));
        }
        let word = 1;
        assert_eq!(Listed::from(told(1, [0; 4])), Listed::Unknown { word });
        assert_eq!(Written::from(told(1, [0; 4])), Written::Unknown { word });
        let figures = [1, 0, 0, 0];
        assert_eq!(Framed::from(told(1, figures)), Framed::Unknown { word });
        let word = 3;
        let refused = told(3, [4, 9, 0, 0]);
        assert_eq!(Inspected::from(refused), Inspected::Unknown { word });
        let word = 0;
        let figures = [3, 2, 1, 1];
        assert_eq!(
            Inspected::from(told(0, figures)),
            Inspected::Unknown { word }
        );
        let more = || told(0, [53, 0, 0, 1]);
        assert_eq!(Copied::from(more()), Copied::Unknown { word });
        assert_eq!(Read::from(more()), Read::Unknown { word });
        assert_eq!(Mended::from(more()), Mended::Unknown { word });
        assert_eq!(Dispatched::from(more()), Dispatched::Unknown { word });
        let word = 4;
        let short = told(4, [7, 53, 0, 0]);
        assert_eq!(Mended::from(short), Mended::Unknown { word });
        let word = 7;
        let other = told(7, [7, 0, 0, 0]);
        assert_eq!(Dispatched::from(other), Dispatched::Unknown { word });
    }
}
