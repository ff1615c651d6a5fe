//! The batch program's lines, from what the exported functions answer: behind an accepted plan with
//! its completion's length and CRC-32, behind a broken one with those of the list of its breaches,
//! and behind each case and plan that passes reading with those of it in the newest edition; with
//! copies, behind an accepted plan those of its market copy, and behind a refused message what both
//! readers make of it; with copies also what mending a plan comes to. The plans of each batch are
//! judged by one call besides, which must give the same.

#[path = "batches.rs"]
mod batches;
#[path = "mends.rs"]
mod mends;

use batches::Alone;
use host::{
    breaches, inspect, judge, market, messages, read_completion, read_market, write_case,
    write_plan, Copied, Fault, Inspected, Listed, Read, Verdict, Written, LONGEST_CASE,
    LONGEST_LIST, MOST_NUMBERS,
};
use reference::breaches::BREACH_BYTES;
use reference::crc::crc32;
use reference::packed::Extent;

/// The output of the batch with this number, each line with its end.
pub fn of_batch(extent: Extent, number: usize, batch: &[u8]) -> String {
    let mut output = format!("batch {number}\n");
    let mut case = None;
    let mut messages = messages(batch);
    for index in 0.. {
        let Some(message) = messages.next() else {
            break;
        };
        match (message, &mut case) {
            (Err(fault), _) => output += &format!("framing {}\n", fault.number),
            (Ok(message), None) => {
                let (line, passes) = case_line(index, message);
                output += &line;
                if !passes {
                    output += &mend_line(extent, message, &[]);
                    break;
                }
                case = Some(Judging::by(extent, message, messages.rest()));
            }
            (Ok(plan), Some(judging)) => output += &judging.plan_lines(index, plan),
        }
    }
    if let Some(judging) = case {
        judging.alone.hold(judging.case, judging.plans);
    }
    output
}

/// What mending a message comes to, where copies are told.
fn mend_line(extent: Extent, case: &[u8], plan: &[u8]) -> String {
    if extent == Extent::Corpus {
        return String::new();
    }
    mends::mend_line(case, plan)
}

/// The line of a case, and whether it passes reading.
fn case_line(index: usize, case: &[u8]) -> (String, bool) {
    match inspect(case) {
        Inspected::Counts {
            devices,
            intervals,
            zones,
        } => {
            let mut room = vec![0; LONGEST_CASE];
            let rewritten = rewritten_line(write_case(case, &mut room), &room);
            (
                format!("{index} case {devices} {intervals} {zones}\n{rewritten}"),
                true,
            )
        }
        Inspected::CaseRefused(fault) => {
            let line = format!("{index} refused {} {}\n", fault.number, fault.bit);
            (line, false)
        }
        other => panic!("a case is answered with {other:?}"),
    }
}

/// The line of a message that was written to the front of some room.
fn rewritten_line(written: Written, room: &[u8]) -> String {
    let Written::Message { bytes } = written else {
        panic!("what passes reading is written, not {written:?}");
    };
    format!("rewritten {bytes} {}\n", crc32(&room[..bytes]))
}

/// The line of a message that a reader was lent.
fn reading_line(reader: &str, answer: Read, table: &[u64]) -> String {
    match answer {
        Read::Figures { numbers } => {
            let numbers = &table[..numbers];
            let bytes: Vec<u8> = numbers.iter().flat_map(|n| n.to_be_bytes()).collect();
            format!("{reader} read {} {}\n", numbers.len(), crc32(&bytes))
        }
        Read::MessageRefused(fault) => {
            format!("{reader} refused {} {}\n", fault.number, fault.bit)
        }
        other => panic!("a message is answered with {other:?}"),
    }
}

/// A case, and the room that is lent with its plans.
struct Judging<'a> {
    extent: Extent,
    case: &'a [u8],
    /// The batch behind the case.
    plans: &'a [u8],
    /// As long as each completion of the case, once it is known.
    completion: Vec<u8>,
    list: Vec<u8>,
    table: Vec<u64>,
    alone: Alone,
}

impl<'a> Judging<'a> {
    fn by(extent: Extent, case: &'a [u8], plans: &'a [u8]) -> Judging<'a> {
        Judging {
            extent,
            case,
            plans,
            completion: Vec::new(),
            list: vec![0; LONGEST_LIST],
            table: vec![0; MOST_NUMBERS],
            alone: Alone::default(),
        }
    }

    /// The verdict with room for the completion; a refusal of too little tells its length.
    fn judge(&mut self, plan: &[u8]) -> Verdict {
        match judge(self.case, plan, &mut self.completion) {
            Verdict::TooShort { bytes } => {
                self.completion.resize(bytes, 0);
                judge(self.case, plan, &mut self.completion)
            }
            verdict => verdict,
        }
    }

    fn plan_lines(&mut self, index: usize, plan: &[u8]) -> String {
        let verdict = self.judge(plan);
        self.alone.note(verdict, &self.completion);
        let mend = mend_line(self.extent, self.case, plan);
        match verdict {
            Verdict::Accepted { surplus } => {
                let bytes = self.completion.len();
                let crc = crc32(&self.completion);
                let copy = self.copy_line(plan);
                let rewritten = self.rewritten_line(plan);
                let behind = copy + &mend + &rewritten;
                format!("{index} accepted {surplus}\ncompletion {bytes} {crc}\n{behind}")
            }
            Verdict::Broken(first) => {
                let list = self.list_line(plan);
                let rewritten = self.rewritten_line(plan);
                let behind = list + &mend + &rewritten;
                format!("{index} broken {first}\n{behind}")
            }
            Verdict::PlanRefused(Fault { number, bit }) => {
                let readings = self.reading_lines(plan);
                format!("{index} refused {number} {bit}\n{readings}{mend}")
            }
            other => panic!("a plan is answered with {other:?}"),
        }
    }

    /// The line of an accepted plan's copy, where copies are told.
    fn copy_line(&mut self, plan: &[u8]) -> String {
        if self.extent == Extent::Corpus {
            return String::new();
        }
        match market(self.case, plan, &mut self.list) {
            Copied::Written { bytes } => format!("copy {bytes} {}\n", crc32(&self.list[..bytes])),
            other => panic!("an accepted plan has a copy, not {other:?}"),
        }
    }

    /// What both readers make of a message that is no plan, where copies are told.
    fn reading_lines(&mut self, message: &[u8]) -> String {
        if self.extent == Extent::Corpus {
            return String::new();
        }
        let answer = read_completion(self.case, message, &mut self.table);
        let desk = reading_line("desk", answer, &self.table);
        let answer = read_market(self.case, message, &mut self.table);
        desk + &reading_line("market", answer, &self.table)
    }

    fn rewritten_line(&mut self, plan: &[u8]) -> String {
        let written = write_plan(self.case, plan, &mut self.list);
        rewritten_line(written, &self.list)
    }

    fn list_line(&mut self, plan: &[u8]) -> String {
        let listed = breaches(self.case, plan, &mut self.list);
        let Listed::Breaches { count } = listed else {
            panic!("a broken plan has a list, not {listed:?}");
        };
        let crc = crc32(&self.list[..BREACH_BYTES * count]);
        format!("breaches {count} {crc}\n")
    }
}
