//! The long run of dispatches: random questions, another program's output against the reference's.

use std::fmt;
use std::io;

use crate::batch::messages;
use crate::case::{read_case, Case};
use crate::compare::{first_difference, Difference, LineDifference, Lines, Product};
use crate::dispatch::stream::{answers, output, questions};
use crate::dispatch::{exchange, exhaustive, Answer, Question, Task};
use crate::edition::Edition;
use crate::form::Largest;
use crate::generate::dispatches::random_batch;
use crate::packed::pack;
use crate::rng::Rng;

/// What a run compares.
#[derive(Clone, Copy, PartialEq, Eq, Debug)]
pub struct Settings {
    pub seed: u64,
    /// The number of the first case of the seed.
    pub first_case: u64,
    /// How many questions at least.
    pub questions: u64,
}

const QUESTIONS_PER_CASE: usize = 40;
const CHUNK_BATCHES: usize = 64;

/// What was answered.
#[derive(Clone, PartialEq, Eq, Debug, Default)]
pub struct Tally {
    pub cases: u64,
    pub dispatched: u64,
    pub cases_refused: u64,
    /// By 8 and by 9.
    pub not_of_case: u64,
    pub no_such_powers: u64,
    /// Dispatched with more sets than a day of editions 1 to 3 has.
    pub large: u64,
    /// Dispatched with no set, and with offers of equal prices.
    pub without_sets: u64,
    pub equal_prices: u64,
    /// Answered by the definition too.
    pub tried_out: u64,
    /// Dispatched, by the number of the edition less 1.
    pub by_edition: [u64; Edition::ALL.len()],
}

impl Tally {
    pub fn questions(&self) -> u64 {
        self.dispatched + self.cases_refused + self.not_of_case + self.no_such_powers
    }

    fn add(&mut self, edition: Option<Edition>, answer: &Answer, question: &Question) {
        match answer {
            Answer::Dispatched => self.add_dispatched(edition, question),
            Answer::CaseRefused(_) => self.cases_refused += 1,
            Answer::NotOfCase => self.not_of_case += 1,
            Answer::NoSuchPowers { .. } => self.no_such_powers += 1,
        }
    }

    fn add_dispatched(&mut self, edition: Option<Edition>, question: &Question) {
        let is_equal = |pair: &[super::Offer]| pair[0].price == pair[1].price;
        self.dispatched += 1;
        self.large += u64::from(question.sets.len() > Largest::SMALL.devices);
        self.without_sets += u64::from(question.sets.is_empty());
        self.equal_prices += u64::from(question.offers.windows(2).any(is_equal));
        if let Some(edition) = edition {
            self.by_edition[edition.figure() as usize - 1] += 1;
        }
    }
}

impl fmt::Display for Tally {
    fn fmt(&self, out: &mut fmt::Formatter) -> fmt::Result {
        writeln!(out, "cases {}, questions {}", self.cases, self.questions())?;
        writeln!(
            out,
            "dispatched {}: by edition {:?}, above 16 sets {}, without sets {}, equal prices {}",
            self.dispatched, self.by_edition, self.large, self.without_sets, self.equal_prices
        )?;
        writeln!(
            out,
            "refused: case {}, by 8 {}, by 9 {}",
            self.cases_refused, self.not_of_case, self.no_such_powers
        )?;
        write!(out, "by the definition too {}", self.tried_out)
    }
}

/// Batch `number` of a seed: a case and questions for it.
pub fn numbered_batch(seed: u64, number: u64) -> Vec<u8> {
    random_batch(&mut Rng::numbered(seed, number), QUESTIONS_PER_CASE)
}

/// The stream that a run without differences asks.
pub fn stream(settings: &Settings) -> Vec<u8> {
    let batches = settings.questions.div_ceil(QUESTIONS_PER_CASE as u64);
    let numbers = settings.first_case..settings.first_case + batches;
    let batches: Vec<Vec<u8>> = numbers
        .map(|number| numbered_batch(settings.seed, number))
        .collect();
    pack(&batches)
}

/// Compares until there were so many questions or the first difference; counts what was answered.
pub fn compare(
    settings: &Settings,
    product: &mut Product,
    mut report: impl FnMut(&Tally),
) -> io::Result<(Tally, Option<Difference>)> {
    let mut tally = Tally::default();
    let mut next = settings.first_case;
    while tally.questions() < settings.questions {
        let numbers: Vec<u64> = (next..).take(CHUNK_BATCHES).collect();
        next += CHUNK_BATCHES as u64;
        if let Some(difference) = compare_chunk(settings.seed, &numbers, product, &mut tally)? {
            return Ok((tally, Some(difference)));
        }
        report(&tally);
    }
    Ok((tally, None))
}

fn compare_chunk(
    seed: u64,
    numbers: &[u64],
    product: &mut Product,
    tally: &mut Tally,
) -> io::Result<Option<Difference>> {
    let batch = |&number: &u64| numbered_batch(seed, number);
    let batches: Vec<Vec<u8>> = numbers.iter().map(batch).collect();
    let packed = pack(&batches);
    let given = product(&packed)?;
    let (given, mut at) = (Lines::of(&given), 0);
    for (k, batch) in batches.iter().enumerate() {
        let expected = output(k, &tallied(batch, tally));
        let ends_here = k + 1 == batches.len();
        if let Some(line) = first_difference(&expected, &given, &mut at, ends_here) {
            return told(numbers[k], batch, line, packed, product).map(Some);
        }
    }
    Ok(None)
}

/// The answers to a batch, counted.
fn tallied(batch: &[u8], tally: &mut Tally) -> Vec<(Answer, Question)> {
    let answers = answers(batch).expect("a batch of questions");
    let read = read_case(messages(batch)[0]).ok();
    tally.cases += 1;
    for (answer, question) in &answers {
        tally.add(read.as_ref().map(|read| read.0), answer, question);
    }
    if let Some((_, case)) = read {
        let (_, asked) = questions(batch).expect("a batch of questions");
        let tried = asked.iter().filter(|asked| is_tried_out(&case, asked));
        tally.tried_out += tried.count() as u64;
    }
    answers
}

/// The most choices of block powers that are tried one by one.
const MOST_CHOICES: u64 = 1_000;

/// Whether a question is small enough for the definition, which then must give the same.
fn is_tried_out(case: &Case, question: &Question) -> bool {
    let Some(task) = Task::of(case, question) else {
        return false;
    };
    let is_small = exhaustive::choices(&task).is_some_and(|choices| choices <= MOST_CHOICES);
    if is_small {
        let (found, defined) = (exchange::cheapest(&task), exhaustive::cheapest(&task));
        assert_eq!(found, defined, "{question:?}");
    }
    is_small
}

/// A difference, with the batch alone to store where it shows alone, else the chunk.
fn told(
    number: u64,
    batch: &[u8],
    in_chunk: LineDifference,
    chunk: Vec<u8>,
    product: &mut Product,
) -> io::Result<Difference> {
    let alone = pack(&[batch]);
    let given = product(&alone)?;
    let expected = output(0, &answers(batch).expect("a batch of questions"));
    let line_alone = first_difference(&expected, &Lines::of(&given), &mut 0, true);
    let shows_alone = line_alone.is_some();
    let line = line_alone.unwrap_or(in_chunk);
    Ok(Difference {
        batch: number,
        line: line.number,
        expected: line.expected,
        given: line.given,
        packed: if shows_alone { alone } else { chunk },
        shows_alone,
    })
}
