//! The long run: random batches, another program's output against the reference's.

use std::io::{self, Read, Write};
use std::process::{Command, Stdio};
use std::thread;

use crate::batch::{case_line, join, messages, run, Line};
use crate::breaches::{breaches_in, bytes_of};
use crate::case::{read_case, read_case_in, Case};
use crate::census::Census;
use crate::completion::{market_bytes, Audience};
use crate::edition::Edition;
use crate::encode::{encode_case, encode_plan};
use crate::fault::Fault;
use crate::form::Form;
use crate::generate::batches::{random_batch, random_size};
use crate::generate::mends::mend_batch;
use crate::generate::order::random_order;
use crate::generate::prices::exchange_prices;
use crate::generate::readings::damaged_reading;
use crate::generate::shape::Size;
use crate::market::read_for;
use crate::mend::Mend;
use crate::packed::{append_batch, append_output, pack, Extent};
use crate::plan::{read_plan, Plan};
use crate::renumber::Order;
use crate::rewrite::newest_plan;
use crate::rng::Rng;

/// What a run compares.
#[derive(Clone, Copy, PartialEq, Eq, Debug)]
pub struct Settings {
    /// The form that both sides judge in.
    pub form: Form,
    /// The form whose days are drawn.
    pub drawn: Form,
    pub seed: u64,
    /// The number of the first batch of the seed.
    pub first_batch: u64,
    pub until: Until,
    /// About as many plans per batch; fewer where messages are large.
    pub plans_per_batch: usize,
    /// Whether the batches are those for mending (A.13): mostly small days, most plans broken.
    pub mends: bool,
}

impl Settings {
    /// Batch `number` of the seed.
    fn batch(&self, number: u64) -> Vec<u8> {
        let &Settings { drawn, seed, .. } = self;
        if self.mends {
            let mut rng = Rng::numbered(seed, number);
            return mend_batch(&mut rng, drawn, self.plans_per_batch);
        }
        numbered_batch(drawn, seed, number, self.plans_per_batch)
    }
}

/// Where a run ends, unless at a difference.
#[derive(Clone, Copy, PartialEq, Eq, Debug)]
pub enum Until {
    Batches(u64),
    Plans(u64),
}

/// The first line that differs.
#[derive(Clone, PartialEq, Eq, Debug)]
pub struct Difference {
    /// The batch, by its number among those of the seed.
    pub batch: u64,
    /// The line, from 1, of the output for that batch, its line `batch 0` included.
    pub line: usize,
    pub expected: Option<String>,
    pub given: Option<String>,
    /// What to store: the batch alone, packed, or the whole chunk.
    pub packed: Vec<u8>,
    /// Whether the product differs on the batch alone, too.
    pub shows_alone: bool,
}

/// The source of the product's output: packed batches in, output in the form of
/// [`crate::packed`] back.
pub type Product<'a> = dyn FnMut(&[u8]) -> io::Result<Vec<u8>> + 'a;

const CHUNK_BATCHES: usize = 256;
const CHUNK_BYTES: usize = 8 << 20;
/// Batches of the greatest sizes are kept to about so many bytes of plans.
const PLAN_BYTES_PER_BATCH: usize = 1 << 20;

/// About how long the plans of a size are at most.
fn plan_bytes(size: Size) -> usize {
    match size {
        Size::Tiny | Size::Small | Size::Medium => 1,
        Size::Large | Size::Full => 20_000,
        Size::Beyond => 40_000,
        Size::Greatest => 160_000,
    }
}

/// Batch `number` of a seed, for a form.
pub fn numbered_batch(form: Form, seed: u64, number: u64, plans_per_batch: usize) -> Vec<u8> {
    let mut rng = Rng::numbered(seed, number);
    let size = random_size(&mut rng, form);
    let plans = plans_per_batch.min(PLAN_BYTES_PER_BATCH / plan_bytes(size));
    random_batch(&mut rng, form, size, plans)
}

/// Compares until the settings are met or the first difference; counts what was compared.
pub fn compare(
    settings: &Settings,
    product: &mut Product,
    mut report: impl FnMut(&Census),
) -> io::Result<(Census, Option<Difference>)> {
    let mut census = Census::default();
    let mut next = settings.first_batch;
    while !is_done(settings, next, &census) {
        let chunk = next_chunk(settings, &mut next, &mut census);
        if let Some(difference) = chunk.compare(product)? {
            return Ok((census, Some(difference)));
        }
        report(&census);
    }
    Ok((census, None))
}

fn is_done(settings: &Settings, next: u64, census: &Census) -> bool {
    match settings.until {
        Until::Batches(batches) => next - settings.first_batch >= batches,
        Until::Plans(plans) => census.plans() as u64 >= plans,
    }
}

/// Batches that go to the product together: each of the seed and, behind it, its messages in the
/// newest edition, then its messages with their devices in another order; with copies, also its
/// plans for the case at other prices, and completions and copies for their readers.
struct Chunk {
    extent: Extent,
    /// Of each batch, its number among those of the seed.
    numbers: Vec<u64>,
    batches: Vec<Vec<u8>>,
    lines: Vec<Vec<Line>>,
}

impl Chunk {
    /// Adds a batch of the seed with those behind it.
    fn add_numbered(&mut self, settings: &Settings, number: u64, census: &mut Census) {
        let &Settings { form, seed, .. } = settings;
        let batch = settings.batch(number);
        let lines = run(form, &batch);
        census.add(&lines);
        let rewritten = rewritten_batch(&lines);
        let judged_again = run(form, &rewritten);
        assert_eq!(
            verdicts(&judged_again),
            verdicts(&lines),
            "batch {number} of seed {seed} is judged otherwise in the newest edition"
        );
        let mut rng = Rng::numbered(!seed, number);
        let (renumbered, carried) = renumbered(form, &mut rng, &batch, &lines);
        assert_eq!(
            run(form, &renumbered),
            carried,
            "batch {number} of seed {seed} is judged otherwise with its devices in another order"
        );
        let copies = self.copies(settings, number, &batch, &lines);
        let mut sent = vec![
            (batch, lines),
            (rewritten, judged_again),
            (renumbered, carried),
        ];
        sent.extend(copies);
        for (batch, lines) in sent {
            if self.extent == Extent::WithCopies {
                census.copies.add(&lines);
            }
            self.add(number, batch, lines);
        }
    }

    /// The batches that one gives for its copies, with their lines, where copies are told.
    fn copies(
        &self,
        settings: &Settings,
        number: u64,
        batch: &[u8],
        lines: &[Line],
    ) -> Vec<(Vec<u8>, Vec<Line>)> {
        let &Settings { form, seed, .. } = settings;
        if self.extent == Extent::Corpus {
            return Vec::new();
        }
        let mut rng = Rng::numbered(seed ^ COPIES, number);
        let batches = copy_batches(&mut rng, batch, lines);
        let told = batches.iter().map(|copies| run(form, copies));
        let told: Vec<Vec<Line>> = told.collect();
        if let Some(at_other_prices) = told.first() {
            assert_eq!(
                market_answers(at_other_prices),
                market_answers(lines),
                "copies of batch {number} of seed {seed} tell a price"
            );
        }
        batches.into_iter().zip(told).collect()
    }

    fn add(&mut self, number: u64, batch: Vec<u8>, lines: Vec<Line>) {
        self.numbers.push(number);
        self.batches.push(batch);
        self.lines.push(lines);
    }

    fn bytes(&self) -> usize {
        self.batches.iter().map(Vec::len).sum()
    }
}

/// The messages of a batch that pass reading, written in the newest edition.
fn rewritten_batch(lines: &[Line]) -> Vec<u8> {
    let messages: Vec<&[u8]> = lines.iter().filter_map(Line::rewritten).collect();
    join(&messages)
}

/// The batch with every price and cost of its case exchanged.
fn exchanged_batch(rng: &mut Rng, edition: Edition, mut case: Case, batch: &[u8]) -> Vec<u8> {
    let behind_case = 3 + messages(batch)[0].len();
    exchange_prices(rng, edition, &mut case);
    let mut exchanged = join(&[encode_case(edition, &case).bytes]);
    exchanged.extend_from_slice(&batch[behind_case..]);
    exchanged
}

/// "Two accepted case and plan pairs that differ in prices and costs only, at will, give the same
/// market copy and, with buffers of one length, the same refusals for it."
fn market_answers(lines: &[Line]) -> Vec<(Option<Fault>, &[u8])> {
    lines.iter().filter_map(market_answer).collect()
}

fn market_answer(line: &Line) -> Option<(Option<Fault>, &[u8])> {
    match line {
        Line::Accepted { copy, .. } => Some((None, copy)),
        Line::Broken { breaches, .. } => Some((None, breaches)),
        Line::Refused { fault, .. } => Some((Some(*fault), &[])),
        Line::Case { .. } | Line::Framing { .. } => None,
    }
}

/// How many accepted plans of a batch give messages for the readers.
const PLANS_READ: usize = 4;

/// The case with completions and copies of some of its plans, each as it is and damaged.
fn readings_batch(
    rng: &mut Rng,
    edition: Edition,
    case: &Case,
    batch: &[u8],
    lines: &[Line],
) -> Vec<u8> {
    let accepted = lines.iter().filter_map(|line| match line {
        Line::Accepted { message, copy, .. } => Some([message, copy]),
        _ => None,
    });
    let mut joined = vec![messages(batch)[0].to_vec()];
    for pair in accepted.take(PLANS_READ) {
        for (audience, message) in Audience::ALL.into_iter().zip(pair) {
            joined.push(message.clone());
            joined.push(damaged_reading(rng, audience, edition, case, message));
        }
    }
    join(&joined)
}

/// What a batch gives for its copies: its plans for the case at other prices, and messages for the
/// readers; nothing where its case is refused.
fn copy_batches(rng: &mut Rng, batch: &[u8], lines: &[Line]) -> Vec<Vec<u8>> {
    let Some((edition, case)) = messages(batch)
        .first()
        .and_then(|message| read_case(message).ok())
    else {
        return Vec::new();
    };
    let readings = readings_batch(rng, edition, &case, batch, lines);
    vec![exchanged_batch(rng, edition, case, batch), readings]
}

/// What is told of a pair in every edition: its surplus, or its breaches and its mend.
type Told<'a> = (i128, &'a [u8], Option<(Mend, i128)>);

/// "the written pair's verdict is the old pair's, place included", and every breach and the mend with
/// it.
fn verdicts(lines: &[Line]) -> Vec<Option<Told<'_>>> {
    let of_pair = |line| match line {
        &Line::Accepted { surplus, .. } => Some(Some((surplus, &[][..], None))),
        Line::Broken { breaches, mend, .. } => Some(Some((0, &breaches[..], *mend))),
        Line::Case { .. } => Some(None),
        Line::Refused { .. } | Line::Framing { .. } => None,
    };
    lines.iter().filter_map(of_pair).collect()
}

/// A batch's messages that pass reading with their devices in another order, and what must be told
/// of them: the answers to the batch, carried along.
struct Renumbered {
    edition: Edition,
    case: Case,
    order: Order,
    batch: Vec<Vec<u8>>,
    lines: Vec<Line>,
}

impl Renumbered {
    /// The case alone.
    fn of_case(edition: Edition, case: Case, order: Order) -> Renumbered {
        let renumbered = order.case(&case);
        Renumbered {
            batch: vec![encode_case(edition, &renumbered).bytes],
            lines: vec![case_line(0, edition, &renumbered)],
            edition,
            case,
            order,
        }
    }

    fn add_plan(&mut self, plan: &Plan, answer: &Line) {
        let renumbered = self.order.plan(plan);
        let line = self.carried(answer, newest_plan(&renumbered));
        self.batch
            .push(encode_plan(self.edition, &renumbered).bytes);
        self.lines.push(line);
    }

    /// "the surplus is equal, zone shortfalls and mismatches are equal, and each device's part of
    /// the completion goes with it", or the breaches, "with device numbers carried along".
    fn carried(&self, answer: &Line, rewritten: Vec<u8>) -> Line {
        let index = self.lines.len();
        match answer {
            Line::Accepted {
                surplus, message, ..
            } => {
                let message = self.order.message(self.edition, &self.case, message);
                Line::Accepted {
                    index,
                    surplus: *surplus,
                    copy: copy_of(self.edition, &self.order.case(&self.case), &message),
                    message,
                    rewritten,
                }
            }
            Line::Broken { breaches, mend, .. } => {
                let breaches = self.order.breaches(&breaches_in(breaches));
                Line::Broken {
                    index,
                    place: breaches[0],
                    breaches: bytes_of(&breaches),
                    mend: mend.map(|(mend, surplus)| (mend.renumbered(&self.order), surplus)),
                    rewritten,
                }
            }
            _ => panic!("a plan that passes reading is accepted or broken"),
        }
    }
}

/// A batch of which the case is refused gives an empty one.
fn renumbered(form: Form, rng: &mut Rng, batch: &[u8], lines: &[Line]) -> (Vec<u8>, Vec<Line>) {
    let messages = messages(batch);
    let case = messages.first().map(|message| read_case_in(form, message));
    let Some(Ok((edition, case))) = case else {
        return (Vec::new(), Vec::new());
    };
    let order = random_order(rng, case.devices.len());
    let mut renumbered = Renumbered::of_case(edition, case, order);
    for (message, line) in messages.iter().zip(lines).skip(1) {
        if let Ok(plan) = read_plan(edition, &renumbered.case, message) {
            renumbered.add_plan(&plan, line);
        }
    }
    (join(&renumbered.batch), renumbered.lines)
}

/// The market's copy of a completion, by its bytes.
fn copy_of(edition: Edition, case: &Case, message: &[u8]) -> Vec<u8> {
    let read = read_for(Audience::Desk, edition, case, message);
    let figures = read.expect("a completion carried along is one");
    market_bytes(edition, case, &figures.completion)
}

fn next_chunk(settings: &Settings, next: &mut u64, census: &mut Census) -> Chunk {
    let mut chunk = Chunk {
        extent: Extent::of_run(settings.form),
        numbers: Vec::new(),
        batches: Vec::new(),
        lines: Vec::new(),
    };
    while !is_done(settings, *next, census)
        && chunk.batches.len() < CHUNK_BATCHES
        && chunk.bytes() < CHUNK_BYTES
    {
        chunk.add_numbered(settings, *next, census);
        *next += 1;
    }
    chunk
}

/// What sets the random numbers for copies apart from those of the batches.
const COPIES: u64 = 0xA7;

impl Chunk {
    fn compare(&self, product: &mut Product) -> io::Result<Option<Difference>> {
        let packed = pack(&self.batches);
        let given = product(&packed)?;
        let given = Lines::of(&given);
        let mut at = 0;
        for (k, lines) in self.lines.iter().enumerate() {
            let mut expected = String::new();
            append_output(self.extent, &mut expected, k, lines);
            let ends_here = k + 1 == self.lines.len();
            if let Some(line) = first_difference(&expected, &given, &mut at, ends_here) {
                return self.difference(product, k, line, &packed).map(Some);
            }
        }
        Ok(None)
    }

    /// Tries the batch alone; if that does not differ, the whole chunk is what to store.
    fn difference(
        &self,
        product: &mut Product,
        k: usize,
        in_chunk: LineDifference,
        packed: &[u8],
    ) -> io::Result<Difference> {
        let mut alone = Vec::new();
        append_batch(&mut alone, &self.batches[k]);
        let given = product(&alone)?;
        let mut expected = String::new();
        append_output(self.extent, &mut expected, 0, &self.lines[k]);
        let line_alone = first_difference(&expected, &Lines::of(&given), &mut 0, true);
        let shows_alone = line_alone.is_some();
        let line = line_alone.unwrap_or(in_chunk);
        Ok(Difference {
            batch: self.numbers[k],
            line: line.number,
            expected: line.expected,
            given: line.given,
            packed: if shows_alone { alone } else { packed.to_vec() },
            shows_alone,
        })
    }
}

pub(crate) struct LineDifference {
    pub(crate) number: usize,
    pub(crate) expected: Option<String>,
    pub(crate) given: Option<String>,
}

/// Lines of an output, each with its newline, so that a missing one shows.
pub(crate) struct Lines<'a> {
    lines: Vec<&'a [u8]>,
}

impl<'a> Lines<'a> {
    pub(crate) fn of(output: &'a [u8]) -> Lines<'a> {
        Lines {
            lines: output.split_inclusive(|&byte| byte == b'\n').collect(),
        }
    }
}

/// Compares expected lines with those given from line `at` on, and moves `at` behind them; where
/// the output ends, so must what is given.
pub(crate) fn first_difference(
    expected: &str,
    given: &Lines,
    at: &mut usize,
    ends_here: bool,
) -> Option<LineDifference> {
    let shown = |line: &[u8]| String::from_utf8_lossy(line).escape_debug().to_string();
    for (index, line) in expected.split_inclusive('\n').enumerate() {
        let found = given.lines.get(*at).copied();
        if found != Some(line.as_bytes()) {
            return Some(LineDifference {
                number: index + 1,
                expected: Some(shown(line.as_bytes())),
                given: found.map(shown),
            });
        }
        *at += 1;
    }
    match given.lines.get(*at) {
        Some(line) if ends_here => Some(LineDifference {
            number: expected.lines().count() + 1,
            expected: None,
            given: Some(shown(line)),
        }),
        _ => None,
    }
}

/// The output of a program that reads packed batches on its standard input.
pub fn output_of_program(program: &str, packed: &[u8]) -> io::Result<Vec<u8>> {
    let mut child = Command::new(program)
        .stdin(Stdio::piped())
        .stdout(Stdio::piped())
        .spawn()?;
    let mut input = child.stdin.take().expect("its input is piped");
    let mut source = child.stdout.take().expect("its output is piped");
    let mut output = Vec::new();
    thread::scope(|scope| {
        // A program that stops reading early shows by its output, not by this write.
        scope.spawn(move || input.write_all(packed).ok());
        source.read_to_end(&mut output)
    })?;
    let status = child.wait()?;
    if !status.success() {
        eprintln!("{program} ended with {status}");
    }
    Ok(output)
}
