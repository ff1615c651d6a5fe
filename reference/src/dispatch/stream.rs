//! Questions in a stream, and the output that both sides are held to.
//!
//! The stream is packed as [`crate::packed`] has it; a batch holds a case and then questions. A
//! question is a row of 64-bit numbers, most significant byte first: interval, target, how many sets,
//! earlier powers and offers, then these; an offer is set, block, cap, floor and price, the price in
//! two's complement.
//!
//! The output is, for batch K from 0, a line `batch K`, then for each question from 1 a line
//! `INDEX dispatched CRC`, `INDEX case refused NUMBER BIT CRC` or
//! `INDEX not dispatched NUMBER RETURNED CRC`, with the CRC-32 of the earlier powers and the offers
//! as the call leaves them.

use crate::batch::messages;
use crate::case::read_case;
use crate::crc::crc32;
use crate::dispatch::{dispatch_in, Answer, Offer, Question};

/// "it refuses with 8 (returned: 0)".
const NOT_OF_CASE: u64 = 8;
/// "then with 9 (returned: the target)".
const NO_SUCH_POWERS: u64 = 9;

impl Question {
    pub fn to_bytes(&self) -> Vec<u8> {
        let lengths = [self.sets.len(), self.powers.len(), self.offers.len()];
        let mut numbers = vec![self.interval, self.target];
        numbers.extend(lengths.map(|length| length as u64));
        numbers.extend(&self.sets);
        numbers.extend(&self.powers);
        numbers.extend(self.offers.iter().flat_map(offer_numbers));
        bytes_of(&numbers)
    }

    /// The question of such bytes, if they are one.
    pub fn from_bytes(bytes: &[u8]) -> Option<Question> {
        let (chunks, rest) = bytes.as_chunks::<8>();
        let mut numbers = chunks.iter().map(|chunk| u64::from_be_bytes(*chunk));
        let mut take =
            |count: usize| -> Option<Vec<u64>> { (0..count).map(|_| numbers.next()).collect() };
        let [interval, target, sets, powers, offers] = take(5)?[..] else {
            return None;
        };
        let question = Question {
            interval,
            target,
            sets: take(sets as usize)?,
            powers: take(powers as usize)?,
            offers: (0..offers)
                .map(|_| take(5).and_then(|five| offer_from(&five)))
                .collect::<Option<_>>()?,
        };
        (rest.is_empty() && numbers.next().is_none()).then_some(question)
    }

    /// The CRC-32 of both lists that are lent.
    pub fn lent_crc(&self) -> u32 {
        let offers = self.offers.iter().flat_map(offer_numbers);
        let numbers: Vec<u64> = self.powers.iter().copied().chain(offers).collect();
        crc32(&bytes_of(&numbers))
    }
}

fn bytes_of(numbers: &[u64]) -> Vec<u8> {
    let bytes = numbers.iter().flat_map(|number| number.to_be_bytes());
    bytes.collect()
}

fn offer_numbers(offer: &Offer) -> [u64; 5] {
    let Offer {
        set,
        block,
        cap,
        floor,
        price,
    } = *offer;
    [set, block, cap, floor, price as u64]
}

fn offer_from(numbers: &[u64]) -> Option<Offer> {
    let &[set, block, cap, floor, price] = numbers else {
        return None;
    };
    Some(Offer {
        set,
        block,
        cap,
        floor,
        price: price as i64,
    })
}

/// The questions of a batch that has a case ahead of them.
pub fn questions(batch: &[u8]) -> Result<(&[u8], Vec<Question>), String> {
    let messages = messages(batch);
    let (case, rest) = messages.split_first().ok_or("a batch without a case")?;
    let read = |bytes: &&[u8]| Question::from_bytes(bytes).ok_or("no question".to_string());
    Ok((case, rest.iter().map(read).collect::<Result<_, _>>()?))
}

/// The answers to a batch's questions, each with the lists as they are left.
pub fn answers(batch: &[u8]) -> Result<Vec<(Answer, Question)>, String> {
    let (case, questions) = questions(batch)?;
    let read = read_case(case);
    let answer = |mut question: Question| {
        let answer = match &read {
            Ok((_, case)) => dispatch_in(case, &mut question),
            Err(fault) => Answer::CaseRefused(*fault),
        };
        (answer, question)
    };
    Ok(questions.into_iter().map(answer).collect())
}

/// The output of batch `number` with these answers, each line with its end.
pub fn output(number: usize, answers: &[(Answer, Question)]) -> String {
    let mut output = format!("batch {number}\n");
    for (index, (answer, question)) in (1..).zip(answers) {
        output += &line(index, answer, question);
    }
    output
}

fn line(index: usize, answer: &Answer, question: &Question) -> String {
    let told = match answer {
        Answer::Dispatched => "dispatched".to_string(),
        Answer::CaseRefused(fault) => {
            format!("case refused {} {}", fault.number.figure(), fault.bit)
        }
        Answer::NotOfCase => format!("not dispatched {NOT_OF_CASE} 0"),
        Answer::NoSuchPowers { target } => format!("not dispatched {NO_SUCH_POWERS} {target}"),
    };
    format!("{index} {told} {}\n", question.lent_crc())
}
