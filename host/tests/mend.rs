//! The smallest power change that mends a plan, through the static library, beside the reference: on
//! every pair of both corpora, and on plans made for mending, in every edition.

mod common;

use common::{each_pair, fault};
use host::messages::read_case;
use host::{judge, mend, Fault, Mend, Mended, Verdict, LONGEST_COMPLETION};
use reference::encode::{encode_case, encode_plan};
use reference::generate::mends::Mendable;
use reference::generate::shape::Size;
use reference::judge::Refusal;
use reference::mend::{mend as expected, Mend as ExpectedMend, Mending};
use reference::rng::Rng;
use reference::worked_day::{lettered_days, Day};

const SEED: u64 = 131;

/// The reference's answer as the wrapper gives it.
fn told(answer: Mending) -> Mended {
    match answer {
        Mending::Accepted { surplus } => Mended::Accepted {
            surplus: surplus as i64,
        },
        Mending::Mended(ExpectedMend {
            interval,
            device,
            power,
        }) => Mended::By(Mend {
            interval,
            device,
            power: power as i64,
        }),
        Mending::Nothing => Mended::Nothing,
        Mending::Refused(Refusal::Case(at)) => Mended::CaseRefused(fault(at)),
        Mending::Refused(Refusal::Plan(at)) => Mended::PlanRefused(fault(at)),
        Mending::Refused(Refusal::BufferTooShort { .. }) => panic!("no buffer is lent"),
    }
}

/// How often each is answered.
#[derive(Default, Debug)]
struct Counts {
    accepted: u32,
    mended: u32,
    nothing: u32,
    refused: u32,
}

impl Counts {
    /// Both sides on one pair; what they say must be borne out by the judgement.
    fn hold(&mut self, case: &[u8], plan: &[u8]) {
        let answer = mend(case, plan);
        assert_eq!(answer, told(expected(case, plan)));
        let mut room = vec![0; LONGEST_COMPLETION];
        let judged = judge(case, plan, &mut room);
        match answer {
            Mended::Accepted { surplus } => {
                assert_eq!(judged, Verdict::Accepted { surplus });
                self.accepted += 1;
            }
            Mended::By(mend) => {
                assert!(matches!(judged, Verdict::Broken(_)), "{judged:?}");
                hold_mended(case, plan, mend);
                self.mended += 1;
            }
            Mended::Nothing => {
                assert!(matches!(judged, Verdict::Broken(_)), "{judged:?}");
                self.nothing += 1;
            }
            Mended::CaseRefused(fault) => {
                assert_eq!(judged, Verdict::CaseRefused(fault));
                self.refused += 1;
            }
            Mended::PlanRefused(fault) => {
                assert_eq!(judged, Verdict::PlanRefused(fault));
                self.refused += 1;
            }
            Mended::Unknown { word } => panic!("answered {word}"),
        }
    }
}

/// The mended plan is accepted; with a power one kW nearer to the old one it is broken.
fn hold_mended(case: &[u8], plan: &[u8], mend: Mend) {
    let figures = read_case(case).expect("it passes reading");
    let mut room = vec![0; LONGEST_COMPLETION];
    let (old, mended) = mend.applied(&figures, plan).expect("such a field");
    let judged = judge(case, &mended, &mut room);
    assert!(matches!(judged, Verdict::Accepted { .. }), "{judged:?}");
    let power = mend.power + (old - mend.power).signum();
    let nearer = Mend { power, ..mend };
    let (_, nearer) = nearer.applied(&figures, plan).expect("such a field");
    let judged = judge(case, &nearer, &mut room);
    assert!(matches!(judged, Verdict::Broken(_)), "{judged:?}");
}

#[test]
fn corpora_agree_in_every_mend() {
    let mut counts = Counts::default();
    each_pair(|case, plan| counts.hold(case, plan));
    println!("{counts:?}");
    let Counts {
        accepted,
        mended,
        nothing,
        refused,
    } = counts;
    assert!(accepted > 500 && mended > 100 && nothing > 500 && refused > 500);
}

#[test]
fn plans_for_mending_agree() {
    let mut counts = Counts::default();
    let mut rng = Rng::new(SEED);
    for size in [Size::Tiny, Size::Small, Size::Medium, Size::Beyond] {
        for _ in 0..40 {
            let mendable = Mendable::random(&mut rng, size);
            let case = encode_case(mendable.edition, &mendable.case).bytes;
            for _ in 0..10 {
                let plan = encode_plan(mendable.edition, &mendable.plan(&mut rng)).bytes;
                counts.hold(&case, &plan);
            }
        }
    }
    println!("{counts:?}");
    assert!(counts.accepted > 150 && counts.mended > 500 && counts.nothing > 200);
}

/// Plan (b) and case (g) of the two-set day, by hand; refusals of each message, the case first.
#[test]
fn worked_days() {
    let messages = |letter: char| {
        let mut days = lettered_days().into_iter();
        let found: Option<(char, Day)> = days.find(|day| day.0 == letter);
        found.expect("a letter").1.messages()
    };
    let (case, plan) = messages('a');
    assert_eq!(mend(&case, &plan), Mended::Accepted { surplus: 167_860 });
    let (case, plan) = messages('b');
    let by = Mend {
        interval: 2,
        device: 1,
        power: 150,
    };
    assert_eq!(mend(&case, &plan), Mended::By(by));
    let (other, same) = messages('g');
    assert_eq!(mend(&other, &same), Mended::Nothing);
    let cut = Fault { number: 1, bit: 8 };
    assert_eq!(mend(&case, &plan[..1]), Mended::PlanRefused(cut));
    assert_eq!(mend(&case[..1], &plan[..1]), Mended::CaseRefused(cut));
}

/// Only the field of the power changes: 17 bits behind the header and the settings ahead. In plan (b)
/// of edition 1 the header has 19 bits and a setting 154, so device 1's power in interval 2 stands at
/// bits 19 + 2 * 154 + 1 = 328 to 344: bytes 41 to 43.
#[test]
fn the_mended_plan_differs_in_one_field() {
    let (case, plan) = lettered_days()[1].1.messages();
    let figures = read_case(&case).expect("it passes reading");
    let by = |power| Mend {
        interval: 2,
        device: 1,
        power,
    };
    let (old, mended) = by(150).applied(&figures, &plan).expect("such a field");
    assert_eq!(old, 151);
    // 151 is 10010111 in the last eight of 17 bits, which end in the first bit of byte 43.
    let mut by_hand = plan.clone();
    by_hand[43] ^= 0x80;
    assert_eq!(mended, by_hand);
    for mend in [
        Mend {
            interval: 0,
            ..by(150)
        },
        Mend {
            interval: 3,
            ..by(150)
        },
        Mend {
            device: 0,
            ..by(150)
        },
        Mend {
            device: 3,
            ..by(150)
        },
        by(1 << 17),
    ] {
        assert_eq!(mend.applied(&figures, &plan), None);
    }
}
