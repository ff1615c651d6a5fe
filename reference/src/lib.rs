//! An independent reading of paper 01, "Plan unit: judging a day's commitment", with requests A.4
//! (three startup states), A.3 (energy by the minute), A.5 (every broken rule), A.1 (reactive
//! power: edition 2), A.6 (take-or-pay blocks: edition 3), A.8 (sixty-four sets, ninety-six
//! intervals: edition 4), A.12 (two busbars and a DC link: edition 5), A.9 (writing in the newest
//! edition), A.7 (the market's copy of a completion), A.10 (cheapest dispatch of one interval), A.11
//! (renumbering sets) and A.13 (the smallest power change that mends a plan) of paper 02.
//!
//! Written from the papers alone, it shares no code and no tables with the product that it is held
//! against. Every figure is an `i128` and arithmetic is checked in every profile, so that nothing
//! can wrap unseen. Quotations in comments are the papers' or, where these leave a point open,
//! those of the decisions on it. "000 (n)" is an equation of document 000.
//!
//! The reading itself:
//!
//! - [`edition`]: the editions of messages; what each has.
//! - [`form`]: the batch program and the host library; how large a day each takes.
//! - [`fault`], [`bits`], [`case`], [`plan`]: messages and every refusal of them.
//! - [`clock`], [`forced`], [`rules`]: times, forced figures, the rules that a plan breaks.
//! - [`reactive`]: rules 21 to 26, those of reactive power.
//! - [`energy`]: which minutes count in an energy window, by A.3 or by the formulation's midpoint.
//! - [`completion`], [`ours`]: the completion message, our completion and its surplus.
//! - [`judge`], [`batch`]: the judgement, the splitter, the batch program's lines.
//! - [`breaches`]: every broken rule of a plan, as A.5 lists them.
//! - [`rewrite`]: cases and plans in the newest edition, as A.9 writes them.
//! - [`market`]: the market's copy of a completion and the readers of both, as A.7 has them.
//! - [`renumber`]: devices in another order, and what goes with them, by A.11.
//! - [`mend`]: the smallest power change that mends a plan, by A.13.
//! - [`dispatch`]: the cheapest dispatch of one interval, by A.10.
//! - [`meets`]: what it is for any completion to meet every rule, and its surplus, stated again
//!   without any of the modules above but the case, the plan and the completion as data.
//!
//! What tries it, and the product:
//!
//! - [`encode`]: writing of messages, with a record of their fields.
//! - [`worked_day`]: the paper's worked day and example batch, the worked days of editions 2, 3
//!   and 5.
//! - [`busiest`], [`ordinary`]: the days on which instructions are counted.
//! - [`day_text`]: cases and plans as text, as the desk's page has them.
//! - [`rng`], [`generate`]: random cases, plans and batches from a seed.
//! - [`rivals`]: other completions of a plan.
//! - [`crc`], [`packed`], [`census`], [`edges`], [`corpus`]: the corpus and what it reaches.
//! - [`compare`]: the long run against another program.
//! - [`mask`]: which conditional jumps of the product's machine code go both ways.
//! - [`tables`]: tiny days with their verdicts.
//! - [`arguments`]: command lines of the programs.

pub mod arguments;
pub mod batch;
pub mod bits;
pub mod breaches;
pub mod busiest;
pub mod case;
pub mod census;
pub mod clock;
pub mod compare;
pub mod completion;
pub mod corpus;
pub mod crc;
pub mod day_text;
pub mod dispatch;
pub mod edges;
pub mod edition;
pub mod encode;
pub mod energy;
pub mod fault;
pub mod forced;
pub mod form;
pub mod generate;
pub mod judge;
pub mod many;
pub mod market;
pub mod mask;
pub mod meets;
pub mod mend;
pub mod ordinary;
pub mod ours;
pub mod packed;
pub mod plan;
pub mod reactive;
pub mod renumber;
pub mod rewrite;
pub mod rivals;
pub mod rng;
pub mod rules;
pub mod tables;
pub mod worked_day;
