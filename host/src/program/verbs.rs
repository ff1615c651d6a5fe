//! The verbs: name, words, a line of help, more help, options and what does it. A verb of another
//! module takes its place by a line here.

use super::arguments::{flag, value, Arguments, Opt};
use super::dispatching::dispatch_verb;
use super::judging::{breaches_verb, judge_verb};
use super::mending::mend_verb;
use super::picturing::{compare_verb, draw_verb, report_verb};
use super::reading::{diff_verb, field_verb, inspect_verb, rules_verb, show_verb, text_verb};
use super::trouble::Done;
use super::writing::{
    bytes_verb, join_verb, market_verb, new_verb, renew_verb, renumber_verb, split_verb,
};
use super::Answer;

pub struct Verb {
    pub name: &'static str,
    /// The words behind it.
    pub words: &'static str,
    /// One line of help.
    pub about: &'static str,
    /// What else there is to know.
    pub more: &'static str,
    pub options: &'static [Opt],
    pub run: fn(&Arguments) -> Done<Answer>,
}

impl Verb {
    /// `judge CASE PLAN..`.
    pub fn usage(&self) -> String {
        match self.words {
            "" => self.name.to_string(),
            words => format!("{} {words}", self.name),
        }
    }
}

pub const VERBS: &[Verb] = &[
    Verb {
        name: "judge",
        words: "CASE PLAN.. [--result FILE] [--json]",
        about: "the verdict on each plan",
        more: "Prints 'accepted SURPLUS', or 'broken RULE INTERVAL DEVICE WINDOW' with the first breach in \
words, how many more there are and the smallest change of one online power that mends the plan, if one does. \
All plans are judged by one call, which reads the case once. \
With several plans each line has its file ahead, and a plan that is refused \
has its line too. With one plan --result writes the completion of an accepted plan to FILE, which is not \
touched otherwise. --json prints an object for each plan.",
        options: &[value("--result", "a file"), flag("--json")],
        run: judge_verb,
    },
    Verb {
        name: "breaches",
        words: "CASE PLAN [--by rule|set] [--rule N] [--set N] [--interval N] [--csv] [--json]",
        about: "every broken rule with the figures on both sides",
        more: "Prints a line for each broken rule, in the order of judging: RULE INTERVAL DEVICE WINDOW, then \
the rule, the place and both sides in words; or 'no breaches'. --rule, --set and --interval choose among them; \
--by counts them by rule or by set; --csv and --json are for a machine.",
        options: &[
            value("--by", "'rule' or 'set'"),
            value("--rule", "a number"),
            value("--set", "a number"),
            value("--interval", "a number"),
            flag("--csv"),
            flag("--json"),
        ],
        run: breaches_verb,
    },
    Verb {
        name: "mend",
        words: "CASE PLAN [-o OUT] [--json]",
        about: "the smallest change of one online power that mends a broken plan",
        more: "Prints 'mended INTERVAL DEVICE POWER', the change in words, a line for each broken rule that it \
mends and 'then accepted SURPLUS'; or 'accepted SURPLUS' of a plan that needs none; or 'no mend' (status 1). With \
-o the mended plan goes to OUT, whole or not at all; with '-o -' standard output has it and nothing else. Of \
several smallest changes that of the earlier interval, then the lower set, then the lower power.",
        options: &[value("-o", "a file"), flag("--json")],
        run: mend_verb,
    },
    Verb {
        name: "show",
        words: "CASE MESSAGE [--json]",
        about: "a plan's day as a table with its bill or its breaches; a completion or a market copy in words",
        more: "Of a PLAN: what each bar is given and takes, the power of each set by interval, then every term \
of the surplus, which must come to it (else status 4), or every breach in words and the mend. Of a completion or a market \
copy, told by its kind: every figure in words. --json prints the bill of a plan, or its mend.",
        options: &[flag("--json")],
        run: show_verb,
    },
    Verb {
        name: "draw",
        words: "CASE PLAN -o FILE",
        about: "a plan's day as a picture (SVG)",
        more: "A row for each set with its power, start-up and shut-down curves, windows and broken places; what \
each bar is given and takes, real and reactive, with mismatches and the link's part; the zones' shortfalls; the \
bill, or the breaches and the mend. '-o -' is standard output.",
        options: &[value("-o", "a file")],
        run: draw_verb,
    },
    Verb {
        name: "compare",
        words: "CASE PLAN PLAN [--json]",
        about: "two plans side by side, and the difference of their bills",
        more: "Prints both verdicts with their mends, the figures of sets and flow that differ by interval, and, where \
both are accepted, each entry of the bills with the difference. --json prints an object: 'first' and 'second' as \
'judge' prints them, with the bill of an accepted plan, 'changes', 'bill' and 'difference'.",
        options: &[flag("--json")],
        run: compare_verb,
    },
    Verb {
        name: "report",
        words: "CASE PLAN.. -o FILE",
        about: "one page (HTML) with verdict, picture, table, and bill, or breaches and mend, of each plan",
        more: "The page needs nothing but a browser: no network and no other file. '-o -' is standard output.",
        options: &[value("-o", "a file")],
        run: report_verb,
    },
    Verb {
        name: "dispatch",
        words: "CASE INTERVAL TARGET SET=POWER..",
        about: "the cheapest powers of sets that stay on, for a load in one interval",
        more: "Each SET, by its number or its name in the text of the case, stands with its POWER in the interval \
before. Prints the power of each set with its \
bounds, the power of each of their blocks in merit order, and the cost. The powers add up to TARGET kW. A set or \
an interval that is not of the case, one that consumes or a set named twice is refused with 8, a target that no \
such powers add up to with 9, each with the reason.",
        options: &[],
        run: dispatch_verb,
    },
    Verb {
        name: "text",
        words: "[CASE] MESSAGE [--csv]",
        about: "a message as text; a plan, completion or copy beside its case with names and times",
        more: "MESSAGE alone is a case, a plan, a completion or a market copy. --csv prints a plan as rows for a \
spreadsheet.",
        options: &[flag("--csv")],
        run: text_verb,
    },
    Verb {
        name: "bytes",
        words: "case TEXT OUT | plan CASE TEXT OUT",
        about: "a text, or a plan's rows, as a message that passes reading",
        more: "What does not pass reading is told with its line and not written. OUT is written whole or not at \
all.",
        options: &[],
        run: bytes_verb,
    },
    Verb {
        name: "new",
        words: "case | plan CASE",
        about: "a text to begin with",
        more: "'new case' prints a case with a word on each line; 'new plan CASE' a plan with a line for each set.",
        options: &[],
        run: new_verb,
    },
    Verb {
        name: "inspect",
        words: "CASE [--json]",
        about: "what a case holds",
        more: "",
        options: &[flag("--json")],
        run: inspect_verb,
    },
    Verb {
        name: "diff",
        words: "A B [--case CASE] [--json]",
        about: "the fields in which two messages of a kind differ",
        more: "Status 1 where they do. The text of a plan is read with its case. --json prints an object: whether the \
messages are the 'same', and of each of the 'fields' that differ its name, and its bit and value in the 'first' and \
the 'second'.",
        options: &[value("--case", "a case"), flag("--json")],
        run: diff_verb,
    },
    Verb {
        name: "field",
        words: "MESSAGE [BIT] [--case CASE] [--json]",
        about: "the field that a bit is in, or every field: bit, width, name, value, range",
        more: "The text of a plan is read with its case.",
        options: &[value("--case", "a case"), flag("--json")],
        run: field_verb,
    },
    Verb {
        name: "rules",
        words: "[N]",
        about: "the rules in words",
        more: "",
        options: &[],
        run: rules_verb,
    },
    Verb {
        name: "split",
        words: "BATCH FOLDER",
        about: "the messages of a batch as files 000.case, 001.plan and so on",
        more: "All are written or none.",
        options: &[],
        run: split_verb,
    },
    Verb {
        name: "join",
        words: "CASE PLAN.. -o BATCH",
        about: "a case and its plans as a batch",
        more: "Each must pass reading; texts are made messages. '-o -' is standard output.",
        options: &[value("-o", "a file")],
        run: join_verb,
    },
    Verb {
        name: "renew",
        words: "CASE OUT [PLAN OUT]",
        about: "a case, and a plan read with it, in the newest edition",
        more: "Prints how many bytes each takes. Each OUT is written whole or not at all, and may be neither \
CASE nor PLAN nor the other OUT.",
        options: &[],
        run: renew_verb,
    },
    Verb {
        name: "market",
        words: "CASE PLAN OUT",
        about: "the market's copy of an accepted plan's completion",
        more: "The copy has no block powers, startup states and surplus. Prints how many bytes it takes, or \
'broken RULE INTERVAL DEVICE WINDOW'. OUT is written whole or not at all.",
        options: &[],
        run: market_verb,
    },
    Verb {
        name: "renumber",
        words: "CASE PLAN.. --order ORDER --out FOLDER",
        about: "a case and its plans with their sets in another order",
        more: "Writes them, in the newest edition, under their own names to FOLDER, all or none; prints how many \
bytes each takes. ORDER has the old numbers in the new order: with 2,1,3 the first two change places. Each plan \
must be told as before, the sets' numbers carried along.",
        options: &[value("--order", "an order"), value("--out", "a folder")],
        run: renumber_verb,
    },
];

pub fn verb(name: &str) -> Option<&'static Verb> {
    VERBS.iter().find(|verb| verb.name == name)
}

/// The names of all options.
pub fn all_options() -> Vec<&'static str> {
    let options = VERBS.iter().flat_map(|verb| verb.options);
    options.map(|option| option.name).collect()
}
