//! Help, and the manual page, from the table of verbs.

use super::verbs::{Verb, VERBS};

const INPUTS: &str = "\
CASE, PLAN and MESSAGE are files that hold one message each, or the text of a case or a plan, which
begins with the word 'case' or 'plan'; a plan also as rows of a spreadsheet, whose first column is
'interval'. '-' is standard input; behind '--' every word is a file.";

const REFUSALS: &str = "\
A refused message is told on standard error: 'refused NUMBER BIT', the file and its line, the field
with its value, and what is wrong.";

const STATUSES: [&str; 5] = [
    "accepted, no breaches, told, or written",
    "a rule is broken, or messages differ",
    "a message is refused, or a text is wrong",
    "wrong usage, or a file cannot be read or written",
    "this program does not bear out what the plan unit says: a defect",
];

/// Lines of at most so many letters.
fn folded(text: &str, most: usize, indent: &str) -> String {
    let mut lines = vec![String::new()];
    for word in text.split_whitespace() {
        let line = lines.last_mut().map_or(0, |line| line.chars().count());
        if line > 0 && line + 1 + word.chars().count() > most {
            lines.push(String::new());
        }
        if let Some(line) = lines.last_mut() {
            if !line.is_empty() {
                line.push(' ');
            }
            line.push_str(word);
        }
    }
    lines.join(&format!("\n{indent}"))
}

fn statuses() -> String {
    let line = |(status, meaning): (usize, &&str)| format!("  {status}  {meaning}\n");
    let lines: String = STATUSES.iter().enumerate().map(line).collect();
    format!("Exit status, of several the highest:\n{lines}")
}

/// What `--help` prints.
pub fn help(program: &str) -> String {
    let mut text = format!("usage: {program} VERB .. (or {program} VERB --help)\n\n");
    for verb in VERBS {
        let about = folded(verb.about, 80, "      ");
        text += &format!("  {}\n      {about}\n", verb.usage());
    }
    text += "  --help, --version, --man (this as a manual page)\n";
    format!("{text}\n{INPUTS}\n\n{REFUSALS}\n\n{}", statuses())
}

/// What `VERB --help` prints.
pub fn verb_help(program: &str, verb: &Verb) -> String {
    let more = match verb.more {
        "" => String::new(),
        more => format!("\n{}\n", folded(more, 96, "")),
    };
    let about = verb.about;
    let usage = verb.usage();
    format!(
        "usage: {program} {usage}\n\n{about}\n{more}\n{INPUTS}\n\n{}",
        statuses()
    )
}

/// Letters that the manual's language would act on.
fn roff(text: &str) -> String {
    let text = text.replace('\\', "\\e").replace('-', "\\-");
    let line = |line: &str| match line.starts_with(['.', '\'']) {
        true => format!("\\&{line}"),
        false => line.to_string(),
    };
    let lines: Vec<String> = text.lines().map(line).collect();
    lines.join("\n")
}

/// The manual page.
pub fn manual(version: &str) -> String {
    let mut page = format!(
        ".TH KADUNFO 1 \"\" \"kadunfo {version}\" \"User commands\"\n.SH NAME\n\
         kadunfo, desk \\- judge, tell and draw plans of a power station\n.SH SYNOPSIS\n"
    );
    for verb in VERBS {
        page += &format!(".B kadunfo {}\n{}\n.br\n", verb.name, roff(verb.words));
    }
    page += ".SH DESCRIPTION\nEvery verdict, list and completion is the proved plan unit's; the words, tables and \
pictures are held to them.\n.PP\n";
    page += &roff(INPUTS);
    page += "\n.PP\n";
    page += &roff(REFUSALS);
    page += "\n.SH VERBS\n";
    for verb in VERBS {
        page += &format!(".TP\n.B {}\n{}\n", roff(&verb.usage()), roff(verb.about));
        if !verb.more.is_empty() {
            page += &format!(".br\n{}\n", roff(verb.more));
        }
    }
    page += ".SH EXIT STATUS\nOf several the highest.\n";
    for (status, meaning) in STATUSES.iter().enumerate() {
        page += &format!(".TP\n.B {status}\n{}\n", roff(meaning));
    }
    page
}
