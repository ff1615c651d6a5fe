//! How often each instruction of a program was run and each jump taken, from a dump that callgrind
//! writes with `--dump-instr=yes --collect-jumps=yes`, names and positions compressed or not.

use std::collections::BTreeMap;
use std::path::Path;

/// How often an instruction was run, and how often it led elsewhere than to the next.
#[derive(Clone, Copy, PartialEq, Eq, Debug, Default)]
pub struct Count {
    pub executed: u64,
    pub taken: u64,
}

impl Count {
    pub fn add(&mut self, other: Count) {
        self.executed += other.executed;
        self.taken += other.taken;
    }
}

/// By address, as the listing of the program has it.
pub type Counts = BTreeMap<u64, Count>;

/// Adds the counts of a further run.
pub fn add_all(counts: &mut Counts, run: &Counts) {
    for (&address, &count) in run {
        counts.entry(address).or_default().add(count);
    }
}

/// Counts as a dump, for [`counts`] to read.
pub fn written(all: &Counts, program: &Path) -> String {
    let mut text = format!(
        "# callgrind format\npositions: instr\nevents: Ir\nob={}\n",
        program.display()
    );
    for (address, Count { executed, taken }) in all {
        text += &format!("{address:#x} {executed}\n");
        if *taken > 0 {
            text += &format!("jcnd={taken}/{executed} *\n*\n");
        }
    }
    text
}

/// What the next position line belongs to.
#[derive(Clone, Copy, PartialEq, Eq, Debug)]
enum Next {
    /// Its own cost.
    Cost,
    /// A jump or a call that was taken so often.
    Taken(u64),
}

struct Reader<'a> {
    program: &'a str,
    /// File names of the objects, by their numbers.
    objects: BTreeMap<&'a str, &'a str>,
    is_in_program: bool,
    /// Numbers before the cost in a line, and the place of instructions among the costs.
    positions: usize,
    event: usize,
    address: u64,
    next: Next,
    counts: Counts,
}

/// The counts of a program, told by its file name, in a dump.
pub fn counts(dump: &str, program: &Path) -> Result<Counts, String> {
    let program = program.file_name().and_then(|name| name.to_str());
    let mut reader = Reader {
        program: program.ok_or("a program has a name")?,
        objects: BTreeMap::new(),
        is_in_program: false,
        positions: 0,
        event: 0,
        address: 0,
        next: Next::Cost,
        counts: Counts::new(),
    };
    for (number, line) in dump.lines().enumerate() {
        let told = |complaint| format!("line {}: {complaint}: {line}", number + 1);
        reader.read(line).map_err(told)?;
    }
    if reader.positions == 0 {
        return Err("it is no dump of callgrind".to_string());
    }
    Ok(reader.counts)
}

impl<'a> Reader<'a> {
    fn read(&mut self, line: &'a str) -> Result<(), String> {
        if line.starts_with(|c: char| c.is_ascii_digit() || "+-*".contains(c)) {
            return self.position(line);
        }
        if let Some((key, value)) = line.split_once('=') {
            return self.specification(key, value);
        }
        match line.split_once(':') {
            Some(("positions", kinds)) => self.header_positions(kinds),
            Some(("events", names)) => self.header_events(names),
            _ => Ok(()),
        }
    }

    fn header_positions(&mut self, kinds: &str) -> Result<(), String> {
        self.positions = kinds.split_whitespace().count();
        if kinds.split_whitespace().next() == Some("instr") {
            return Ok(());
        }
        Err("it was not made with --dump-instr=yes".to_string())
    }

    fn header_events(&mut self, names: &str) -> Result<(), String> {
        let at = names.split_whitespace().position(|name| name == "Ir");
        self.event = at.ok_or("no instructions are counted")?;
        Ok(())
    }

    fn specification(&mut self, key: &str, value: &'a str) -> Result<(), String> {
        match key {
            "ob" => self.is_in_program = self.object(value) == self.program,
            "cob" => {
                self.object(value);
            }
            "jcnd" | "jump" | "calls" => self.next = Next::Taken(first_number(value)?),
            _ => {}
        }
        Ok(())
    }

    /// The file name of an object: `(5) /a/b`, afterwards `(5)`, or `/a/b`.
    fn object(&mut self, value: &'a str) -> &'a str {
        let (number, path) = match value.split_once(") ") {
            Some((number, path)) => (number.trim_start_matches('('), path),
            None if value.starts_with('(') => {
                let number = value.trim_matches(['(', ')']);
                return self.objects.get(number).copied().unwrap_or("");
            }
            None => ("", value),
        };
        let name = path.rsplit('/').next().unwrap_or(path);
        self.objects.insert(number, name);
        name
    }

    /// A line of positions, with costs unless it tells where a jump stands.
    fn position(&mut self, line: &str) -> Result<(), String> {
        let words: Vec<&str> = line.split_whitespace().collect();
        self.address = moved(self.address, words[0])?;
        let next = std::mem::replace(&mut self.next, Next::Cost);
        let count = match next {
            Next::Taken(taken) => Count { executed: 0, taken },
            Next::Cost => Count {
                executed: self.cost(&words)?,
                taken: 0,
            },
        };
        if self.is_in_program {
            self.counts.entry(self.address).or_default().add(count);
        }
        Ok(())
    }

    /// Costs at the end of a line that are 0 are left out.
    fn cost(&self, words: &[&str]) -> Result<u64, String> {
        let word = words.get(self.positions + self.event);
        word.map_or(Ok(0), |word| number(word))
    }
}

fn number(digits: &str) -> Result<u64, String> {
    let parsed = match digits.strip_prefix("0x") {
        Some(hexadecimal) => u64::from_str_radix(hexadecimal, 16),
        None => digits.parse(),
    };
    parsed.map_err(|_| format!("{digits} is no number"))
}

/// The count of `jcnd=TAKEN/EXECUTED TARGET`, `jump=COUNT TARGET` and `calls=COUNT TARGET`.
fn first_number(value: &str) -> Result<u64, String> {
    let end = value.find(['/', ' ']).unwrap_or(value.len());
    number(&value[..end])
}

/// An address: a number, `*` for the last one, or so many bytes behind or before it.
fn moved(last: u64, word: &str) -> Result<u64, String> {
    if let Some(behind) = word.strip_prefix('+') {
        return Ok(last + number(behind)?);
    }
    if let Some(before) = word.strip_prefix('-') {
        return Ok(last - number(before)?);
    }
    if word == "*" {
        return Ok(last);
    }
    number(word)
}
