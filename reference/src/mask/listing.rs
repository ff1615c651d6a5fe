//! The machine code of a program, an object file or an archive, as `objdump -d -l
//! --no-show-raw-insn` lists it.

/// An instruction, by its place in its function.
#[derive(Clone, PartialEq, Eq, Debug)]
pub struct Instruction {
    pub offset: u64,
    pub text: String,
    /// File and line of the source, where the code tells them.
    pub source: Option<String>,
}

/// A function by its symbol. In an object file the address is that in its section.
#[derive(Clone, PartialEq, Eq, Debug)]
pub struct Function {
    pub name: String,
    pub address: u64,
    pub instructions: Vec<Instruction>,
}

impl Function {
    /// The conditional jumps, by their number among the instructions.
    pub fn jumps(&self) -> impl Iterator<Item = usize> + '_ {
        let all = self.instructions.iter().enumerate();
        all.filter(|(_, instruction)| is_conditional_jump(&instruction.text))
            .map(|(at, _)| at)
    }

    pub fn conditional_moves(&self) -> usize {
        let texts = self.instructions.iter().map(|i| mnemonic(&i.text));
        texts.filter(|name| name.starts_with("cmov")).count()
    }
}

/// Conditions behind the `j` of a jump.
const CONDITIONS: [&str; 30] = [
    "o", "no", "b", "nae", "c", "nb", "ae", "nc", "e", "z", "ne", "nz", "be", "na", "nbe", "a",
    "s", "ns", "p", "pe", "np", "po", "l", "nge", "nl", "ge", "le", "ng", "nle", "g",
];

/// Jumps that depend on the count register.
const COUNTED: [&str; 8] = [
    "jcxz", "jecxz", "jrcxz", "loop", "loope", "loopz", "loopne", "loopnz",
];

/// Words that may stand before an instruction's name.
const PREFIXES: [&str; 8] = [
    "bnd", "notrack", "addr32", "data16", "cs", "ds", "rex.W", "rep",
];

/// An instruction's name, without prefixes and a hint on which way is likely.
fn mnemonic(text: &str) -> &str {
    let mut words = text.split_whitespace();
    let name = words.find(|word| !PREFIXES.contains(word)).unwrap_or("");
    name.split(',').next().unwrap_or("")
}

pub fn is_conditional_jump(text: &str) -> bool {
    let name = mnemonic(text);
    let condition = name.strip_prefix('j');
    condition.is_some_and(|c| CONDITIONS.contains(&c)) || COUNTED.contains(&name)
}

/// What a line of the listing is.
enum Line<'a> {
    Function(u64, &'a str),
    Instruction(u64, &'a str),
    Source(&'a str),
    Other,
}

fn address(digits: &str) -> Option<u64> {
    u64::from_str_radix(digits.trim(), 16).ok()
}

/// `00000000000018f0 <main>:`
fn function_line(line: &str) -> Option<Line<'_>> {
    let (digits, name) = line.strip_suffix(">:")?.split_once(" <")?;
    Some(Line::Function(address(digits)?, name))
}

/// `    18f4:` and behind a tab the instruction.
fn instruction_line(line: &str) -> Option<Line<'_>> {
    let (digits, text) = line.split_once(":\t")?;
    line.starts_with(' ').then_some(())?;
    Some(Line::Instruction(address(digits)?, text.trim_end()))
}

/// `crates/x/src/lib.rt:12`, with or without ` (discriminator 3)`.
fn source_line(line: &str) -> Option<Line<'_>> {
    let place = line.split(" (discriminator").next()?;
    let (file, number) = place.rsplit_once(':')?;
    let is_number = !number.is_empty() && number.bytes().all(|b| b.is_ascii_digit());
    (is_number && !file.is_empty()).then_some(Line::Source(place))
}

fn kind(line: &str) -> Line<'_> {
    let found = function_line(line).or_else(|| instruction_line(line));
    found.or_else(|| source_line(line)).unwrap_or(Line::Other)
}

/// The functions of a listing, or why it tells of none.
pub fn functions(listing: &str) -> Result<Vec<Function>, String> {
    let mut functions: Vec<Function> = Vec::new();
    let mut source = None;
    for line in listing.lines() {
        match kind(line) {
            Line::Function(address, name) => {
                functions.push(Function {
                    name: name.to_string(),
                    address,
                    instructions: Vec::new(),
                });
                source = None;
            }
            Line::Instruction(at, text) => {
                let function = functions.last_mut().ok_or("code before any symbol")?;
                function.instructions.push(Instruction {
                    offset: at - function.address,
                    text: text.to_string(),
                    source: source.clone(),
                });
            }
            Line::Source(place) => source = Some(place.to_string()),
            Line::Other => {}
        }
    }
    named(functions)
}

/// The functions, where they have names: of code without symbols `objdump` names the section alone.
fn named(functions: Vec<Function>) -> Result<Vec<Function>, String> {
    if functions.is_empty() {
        return Err("there is no code".to_string());
    }
    if functions.iter().any(|f| f.name == ".text") {
        return Err("it has no symbols, so its functions cannot be told apart".to_string());
    }
    Ok(functions)
}
