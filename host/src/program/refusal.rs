//! A refusal in words: its number and bit, the message with its line, the field, and what is wrong
//! with it.

use super::input::Message;
use super::trouble::{shown_path, Trouble};
use crate::messages::{field_at, fields_of, Kind, Place};
use crate::text::Lines;
use crate::Fault;

impl Message {
    /// What is told where the plan unit refuses it, taken for one of its kind.
    pub fn refused(&self, fault: Fault) -> Trouble {
        self.refused_as(self.kind.name(), fault)
    }

    /// The same under another name.
    pub fn refused_as(&self, name: &str, Fault { number, bit }: Fault) -> Trouble {
        let place = field_at(self.kind, &self.bytes, bit as usize, self.windows);
        let line = self.line(place.as_ref());
        let field = place.as_ref().map_or(String::new(), field_words);
        let what = self.meaning(name, number, bit, place.as_ref());
        let (path, hint) = (shown_path(&self.path), self.hint(name, number, bit));
        Trouble::Refused(format!(
            "refused {number} {bit}: {name} {path}{line}: {field}{what}{hint}"
        ))
    }

    fn line(&self, place: Option<&Place>) -> String {
        let of = |lines: &Lines| lines.of(&place?.name);
        let line = self.lines.as_ref().and_then(of);
        line.map_or(String::new(), |line| format!(":{line}"))
    }

    fn meaning(&self, name: &str, number: u64, bit: u64, place: Option<&Place>) -> String {
        let field = place.map_or("", |place| place.name.as_str());
        let range = place.map_or(String::new(), |place| format!(", {}", place.field.range()));
        match number {
            1 => "the message ends before or inside this field".into(),
            2 if field == "edition" && self.kind == Kind::Case => {
                "an edition that is unknown".into()
            }
            2 if field == "edition" => "unlike the case's".into(),
            2 => format!("this is no {name}"),
            3 if self.kind != Kind::Case => "unlike the case's".into(),
            3 | 4 => format!("out of its range{range}"),
            5 => contradiction(field).into(),
            6 => self.behind(bit as usize).into(),
            _ => "a number without a meaning".into(),
        }
    }

    /// What stands behind the last field.
    fn behind(&self, bit: usize) -> &'static str {
        let places = fields_of(self.kind, &self.bytes, self.windows);
        let end = places.last().map_or(0, |last| last.bit + last.field.width);
        if bit < 8 * end.div_ceil(8) {
            "a fill bit that is not 0"
        } else {
            "a byte behind the message's end"
        }
    }

    /// What the file may be instead.
    fn hint(&self, name: &str, number: u64, bit: u64) -> String {
        if self.lines.is_some() || (number, bit) != (2, 0) {
            return String::new();
        }
        if is_batch(&self.bytes) {
            return " (a batch of messages; 'split' makes files of it)".into();
        }
        let is_letter = |byte: &u8| byte.is_ascii_graphic() || byte.is_ascii_whitespace();
        if self.bytes.iter().take(8).all(is_letter) {
            return format!(" (a text must begin with the word '{name}')");
        }
        match Kind::of(&self.bytes) {
            Some(kind) => format!(" (it says to be a {})", kind.name()),
            None => String::new(),
        }
    }
}

/// A field with its value; that of zones is by bits.
fn field_words(place: &Place) -> String {
    match place.value {
        Some(value) if !place.name.ends_with(": zones") => format!("{} is {value}: ", place.name),
        _ => format!("{}: ", place.name),
    }
}

/// What a field contradicts, by the last word of its name.
fn contradiction(field: &str) -> &'static str {
    match field.rsplit(' ').next() {
        Some("pmax") => "pmin is above it",
        Some("qmax") => "qmin is above it",
        Some("floor") => "above its cap",
        Some("zones") => "a zone that the case does not have",
        _ => "the window ends before its start, or after the day",
    }
}

/// Whether bytes begin with a length of 24 bits and a message of that length.
fn is_batch(bytes: &[u8]) -> bool {
    let Some(([a, b, c], rest)) = bytes.split_first_chunk::<3>() else {
        return false;
    };
    let length = usize::from(*a) << 16 | usize::from(*b) << 8 | usize::from(*c);
    length > 0 && length <= rest.len() && Kind::of(rest).is_some()
}
