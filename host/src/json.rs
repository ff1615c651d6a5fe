//! What a machine reads.

use std::fmt;

/// A part of an object by its name.
pub type Member = (&'static str, Json);

pub enum Json {
    Text(String),
    Number(i128),
    Flag(bool),
    List(Vec<Json>),
    Object(Vec<Member>),
}

impl Json {
    pub fn text(text: impl Into<String>) -> Json {
        Json::Text(text.into())
    }

    pub fn number(number: impl Into<i128>) -> Json {
        Json::Number(number.into())
    }

    /// A count.
    pub fn count(count: usize) -> Json {
        Json::Number(count as i128)
    }

    /// On a line of its own.
    pub fn line(&self) -> String {
        format!("{self}\n")
    }
}

impl fmt::Display for Json {
    fn fmt(&self, out: &mut fmt::Formatter) -> fmt::Result {
        match self {
            Json::Text(text) => write_text(out, text),
            Json::Number(number) => write!(out, "{number}"),
            Json::Flag(flag) => write!(out, "{flag}"),
            Json::List(items) => {
                out.write_str("[")?;
                for (index, item) in items.iter().enumerate() {
                    let comma = if index > 0 { "," } else { "" };
                    write!(out, "{comma}{item}")?;
                }
                out.write_str("]")
            }
            Json::Object(members) => {
                out.write_str("{")?;
                for (index, (name, value)) in members.iter().enumerate() {
                    let comma = if index > 0 { "," } else { "" };
                    write!(out, "{comma}\"{name}\":{value}")?;
                }
                out.write_str("}")
            }
        }
    }
}

fn write_text(out: &mut fmt::Formatter, text: &str) -> fmt::Result {
    out.write_str("\"")?;
    for letter in text.chars() {
        match letter {
            '"' => out.write_str("\\\"")?,
            '\\' => out.write_str("\\\\")?,
            letter if letter.is_control() => write!(out, "\\u{:04x}", u32::from(letter))?,
            letter => write!(out, "{letter}")?,
        }
    }
    out.write_str("\"")
}

#[cfg(test)]
mod tests {
    use super::Json;

    #[test]
    fn json_is_written() {
        let made = Json::Object(vec![
            ("text", Json::text("a \"b\" \\ \u{1b}\n")),
            ("list", Json::List(vec![Json::count(1), Json::Number(-2)])),
            ("flag", Json::Flag(true)),
        ]);
        let expected = r#"{"text":"a \"b\" \\ \u001b\u000a","list":[1,-2],"flag":true}"#;
        assert_eq!(made.to_string(), expected);
    }
}
