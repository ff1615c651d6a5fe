//! The text form of the messages: cases and plans are read from it, with what is wrong at its line,
//! and all four are written as it.

mod case_reader;
mod case_writer;
mod csv;
mod outcome_text;
mod plan_text;
pub mod template;
mod words;

pub use case_reader::read_case;
pub use case_writer::case_text;
pub use csv::{is_csv, plan_csv, read_csv, row as csv_row};
pub use outcome_text::outcome_text;
pub use plan_text::{plan_text, read_plan};
pub use words::{clock, Lines, Mistake};
