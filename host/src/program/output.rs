//! Files that are written: whole or not at all, and never an input.

use std::collections::HashSet;
use std::path::Path;

use super::arguments::is_stdin;
use super::trouble::{file_trouble, shown_path, Done, Trouble};
use super::Answer;
use crate::files::{identity, Draft};

/// Refuses an output that is an input, which is there, or another output.
pub fn hold_apart(inputs: &[impl AsRef<Path>], outputs: &[impl AsRef<Path>]) -> Done<()> {
    let mut read = HashSet::new();
    for input in inputs.iter().filter(|input| !is_stdin(input.as_ref())) {
        // An input that is not there is told where it is read.
        read.extend(identity(input.as_ref()));
    }
    let mut written = HashSet::new();
    for output in outputs.iter().map(AsRef::as_ref) {
        let own = identity(output).map_err(file_trouble("write", output))?;
        if read.contains(&own) {
            return Trouble::usage(format!("{} is an input", shown_path(output)));
        }
        if !written.insert(own) {
            return Trouble::usage(format!("{} is written twice", shown_path(output)));
        }
    }
    Ok(())
}

/// Writes messages to their places: all beside them first, so that what cannot be written leaves
/// every place as it was.
pub fn put_all(messages: &[(&Path, &[u8])]) -> Done<()> {
    let mut drafts = Vec::new();
    for (place, bytes) in messages {
        let draft = Draft::write(place, bytes).map_err(file_trouble("write", place))?;
        drafts.push((place, draft));
    }
    for (place, draft) in drafts {
        draft.put().map_err(file_trouble("write", place))?;
    }
    Ok(())
}

/// Puts what was made of some inputs to a place, of which `-` is standard output.
pub fn put_made(
    inputs: &[impl AsRef<Path>],
    place: &Path,
    made: Vec<u8>,
    status: u8,
) -> Done<Answer> {
    if is_stdin(place) {
        return Ok(Answer { out: made, status });
    }
    hold_apart(inputs, &[place])?;
    put_all(&[(place, &made)])?;
    let said = format!("{} {}\n", shown_path(place), made.len());
    Ok(Answer {
        out: said.into_bytes(),
        status,
    })
}
