//! The stored answers, one call a line (crates/answers/README.md has the format).

#[cfg(wellen)]
pub mod choose;
pub mod equations;
mod fields;
mod reader;
pub mod terms;

pub use equations::Module;
pub use fields::Fields;
pub use reader::Reader;

use crate::operation::{Case, Operation, Outcome};
use crate::operations::OPERATIONS;

/// The line without its first field and its end.
pub fn line<O: Operation>(call: &O, outcome: &Outcome<O::Answer>) -> String {
    let mut out = Fields::default();
    out.push(call.name());
    call.put(&mut out);
    out.push("=");
    out.push(outcome.number());
    call.put_outcome(outcome, &mut out);
    out.0
}

/// The call of a line, from the operation to `=`, with the oracle's outcome.
pub fn parse(text: &str) -> Result<Box<dyn Case>, String> {
    let mut fields = Reader::new(text);
    let name = fields.field()?.to_string();
    let operation = OPERATIONS
        .iter()
        .find(|operation| operation.names.contains(&name.as_str()))
        .ok_or_else(|| format!("no such operation: {name:?}"))?;
    let case = (operation.parse)(&name, &mut fields)?;
    fields.end()?;
    Ok(case)
}

/// A stored line as its call, with the oracle's outcome, and the text behind its judge.
fn read(text: &str) -> Result<(Box<dyn Case>, &str), String> {
    let (judge, stored) = text.split_once(' ').ok_or("a line of one field")?;
    if !["w", "d"].contains(&judge) {
        return Err(format!("no such judge: {judge:?}"));
    }
    let (call, _) = stored.split_once(" = ").ok_or("no = between spaces")?;
    Ok((parse(call)?, stored))
}

/// Puts the oracle to every line that is no comment; how many there were.
pub fn replay(text: &str) -> Result<usize, String> {
    let mut answers = 0;
    for (number, line) in text.lines().enumerate() {
        if !line.starts_with('#') {
            replay_line(line).map_err(|error| format!("line {}: {error}", number + 1))?;
            answers += 1;
        }
    }
    if answers == 0 {
        return Err("no line holds an answer".to_string());
    }
    Ok(answers)
}

fn replay_line(text: &str) -> Result<(), String> {
    let (case, stored) = read(text)?;
    let replayed = case.line();
    if replayed == stored {
        Ok(())
    } else {
        Err(format!("stored   {stored}\n  replayed {replayed}"))
    }
}
