//! `answers write --seed S --count N FILE` stores answers, `answers replay FILE` puts the oracle to them, and `answers equations CRATES OUT`
//! writes those of the crate `answers` as equations that the Rattle checker computes over the crates' definitions.

use std::path::Path;
use std::process::ExitCode;

const USAGE: &str = "usage: answers write --seed S --count N FILE | answers replay FILE | answers equations CRATES OUT";

/// Longer lines hold wide records, which the checker computes slowly.
const LONGEST: usize = 4_200;

fn main() -> ExitCode {
    let arguments: Vec<String> = std::env::args().skip(1).collect();
    let result = match arguments.split_first() {
        Some((verb, rest)) if verb == "write" => write(rest),
        Some((verb, [file])) if verb == "replay" => replay(file),
        Some((verb, [crates, out])) if verb == "equations" => equations(crates, out),
        _ => Err(USAGE.to_string()),
    };
    match result {
        Ok(message) => {
            println!("answers: {message}");
            ExitCode::SUCCESS
        }
        Err(message) => {
            eprintln!("answers: {message}");
            ExitCode::FAILURE
        }
    }
}

#[cfg(not(wellen))]
fn write(_: &[String]) -> Result<String, String> {
    Err(
        "wellen's source is missing: set WELLEN_SRC to the folder that holds src/fst.rs"
            .to_string(),
    )
}

#[cfg(wellen)]
fn write(arguments: &[String]) -> Result<String, String> {
    if !cfg!(debug_assertions) {
        return Err(
            "wellen refuses by its debug assertions: build with --profile judge".to_string(),
        );
    }
    let (numbers, rest) = compare::arguments::numbers(arguments, &["--seed", "--count"])?;
    let ([Some(seed), Some(count)], [file]) = (&numbers[..], &rest[..]) else {
        return Err(USAGE.to_string());
    };
    let lines = compare::stored::choose::lines(*seed, *count as usize)?;
    let mut text = header(*seed, *count);
    for line in &lines {
        text.push_str(line);
        text.push('\n');
    }
    std::fs::write(file, &text).map_err(|error| format!("{file}: {error}"))?;
    Ok(format!(
        "wrote {} answers, {} bytes",
        lines.len(),
        text.len()
    ))
}

#[cfg(wellen)]
fn header(seed: u64, count: u64) -> String {
    format!(
        "# Made by: answers write --seed {seed} --count {count} FILE\n\
         # One call a line: who answered (w wellen, d the documents alone), operation, what goes in, =, what comes out.\n\
         # Numbers decimal, bytes hexadecimal, indices 8 and pieces 16 hexadecimal digits each, . for an empty list.\n\
         # README.md beside this file has the fields of each operation.\n"
    )
}

fn replay(file: &str) -> Result<String, String> {
    let text = std::fs::read_to_string(file).map_err(|error| format!("{file}: {error}"))?;
    let answers = compare::stored::replay(&text).map_err(|error| format!("{file}, {error}"))?;
    Ok(format!("{answers} answers replayed, all as stored"))
}

fn equations(crates: &str, out: &str) -> Result<String, String> {
    let file = format!("{crates}/answers/stdin");
    let text = std::fs::read_to_string(&file).map_err(|error| format!("{file}: {error}"))?;
    compare::stored::replay(&text).map_err(|error| format!("{file}, {error}"))?;
    let (module, equations) =
        compare::stored::equations::module(&text, LONGEST, Path::new(crates))?;
    std::fs::write(out, module).map_err(|error| format!("{out}: {error}"))?;
    Ok(format!("{equations} answers written as equations"))
}
