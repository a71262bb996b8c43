//! `compare [--seed S] [--count N] [--runs R] [--long]`: document 01's rows and edges, then generated calls, through the oracle, wellen
//! and the archive, until N generated calls have been compared with wellen and R runs were made; with `--long` also the longest records
//! and lists.

use compare::check::Checker;
use compare::generate::{Generator, Size};
use compare::{long, rows};
use std::process::ExitCode;
use std::time::Instant;

/// As many disagreements end a comparison.
const SHOWN: usize = 5;

struct Wanted {
    seed: u64,
    count: u64,
    runs: u64,
    long: bool,
}

fn main() -> ExitCode {
    if !cfg!(debug_assertions) {
        eprintln!("compare: wellen refuses by its debug assertions: build with --profile judge");
        return ExitCode::from(2);
    }
    let arguments: Vec<String> = std::env::args().skip(1).collect();
    match compare::arguments::numbers(&arguments, &["--seed", "--count", "--runs"]) {
        Ok((numbers, rest)) if rest.iter().all(|argument| argument == "--long") => run(Wanted {
            seed: numbers[0].unwrap_or(1),
            count: numbers[1].unwrap_or(50_000),
            runs: numbers[2].unwrap_or(0),
            long: !rest.is_empty(),
        }),
        _ => {
            eprintln!("usage: compare [--seed S] [--count N] [--runs R] [--long]");
            ExitCode::from(2)
        }
    }
}

fn run(wanted: Wanted) -> ExitCode {
    let seed = wanted.seed;
    println!("compare: seed {seed}");
    if !cfg!(wellen) {
        println!("compare: wellen is left out: set WELLEN_SRC to the folder that holds src/fst.rs");
    }
    let mut checker = Checker::default();
    timed("rows and edges", || {
        rows::rows_and_edges(&mut checker);
        rows::long_edges(&mut checker);
        long::every_first_byte(&mut checker);
        long::every_character(&mut checker);
    });
    if wanted.long {
        timed("look-ups in long lists", || {
            long::look_ups(seed, &mut checker)
        });
        longest_runs(&mut checker);
    }
    let before = compared(&checker);
    let mut generator = Generator::new(seed, Size::Full);
    timed("generated calls", || {
        while (compared(&checker) - before < wanted.count || checker.runs < wanted.runs)
            && checker.disagreements.len() < SHOWN
        {
            generator.scenario(&mut checker);
        }
    });
    report(seed, &checker)
}

/// With wellen, or where that is missing with the archive.
fn compared(checker: &Checker) -> u64 {
    if cfg!(wellen) {
        checker.compared()
    } else {
        checker.compared_with_archive()
    }
}

fn timed(what: &str, work: impl FnOnce()) {
    let start = Instant::now();
    work();
    println!("{what}: {:.1} s", start.elapsed().as_secs_f64());
}

#[cfg(wellen)]
fn longest_runs(checker: &mut Checker) {
    timed("longest records", || match long::longest_runs() {
        Ok(changes) => {
            println!("longest records: {changes} changes beside wellen's live writer")
        }
        Err(what) => checker.report("archive, a record of the maximum length", what),
    });
}

#[cfg(not(wellen))]
fn longest_runs(_: &mut Checker) {}

fn report(seed: u64, checker: &Checker) -> ExitCode {
    println!(
        "{:<10}{:>10}{:>10}{:>10}{:>10}",
        "operation", "accepted", "refused", "wellen", "archive"
    );
    for (operation, counts) in &checker.counts {
        let (accepted, refused) = (counts.accepted, counts.refused);
        let (wellen, archive) = (counts.compared, counts.archive);
        println!("{operation:<10}{accepted:>10}{refused:>10}{wellen:>10}{archive:>10}");
    }
    for disagreement in checker.disagreements.iter().take(SHOWN) {
        println!("disagreement: {disagreement}");
    }
    let (wellen, archive) = (checker.compared(), checker.compared_with_archive());
    let (runs, disagreements) = (checker.runs, checker.disagreements.len());
    println!(
        "compare: seed {seed}, {runs} runs, {wellen} comparisons with wellen, {archive} with the archive, {disagreements} disagreements"
    );
    if disagreements == 0 {
        ExitCode::SUCCESS
    } else {
        ExitCode::FAILURE
    }
}
