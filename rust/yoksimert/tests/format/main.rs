//! The worked tables of docs/FORMAT.md: each row is replayed on the archive, and must say what the archive gives. Every number of
//! every operation has a row that shows it.

mod derivations;
mod entries;
mod reading;
mod record;
mod runs;
mod table;

use std::collections::BTreeSet;

use table::{Table, spans, tables};
use yoksimert::{Refusal, raw};

const FORMAT: &str = include_str!("../../../../docs/FORMAT.md");

/// The operations that a row calls, with their numbers.
type Shown = Vec<(&'static str, u32)>;

/// The rows of a table, one after another: what a row must say by what it gives.
trait Replay {
    fn row(&mut self, cells: &[String]) -> (Vec<String>, Shown);
}

/// Tables in words, which nothing replays.
const IN_WORDS: [&str; 5] = [
    "section, definitions",
    "operation, numbers, in the order tried",
    "number, name, meaning, given by",
    "kind, what, width, set",
    "word, meaning",
];

fn inputs_of_the_steps() -> Vec<record::Record> {
    let lines = FORMAT.lines().filter(|line| line.starts_with("- "));
    let inputs = lines.filter(|line| line[3..].starts_with(" is `w"));
    inputs.map(|line| record::record(spans(line)[0])).collect()
}

fn replay_of(table: &Table) -> Option<Box<dyn Replay>> {
    Some(match table.columns.join(", ").as_str() {
        "code, characters, IEEE 1364, IEEE 1164, smallest set" => Box::new(entries::Levels),
        "IEEE 1164's list, code, small letter" => Box::new(entries::Page),
        "set, mark, bits a level, codes" => Box::new(entries::Sets),
        "width, Two, Four, Nine" => Box::new(entries::Sizes),
        "width, largest set, string, own set, bytes, in words" => Box::new(entries::Entries),
        "call, number, largest set, indices, bytes" => Box::new(runs::Run::new()),
        "call, number, history" => Box::new(runs::Histories(runs::Run::new())),
        "record, entry, read, own set, part, lent, text, characters" => Box::new(reading::Reading),
        "record, entry, form, number, value" => Box::new(reading::Counting),
        "first, second, answer" => Box::new(reading::Comparing),
        "indices, sought, answer, start, entries, equal, next" => Box::new(reading::LOOK_UP),
        "searched indices, sought, answer, start, entries, equal, next" => {
            Box::new(reading::SEARCH)
        }
        "call, number, width, names, pieces, packed" => Box::new(derivations::Pieces::new()),
        "inputs, pieces, lent, number, largest set, indices, bytes" => {
            Box::new(derivations::Deriving)
        }
        "index, a shows, own set, b shows, own set, string, set, entry" => {
            Box::new(derivations::Stepping::new(inputs_of_the_steps()))
        }
        words => {
            assert!(
                IN_WORDS.contains(&words),
                "a table that nothing replays: {words}"
            );
            return None;
        }
    })
}

/// Replays every table; the rows that say something else, and what all of them show.
fn replayed() -> (Vec<String>, BTreeSet<(String, u32)>) {
    let (mut wrong, mut shown) = (Vec::new(), BTreeSet::new());
    for table in tables(FORMAT) {
        let Some(mut replay) = replay_of(&table) else {
            continue;
        };
        for cells in &table.rows {
            let (row, calls) = replay.row(cells);
            if row != *cells {
                let (says, gives) = (cells.join(" | "), row.join(" | "));
                wrong.push(format!(
                    "{}\n  says  {says}\n  gives {gives}",
                    table.heading
                ));
            }
            shown.extend(
                calls
                    .into_iter()
                    .map(|(name, number)| (name.to_string(), number)),
            );
        }
    }
    (wrong, shown)
}

fn rows_of(columns: &str) -> Vec<Vec<String>> {
    let mut all = tables(FORMAT).into_iter();
    let table = all.find(|table| table.columns.join(", ") == columns);
    table.unwrap_or_else(|| panic!("no table: {columns}")).rows
}

/// Operation and number, by the table of each operation's numbers.
fn tried() -> BTreeSet<(String, u32)> {
    let rows = rows_of("operation, numbers, in the order tried");
    let pairs = rows.iter().flat_map(|row| {
        let numbers = table::numbers(&row[1]).into_iter();
        numbers.map(|number| (row[0].clone(), number))
    });
    pairs.collect()
}

#[test]
fn every_row_is_what_the_archive_gives() {
    let (wrong, shown) = replayed();
    assert!(wrong.is_empty(), "{}", wrong.join("\n"));
    let unshown: Vec<_> = tried().difference(&shown).cloned().collect();
    assert!(unshown.is_empty(), "no row shows {unshown:?}");
    let untold: Vec<_> = shown.iter().filter(|(_, number)| *number != 0).collect();
    assert!(
        untold.iter().all(|pair| tried().contains(pair)),
        "{untold:?}"
    );
}

#[test]
fn the_steps_are_all_there() {
    let mut steps = derivations::Stepping::new(inputs_of_the_steps());
    for row in rows_of("index, a shows, own set, b shows, own set, string, set, entry") {
        steps.row(&row);
    }
    assert!(steps.is_done());
}

#[test]
fn the_page_is_in_order() {
    let rows = rows_of("IEEE 1164's list, code, small letter");
    let letters: String = rows.iter().map(|row| table::span(&row[0])).collect();
    assert_eq!(letters, "UX01ZWLH-");
}

#[test]
fn other_bytes_are_foreign() {
    let rows = rows_of("code, characters, IEEE 1364, IEEE 1164, smallest set");
    let known: Vec<_> = rows.iter().flat_map(|row| spans(&row[1])).collect();
    for byte in 0..=u8::MAX {
        let mut recorder = raw::fresh(1).description;
        let (mut bytes, mut indices) = ([0; 1], [0; 1]);
        let number =
            raw::recorder_add_change(&mut recorder, &mut bytes, 0, &mut indices, 0, 0, &[byte]);
        let is_known = known.iter().any(|c| c.as_bytes() == [byte]);
        assert_eq!(number, if is_known { 0 } else { 5 }, "{byte}");
    }
}

/// The table of all numbers has the library's names, and says by which operations each is given.
#[test]
fn the_numbers_are_all_there() {
    let rows = rows_of("number, name, meaning, given by");
    assert_eq!(rows.len(), Refusal::ALL.len());
    for (row, refusal) in rows.iter().zip(Refusal::ALL) {
        assert_eq!(row[0], refusal.number().to_string());
        assert_eq!(row[1], format!("`{refusal:?}`"));
    }
    let given = rows.iter().flat_map(|row| {
        let operations = row[3].split(", ");
        operations.map(|name| (name.to_string(), table::number(&row[0])))
    });
    assert_eq!(given.collect::<BTreeSet<_>>(), tried());
}
