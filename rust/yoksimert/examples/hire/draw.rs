//! Levels over time, one column for each time index.

use yoksimert::{Refusal, Signal};

pub const LEGEND: &str =
    "▁▁ low   ▂▂ weak low   ▔▔ high   ▀▀ weak high   ▒▒ unknown   ╌╌ not driven";

fn mark(level: char) -> char {
    match level {
        '0' => '▁',
        'l' => '▂',
        '1' => '▔',
        'h' => '▀',
        'z' => '╌',
        _ => '▒',
    }
}

/// The number of every tenth index, and a bar under it.
pub fn ruler(columns: usize) -> [String; 2] {
    let tens = (0..columns).step_by(10);
    let numbers = tens.clone().map(|ten| format!("{ten:<10}"));
    [numbers.collect(), tens.map(|_| "|         ").collect()]
}

/// The first index after `at` that carries a change.
pub fn next_change(signal: &Signal, at: u32) -> Result<Option<u32>, Refusal> {
    Ok(match signal.get_offset(at)? {
        None => signal.get_first_time_idx(),
        Some(offset) => offset.next_index.map(u32::from),
    })
}

/// A wire as a line at the height of its level, a bus as its levels behind a bar at each change.
pub fn row(signal: &Signal, columns: u32) -> Result<String, Refusal> {
    let mut row = String::new();
    let mut at = 0;
    while at < columns {
        let held = signal.value_at(at)?;
        let levels = held.map_or(String::new(), |(_, value)| value.to_string());
        let next = next_change(signal, at)?;
        let until = next.unwrap_or(columns).min(columns);
        row.push_str(&segment(&levels, (until - at) as usize));
        at = until;
    }
    Ok(row)
}

fn segment(levels: &str, columns: usize) -> String {
    let mut characters = levels.chars();
    match (characters.next(), characters.next()) {
        (None, _) => " ".repeat(columns),
        (Some(level), None) => mark(level).to_string().repeat(columns),
        _ if levels.len() < columns => format!("│{levels:<0$}", columns - 1),
        _ => format!("│{}", "·".repeat(columns - 1)),
    }
}
