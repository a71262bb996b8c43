//! The tables of a document, and the spellings of their cells.

/// A table, under the heading that it stands below.
pub struct Table {
    pub heading: String,
    pub columns: Vec<String>,
    pub rows: Vec<Vec<String>>,
}

pub const NOTHING: &str = "–";
pub const SETS: [&str; 3] = ["Two", "Four", "Nine"];

fn cells(line: &str) -> Vec<String> {
    let inner = line.trim().trim_start_matches('|').trim_end_matches('|');
    inner
        .split('|')
        .map(|cell| cell.trim().to_string())
        .collect()
}

pub fn tables(text: &str) -> Vec<Table> {
    let (mut all, mut heading, mut inside) = (Vec::<Table>::new(), String::new(), false);
    for line in text.lines() {
        if let Some(title) = line.strip_prefix("## ") {
            heading = title.to_string();
        }
        if !line.starts_with('|') {
            inside = false;
        } else if inside {
            let table = all.last_mut().expect("a table has begun");
            table.rows.push(cells(line));
        } else {
            inside = true;
            all.push(Table {
                heading: heading.clone(),
                columns: cells(line),
                rows: Vec::new(),
            });
        }
    }
    for table in &mut all {
        table.rows.remove(0); // the line of dashes
    }
    all
}

/// The code spans of a cell.
pub fn spans(cell: &str) -> Vec<&str> {
    cell.split('`').skip(1).step_by(2).collect()
}

/// The one code span of a cell, or nothing.
pub fn span(cell: &str) -> &str {
    spans(cell).first().copied().unwrap_or_default()
}

pub fn number<N: std::str::FromStr>(word: &str) -> N {
    let parsed = word.parse().ok();
    parsed.unwrap_or_else(|| panic!("not a number: {word}"))
}

/// Words that are numbers; "5 × 3" is three fives.
pub fn numbers(words: &str) -> Vec<u32> {
    let mut out = Vec::new();
    let mut words = words.split_whitespace();
    while let Some(word) = words.next() {
        if word == "×" {
            let (last, times) = (out.pop(), words.next());
            let (last, times) = last.zip(times).expect("a number on each side of ×");
            out.extend(vec![last; number(times)]);
        } else {
            out.push(number(word));
        }
    }
    out
}

pub fn hex(words: &str) -> Vec<u8> {
    let byte = |word| u8::from_str_radix(word, 16).unwrap_or_else(|_| panic!("no byte: {word}"));
    words.split_whitespace().map(byte).collect()
}

pub fn mark_of(set: &str) -> u32 {
    let mark = SETS.iter().position(|name| *name == set);
    mark.unwrap_or_else(|| panic!("no set: {set}")) as u32
}

pub fn set_named(mark: u32) -> String {
    SETS[mark as usize].to_string()
}

pub fn or_nothing(cell: String) -> String {
    if cell.is_empty() {
        NOTHING.to_string()
    } else {
        cell
    }
}

pub fn listed<T: ToString>(items: impl IntoIterator<Item = T>) -> String {
    let words: Vec<_> = items.into_iter().map(|item| item.to_string()).collect();
    or_nothing(words.join(" "))
}

pub fn quoted<T: ToString>(items: impl IntoIterator<Item = T>) -> String {
    let quoted = items
        .into_iter()
        .map(|item| format!("`{}`", item.to_string()));
    listed(quoted)
}

pub fn bytes_shown(bytes: &[u8]) -> String {
    let words: Vec<_> = bytes.iter().map(|byte| format!("{byte:02x}")).collect();
    quoted((!words.is_empty()).then(|| words.join(" ")))
}
