//! `soak [--seed S] [--changes N]`: a hundred recorders in one process, changes with raises, refusals and full slices through the calls
//! that are lent the recorder, until N changes were put in. A recorder that is full is read back and begun anew. Prints the time of a
//! change and the memory after each tenth; fails if an answer is wrong or the memory grows.

use compare::random::Random;
use std::collections::VecDeque;
use std::process::ExitCode;
use std::time::Instant;
use yoksimert::raw::{self, FlatDescription};

const RECORDERS: usize = 100;
const TENTHS: u64 = 10;
/// Widths of the recorders in turn; 0 is an event.
const WIDTHS: [u32; 10] = [1, 1, 2, 3, 8, 17, 32, 64, 250, 0];
/// Entries that a recorder's slices hold.
const ROOM: usize = 4_000;
/// As many of the last changes are read back.
const REMEMBERED: usize = 16;
/// kB by which the memory may differ from that after the first tenth: what a page cache or an allocator keeps, not a leak.
const LEVEL: u64 = 1_024;

fn main() -> ExitCode {
    let arguments: Vec<String> = std::env::args().skip(1).collect();
    match compare::arguments::numbers(&arguments, &["--seed", "--changes"]) {
        Ok((numbers, rest)) if rest.is_empty() => {
            run(numbers[0].unwrap_or(1), numbers[1].unwrap_or(1_000_000))
        }
        _ => {
            eprintln!("usage: soak [--seed S] [--changes N]");
            ExitCode::from(2)
        }
    }
}

struct Recorder {
    description: FlatDescription,
    bytes: Vec<u8>,
    indices: Vec<u32>,
    index: u32,
    /// The last strings kept, folded.
    last: VecDeque<Vec<u8>>,
}

/// What happened.
#[derive(Default)]
struct Seen {
    kept: u64,
    repeats: u64,
    raises: u64,
    refused: u64,
    full: u64,
    read_back: u64,
}

impl Recorder {
    fn new(width: u32) -> Self {
        let mut description = raw::fresh_real();
        assert_eq!(raw::recorder_fresh(&mut description, width), 0);
        Self {
            description,
            // Not zeros, so that the memory is held from the start.
            bytes: vec![0xa5; ROOM * (width as usize / 2 + 1)],
            indices: vec![0xa5a5_a5a5; ROOM],
            index: 0,
            last: VecDeque::with_capacity(REMEMBERED + 1),
        }
    }

    fn offer(&mut self, index: u32, string: &[u8]) -> u32 {
        let Self {
            description,
            bytes,
            indices,
            ..
        } = self;
        raw::recorder_add_change(description, bytes, 0, indices, 0, index, string)
    }

    /// Puts in a change that is well formed.
    fn change(&mut self, index: u32, string: &[u8], seen: &mut Seen) -> Result<(), String> {
        let before = self.description;
        let number = self.offer(index, string);
        match number {
            0 => self.accepted(before, index, string, seen),
            7 => {
                seen.full += 1;
                self.read_back(seen)?;
                self.begin_anew()
            }
            _ => Err(format!("{string:?} at {index} is refused with {number}")),
        }
    }

    fn accepted(
        &mut self,
        before: FlatDescription,
        index: u32,
        string: &[u8],
        seen: &mut Seen,
    ) -> Result<(), String> {
        let folded = string.to_ascii_lowercase();
        let is_event = before.kind == 0;
        let repeats = !is_event && self.last.back() == Some(&folded);
        let kept = self.description.count - before.count;
        if kept != u32::from(!repeats) {
            return Err(format!(
                "{string:?} after {:?}: {kept} kept",
                self.last.back()
            ));
        }
        if repeats {
            seen.repeats += 1;
            return Ok(());
        }
        seen.kept += 1;
        seen.raises += u64::from(self.description.set != before.set);
        self.index = index;
        self.last.push_back(folded);
        if self.last.len() > REMEMBERED {
            self.last.pop_front();
        }
        Ok(())
    }

    /// A change that must be refused, and leave all as it was.
    fn refusal(&mut self, random: &mut Random, seen: &mut Seen) -> Result<(), String> {
        let before = self.description;
        let width = before.width as usize;
        let index = self.index;
        let (expected, number) = match random.below(3) {
            0 if index > 0 && before.count > 0 => (6, self.offer(index - 1, &b"0".repeat(width))),
            1 if width > 0 => (5, self.offer(index, &b"q".repeat(width))),
            _ => (4, self.offer(index, &b"0".repeat(width + 2))),
        };
        seen.refused += 1;
        if number != expected || self.description != before {
            return Err(format!("refused with {number}, not {expected}: {before:?}"));
        }
        Ok(())
    }

    fn read_back(&self, seen: &mut Seen) -> Result<(), String> {
        if self.description.kind == 0 {
            return Ok(());
        }
        let mut text = vec![0; self.description.width as usize];
        let first = self.description.count - self.last.len() as u32;
        for (entry, string) in (first..).zip(&self.last) {
            let number = raw::text(self.description, &self.bytes, 0, entry, &mut text);
            if number != 0 || text != *string {
                return Err(format!("entry {entry} reads {text:?}, not {string:?}"));
            }
            seen.read_back += 1;
        }
        Ok(())
    }

    fn begin_anew(&mut self) -> Result<(), String> {
        let width = self.description.width;
        let number = raw::recorder_fresh(&mut self.description, width);
        self.index = 0;
        self.last.clear();
        if number == 0 && self.description.count == 0 {
            Ok(())
        } else {
            Err(format!("begun anew with {number}: {:?}", self.description))
        }
    }
}

/// Mostly 0 and 1, at times x and z, seldom the other five, small or capital, and now and then the last string again.
fn string(recorder: &Recorder, random: &mut Random, out: &mut Vec<u8>) {
    if let Some(last) = recorder.last.back().filter(|_| random.once_in(8)) {
        out.clone_from(last);
        return;
    }
    let letters: &[u8] = match random.below(400) {
        0 => b"01xzhuwl-HUWLXZ",
        1..=8 => b"01xzXZ",
        _ => b"01",
    };
    out.clear();
    out.extend((0..recorder.description.width).map(|_| letters[random.below(letters.len())]));
}

fn one(
    recorder: &mut Recorder,
    random: &mut Random,
    out: &mut Vec<u8>,
    seen: &mut Seen,
) -> Result<(), String> {
    if random.once_in(50) {
        return recorder.refusal(random, seen);
    }
    string(recorder, random, out);
    let index = recorder.index + random.below(3) as u32;
    recorder.change(index, out, seen)
}

/// kB of memory that the process holds.
fn memory() -> Result<u64, String> {
    const STATUS: &str = "/proc/self/status";
    let status = std::fs::read_to_string(STATUS);
    let status = status.map_err(|error| format!("{STATUS}: {error}"))?;
    let line = status.lines().find_map(|line| line.strip_prefix("VmRSS:"));
    let number = line.and_then(|line| line.split_whitespace().next());
    let number = number.and_then(|number| number.parse().ok());
    number.ok_or_else(|| format!("{STATUS} tells no memory"))
}

fn run(seed: u64, changes: u64) -> ExitCode {
    println!("soak: seed {seed}, {RECORDERS} recorders, {changes} changes");
    println!("| changes | ns a change | memory, kB |\n|---|---|---|");
    match soak(seed, changes) {
        Ok(seen) => {
            println!(
                "soak: {} kept, {} repeats, {} raises, {} refused, {} full and begun anew, {} entries read back, 0 wrong",
                seen.kept, seen.repeats, seen.raises, seen.refused, seen.full, seen.read_back
            );
            ExitCode::SUCCESS
        }
        Err(what) => {
            println!("soak: wrong: {what}");
            ExitCode::FAILURE
        }
    }
}

fn soak(seed: u64, changes: u64) -> Result<Seen, String> {
    let mut random = Random::new(seed);
    let widths = WIDTHS.iter().cycle().take(RECORDERS);
    let mut recorders: Vec<_> = widths.map(|&width| Recorder::new(width)).collect();
    let mut seen = Seen::default();
    let mut out = Vec::new();
    let mut level = None;
    for tenth in 1..=TENTHS {
        let start = Instant::now();
        let many = changes / TENTHS;
        for _ in 0..many {
            let at = random.below(RECORDERS);
            one(&mut recorders[at], &mut random, &mut out, &mut seen)?;
        }
        let time = start.elapsed().as_nanos() as f64 / many.max(1) as f64;
        let memory = memory()?;
        println!("| {} | {time:.0} | {memory} |", tenth * many);
        let first = *level.get_or_insert(memory);
        if memory > first + LEVEL {
            return Err(format!("memory grew from {first} to {memory} kB"));
        }
    }
    Ok(seen)
}
