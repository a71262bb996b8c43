//! The operations of the archive beside wellen's: changes added, a raise, entries read, records compared, indices looked up.

use crate::by_hand;
use crate::inner::{self, Rising};
use crate::strings::{SETS, WIDTHS, string, strings_apart};
use crate::timing::{best, in_turn, per};
use oracle::{Record, States};
use std::cell::RefCell;
use std::hint::black_box;
use yoksimert::raw::{self, FlatDescription};

const MILLION: usize = 1_000_000;

/// The indices sought in a round, few and many: every round seeks the same, and the processor learns how the jumps of a few searches go.
const SEEKS: [u32; 2] = [20, 10_000];

/// A record of the archive with its slices.
struct Recorder {
    description: FlatDescription,
    bytes: Vec<u8>,
    indices: Vec<u32>,
}

impl Recorder {
    fn new(width: u32, byte_room: usize, index_room: usize) -> Self {
        Self {
            description: raw::fresh(width).description,
            bytes: vec![0; byte_room],
            indices: vec![0; index_room],
        }
    }

    fn add(&mut self, index: u32, value: &[u8]) {
        let (bytes, indices) = (&mut self.bytes, &mut self.indices);
        let number =
            raw::recorder_add_change(&mut self.description, bytes, 0, indices, 0, index, value);
        assert_eq!(number, 0, "the slices have room");
    }

    fn record(&self) -> Record<'_> {
        Record {
            description: archive::decode(self.description),
            bytes: &self.bytes,
            byte_start: 0,
            indices: &self.indices,
            index_start: 0,
        }
    }
}

/// ns a change: strings of one set, none of which repeats the last, into a record that has seen the set.
pub fn add() {
    println!("\nadd a change: ns a change\n");
    println!(
        "| set | width | yoksimert | wellen | wellen / yoksimert | by hand |\n|---|---|---|---|---|---|"
    );
    for states in SETS {
        for width in WIDTHS {
            add_at(states, width);
        }
    }
}

fn add_at(states: States, width: usize) {
    let strings = strings_apart(states, width);
    let turns = (2_000_000 / width).clamp(500, 20_000);
    let changes = || (0..turns as u32).zip(strings.iter().cycle());
    let theirs = || {
        let mut writer = reference::Writer::fresh(width as u32);
        for (index, value) in changes() {
            writer.add_string_unguarded(index, black_box(value));
        }
        black_box(writer);
    };
    let mut seen = Recorder::new(width as u32, width / 2 + 2, 1);
    seen.add(0, &strings[0]);
    let by_hand = inner::entry_size(width as u32, states) <= 8;
    let [ours, theirs, by_hand] = in_turn(|| {
        [
            added(raw::recorder_add_change, &seen, turns, changes),
            per(best(|| (), theirs), turns),
            if by_hand {
                added(by_hand::add_change, &seen, turns, changes)
            } else {
                f64::INFINITY
            },
        ]
    });
    println!(
        "| {states:?} | {width} | {ours:.1} | {theirs:.1} | {:.1} | {} |",
        theirs / ours,
        if by_hand.is_finite() {
            format!("{by_hand:.1}")
        } else {
            "–".to_string()
        }
    );
}

/// ns a change of so many, into a record that has seen the set.
fn added<'a, Changes: Iterator<Item = (u32, &'a Vec<u8>)>>(
    add_change: impl Fn(&mut FlatDescription, &mut [u8], usize, &mut [u32], usize, u32, &[u8]) -> u32,
    seen: &Recorder,
    turns: usize,
    changes: impl Fn() -> Changes,
) -> f64 {
    let width = seen.description.width;
    let mut recorder = Recorder::new(width, turns * (width as usize / 2 + 2), turns);
    let start = FlatDescription {
        count: 0,
        ..seen.description
    };
    let time = best(
        || (),
        || {
            recorder.description = start;
            for (index, value) in changes() {
                let (bytes, indices) = (&mut recorder.bytes, &mut recorder.indices);
                let value = black_box(value);
                let number = add_change(
                    &mut recorder.description,
                    bytes,
                    0,
                    indices,
                    0,
                    index,
                    value,
                );
                assert_eq!(number, 0, "the slices have room");
            }
        },
    );
    per(time, turns)
}

/// ms of the change that raises the set of a record of a million entries.
pub fn raise() {
    println!("\nraise: ms of the change that lays a million entries out anew\n");
    println!(
        "| width | from | to | yoksimert | wellen | wellen / yoksimert |\n|---|---|---|---|---|---|"
    );
    for (width, last) in [
        (1usize, States::Nine),
        (8, States::Four),
        (8, States::Nine),
        (64, States::Four),
    ] {
        raise_at(width, last);
    }
}

fn raise_at(width: usize, last: States) {
    let values = strings_apart(States::Two, width);
    let letter = if last == States::Four { b'x' } else { b'h' };
    let raising = vec![letter; width];
    let changes = || (0..MILLION as u32).zip(values.iter().cycle());
    let full = RefCell::new(Recorder::new(
        width as u32,
        (MILLION + 1) * (width / 2 + 2),
        MILLION + 1,
    ));
    let fill = || {
        let mut recorder = full.borrow_mut();
        recorder.description = raw::fresh(width as u32).description;
        changes().for_each(|(index, value)| recorder.add(index, value));
    };
    let ours = best(fill, || {
        full.borrow_mut().add(MILLION as u32, black_box(&raising))
    });
    let writer = RefCell::new(reference::Writer::fresh(width as u32));
    let fill = || {
        let mut fresh = reference::Writer::fresh(width as u32);
        changes().for_each(|(index, value)| fresh.add_string_unguarded(index, value));
        *writer.borrow_mut() = fresh;
    };
    let theirs = best(fill, || {
        let mut writer = writer.borrow_mut();
        writer.add_string_unguarded(MILLION as u32, black_box(&raising));
    });
    let (ours, theirs) = (per(ours, MILLION), per(theirs, MILLION));
    println!(
        "| {width} | Two | {last:?} | {ours:.2} | {theirs:.2} | {:.1} |",
        theirs / ours
    );
}

/// A record of so many entries, and the same of wellen's.
fn filled(states: States, width: usize, entries: usize) -> (Recorder, reference::Record) {
    let strings: Vec<Vec<u8>> = (0..64).map(|seed| string(states, width, seed)).collect();
    let mut recorder = Recorder::new(width as u32, entries * (width / 2 + 2), entries);
    for entry in 0..entries {
        recorder.add(entry as u32, &strings[entry % strings.len()]);
    }
    let record = recorder.record();
    let used = record.description.count as usize;
    let wellen = reference::Record::new(
        record.description,
        &record.bytes[..used * inner::entry_size(width as u32, largest(&record))],
        &record.indices[..used],
    );
    let wellen = wellen.expect("wellen takes the record");
    (recorder, wellen)
}

fn largest(record: &Record<'_>) -> States {
    match record.description.encoding {
        oracle::Encoding::BitVector { max_states, .. } => max_states,
        oracle::Encoding::Event | oracle::Encoding::Real => States::Two,
    }
}

/// ns an entry read and turned into text.
pub fn read() {
    println!("\nread and text: ns an entry\n");
    println!(
        "| set | width | read | wellen | ratio | text | wellen | ratio |\n|---|---|---|---|---|---|---|---|"
    );
    for states in SETS {
        for width in [1usize, 8, 64, 256] {
            read_at(states, width);
        }
    }
}

fn read_at(states: States, width: usize) {
    let (recorder, wellen) = filled(states, width, 20_000);
    let (flat, bytes) = (recorder.description, &recorder.bytes);
    let mut out = vec![0; width];
    let [read, wellen_read, text, wellen_text] = in_turn(|| {
        [
            // One number, as of wellen: a copy of the whole answer would wait for its single stores.
            each_entry(flat.count, |entry| raw::read(flat, bytes, 0, entry).length),
            each_entry(flat.count, |entry| wellen.read_unguarded(entry)),
            each_entry(flat.count, |entry| {
                raw::text(flat, bytes, 0, entry, &mut out)
            }),
            each_entry(flat.count, |entry| wellen.text_unguarded(entry)),
        ]
    });
    println!(
        "| {states:?} | {width} | {read:.1} | {wellen_read:.1} | {:.1} | {text:.1} | {wellen_text:.1} | {:.1} |",
        wellen_read / read,
        wellen_text / text
    );
}

/// ns of a call, of one for each of so many entries.
pub fn each_entry<T>(count: u32, mut call: impl FnMut(u32) -> T) -> f64 {
    let time = best(
        || (),
        || {
            for entry in 0..count {
                black_box(call(black_box(entry)));
            }
        },
    );
    per(time, count as usize)
}

/// ms for two equal records of a million entries.
pub fn compare() {
    println!("\ncompare: ms for two equal records of a million entries\n");
    println!("| set | width | yoksimert | wellen | wellen / yoksimert |\n|---|---|---|---|---|");
    for (states, width) in [
        (States::Two, 8),
        (States::Four, 8),
        (States::Nine, 8),
        (States::Two, 64),
    ] {
        let (recorder, wellen) = filled(states, width, MILLION);
        let (other, other_wellen) = filled(states, width, MILLION);
        let ours = || {
            let equal = archive::compare(&recorder.record(), &other.record());
            assert_eq!(black_box(equal), Ok(true));
        };
        let theirs = || assert_eq!(black_box(wellen.equals(&other_wellen)), Ok(true));
        let [ours, theirs] =
            in_turn(|| [best(|| (), ours), best(|| (), theirs)]).map(|time| per(time, MILLION));
        println!(
            "| {states:?} | {width} | {ours:.2} | {theirs:.2} | {:.1} |",
            theirs / ours
        );
    }
}

/// ns a look-up, and of its scan for falling indices and its search. wellen searches alone.
pub fn look_up() {
    println!("\nlook up: ns an answer; wellen has no scan\n");
    println!(
        "| indices | sought in a round | look up | scan alone | search alone | wellen | wellen / search |\n|---|---|---|---|---|---|---|"
    );
    for length in [10u32, 1_000, 1_000_000] {
        for seeks in SEEKS {
            look_up_in(length, seeks);
        }
    }
}

fn look_up_in(length: u32, seeks: u32) {
    let indices: Vec<u32> = (0..length).map(|entry| 3 * entry).collect();
    let events = events(&indices);
    let rising = Rising::new(&indices);
    let scans = seeks.min((1_000_000 / length).max(20));
    let [whole, scan, search, wellen] = in_turn(|| {
        [
            seek(length, scans, |sought| raw::look_up(&indices, sought)),
            seek(length, scans, |_| inner::falls(black_box(&indices))),
            seek(length, seeks, |sought| rising.search(sought)),
            seek(length, seeks, |sought| events.look_up_unguarded(sought)),
        ]
    });
    println!(
        "| {length} | {seeks} | {whole:.1} | {scan:.1} | {search:.1} | {wellen:.1} | {:.1} |",
        wellen / search
    );
}

/// ns a look-up that finds a run, with its scan and the search that counts the run.
pub fn equal_indices() {
    println!("\nlook up in entries of one index: ns an answer\n");
    println!(
        "| entries | look up | scan alone | search and count | wellen | wellen / look up |\n|---|---|---|---|---|---|"
    );
    for entries in [10, 1_000, 70_000, MILLION] {
        let indices = vec![5; entries];
        let events = events(&indices);
        let rising = Rising::new(&indices);
        let seeks = (MILLION / entries).max(20) as u32;
        let [whole, scan, search, wellen] = in_turn(|| {
            [
                seek(5, seeks, |sought| raw::look_up(&indices, 5 + sought)),
                seek(5, seeks, |_| inner::falls(black_box(&indices))),
                seek(5, seeks, |sought| rising.search(5 + sought)),
                seek(5, seeks, |sought| events.look_up_unguarded(5 + sought)),
            ]
        });
        println!(
            "| {entries} | {whole:.1} | {scan:.1} | {search:.1} | {wellen:.1} | {:.2} |",
            wellen / whole
        );
    }
}

/// wellen's record of events at these indices.
fn events(indices: &[u32]) -> reference::Record {
    let description = oracle::Description::of(oracle::Encoding::Event, indices);
    reference::Record::new(description, &[], indices).expect("wellen takes the record")
}

/// ns of a call, of so many that seek indices without order in a list of `length`.
fn seek<T>(length: u32, seeks: u32, call: impl Fn(u32) -> T) -> f64 {
    let sought = |seek: u32| seek.wrapping_mul(2_654_435_761) % (3 * length);
    let time = best(
        || (),
        || {
            for number in 0..seeks {
                black_box(call(black_box(sought(number))));
            }
        },
    );
    per(time, seeks as usize)
}
