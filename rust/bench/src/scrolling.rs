//! What a fitter who scrolls waits for: look-ups and changes with their text, by the crate's own types, beside wellen's.

use crate::strings::{SETS, string};
use crate::timing::{best, best_of, in_turn, per};
use oracle::{Description, Encoding, States};
use std::hint::black_box;
use yoksimert::{Signal, SignalWriter};

const MILLION: usize = 1_000_000;

/// The indices sought in a round, few and many: every round seeks the same, and the processor learns how the jumps of a few searches go, but
/// not those of many without order.
const SEEKS: [u32; 2] = [20, 10_000];

/// ns a look-up in a record that a writer made.
pub fn look_up() {
    println!("\nget_offset of a signal: ns an answer\n");
    println!(
        "| entries | of one index | sought in a round | yoksimert | wellen | wellen / yoksimert |\n|---|---|---|---|---|---|"
    );
    let lengths = [10, 1_000, MILLION as u32];
    for run in [1, 3, 20] {
        for entries in lengths.into_iter().filter(|entries| run < *entries) {
            for seeks in SEEKS {
                look_up_in(entries, run, seeks);
            }
        }
    }
    // wellen goes over a run one by one.
    for entries in lengths {
        look_up_in(entries, entries, 20);
    }
}

fn look_up_in(entries: u32, run: u32, seeks: u32) {
    let indices: Vec<u32> = (0..entries).map(|entry| 5 + 3 * (entry / run)).collect();
    let (ours, theirs) = (events(&indices), wellens_events(&indices));
    let span = indices.last().map_or(0, |last| last - 5 + 3);
    let [ours, theirs] = in_turn(|| {
        [
            seek(span, seeks, |sought| {
                let offset = ours.get_offset(sought).expect("no index falls")?;
                let next = offset.next_index.map_or(0, u32::from);
                Some(told(offset.start, offset.elements, offset.time_match, next))
            }),
            seek(span, seeks, |sought| {
                let offset = theirs.look_up_unguarded(sought)?;
                let next = offset.next_index.unwrap_or(0);
                Some(told(offset.start, offset.elements, offset.time_match, next))
            }),
        ]
    });
    println!(
        "| {entries} | {run} | {seeks} | {ours:.1} | {theirs:.1} | {:.2} |",
        theirs / ours
    );
}

fn events(indices: &[u32]) -> Signal {
    let mut writer = SignalWriter::new_event();
    for index in indices {
        writer.add_change(*index, "").expect("the index stands");
    }
    writer.finish()
}

fn wellens_events(indices: &[u32]) -> reference::Record {
    let description = Description::of(Encoding::Event, indices);
    reference::Record::new(description, &[], indices).expect("wellen takes the record")
}

/// All of an answer as one number: a copy of it would wait for its single stores.
fn told(start: usize, elements: u32, time_match: bool, next: u32) -> usize {
    start ^ elements as usize ^ usize::from(time_match) ^ next as usize
}

/// ns of a call, of so many that seek indices from 5 on without order.
fn seek(span: u32, seeks: u32, call: impl Fn(u32) -> Option<usize>) -> f64 {
    let mut state = 0_u64;
    let sought = (0..seeks).map(|_| {
        state = state.wrapping_mul(6_364_136_223_846_793_005);
        state = state.wrapping_add(1_442_695_040_888_963_407);
        5 + (state >> 33) as u32 % span
    });
    let sought: Vec<u32> = sought.collect();
    let time = best(
        || (),
        || {
            for index in &sought {
                black_box(call(black_box(*index)));
            }
        },
    );
    per(time, seeks as usize)
}

/// ns a change of a million, each with its text.
pub fn texts() {
    println!("\nevery change with its text: ns a change of a million\n");
    println!(
        "| set | width | into a buffer | as a string | wellen | wellen / buffer | wellen / string |\n|---|---|---|---|---|---|---|"
    );
    for states in SETS {
        for width in [1, 8, 64] {
            texts_of(states, width);
        }
    }
}

fn texts_of(states: States, width: usize) {
    let (ours, theirs) = filled(states, width);
    let mut buffer = vec![0; width];
    let [into, strings, wellen] = in_turn(|| {
        [
            iterated(|| {
                for change in ours.iter_changes() {
                    let (index, value) = change.expect("a writer's record");
                    let levels = value.as_bit_vec().expect("a bit vector");
                    levels.write_bit_string(&mut buffer).expect("room");
                    black_box((index, &buffer));
                }
            }),
            iterated(|| {
                for change in ours.iter_changes() {
                    let (index, value) = change.expect("a writer's record");
                    black_box((index, value.to_bit_string()));
                }
            }),
            iterated(|| {
                theirs.each_text_unguarded(|index, text| {
                    black_box((index, text));
                });
            }),
        ]
    });
    println!(
        "| {states:?} | {width} | {into:.1} | {strings:.1} | {wellen:.1} | {:.1} | {:.1} |",
        wellen / into,
        wellen / strings
    );
}

fn iterated(round: impl FnMut()) -> f64 {
    per(best_of(5, || (), round), MILLION)
}

/// A signal of a million changes, and the same of wellen's.
fn filled(states: States, width: usize) -> (Signal, reference::Record) {
    let strings: Vec<Vec<u8>> = (0..64).map(|seed| string(states, width, seed)).collect();
    let mut writer = SignalWriter::new(width as u32).expect("the width stands");
    let (mut offered, mut index) = (strings.iter().cycle(), 0);
    while writer.len() < MILLION {
        let string = offered.next().expect("it goes round");
        writer.add_change(index, string).expect("the change stands");
        index += 1;
    }
    let signal = writer.finish();
    let max_states = match signal.max_states().expect("a bit vector").mark() {
        0 => States::Two,
        1 => States::Four,
        _ => States::Nine,
    };
    let description = Description {
        encoding: Encoding::BitVector {
            width: width as u32,
            max_states,
        },
        count: MILLION as u32,
    };
    let wellen = reference::Record::new(description, signal.bytes(), signal.time_indices());
    (signal, wellen.expect("wellen takes the record"))
}
