//! The packer, the least set, the repeat test, and entries widened.

use crate::by_hand;
use crate::inner::{self, Packable, entry_size};
use crate::strings::{SETS, WIDTHS, string};
use crate::timing::{best, in_turn};
use oracle::States;
use std::hint::black_box;
use std::time::Duration;

const STRINGS: u64 = 64;

/// A table of ns a character, a row for each set and width. `measure` times one row: so many turns over the strings,
/// here and in wellen.
fn table(title: &str, measure: impl Fn(States, &[Vec<u8>], usize) -> [Duration; 2]) {
    println!("\n{title}: ns a character\n");
    println!("| set | width | yoksimert | wellen | wellen / yoksimert |\n|---|---|---|---|---|");
    for states in SETS {
        for width in WIDTHS {
            let strings: Vec<Vec<u8>> = (0..STRINGS)
                .map(|seed| string(states, width, seed))
                .collect();
            let turns = 1 + 400_000 / (width * strings.len());
            let characters = (turns * width * strings.len()) as f64;
            let [ours, theirs] =
                in_turn(|| measure(states, &strings, turns)).map(|time| time.as_nanos() as f64);
            println!(
                "| {states:?} | {width} | {:.2} | {:.2} | {:.1} |",
                ours / characters,
                theirs / characters,
                theirs / ours
            );
        }
    }
}

/// The shortest time of so many turns over some items.
fn turns_over<T>(turns: usize, items: &[T], mut call: impl FnMut(usize, &T)) -> Duration {
    best(
        || (),
        || {
            for _ in 0..turns {
                for (i, item) in items.iter().enumerate() {
                    call(i, black_box(item));
                }
            }
        },
    )
}

fn packables(states: States, strings: &[Vec<u8>]) -> Vec<Packable<'_>> {
    strings
        .iter()
        .map(|value| Packable::new(states, value))
        .collect()
}

/// The packer beside wellen's `write_n_state_from_ascii`.
pub fn pack() {
    table("pack", |states, strings, turns| {
        let mut out = vec![0u8; 4096];
        let mut vector = Vec::with_capacity(4096);
        [
            turns_over(turns, &packables(states, strings), |_, packable| {
                black_box(packable.pack(&mut out));
            }),
            turns_over(turns, strings, |_, value| {
                vector.clear();
                reference::pack(states, value, &mut vector);
                black_box(&vector);
            }),
        ]
    });
}

/// The least set beside wellen's `States::from_ascii`.
pub fn least() {
    table("least set", |_, strings, turns| {
        [
            turns_over(turns, strings, |_, value| {
                black_box(inner::least(value));
            }),
            turns_over(turns, strings, |_, value| {
                black_box(reference::least(value));
            }),
        ]
    });
}

/// A string compared with its own bytes, beside wellen's way: packed, and then the bytes compared.
pub fn repeats() {
    table("repeat test", |states, strings, turns| {
        let packables = packables(states, strings);
        let entry = |packable: &Packable| {
            let mut bytes = vec![0u8; 2048];
            let length = packable.pack(&mut bytes);
            (bytes, length)
        };
        let entries: Vec<(Vec<u8>, usize)> = packables.iter().map(entry).collect();
        let mut vector = Vec::with_capacity(4096);
        [
            turns_over(turns, &packables, |i, packable| {
                assert!(packable.equals(&entries[i].0));
            }),
            turns_over(turns, strings, |i, value| {
                vector.clear();
                reference::pack(states, value, &mut vector);
                let (bytes, length) = &entries[i];
                assert!(vector[..] == bytes[..*length]);
            }),
        ]
    });
}

/// GB/s of widened bytes beside wellen's `expand_entries`, a plain move of as many bytes, and stores of 16 bytes.
pub fn widen() {
    println!("\nwiden: GB/s of bytes written\n");
    println!(
        "| from | to | width | yoksimert | wellen | memmove | yoksimert / memmove | stores of 16 | yoksimert / stores |\n|---|---|---|---|---|---|---|---|---|"
    );
    let raises = [
        (States::Two, States::Four),
        (States::Two, States::Nine),
        (States::Four, States::Nine),
    ];
    for (from, to) in raises {
        widen_at::<8>(from, to);
        widen_at::<64>(from, to);
        widen_at::<256>(from, to);
        widen_at::<4096>(from, to);
    }
}

fn widen_at<const WIDTH: u32>(from: States, to: States) {
    let (small, large) = (entry_size(WIDTH, from), entry_size(WIDTH, to));
    let entries = (4_000_000 / large).clamp(1, 1_048_576);
    let old: Vec<u8> = (0..entries * small).map(|i| (i * 7 % 61) as u8).collect();
    let written = entries * large;
    let data = std::cell::RefCell::new(vec![0u8; written]);
    let restore = || data.borrow_mut()[..old.len()].copy_from_slice(&old);
    let mut plain = vec![1u8; written + 64];
    let [ours, theirs, moved, stored] = in_turn(|| {
        [
            best(restore, || {
                inner::expand(from, to, &mut data.borrow_mut(), entries, WIDTH);
                black_box(&data);
            }),
            best(
                || (),
                || {
                    black_box(reference::expand(from, to, black_box(&old), entries, WIDTH));
                },
            ),
            best(
                || (),
                || {
                    plain.copy_within(0..written, 64);
                    black_box(&plain);
                },
            ),
            best(restore, || {
                let data = &mut data.borrow_mut()[..];
                match to {
                    States::Two => store::<WIDTH, 0>(data),
                    States::Four => store::<WIDTH, 1>(data),
                    States::Nine => store::<WIDTH, 2>(data),
                }
                black_box(data);
            }),
        ]
    });
    let rate = |time: Duration| written as f64 / time.as_nanos() as f64;
    println!(
        "| {from:?} | {to:?} | {WIDTH} | {:.2} | {:.2} | {:.2} | {:.2} | {:.2} | {:.2} |",
        rate(ours),
        rate(theirs),
        rate(moved),
        rate(ours) / rate(moved),
        rate(stored),
        rate(ours) / rate(stored)
    );
}

/// Stores something to every entry of a width under the set with a mark, from the last to the first, in as few blocks of 16 bytes as cover it. Nothing
/// is read: no widening by the base instructions of x86-64, whose widest store this is, does with less.
fn store<const WIDTH: u32, const SET: u32>(data: &mut [u8]) {
    let size = const { by_hand::entry_size(WIDTH as usize, SET) };
    let block: [u8; 16] = black_box(std::array::from_fn(|i| i as u8));
    for entry in data.chunks_exact_mut(size).rev() {
        let (last, rest) = (size.saturating_sub(16), size % 16);
        for to in entry.chunks_exact_mut(16) {
            to.copy_from_slice(&block);
        }
        if rest > 0 {
            let to = &mut entry[last..];
            let length = to.len();
            to.copy_from_slice(&block[..length]);
        }
    }
}
