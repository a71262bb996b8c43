//! Derive beside wellen's `transform_bv_signal`.

use crate::strings::{SETS, string};
use crate::timing::{best_of, in_turn};
use oracle::{Derivation, Encoding, Input, Side, States};
use reference::{Record, Writer};
use std::hint::black_box;
use std::time::Duration;

/// Entries of all inputs together.
const ENTRIES: u32 = 1_000_000;
const ROUNDS: u32 = 3;

/// The inputs of one derivation: wellen's records, and the same in two shared slices.
struct Inputs {
    records: Vec<Record>,
    places: Vec<Input>,
    bytes: Vec<u8>,
    indices: Vec<u32>,
}

impl Inputs {
    /// Records of one width and set that change in turn, all of them at index 0.
    fn new(count: u32, width: u32, states: States) -> Self {
        let mut all = Self {
            records: Vec::new(),
            places: Vec::new(),
            bytes: Vec::new(),
            indices: Vec::new(),
        };
        for input in 0..count {
            let mut writer = Writer::fresh(width);
            for change in 0..ENTRIES / count {
                let index = if change == 0 {
                    0
                } else {
                    change * count + input
                };
                let seed = u64::from(change * count + input);
                writer.add_string_unguarded(index, &string(states, width as usize, seed));
            }
            all.places.push(Input {
                description: writer.description(),
                byte_start: all.bytes.len(),
                index_start: all.indices.len(),
            });
            all.bytes.extend_from_slice(writer.bytes());
            all.indices.extend_from_slice(writer.indices());
            all.records.push(writer.finish().expect("wellen made it"));
        }
        all
    }
}

/// ms for a derivation of a million entries: one wire of eight, eight records joined, and a shuffle of 64 pieces of two wide records.
pub fn derive() {
    println!("\nderive: ms for inputs of a million entries\n");
    println!("| derivation | set | entries made | yoksimert | wellen | wellen / yoksimert |");
    println!("|---|---|---|---|---|---|");
    for states in SETS {
        let slice = joined(&[(1, 3, 3)]);
        timed("one wire of 8", states, &slice, &Inputs::new(1, 8, states));
        let eight: Vec<_> = (1..=8).map(|name| (name, 0, 0)).collect();
        timed(
            "eight records of one wire",
            states,
            &joined(&eight),
            &Inputs::new(8, 1, states),
        );
        let shuffle: Vec<_> = (0..64)
            .map(|piece| (piece % 2 + 1, piece * 4 % 256 + 3, piece * 4 % 256))
            .collect();
        timed(
            "64 pieces of 4 wires of two records of 256",
            states,
            &joined(&shuffle),
            &Inputs::new(2, 256, states),
        );
    }
}

/// The pieces (name, msb, lsb), each added on the left.
fn joined(pieces: &[(u32, u32, u32)]) -> Derivation {
    let start = oracle::empty_derivation();
    pieces.iter().fold(start, |derivation, &(name, msb, lsb)| {
        oracle::add_piece(&derivation, Side::Left, name, msb, lsb).expect("a piece")
    })
}

fn timed(name: &str, states: States, derivation: &Derivation, inputs: &Inputs) {
    let (mut made, mut theirs_made) = (0, 0);
    let [ours, theirs] = in_turn(|| {
        let (ours, made_here) = ours(derivation, inputs);
        let (theirs, made_there) = wellens(derivation, inputs);
        (made, theirs_made) = (made_here as usize, made_there);
        [ours, theirs]
    });
    assert_eq!(made, theirs_made, "both make as many entries");
    println!(
        "| {name} | {states:?} | {made} | {ours:.1} | {theirs:.1} | {:.1} |",
        theirs / ours
    );
}

/// ms, and the number of entries made.
fn ours(derivation: &Derivation, inputs: &Inputs) -> (f64, u32) {
    let Inputs {
        places,
        bytes,
        indices,
        ..
    } = inputs;
    let entry = largest_entry(derivation.width);
    let mut out_bytes = vec![0; entry * indices.len()];
    let mut out_indices = vec![0; indices.len()];
    let mut made = 0;
    let time = best_of(
        ROUNDS,
        || (),
        || {
            let (out_bytes, out_indices) = (&mut out_bytes, &mut out_indices);
            let answer =
                archive::derive(derivation, places, bytes, indices, out_bytes, out_indices);
            let description = black_box(answer).expect("it is accepted");
            assert!(matches!(description.encoding, Encoding::BitVector { .. }));
            made = description.count;
        },
    );
    (ms(time), made)
}

/// The same of wellen.
fn wellens(derivation: &Derivation, inputs: &Inputs) -> (f64, usize) {
    let mut made = 0;
    let time = best_of(
        ROUNDS,
        || (),
        || made = black_box(reference::derive_unguarded(derivation, &inputs.records)),
    );
    (ms(time), made)
}

fn ms(time: Duration) -> f64 {
    time.as_secs_f64() * 1e3
}

/// Bytes that an entry of a width takes at most.
fn largest_entry(width: u32) -> usize {
    width as usize / 2 + 1
}
