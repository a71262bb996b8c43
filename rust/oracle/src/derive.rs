//! Derive and its derived list (document 01, A derived record).

use crate::derivation::{Derivation, Piece};
use crate::history::laid_out;
use crate::level::{States, codes, letters};
use crate::look_up::falls;
use crate::record::{Description, Encoding, Extent};
use crate::text::codes_of;
use crate::{MAXIMUM, Refusal, refuse_if};

/// A record within the shared slices.
#[derive(Clone, Copy, PartialEq, Eq, Debug)]
pub struct Input {
    /// The description.
    pub description: Description,
    /// Where the used bytes begin.
    pub byte_start: usize,
    /// Where the used indices begin.
    pub index_start: usize,
}

/// One member of a derived list.
#[derive(Clone, PartialEq, Eq, Debug)]
pub struct Step {
    /// The time index.
    pub index: u32,
    /// The picked levels in small letters, the highest piece first.
    pub string: Vec<u8>,
    /// The largest of the inputs' current own sets.
    pub states: States,
}

/// An input's entries as indices, own sets and codes.
struct Entries<'a> {
    indices: &'a [u32],
    levels: Vec<(States, Vec<u8>)>,
}

/// Writes the derived record to the front of the output slices (document 01, Derive).
///
/// # Errors
/// 2, 14, 15, 11, 9, 10, 7.
pub fn derive(
    d: &Derivation,
    inputs: &[Input],
    bytes: &[u8],
    indices: &[u32],
    out_bytes: &mut [u8],
    out_indices: &mut [u32],
) -> Result<Description, Refusal> {
    let stands = |input: &Input| {
        let lent_bytes = Extent::new(bytes, input.byte_start);
        let lent_indices = Extent::new(indices, input.index_start);
        input.description.holds(lent_bytes, lent_indices)
    };
    refuse_if(!inputs.iter().all(stands), 2)?;
    refuse_if(!fits(d, inputs), 14)?;
    let index_lists: Vec<&[u32]> = inputs.iter().map(|i| used_indices(i, indices)).collect();
    let starts_at_zero = |list: &&[u32]| list.first() == Some(&0);
    refuse_if(!index_lists.iter().all(starts_at_zero), 15)?;
    refuse_if(index_lists.iter().any(|list| falls(list)), 11)?;
    let entries = all_entries(inputs, bytes, indices)?;
    picked_levels_stand(d, &entries)?;

    let list = derived_list(d, inputs, bytes, indices);
    let (description, derived_bytes, derived_indices) =
        derived_laid_out(d.width, largest_set(inputs), &list);
    let exceeds = list.len() > MAXIMUM as usize
        || derived_bytes.len() > out_bytes.len()
        || derived_indices.len() > out_indices.len();
    refuse_if(exceeds, 7)?;
    out_bytes[..derived_bytes.len()].copy_from_slice(&derived_bytes);
    out_indices[..derived_indices.len()].copy_from_slice(&derived_indices);
    Ok(description)
}

/// The width of a bit vector.
fn width_of(input: &Input) -> Option<u32> {
    match input.description.encoding {
        Encoding::BitVector { width, .. } => Some(width),
        Encoding::Event | Encoding::Real => None,
    }
}

/// Whether number 14 of Derive does not hold.
fn fits(d: &Derivation, inputs: &[Input]) -> bool {
    let within = |piece: &Piece| {
        let width = width_of(&inputs[piece.input as usize]);
        width.is_some_and(|width| piece.end() <= u64::from(width))
    };
    d.stands()
        && d.piece_count > 0
        && inputs.len() == d.input_count as usize
        && inputs.iter().all(|input| width_of(input).is_some())
        && d.used_pieces().iter().all(within)
}

fn used_indices<'a>(input: &Input, indices: &'a [u32]) -> &'a [u32] {
    &indices[input.index_start..][..input.description.count as usize]
}

/// All inputs decoded. 9.
fn all_entries<'a>(
    inputs: &[Input],
    bytes: &[u8],
    indices: &'a [u32],
) -> Result<Vec<Entries<'a>>, Refusal> {
    let mut all = Vec::new();
    for input in inputs {
        let decoded = |k| codes_of(input.description, bytes, input.byte_start, k);
        all.push(Entries {
            indices: used_indices(input, indices),
            levels: (0..input.description.count)
                .map(decoded)
                .collect::<Result<_, _>>()?,
        });
    }
    Ok(all)
}

/// The codes of a piece's bits, the highest first. Bit 0 is the last character.
fn picked(piece: &Piece, codes: &[u8]) -> Vec<u8> {
    let bits = (piece.lsb..piece.end()).rev();
    bits.map(|bit| codes[codes.len() - 1 - bit as usize])
        .collect()
}

/// 10 at a picked level of any entry.
fn picked_levels_stand(d: &Derivation, inputs: &[Entries]) -> Result<(), Refusal> {
    for piece in d.used_pieces() {
        for (_, codes) in &inputs[piece.input as usize].levels {
            letters(&picked(&piece, codes))?;
        }
    }
    Ok(())
}

/// The largest of the inputs' largest sets.
fn largest_set(inputs: &[Input]) -> States {
    let largest = |input: &Input| match input.description.encoding {
        Encoding::BitVector { max_states, .. } => max_states,
        Encoding::Event | Encoding::Real => States::Two,
    };
    inputs.iter().map(largest).max().unwrap_or(States::Two)
}

/// The steps of a derived record less the dropped ones (document 01, Derived list).
///
/// # Panics
/// On inputs that Derive refuses before number 7.
pub fn derived_list(d: &Derivation, inputs: &[Input], bytes: &[u8], indices: &[u32]) -> Vec<Step> {
    let inputs = all_entries(inputs, bytes, indices).expect("9 is tried before 7");
    let pieces = d.used_pieces();
    let mut current = vec![0; inputs.len()];
    let mut list = vec![step(0, &pieces, &inputs, &current)];
    while let Some(index) = next_index(&inputs, &current) {
        for (input, entry) in inputs.iter().zip(&mut current) {
            if input.indices.get(*entry + 1) == Some(&index) {
                *entry += 1;
            }
        }
        let step = step(index, &pieces, &inputs, &current);
        let before = list.last().expect("the first step is kept");
        if (&step.string, step.states) != (&before.string, before.states) {
            list.push(step);
        }
    }
    list
}

/// The smallest index among the inputs' next entries.
fn next_index(inputs: &[Entries], current: &[usize]) -> Option<u32> {
    let next = inputs
        .iter()
        .zip(current)
        .filter_map(|(input, entry)| input.indices.get(entry + 1));
    next.min().copied()
}

/// What a step yields: the picked levels under the largest of the current own sets.
fn step(index: u32, pieces: &[Piece], inputs: &[Entries], current: &[usize]) -> Step {
    let shown: Vec<&(States, Vec<u8>)> = inputs
        .iter()
        .zip(current)
        .map(|(input, &entry)| &input.levels[entry])
        .collect();
    let codes: Vec<u8> = pieces
        .iter()
        .flat_map(|piece| picked(piece, &shown[piece.input as usize].1))
        .collect();
    Step {
        index,
        string: letters(&codes).expect("10 is tried before 7"),
        states: shown
            .iter()
            .map(|(own, _)| *own)
            .max()
            .expect("14 is tried before 7"),
    }
}

/// A derived list laid out (document 01, Derived list).
///
/// # Panics
/// On a string that is not of the width or has a foreign character.
pub fn derived_laid_out(
    width: u32,
    max_states: States,
    list: &[Step],
) -> (Description, Vec<u8>, Vec<u32>) {
    let entry = |step: &Step| {
        let codes = codes(&step.string).expect("no foreign character");
        (step.index, step.states, codes)
    };
    laid_out(width, max_states, list.iter().map(entry))
}
