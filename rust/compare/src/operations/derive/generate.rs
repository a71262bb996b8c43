//! Derivations, and the records that are derived by them.

use super::super::add_piece::Named;
use super::Derive;
use crate::generate::{Generator, Receiver, added};
use crate::record::{cut, entry_size};
use oracle::{Change, Derivation, Description, Encoding, Input, MAX_WIDTH, States};
use reference::Used;

impl Generator {
    /// A derivation piece by piece, records for its inputs, and derived records of them.
    pub(crate) fn derivation(&mut self, to: &mut dyn Receiver) {
        let named = self.names();
        let derivation = self.pieces(&named, to);
        let Some(inputs) = named_inputs(&derivation, &named) else {
            return;
        };
        let records: Vec<Used> = inputs.iter().map(|input| self.input(input.width)).collect();
        let Some(derived) = self.derive_variously(&derivation, &records, to) else {
            return;
        };
        self.look_at(&derived, to);
        self.compare_with_rewritten(&derived, to);
        if self.random.once_in(2) {
            self.derive_again(&derived, &records[0], to);
        }
    }

    /// A record that starts at index 0, with equal indices in it.
    fn input(&mut self, width: u32) -> Used {
        let description = oracle::fresh(width).expect("the generator's widths stand");
        let mut used = Used::empty(description);
        let mut index = 0;
        let mut last = Vec::new();
        for _ in 0..self.random.from_to(1, 6) {
            let string = self.string(width, Some(&last));
            used = added(&used, index, &Change::Text(string.clone()));
            last = string;
            index += self.random.pick(&[0, 0, 1, 1, 2]);
        }
        used
    }

    /// Derives with ample room, with exact room, with one place too few, and from spoilt inputs. The derived
    /// record, if the derivation and the records were sound.
    fn derive_variously(
        &mut self,
        derivation: &Derivation,
        records: &[Used],
        to: &mut dyn Receiver,
    ) -> Option<Used> {
        let call = self.derive_call(derivation, records);
        for _ in 0..2 {
            let spoilt = self.spoilt_call(&call, records);
            to.call(spoilt);
        }
        let outcome = to.call(call.clone()).outcome;
        let derived = cut(outcome.answer.ok()?, &outcome.bytes, &outcome.indices);
        let (fewer_bytes, fewer_indices) = self.random.pick(&[(0, 0), (1, 0), (0, 1)]);
        let mut tight = call;
        let length = derived.bytes.len().saturating_sub(fewer_bytes);
        tight.out_bytes.truncate(length);
        tight
            .out_indices
            .truncate(derived.indices.len() - fewer_indices);
        to.call(tight);
        Some(derived)
    }

    /// The records in shared slices, with filler between them. Equal records may lie in one place.
    fn derive_call(&mut self, derivation: &Derivation, records: &[Used]) -> Derive {
        let (mut bytes, mut indices, mut inputs) = (Vec::new(), Vec::new(), Vec::new());
        for used in records {
            let lent = self.lend_for_reading(used);
            inputs.push(Input {
                description: used.description,
                byte_start: bytes.len() + lent.byte_start,
                index_start: indices.len() + lent.index_start,
            });
            bytes.extend(lent.bytes);
            indices.extend(lent.indices);
        }
        let like = |a: &Used, b: &Used| a.description.encoding == b.description.encoding;
        if inputs.len() > 1 && like(&records[0], &records[1]) && self.random.once_in(3) {
            inputs[1] = inputs[0];
        }
        let steps: usize = records.iter().map(|used| used.indices.len()).sum();
        let widest = entry_size(Encoding::BitVector {
            width: derivation.width.clamp(1, MAX_WIDTH),
            max_states: States::Nine,
        });
        let (more_bytes, more_indices) = (self.random.below(3), self.random.below(3));
        Derive {
            derivation: *derivation,
            inputs,
            bytes,
            indices,
            out_bytes: self.random.bytes(steps * (widest + 1) + more_bytes),
            out_indices: self.random.indices(steps + more_indices),
        }
    }

    /// The call with one input or its bytes or indices spoilt, or with other inputs, or another derivation.
    fn spoilt_call(&mut self, call: &Derive, records: &[Used]) -> Derive {
        let mut out = call.clone();
        if records.is_empty() {
            return out;
        }
        let at = self.random.below(records.len());
        match self.random.below(14) {
            0..=6 => self.spoil_slices(&mut out, at, &records[at]),
            7 => out.inputs[at].description.count = 0,
            8 => out.inputs[at].description.encoding = Encoding::Event,
            9 => out.inputs[at].byte_start = out.bytes.len(),
            10 => out.inputs.push(call.inputs[at]),
            11 => out.inputs.truncate(records.len() - 1),
            12 => {
                let (width, max_states) = (1, States::Two);
                let encoding = Encoding::BitVector { width, max_states };
                out.inputs[at].description = Description::counting(encoding, 1);
            }
            _ => out.derivation = self.spoilt_derivation(&call.derivation),
        }
        out
    }

    /// Another first index, another index, another mark, or levels with more bits set.
    fn spoil_slices(&mut self, call: &mut Derive, at: usize, record: &Used) {
        let input = call.inputs[at];
        let entry = self.random.below(record.indices.len());
        let entry_start = entry * entry_size(input.description.encoding);
        match self.random.below(7) {
            0 => call.indices[input.index_start] = 1,
            1 | 2 => call.indices[input.index_start + entry] ^= self.random.pick(&[1, 2, 4]),
            3 | 4 => {
                call.bytes[input.byte_start + entry_start] ^= self.random.pick(&[0x80, 0xc0, 0x40]);
            }
            _ => {
                let byte = self.random.below(record.bytes.len());
                call.bytes[input.byte_start + byte] |= self.random.byte();
            }
        }
    }

    /// A derived record as an input, beside a written one.
    fn derive_again(&mut self, derived: &Used, written: &Used, to: &mut dyn Receiver) {
        let mut named = Vec::new();
        for (name, used) in [(3, derived), (5, written)] {
            if let Encoding::BitVector { width, .. } = used.description.encoding {
                named.push(Named { name, width });
            }
        }
        let derivation = self.pieces(&named, to);
        let names = &derivation.inputs[..derivation.input_count as usize];
        let records: Vec<Used> = names
            .iter()
            .map(|&name| {
                if name == 3 {
                    derived.clone()
                } else {
                    written.clone()
                }
            })
            .collect();
        self.derive_variously(&derivation, &records, to);
    }
}

/// The records' widths in the derivation's order; none if there is no piece.
fn named_inputs(derivation: &Derivation, named: &[Named]) -> Option<Vec<Named>> {
    let names = &derivation.inputs[..derivation.input_count as usize];
    let find = |name: &u32| named.iter().find(|named| named.name == *name).copied();
    names.iter().map(find).collect()
}
