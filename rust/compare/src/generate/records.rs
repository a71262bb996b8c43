//! Records over lent slices, sound and spoilt.

use super::Generator;
use crate::record::{LentRecord, SETS, cut, entry_size};
use oracle::{Change, Encoding, MAX_WIDTH, MAXIMUM};
use reference::Used;

impl Generator {
    /// Slices for a record, with filler around the used part and room behind it for a change, or just not.
    pub(crate) fn lend(&mut self, used: &Used) -> LentRecord {
        let mut out = self.lend_for_reading(used);
        let behind = self.byte_room(used);
        out.bytes.extend(self.random.bytes(behind));
        let behind = self.random.pick(&[0, 1, 1, 1, 2, 2, 3, 5, 1, 2, 1, 4]);
        out.indices.extend(self.random.indices(behind));
        out
    }

    /// Around the room that a change needs under each set: exact, one short, or ample.
    fn byte_room(&mut self, used: &Used) -> usize {
        let description = used.description;
        let Encoding::BitVector { width, .. } = description.encoding else {
            return self.random.pick(&[0, 7, 8, 9, 8, 8, 20]);
        };
        let max_states = self.random.pick(&SETS);
        let size = entry_size(Encoding::BitVector { width, max_states });
        let more = self.random.pick(&[0, 1, 1, 1]);
        let needed = (description.count as usize + more) * size;
        let exact = needed.saturating_sub(used.bytes.len());
        match self.random.below(6) {
            0 => exact.saturating_sub(1),
            1 => exact,
            _ => exact + size * 2 + width as usize / 2 * (description.count as usize + 1),
        }
    }

    /// Slices with filler around the used part and no regard for room.
    pub(crate) fn lend_for_reading(&mut self, used: &Used) -> LentRecord {
        let byte_start = self.random.below(4);
        let mut bytes = self.random.bytes(byte_start);
        bytes.extend(&used.bytes);
        let index_start = self.random.below(3);
        let mut indices = self.random.indices(index_start);
        indices.extend(&used.indices);
        let (behind_bytes, behind_indices) = (self.random.below(3), self.random.below(3));
        bytes.extend(self.random.bytes(behind_bytes));
        indices.extend(self.random.indices(behind_indices));
        LentRecord {
            description: used.description,
            bytes,
            byte_start,
            indices,
            index_start,
        }
    }

    /// A description or a start that does not go with the slices, most of the time.
    pub(crate) fn spoilt_description(&mut self, used: &Used) -> LentRecord {
        let mut out = self.lend_for_reading(used);
        let count = &mut out.description.count;
        match self.random.below(7) {
            0 => *count = self.random.pick(&[MAXIMUM, MAXIMUM + 1, u32::MAX]),
            1 => *count += self.random.from_to(1, 4) as u32,
            2 => {
                out.byte_start =
                    self.random
                        .pick(&[out.bytes.len(), out.bytes.len() + 1, usize::MAX])
            }
            3 => {
                out.index_start =
                    self.random
                        .pick(&[out.indices.len(), out.indices.len() + 1, usize::MAX])
            }
            4 => out
                .indices
                .truncate(out.index_start + (*count as usize).saturating_sub(1)),
            5 => out.bytes.truncate(out.bytes.len().saturating_sub(3)),
            _ => {
                let width = self.random.pick(&[0, 4_097, u32::MAX]);
                let max_states = self.random.pick(&SETS);
                out.description.encoding = Encoding::BitVector { width, max_states };
            }
        }
        out
    }

    /// A record of any bytes: a real now and then, else a bit vector under any set.
    pub(crate) fn any_bytes(&mut self) -> Used {
        let encoding = match self.random.below(12) {
            0 => Encoding::Real,
            _ => Encoding::BitVector {
                width: self.width(),
                max_states: self.random.pick(&SETS),
            },
        };
        let count = self.random.below(4);
        let mut bytes = self.random.bytes(count * entry_size(encoding));
        if self.random.once_in(2) {
            // Small fields: marks and codes that are bad less often.
            bytes.iter_mut().for_each(|byte| *byte &= 0x91);
        }
        let indices: Vec<u32> = (0..count).map(|_| self.random.below(6) as u32).collect();
        Used::of(encoding, &bytes, &indices)
    }

    pub(crate) fn with_flipped_bits(&mut self, used: &Used) -> Used {
        let mut out = used.clone();
        for _ in 0..self.random.from_to(1, 3) {
            if !out.bytes.is_empty() {
                let at = self.random.below(out.bytes.len());
                out.bytes[at] ^= 1 << self.random.below(8);
            }
        }
        out
    }
}

/// The record with one more change, over slices with room.
pub(crate) fn added(used: &Used, index: u32, change: &Change) -> Used {
    let mut bytes = used.bytes.clone();
    bytes.resize(used.bytes.len() * 5 + MAX_WIDTH as usize, 0);
    let mut indices = used.indices.clone();
    indices.push(0);
    let next = oracle::add_change(
        used.description,
        &mut bytes,
        0,
        &mut indices,
        0,
        index,
        change,
    );
    cut(next.expect("a valid change with room"), &bytes, &indices)
}
