//! Records over slices with filler before and behind the used part.

use oracle::{
    Change, Derivation, Description, Encoding, Entry, Input, MAX_WIDTH, Record, Refusal, Side,
    States, add_change, add_piece, derive, empty_derivation, read, text,
};

pub const FILLER: u8 = 0xA5;
pub const INDEX_FILLER: u32 = 0xA5A5_A5A5;
const BEFORE: usize = 3;

pub fn string(characters: &str) -> Change {
    Change::Text(characters.as_bytes().to_vec())
}

pub fn real(value: f64) -> Change {
    Change::Real(value.to_bits())
}

pub fn bit_vector(width: u32, max_states: States, count: u32) -> Description {
    Description::counting(Encoding::BitVector { width, max_states }, count)
}

/// The bytes of an entry: as many as hold the levels and, above set Two, a mark of two bits.
pub fn entry_size(encoding: Encoding) -> usize {
    match encoding {
        Encoding::Event => 0,
        Encoding::Real => 8,
        Encoding::BitVector { width, max_states } => {
            let mark = if max_states == States::Two { 0 } else { 2 };
            (width * max_states.bits() + mark).div_ceil(8) as usize
        }
    }
}

/// A description with slices of its own.
#[derive(Clone, Debug)]
pub struct Recorder {
    pub description: Description,
    pub bytes: Vec<u8>,
    pub byte_start: usize,
    pub indices: Vec<u32>,
    pub index_start: usize,
}

impl Recorder {
    /// An empty record with room for so many bytes and entries.
    pub fn empty(description: Description, bytes: usize, entries: usize) -> Recorder {
        Recorder::with(description, &[], &[]).with_room(bytes, entries)
    }

    /// A record with these used parts and no more room.
    pub fn with(description: Description, bytes: &[u8], indices: &[u32]) -> Recorder {
        Recorder {
            description,
            bytes: [&[FILLER; BEFORE], bytes].concat(),
            byte_start: BEFORE,
            indices: [&[INDEX_FILLER; BEFORE], indices].concat(),
            index_start: BEFORE,
        }
    }

    /// The same with so many more bytes and entries lent behind.
    pub fn with_room(mut self, bytes: usize, entries: usize) -> Recorder {
        self.bytes.extend(vec![FILLER; bytes]);
        self.indices.extend(vec![INDEX_FILLER; entries]);
        self
    }

    /// Adds a change; what lies outside the new used part, and after a refusal everything, stays.
    pub fn add(&mut self, index: u32, change: &Change) -> Result<(), Refusal> {
        let before = self.clone();
        let answer = add_change(
            self.description,
            &mut self.bytes,
            self.byte_start,
            &mut self.indices,
            self.index_start,
            index,
            change,
        );
        let Ok(next) = answer else {
            assert_eq!(self.bytes, before.bytes);
            assert_eq!(self.indices, before.indices);
            return answer.map(|_| ());
        };
        self.description = next;
        self.assert_outside_unaltered(&before);
        Ok(())
    }

    fn assert_outside_unaltered(&self, before: &Recorder) {
        let byte_end = self.byte_start + self.used_bytes().len();
        let index_end = self.index_start + self.used_indices().len();
        assert_eq!(
            self.bytes[..self.byte_start],
            before.bytes[..self.byte_start]
        );
        assert_eq!(self.bytes[byte_end..], before.bytes[byte_end..]);
        assert_eq!(
            self.indices[..self.index_start],
            before.indices[..self.index_start]
        );
        assert_eq!(self.indices[index_end..], before.indices[index_end..]);
    }

    /// Adds strings at the indices 0, 1, 2 and so on, all accepted.
    pub fn run(mut self, strings: &[&str]) -> Recorder {
        for (index, characters) in strings.iter().enumerate() {
            assert_eq!(self.add(index as u32, &string(characters)), Ok(()));
        }
        self
    }

    pub fn used_bytes(&self) -> &[u8] {
        let size = entry_size(self.description.encoding);
        &self.bytes[self.byte_start..][..self.description.count as usize * size]
    }

    pub fn used_indices(&self) -> &[u32] {
        &self.indices[self.index_start..][..self.description.count as usize]
    }

    pub fn max_states(&self) -> States {
        match self.description.encoding {
            Encoding::BitVector { max_states, .. } => max_states,
            Encoding::Event | Encoding::Real => States::Two,
        }
    }

    pub fn read(&self, entry: u32) -> Result<Entry, Refusal> {
        read(self.description, &self.bytes, self.byte_start, entry)
    }

    /// The bytes of the part that Read gives.
    pub fn part(&self, entry: u32) -> &[u8] {
        &self.bytes[self.read(entry).unwrap().part]
    }

    /// The text of an entry; what lies past it, and after a refusal everything, stays.
    pub fn text(&self, entry: u32) -> Result<String, Refusal> {
        let width = match self.description.encoding {
            Encoding::BitVector { width, .. } => width.min(MAX_WIDTH) as usize,
            Encoding::Event | Encoding::Real => 0,
        };
        let mut out = vec![FILLER; width + 2];
        let answer = text(
            self.description,
            &self.bytes,
            self.byte_start,
            entry,
            &mut out,
        );
        let written = if answer.is_ok() { width } else { 0 };
        assert!(out[written..].iter().all(|&byte| byte == FILLER));
        answer.map(|()| String::from_utf8(out[..width].to_vec()).unwrap())
    }

    pub fn record(&self) -> Record<'_> {
        Record {
            description: self.description,
            bytes: &self.bytes,
            byte_start: self.byte_start,
            indices: &self.indices,
            index_start: self.index_start,
        }
    }
}

/// Pieces (name, msb, lsb), the highest first.
pub fn derivation(pieces: &[(u32, u32, u32)]) -> Derivation {
    let add = |d: Derivation, &(name, msb, lsb): &(u32, u32, u32)| {
        add_piece(&d, Side::Right, name, msb, lsb).unwrap()
    };
    pieces.iter().fold(empty_derivation(), add)
}

/// Records one behind the other in two shared slices.
pub fn shared(records: &[&Recorder]) -> (Vec<Input>, Vec<u8>, Vec<u32>) {
    let (mut inputs, mut bytes, mut indices) = (Vec::new(), Vec::new(), Vec::new());
    for record in records {
        inputs.push(Input {
            description: record.description,
            byte_start: bytes.len() + record.byte_start,
            index_start: indices.len() + record.index_start,
        });
        bytes.extend(&record.bytes);
        indices.extend(&record.indices);
    }
    (inputs, bytes, indices)
}

/// Derives into outputs of so many bytes and entries; what lies past the derived record, and after
/// a refusal everything, stays.
pub fn derive_into(
    d: &Derivation,
    records: &[&Recorder],
    bytes: usize,
    entries: usize,
) -> Result<Recorder, Refusal> {
    let (inputs, in_bytes, in_indices) = shared(records);
    let mut out_bytes = vec![FILLER; bytes];
    let mut out_indices = vec![INDEX_FILLER; entries];
    let answer = derive(
        d,
        &inputs,
        &in_bytes,
        &in_indices,
        &mut out_bytes,
        &mut out_indices,
    );
    let (byte_end, index_end) = answer.map_or((0, 0), |description| {
        let count = description.count as usize;
        (count * entry_size(description.encoding), count)
    });
    assert!(out_bytes[byte_end..].iter().all(|&byte| byte == FILLER));
    assert!(
        out_indices[index_end..]
            .iter()
            .all(|&index| index == INDEX_FILLER)
    );
    Ok(Recorder {
        description: answer?,
        bytes: out_bytes,
        byte_start: 0,
        indices: out_indices,
        index_start: 0,
    })
}
