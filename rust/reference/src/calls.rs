//! The wrappers: the oracle's types in and out, and nothing else.

use crate::panics::refusing;
use crate::stand_ins::{FstSignalHandle, FstSignalValue};
use crate::wellen::fst::{SignalWriter, expand_entries, get_bytes_per_entry, get_len_and_meta};
use crate::wellen::signal::transform::{DerivedBitVecSignal, transform_bv_signal};
use crate::wellen::signal::{ChangeData, FixedWidthEncoding, SignalValueRef};
use crate::wellen::wavemem::write_n_state_from_ascii;
use crate::wellen::{Signal, SignalEncoding, SignalRef, States as WellenStates};
use crate::{Pieces, Refused, Used, Value};
use oracle::{Change, Derivation, Description, Encoding, Offset, Side, States};

/// The id of every record here: wellen compares ids too, and document 01 leaves them out.
const ID: SignalRef = SignalRef::MAX;

fn to_wellen(states: States) -> WellenStates {
    match states {
        States::Two => WellenStates::Two,
        States::Four => WellenStates::Four,
        States::Nine => WellenStates::Nine,
    }
}

fn from_wellen(states: WellenStates) -> States {
    match states {
        WellenStates::Two => States::Two,
        WellenStates::Four => States::Four,
        WellenStates::Nine => States::Nine,
    }
}

/// wellen's `SignalWriter`, for long runs.
pub struct Writer {
    writer: SignalWriter,
    encoding: SignalEncoding,
    handle: FstSignalHandle,
}

impl Writer {
    /// A writer of bit vectors or, at width 0, of events.
    pub fn fresh(width: u32) -> Self {
        Self::new(SignalEncoding::BitVector(width))
    }

    pub fn fresh_real() -> Self {
        Self::new(SignalEncoding::Real)
    }

    fn new(encoding: SignalEncoding) -> Self {
        Self {
            writer: SignalWriter::new(ID, encoding),
            encoding,
            handle: FstSignalHandle::from_index(ID.index()),
        }
    }

    /// A writer that goes on from a used part, made by a writer or not.
    pub fn resume(description: Description, bytes: &[u8], indices: &[u32]) -> Self {
        let (mut out, states) = match description.encoding {
            Encoding::Event => (Self::fresh(0), States::Two),
            Encoding::Real => (Self::fresh_real(), States::Two),
            Encoding::BitVector { width, max_states } => (Self::fresh(width), max_states),
        };
        out.writer.data_bytes = bytes.to_vec();
        out.writer.time_indices = indices.to_vec();
        out.writer.max_states = to_wellen(states);
        out
    }

    /// wellen tests a change before it stores anything, so a refusal leaves the writer as it was.
    pub fn add_change(&mut self, index: u32, change: &Change) -> Result<(), Refused> {
        let value = match change {
            Change::Text(string) => FstSignalValue::String(string),
            Change::Real(bits) => FstSignalValue::Real(f64::from_bits(*bits)),
        };
        refusing(|| self.writer.add_change(index, &self.handle, &value))
    }

    /// A string's change with nothing between the caller and wellen, for benchmarks: a panic is not caught.
    pub fn add_string_unguarded(&mut self, index: u32, string: &[u8]) {
        let value = FstSignalValue::String(string);
        self.writer.add_change(index, &self.handle, &value);
    }

    pub fn description(&self) -> Description {
        let encoding = match self.encoding {
            SignalEncoding::BitVector(0) => Encoding::Event,
            SignalEncoding::BitVector(width) => Encoding::BitVector {
                width,
                max_states: from_wellen(self.writer.max_states),
            },
            SignalEncoding::Real => Encoding::Real,
            SignalEncoding::String => unreachable!("no writer of strings is made"),
        };
        Description::of(encoding, self.indices())
    }

    pub fn bytes(&self) -> &[u8] {
        &self.writer.data_bytes
    }

    pub fn indices(&self) -> &[u32] {
        &self.writer.time_indices
    }

    /// The record that wellen makes of a finished writer.
    pub fn finish(self) -> Result<Record, Refused> {
        refusing(|| Record(self.writer.finish()))
    }
}

/// One change to a used part.
pub fn add_change(
    description: Description,
    bytes: &[u8],
    indices: &[u32],
    index: u32,
    change: &Change,
) -> Result<Used, Refused> {
    let mut writer = Writer::resume(description, bytes, indices);
    writer.add_change(index, change)?;
    Ok(Used {
        description: writer.description(),
        bytes: writer.writer.data_bytes,
        indices: writer.writer.time_indices,
    })
}

/// wellen's `Signal`: a record to read from.
pub struct Record(Signal);

impl Record {
    /// A record of any used part, made by a writer or not.
    pub fn new(description: Description, bytes: &[u8], indices: &[u32]) -> Result<Self, Refused> {
        let (encoding, size) = match description.encoding {
            Encoding::Event => (FixedWidthEncoding::Event, 0),
            Encoding::Real => (FixedWidthEncoding::Real, 8),
            Encoding::BitVector { width, max_states } => bit_vector(width, max_states),
        };
        refusing(|| {
            Self(Signal::new_fixed_len(
                ID,
                indices.to_vec(),
                encoding,
                size,
                bytes.to_vec(),
            ))
        })
    }

    /// `None` for a real or an event.
    pub fn text(&self, entry: u32) -> Result<Option<String>, Refused> {
        refusing(|| self.value(entry).to_bit_string())
    }

    /// wellen's `u64` of a bit vector; none where it is an error, and for a real or an event.
    pub fn unsigned(&self, entry: u32) -> Result<Option<u64>, Refused> {
        refusing(|| self.unsigned_unguarded(entry))
    }

    pub fn read(&self, entry: u32) -> Result<Value, Refused> {
        refusing(|| match self.value(entry) {
            SignalValueRef::Event => Value::Event,
            SignalValueRef::Real(value) => Value::Real(value.to_bits()),
            SignalValueRef::BitVec(vector) => {
                let start = self.distance(vector.data);
                Value::BitVector {
                    states: from_wellen(vector.states()),
                    part: start..start + vector.data.len(),
                }
            }
            SignalValueRef::String(_) => unreachable!("no record of strings is made"),
        })
    }

    pub fn equals(&self, other: &Self) -> Result<bool, Refused> {
        refusing(|| self.0 == other.0)
    }

    pub fn look_up(&self, sought: u32) -> Result<Option<Offset>, Refused> {
        refusing(|| self.look_up_unguarded(sought))
    }

    /// An entry read with nothing between the caller and wellen, for benchmarks: a panic is not caught. The number of level bytes.
    pub fn read_unguarded(&self, entry: u32) -> usize {
        match self.value(entry) {
            SignalValueRef::BitVec(vector) => vector.data.len(),
            _ => 0,
        }
    }

    /// The text of an entry in the same way.
    pub fn text_unguarded(&self, entry: u32) -> Option<String> {
        self.value(entry).to_bit_string()
    }

    /// Every change with its text, by wellen's own iterator, in the same way.
    pub fn each_text_unguarded(&self, mut each: impl FnMut(u32, Option<String>)) {
        for (index, value) in self.0.iter_changes() {
            each(index, value.to_bit_string());
        }
    }

    /// The number of an entry in the same way.
    pub fn unsigned_unguarded(&self, entry: u32) -> Option<u64> {
        match self.value(entry) {
            SignalValueRef::BitVec(vector) => vector.try_into().ok(),
            _ => None,
        }
    }

    /// A look-up in the same way.
    pub fn look_up_unguarded(&self, sought: u32) -> Option<Offset> {
        self.0.get_offset(sought).map(|offset| Offset {
            start: offset.start,
            elements: u32::from(offset.elements),
            time_match: offset.time_match,
            next_index: offset.next_index.map(|next| next.get()),
        })
    }

    fn value(&self, entry: u32) -> SignalValueRef<'_> {
        self.0.data().get_value_at(entry as usize)
    }
}

impl Record {
    fn bytes(&self) -> &[u8] {
        match &self.0.data().0 {
            ChangeData::FixedLength { bytes, .. } => bytes,
            ChangeData::VariableLength(_) => unreachable!("no record of strings is made"),
        }
    }

    /// How far behind the first used byte `part` starts.
    fn distance(&self, part: &[u8]) -> usize {
        part.as_ptr().addr() - self.bytes().as_ptr().addr()
    }
}

fn bit_vector(width: u32, max_states: States) -> (FixedWidthEncoding, u32) {
    let max_states = to_wellen(max_states);
    let (len, meta_byte) = get_len_and_meta(max_states, width);
    let encoding = FixedWidthEncoding::BitVector {
        max_states,
        width,
        meta_byte,
    };
    (encoding, get_bytes_per_entry(len, meta_byte) as u32)
}

/// `concat_left` or `concat_right`. wellen has no name 0: a derivation that uses it is refused.
pub fn add_piece(
    derivation: &Derivation,
    side: Side,
    name: u32,
    msb: u32,
    lsb: u32,
) -> Result<Pieces, Refused> {
    let names = used(&derivation.inputs, derivation.input_count)?;
    let inputs = names.iter().map(|&name| signal_ref(name));
    let mut signal = DerivedBitVecSignal {
        width: derivation.width,
        inputs: inputs.collect::<Result<_, _>>()?,
        bits: used(&derivation.pieces, derivation.piece_count)?.to_vec(),
    };
    let name = signal_ref(name)?;
    refusing(|| match side {
        Side::Left => signal.concat_left(name, msb, lsb),
        Side::Right => signal.concat_right(name, msb, lsb),
    })?;
    let names = signal.inputs.iter();
    Ok(Pieces {
        width: signal.width,
        inputs: names.map(|input| input.index() as u32 + 1).collect(),
        pieces: signal.bits,
    })
}

fn signal_ref(name: u32) -> Result<SignalRef, Refused> {
    let index = name.checked_sub(1).ok_or(Refused)?;
    SignalRef::from_index(index as usize).ok_or(Refused)
}

fn used<T>(places: &[T], count: u32) -> Result<&[T], Refused> {
    places.get(..count as usize).ok_or(Refused)
}

/// `transform_bv_signal`, which looks at no name.
pub fn derive(derivation: &Derivation, inputs: &[Record]) -> Result<Used, Refused> {
    let signal = DerivedBitVecSignal {
        width: derivation.width,
        inputs: Vec::new(),
        bits: used(&derivation.pieces, derivation.piece_count)?.to_vec(),
    };
    let inputs: Vec<&Signal> = inputs.iter().map(|input| &input.0).collect();
    let out = refusing(|| Record(transform_bv_signal(&signal, derivation.width, &inputs)))?;
    let encoding = Encoding::BitVector {
        width: derivation.width,
        max_states: from_wellen(out.0.max_states().ok_or(Refused)?),
    };
    Ok(Used::of(encoding, out.bytes(), out.0.time_indices()))
}

/// `transform_bv_signal` by itself, for benchmarks: how many entries it makes. A panic is not caught.
pub fn derive_unguarded(derivation: &Derivation, inputs: &[Record]) -> usize {
    let signal = DerivedBitVecSignal {
        width: derivation.width,
        inputs: Vec::new(),
        bits: derivation.pieces[..derivation.piece_count as usize].to_vec(),
    };
    let inputs: Vec<&Signal> = inputs.iter().map(|input| &input.0).collect();
    let out = transform_bv_signal(&signal, derivation.width, &inputs);
    out.time_indices().len()
}

/// wellen's packer by itself, for benchmarks: a panic is not caught.
pub fn pack(states: States, value: &[u8], out: &mut Vec<u8>) {
    write_n_state_from_ascii(to_wellen(states), value, |byte| out.push(byte), None);
}

/// The least set of a string, `None` with a foreign character, for benchmarks.
pub fn least(value: &[u8]) -> Option<States> {
    WellenStates::from_ascii(value).map(from_wellen)
}

/// wellen's widening by itself, for benchmarks: a panic is not caught.
pub fn expand(from: States, to: States, old: &[u8], entries: usize, width: u32) -> Vec<u8> {
    expand_entries(to_wellen(from), to_wellen(to), old, entries, width)
}
