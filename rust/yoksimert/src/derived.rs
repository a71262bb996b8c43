//! Bit vectors put together from wires of others, after wellen's src/signal/transform.rs.

use crate::memory::{doubled_length, room_for, zeros};
use crate::raw::{self, FlatDerivation, FlatInput, FlatInputs, FlatJoined, FlatMade};
use crate::refusal::accepted;
use crate::{FixedWidthEncoding, MAXIMUM, Refusal, Signal, States};
use std::iter::zip;

const MAX_INPUTS: usize = 8;
const MAX_PIECES: usize = 64;

/// Which wires of which signals make a derived bit vector. A signal is named by any number; [`transform_signal`] is given the records.
///
/// ```
/// use yoksimert::{DerivedBitVecSignal, SignalWriter, transform_signal};
///
/// # fn main() -> Result<(), yoksimert::Refusal> {
/// const FLAG: u32 = 1;
/// const TARIFF: u32 = 2;
/// let mut flag = SignalWriter::new(1)?;
/// flag.add_change(0, "0")?;
/// flag.add_change(3, "1")?;
/// let mut tariff = SignalWriter::new(4)?;
/// tariff.add_change(0, "00zz")?;
/// tariff.add_change(5, "0001")?;
///
/// // The flag, and right of it the two lower wires of the tariff.
/// let mut bus = DerivedBitVecSignal::new_slice(FLAG, 0, 0)?;
/// bus.concat_right(TARIFF, 1, 0)?;
/// assert_eq!((bus.width(), bus.inputs()), (3, &[FLAG, TARIFF][..]));
///
/// let bus = transform_signal(&bus, &[&flag.finish(), &tariff.finish()])?;
/// assert_eq!(bus.time_indices(), [0, 3, 5]);
/// assert_eq!(bus.get_entry(1)?.to_string(), "1zz");
/// # Ok(())
/// # }
/// ```
#[derive(Clone, PartialEq, Eq, Hash, Debug)]
pub struct DerivedBitVecSignal {
    derivation: FlatDerivation,
    names: [u32; MAX_INPUTS],
    pieces: [u64; MAX_PIECES],
}

impl DerivedBitVecSignal {
    /// Wires `msb` to `lsb` of a signal.
    ///
    /// # Errors
    /// [`Refusal::BadRange`] if `msb` is below `lsb` or above 4,095.
    pub fn new_slice(signal: u32, msb: u32, lsb: u32) -> Result<Self, Refusal> {
        let mut out = Self {
            derivation: FlatDerivation::default(),
            names: [0; MAX_INPUTS],
            pieces: [0; MAX_PIECES],
        };
        out.concat_left(signal, msb, lsb)?;
        Ok(out)
    }

    /// All wires of a signal.
    ///
    /// # Errors
    /// [`Refusal::WrongKind`] if it is no bit vector, [`Refusal::BadRange`] if its width is not 1 to 4,096.
    pub fn new_identity(signal: u32, encoding: FixedWidthEncoding) -> Result<Self, Refusal> {
        let FixedWidthEncoding::BitVector { width, .. } = encoding else {
            return Err(Refusal::WrongKind);
        };
        let msb = width.checked_sub(1).ok_or(Refusal::BadRange)?;
        Self::new_slice(signal, msb, 0)
    }

    /// Adds wires `msb` to `lsb` of a signal on the left, the most significant side. They merge with the piece there if they adjoin it.
    ///
    /// # Errors
    /// [`Refusal::BadRange`] if `msb` is below `lsb` or above 4,095; [`Refusal::DerivationFull`] for a ninth input, a 65th piece or a width
    /// above 4,096.
    pub fn concat_left(&mut self, signal: u32, msb: u32, lsb: u32) -> Result<(), Refusal> {
        let (names, pieces) = (&mut self.names, &mut self.pieces);
        let joined = raw::concat_left(self.derivation, names, pieces, signal, msb, lsb);
        self.join(joined)
    }

    /// Adds wires on the right, the least significant side.
    ///
    /// # Errors
    /// As [`DerivedBitVecSignal::concat_left`].
    pub fn concat_right(&mut self, signal: u32, msb: u32, lsb: u32) -> Result<(), Refusal> {
        let (names, pieces) = (&mut self.names, &mut self.pieces);
        let joined = raw::concat_right(self.derivation, names, pieces, signal, msb, lsb);
        self.join(joined)
    }

    /// Adds all wires of a signal of this width on the left; width 0 adds nothing.
    ///
    /// # Errors
    /// As [`DerivedBitVecSignal::concat_left`].
    pub fn concat_left_full(&mut self, signal: u32, width: u32) -> Result<(), Refusal> {
        let (names, pieces) = (&mut self.names, &mut self.pieces);
        let joined = raw::concat_left_full(self.derivation, names, pieces, signal, width);
        self.join(joined)
    }

    /// Adds all wires of a signal of this width on the right; width 0 adds nothing.
    ///
    /// # Errors
    /// As [`DerivedBitVecSignal::concat_left`].
    pub fn concat_right_full(&mut self, signal: u32, width: u32) -> Result<(), Refusal> {
        let (names, pieces) = (&mut self.names, &mut self.pieces);
        let joined = raw::concat_right_full(self.derivation, names, pieces, signal, width);
        self.join(joined)
    }

    fn join(&mut self, joined: FlatJoined) -> Result<(), Refusal> {
        accepted(joined.number)?;
        self.derivation = joined.next;
        Ok(())
    }

    /// The number of wires.
    #[must_use]
    pub fn width(&self) -> u32 {
        self.derivation.width
    }

    /// The names of the signals, in the order in which [`transform_signal`] takes their records.
    #[must_use]
    pub fn inputs(&self) -> &[u32] {
        let count = self.derivation.input_count as usize;
        self.names.get(..count).unwrap_or_default()
    }

    /// The pieces from the most significant on: the signal's name, msb and lsb.
    pub fn pieces(&self) -> impl Iterator<Item = (u32, u32, u32)> {
        let used = self
            .pieces
            .iter()
            .take(self.derivation.piece_count as usize);
        used.map(|packed| {
            let (input, width) = (packed >> 48, (packed >> 32) as u16);
            let lsb = *packed as u32;
            let msb = lsb.saturating_add(u32::from(width).saturating_sub(1));
            let name = self.names.get(input as usize);
            (name.copied().unwrap_or_default(), msb, lsb)
        })
    }
}

/// Derives a record: of each change of an input the picked levels, under the largest of the inputs' own sets at that time. The inputs are
/// the records of [`DerivedBitVecSignal::inputs`], in that order. A step that shows the levels and the set of the one before is dropped.
///
/// # Errors
/// Each is tried over all inputs before the next: [`Refusal::BadDerivation`] if there is not one record for each input, or one is no bit
/// vector or narrower than a piece; [`Refusal::LateInput`], [`Refusal::IndexFalls`], [`Refusal::BadMark`]; [`Refusal::BadCode`] at a
/// picked level; [`Refusal::NoRoom`] for more than 1,048,576 changes. [`Refusal::OutOfMemory`].
///
/// ```
/// use yoksimert::{DerivedBitVecSignal, Refusal, SignalWriter, transform_signal};
///
/// # fn main() -> Result<(), Refusal> {
/// let mut tariff = SignalWriter::new(4)?;
/// tariff.add_change(0, "0001")?;
/// tariff.add_change(5, "0101")?; // the two lower wires stay as they are
/// tariff.add_change(9, "0110")?;
/// let low = DerivedBitVecSignal::new_slice(0, 1, 0)?;
/// let low = transform_signal(&low, &[&tariff.finish()])?;
/// assert_eq!((low.time_indices(), low.bytes()), (&[0, 9][..], &[0b01, 0b10][..]));
///
/// let late = SignalWriter::new(2)?.finish();
/// let both = DerivedBitVecSignal::new_slice(0, 1, 0)?;
/// assert_eq!(transform_signal(&both, &[&late]), Err(Refusal::LateInput));
/// # Ok(())
/// # }
/// ```
pub fn transform_signal(
    transform: &DerivedBitVecSignal,
    inputs: &[&Signal],
) -> Result<Signal, Refusal> {
    let shared = Shared::new(inputs)?;
    // The first step, and one for each later entry of an input at most.
    let most = shared.indices.len().min(MAXIMUM);
    let mut room = shared.longest().min(most);
    loop {
        let derived = derive(transform, &shared, room);
        if room == most || !matches!(derived, Err(Refusal::NoRoom)) {
            return derived;
        }
        room = doubled_length(room, most);
    }
}

/// The derived record in vectors with room for so many entries.
fn derive(
    transform: &DerivedBitVecSignal,
    shared: &Shared,
    room: usize,
) -> Result<Signal, Refusal> {
    let DerivedBitVecSignal {
        derivation,
        names,
        pieces,
    } = transform;
    let entry = shared.derived_size(derivation.width);
    let (mut bytes, mut time_indices) = (zeros(room * entry)?, zeros(room)?);
    let FlatMade {
        number,
        description,
    } = raw::derive(
        *derivation,
        names,
        pieces,
        shared.inputs,
        &shared.bytes,
        &shared.indices,
        &mut bytes,
        &mut time_indices,
    );
    accepted(number)?;
    let derived = Signal {
        bytes,
        time_indices,
        ..Signal::empty(description)
    };
    Ok(derived.cut())
}

/// Records one behind the other in one byte slice and one index list, as Derive takes them.
struct Shared {
    inputs: FlatInputs,
    bytes: Vec<u8>,
    indices: Vec<u32>,
}

impl Shared {
    fn new(signals: &[&Signal]) -> Result<Self, Refusal> {
        if signals.len() > MAX_INPUTS {
            return Err(Refusal::BadDerivation);
        }
        let nothing = FixedWidthEncoding::Event.description(0);
        let mut shared = Self {
            inputs: FlatInputs {
                count: signals.len() as u32,
                inputs: [FlatInput {
                    description: nothing,
                    byte_start: 0,
                    index_start: 0,
                }; MAX_INPUTS],
            },
            bytes: room_for(signals.iter().map(|signal| signal.bytes().len()).sum())?,
            indices: room_for(signals.iter().map(|signal| signal.len()).sum())?,
        };
        for (input, signal) in zip(&mut shared.inputs.inputs, signals) {
            *input = FlatInput {
                description: signal.description,
                byte_start: shared.bytes.len(),
                index_start: shared.indices.len(),
            };
            shared.bytes.extend_from_slice(signal.bytes());
            shared.indices.extend_from_slice(signal.time_indices());
        }
        Ok(shared)
    }

    fn longest(&self) -> usize {
        let counts = self.inputs.inputs.iter().map(|i| i.description.count);
        counts.max().unwrap_or(0) as usize
    }

    /// The bytes of a derived entry of this width: its largest set is the largest of the inputs'.
    fn derived_size(&self, width: u32) -> usize {
        let sets = self.inputs.inputs.iter().map(|i| i.description.set);
        let max_states = States::of_number(sets.max().unwrap_or(0));
        let derived = FixedWidthEncoding::BitVector { max_states, width };
        derived.bytes_per_entry().unwrap_or_default()
    }
}
