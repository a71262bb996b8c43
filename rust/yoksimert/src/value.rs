//! What an entry holds, after wellen's src/signal/value.rs.

use crate::encoding::MAX_WIDTH;
use crate::raw::{self, FlatDescription, FlatRecord};
use crate::refusal::accepted;
use crate::{Refusal, Signal};
use std::fmt::{self, Debug, Display, Formatter};

/// A text of up to so many characters goes by way of the stack.
const SHORT: usize = 64;

/// How many values a level may have.
#[derive(Clone, Copy, PartialEq, Eq, PartialOrd, Ord, Hash, Debug, Default)]
pub enum States {
    /// `0` and `1`
    #[default]
    Two,
    /// Also `x` and `z` (IEEE 1364)
    Four,
    /// Also `h`, `u`, `w`, `l` and `-` (IEEE 1164)
    Nine,
}

impl States {
    /// The mark of the set in an entry: 0, 1 or 2.
    #[must_use]
    pub fn mark(self) -> u8 {
        self as u8
    }

    /// The bits of a level.
    #[inline]
    pub(crate) fn bits(self) -> usize {
        1 << self.mark()
    }

    /// The archive gives no number above 2.
    #[inline]
    pub(crate) fn of_number(number: u32) -> Self {
        match number {
            0 => Self::Two,
            1 => Self::Four,
            _ => Self::Nine,
        }
    }
}

/// The set of a mark.
///
/// ```
/// use yoksimert::{Refusal, States};
///
/// assert_eq!(States::try_from(2), Ok(States::Nine));
/// assert_eq!(States::try_from(3), Err(Refusal::BadMark));
/// ```
impl TryFrom<u8> for States {
    type Error = Refusal;

    fn try_from(mark: u8) -> Result<Self, Refusal> {
        let sets = [Self::Two, Self::Four, Self::Nine];
        sets.get(usize::from(mark)).copied().ok_or(Refusal::BadMark)
    }
}

/// The value of a change, where it stands in its record.
///
/// Two values are equal if they are of the same kind and have equal levels, whatever their largest sets; reals are compared by `==`.
///
/// ```
/// use yoksimert::{SignalValueRef, SignalWriter, States};
///
/// # fn main() -> Result<(), yoksimert::Refusal> {
/// let mut tariff = SignalWriter::new(4)?;
/// tariff.add_change(0, "0010")?;
/// tariff.add_change(1, "00X0")?;
/// let tariff = tariff.finish();
/// let (number, unknown) = (tariff.get_entry(0)?, tariff.get_entry(1)?);
/// assert_eq!((number.states(), unknown.states()), (Some(States::Two), Some(States::Four)));
/// assert_eq!((u64::try_from(number), u64::try_from(unknown)), (Ok(2), Err(())));
/// assert_eq!((number.to_string(), unknown.to_string()), ("0010".into(), "00x0".into()));
///
/// let mut fare = SignalWriter::new_real();
/// fare.add_change(0, 3.2)?;
/// assert_eq!(fare.finish().get_entry(0)?, SignalValueRef::Real(3.2));
/// # Ok(())
/// # }
/// ```
#[derive(Clone, Copy, PartialEq, Debug)]
pub enum SignalValueRef<'a> {
    /// That the event took place.
    Event,
    /// Levels, the first wire's highest.
    BitVec(BitVecRef<'a>),
    /// A real.
    Real(f64),
}

impl<'a> SignalValueRef<'a> {
    /// Whether this is an event's.
    #[must_use]
    pub fn is_event(&self) -> bool {
        matches!(self, Self::Event)
    }

    /// The levels, unless it is a real or an event.
    #[must_use]
    #[inline]
    pub fn as_bit_vec(&self) -> Option<BitVecRef<'a>> {
        match self {
            Self::BitVec(levels) => Some(*levels),
            _ => None,
        }
    }

    /// The number of levels; none for a real.
    #[must_use]
    pub fn width(&self) -> Option<u32> {
        match self {
            Self::Event => Some(0),
            Self::BitVec(levels) => Some(levels.width()),
            Self::Real(_) => None,
        }
    }

    /// The entry's own set: in a writer's record the least that holds its string, in a derived one the largest of its inputs' own sets.
    #[must_use]
    pub fn states(&self) -> Option<States> {
        self.as_bit_vec().map(|levels| levels.states())
    }

    /// One character for each level; none for a real or an event, or where [`BitVecRef::bit_string`] is refused.
    #[must_use]
    #[inline]
    pub fn to_bit_string(&self) -> Option<String> {
        self.as_bit_vec()?.bit_string().ok()
    }
}

/// The levels' characters, the real's number, or `Event`.
impl Display for SignalValueRef<'_> {
    fn fmt(&self, f: &mut Formatter<'_>) -> fmt::Result {
        match self {
            Self::Event => f.pad("Event"),
            Self::BitVec(levels) => Display::fmt(levels, f),
            Self::Real(value) => Display::fmt(value, f),
        }
    }
}

/// The levels of an entry.
///
/// ```
/// use yoksimert::SignalWriter;
///
/// # fn main() -> Result<(), yoksimert::Refusal> {
/// let mut flag = SignalWriter::new(9)?;
/// flag.add_change(0, "100000101")?;
/// let flag = flag.finish();
/// let levels = flag.get_entry(0)?.as_bit_vec().expect("a bit vector");
/// assert_eq!(levels.be_bytes(), Some(&[0x01, 0x05][..]));
/// let mut text = [b' '; 10];
/// levels.write_bit_string(&mut text)?;
/// assert_eq!(&text, b"100000101 ");
/// # Ok(())
/// # }
/// ```
#[derive(Clone, Copy)]
pub struct BitVecRef<'a> {
    pub(crate) signal: &'a Signal,
    /// Of an entry that Read accepts.
    pub(crate) entry: u32,
}

impl<'a> BitVecRef<'a> {
    /// The number of levels.
    #[must_use]
    #[inline]
    pub fn width(&self) -> u32 {
        self.signal.description.width
    }

    /// The entry's own set.
    #[must_use]
    #[inline]
    pub fn states(&self) -> States {
        self.read().0
    }

    /// That part of the record's bytes which holds the levels. A mark that shares its first byte is included.
    #[must_use]
    #[inline]
    pub fn bytes(&self) -> &'a [u8] {
        self.read().1
    }

    /// The own set, and the part that holds the levels.
    #[inline]
    pub(crate) fn read(&self) -> (States, &'a [u8]) {
        let Signal {
            description, bytes, ..
        } = self.signal;
        let answer = raw::read(*description, bytes, 0, self.entry);
        let part = bytes.get(answer.start..).unwrap_or_default();
        let part = part.get(..answer.length).unwrap_or_default();
        (States::of_number(answer.set), part)
    }

    /// The levels as a big-endian number, if the own set is Two. The bytes are the record's own: above the first level they may have
    /// bits that no [`SignalWriter`](crate::SignalWriter) stores, and that [`bit_string`](Self::bit_string) and `u64` leave out.
    #[must_use]
    pub fn be_bytes(&self) -> Option<&'a [u8]> {
        let (states, bytes) = self.read();
        (states == States::Two).then_some(bytes)
    }

    /// One small letter or digit for each level.
    ///
    /// # Errors
    /// [`Refusal::BadCode`], which no record of a [`SignalWriter`](crate::SignalWriter) gives.
    #[inline]
    pub fn bit_string(&self) -> Result<String, Refusal> {
        // A copy takes less time than memory that comes zeroed.
        if self.width() as usize <= SHORT {
            return self.bit_str(&mut [0; SHORT]).map(str::to_owned);
        }
        let mut text = vec![0; self.width() as usize];
        self.write_bit_string(&mut text)?;
        String::from_utf8(text).map_err(|_| Refusal::UnknownAnswer)
    }

    /// The same in the first bytes of `buffer`, without an allocation.
    ///
    /// ```
    /// use yoksimert::SignalWriter;
    ///
    /// # fn main() -> Result<(), yoksimert::Refusal> {
    /// let mut tariff = SignalWriter::new(4)?;
    /// tariff.add_change(0, "10XZ")?;
    /// let tariff = tariff.finish();
    /// let levels = tariff.get_entry(0)?.as_bit_vec().expect("a bit vector");
    /// assert_eq!(levels.bit_str(&mut [0; 8])?, "10xz");
    /// # Ok(())
    /// # }
    /// ```
    ///
    /// # Errors
    /// As [`BitVecRef::write_bit_string`].
    #[inline]
    pub fn bit_str<'b>(&self, buffer: &'b mut [u8]) -> Result<&'b str, Refusal> {
        self.write_bit_string(buffer)?;
        let text = buffer.get(..self.width() as usize).unwrap_or_default();
        std::str::from_utf8(text).map_err(|_| Refusal::UnknownAnswer)
    }

    /// Writes the characters into the first bytes of `out`, and leaves the rest as it is.
    ///
    /// # Errors
    /// [`Refusal::BadCode`], which no record of a [`SignalWriter`](crate::SignalWriter) gives; [`Refusal::NoRoom`] if `out` is shorter
    /// than the width.
    #[inline]
    pub fn write_bit_string(&self, out: &mut [u8]) -> Result<(), Refusal> {
        let Signal {
            description, bytes, ..
        } = self.signal;
        accepted(raw::text(*description, bytes, 0, self.entry, out))
    }

    #[inline]
    pub(crate) fn new(signal: &'a Signal, entry: u32) -> Self {
        Self { signal, entry }
    }

    /// Whether a bit is set in front of the levels that isn't the mark's.
    pub(crate) fn has_spare_bits(&self) -> bool {
        let (signal, (states, _)) = (self.signal, self.read());
        let (size, entry) = (signal.entry_size(), self.entry as usize);
        let bytes = signal.bytes.get(entry * size..(entry + 1) * size);
        let front = (size * 8).saturating_sub(self.width() as usize * states.bits());
        let marked = signal.max_states() != Some(States::Two);
        let mut bytes = bytes.unwrap_or_default().iter().enumerate();
        bytes.any(|(at, byte)| {
            let in_front = front.saturating_sub(at * 8).min(8);
            let levels = 0xff_u8.checked_shr(in_front as u32).unwrap_or(0);
            let mark = if marked && at == 0 { 0xc0 } else { 0 };
            byte & !(levels | mark) != 0
        })
    }

    /// The entry as a record of its own, at time index 0.
    pub(crate) fn as_record(&self) -> FlatRecord<'a> {
        let signal = self.signal;
        FlatRecord {
            description: FlatDescription {
                count: 1,
                ..signal.description
            },
            bytes: &signal.bytes,
            byte_start: self.entry as usize * signal.entry_size(),
            indices: &[0],
            index_start: 0,
        }
    }

    /// Shows the characters, which `out` has room for; `?` for each where they are refused.
    fn show(&self, f: &mut Formatter<'_>, out: &mut [u8]) -> fmt::Result {
        match self.bit_str(out) {
            Ok(text) => f.pad(text),
            Err(_) => f.pad(&"?".repeat(self.width() as usize)),
        }
    }
}

/// Equal levels are of equal widths, whatever the sets. Where [`BitVecRef::bit_string`] is refused, a value differs from itself.
impl PartialEq for BitVecRef<'_> {
    fn eq(&self, other: &Self) -> bool {
        let answer = raw::compare(self.as_record(), other.as_record());
        answer.number == 0 && answer.equal
    }
}

/// The characters; `?` for each where [`BitVecRef::bit_string`] is refused.
impl Display for BitVecRef<'_> {
    fn fmt(&self, f: &mut Formatter<'_>) -> fmt::Result {
        match self.width() as usize {
            ..=SHORT => self.show(f, &mut [0; SHORT]),
            _ => self.show(f, &mut [0; MAX_WIDTH as usize]),
        }
    }
}

impl Debug for BitVecRef<'_> {
    fn fmt(&self, f: &mut Formatter<'_>) -> fmt::Result {
        write!(f, "BitVecRef({self}, {:?})", self.states())
    }
}
