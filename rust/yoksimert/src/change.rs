//! What a change is given as, and what became of it.

/// The value of a change: a string of characters, one for each wire, or a real.
#[derive(Clone, Copy, PartialEq, Debug)]
pub enum FstSignalValue<'a> {
    /// `0 1 x z h u w l -`, small or capital.
    String(&'a [u8]),
    /// A double.
    Real(f64),
}

impl<'a> From<&'a [u8]> for FstSignalValue<'a> {
    fn from(value: &'a [u8]) -> Self {
        Self::String(value)
    }
}

impl<'a, const N: usize> From<&'a [u8; N]> for FstSignalValue<'a> {
    fn from(value: &'a [u8; N]) -> Self {
        Self::String(value)
    }
}

impl<'a> From<&'a Vec<u8>> for FstSignalValue<'a> {
    fn from(value: &'a Vec<u8>) -> Self {
        Self::String(value)
    }
}

impl<'a> From<&'a str> for FstSignalValue<'a> {
    fn from(value: &'a str) -> Self {
        Self::String(value.as_bytes())
    }
}

impl<'a> From<&'a String> for FstSignalValue<'a> {
    fn from(value: &'a String) -> Self {
        Self::String(value.as_bytes())
    }
}

impl From<f64> for FstSignalValue<'_> {
    fn from(value: f64) -> Self {
        Self::Real(value)
    }
}

impl<'a> From<&FstSignalValue<'a>> for FstSignalValue<'a> {
    fn from(value: &FstSignalValue<'a>) -> Self {
        *value
    }
}

/// What became of a change that was accepted.
#[derive(Clone, Copy, PartialEq, Eq, Hash, Debug)]
pub enum Added {
    /// It is the record's last entry.
    Kept,
    /// It repeats the value of the last entry, and the record has no entry more.
    Dropped,
}
