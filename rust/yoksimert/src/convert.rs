//! Values as numbers, truth values and text. None but those of text allocates.

use crate::{BitVecRef, SignalValueRef};

/// As [`BitVecRef::unsigned`]: an error if there are more than 64 levels, or others than `0` and `1`.
impl TryFrom<BitVecRef<'_>> for u64 {
    type Error = ();

    #[inline]
    fn try_from(value: BitVecRef<'_>) -> Result<Self, ()> {
        value.unsigned().map_err(|_| ())
    }
}

/// As [`BitVecRef::signed`]: an error if there are more than 64 levels, or others than `0` and `1`.
impl TryFrom<BitVecRef<'_>> for i64 {
    type Error = ();

    #[inline]
    fn try_from(value: BitVecRef<'_>) -> Result<Self, ()> {
        value.signed().map_err(|_| ())
    }
}

/// An error for an event, for a real that is no whole number of 64 bits, and where the levels are no number.
impl TryFrom<SignalValueRef<'_>> for u64 {
    type Error = ();

    fn try_from(value: SignalValueRef<'_>) -> Result<Self, ()> {
        match value {
            SignalValueRef::Event => Err(()),
            SignalValueRef::BitVec(levels) => levels.try_into(),
            SignalValueRef::Real(real) => {
                let number = u64::try_from(real as u128).map_err(|_| ())?;
                if number as f64 == real {
                    Ok(number)
                } else {
                    Err(())
                }
            }
        }
    }
}

/// An error for an event, for a real that is no whole number of 64 bits with a sign, and where the levels are no number.
impl TryFrom<SignalValueRef<'_>> for i64 {
    type Error = ();

    fn try_from(value: SignalValueRef<'_>) -> Result<Self, ()> {
        match value {
            SignalValueRef::Event => Err(()),
            SignalValueRef::BitVec(levels) => levels.try_into(),
            SignalValueRef::Real(real) => {
                let number = i64::try_from(real as i128).map_err(|_| ())?;
                if number as f64 == real {
                    Ok(number)
                } else {
                    Err(())
                }
            }
        }
    }
}

/// An error for an event, and where the levels are no number or one that no double is.
impl TryFrom<SignalValueRef<'_>> for f64 {
    type Error = ();

    fn try_from(value: SignalValueRef<'_>) -> Result<Self, ()> {
        match value {
            SignalValueRef::Event => Err(()),
            SignalValueRef::BitVec(levels) => {
                let number = u64::try_from(levels)?;
                let real = number as f64;
                if real as u128 == u128::from(number) {
                    Ok(real)
                } else {
                    Err(())
                }
            }
            SignalValueRef::Real(real) => Ok(real),
        }
    }
}

/// As [`Display`](std::fmt::Display).
impl From<SignalValueRef<'_>> for String {
    fn from(value: SignalValueRef<'_>) -> Self {
        value.to_bit_string().unwrap_or_else(|| value.to_string())
    }
}

/// Whether a single level is `1`; an error if it is neither that nor `0`, or there are others.
impl TryFrom<BitVecRef<'_>> for bool {
    type Error = ();

    #[inline]
    fn try_from(value: BitVecRef<'_>) -> Result<Self, ()> {
        match (value.width(), value.unsigned()) {
            (1, Ok(number)) => Ok(number == 1),
            _ => Err(()),
        }
    }
}

/// An error for a real or an event, and where the levels are not a single `0` or `1`.
impl TryFrom<SignalValueRef<'_>> for bool {
    type Error = ();

    fn try_from(value: SignalValueRef<'_>) -> Result<Self, ()> {
        value.as_bit_vec().ok_or(())?.try_into()
    }
}

impl<'a> From<BitVecRef<'a>> for SignalValueRef<'a> {
    fn from(levels: BitVecRef<'a>) -> Self {
        Self::BitVec(levels)
    }
}

impl From<f64> for SignalValueRef<'_> {
    fn from(real: f64) -> Self {
        Self::Real(real)
    }
}
