//! Stand-ins for what wellen takes from the crates `num_enum`, `smallvec` and `fst_reader`.

use crate::wellen::States;
use std::marker::PhantomData;
use std::ops::{Deref, DerefMut};

pub trait TryFromPrimitive: Sized {
    fn try_from_primitive(number: u8) -> Result<Self, u8>;
}

impl TryFromPrimitive for States {
    fn try_from_primitive(number: u8) -> Result<Self, u8> {
        match number {
            0 => Ok(States::Two),
            1 => Ok(States::Four),
            2 => Ok(States::Nine),
            other => Err(other),
        }
    }
}

#[derive(Debug)]
pub enum FstSignalValue<'a> {
    String(&'a [u8]),
    Real(f64),
}

#[derive(Debug, Clone, Copy, PartialEq, Eq)]
pub struct FstSignalHandle(usize);

impl FstSignalHandle {
    pub fn from_index(index: usize) -> Self {
        Self(index)
    }
}

const INLINE: usize = 16;

/// Bytes that need no heap up to the 16 that wellen asks for. The heap is in use exactly when it isn't empty.
#[derive(Debug, Clone)]
pub struct SmallVec<A> {
    inline: [u8; INLINE],
    inline_len: usize,
    heap: Vec<u8>,
    array: PhantomData<A>,
}

impl<A> SmallVec<A> {
    pub fn new() -> Self {
        Self::from_elem(0, 0)
    }

    pub fn from_elem(byte: u8, len: usize) -> Self {
        let fits = len <= INLINE;
        Self {
            inline: [byte; INLINE],
            inline_len: if fits { len } else { 0 },
            heap: if fits { Vec::new() } else { vec![byte; len] },
            array: PhantomData,
        }
    }

    pub fn push(&mut self, byte: u8) {
        if self.heap.is_empty() && self.inline_len < INLINE {
            self.inline[self.inline_len] = byte;
            self.inline_len += 1;
        } else {
            if self.heap.is_empty() {
                self.heap.extend_from_slice(&self.inline);
            }
            self.heap.push(byte);
        }
    }
}

impl<A> Deref for SmallVec<A> {
    type Target = [u8];

    fn deref(&self) -> &[u8] {
        if self.heap.is_empty() {
            &self.inline[..self.inline_len]
        } else {
            &self.heap
        }
    }
}

impl<A> DerefMut for SmallVec<A> {
    fn deref_mut(&mut self) -> &mut [u8] {
        if self.heap.is_empty() {
            &mut self.inline[..self.inline_len]
        } else {
            &mut self.heap
        }
    }
}

pub trait ToSmallVec<A> {
    fn to_smallvec(&self) -> SmallVec<A>;
}

impl<A> ToSmallVec<A> for [u8] {
    fn to_smallvec(&self) -> SmallVec<A> {
        let mut out = SmallVec::from_elem(0, self.len());
        out.copy_from_slice(self);
        out
    }
}

macro_rules! smallvec {
    () => {
        $crate::stand_ins::SmallVec::new()
    };
    ($byte:expr; $len:expr) => {
        $crate::stand_ins::SmallVec::from_elem($byte, $len)
    };
}
pub(crate) use smallvec;

#[cfg(test)]
mod tests {
    use super::{SmallVec, ToSmallVec};

    #[test]
    fn bytes_move_to_the_heap_in_order() {
        let mut bytes: SmallVec<[u8; 16]> = smallvec![];
        for byte in 0..40 {
            bytes.push(byte);
            assert_eq!(*bytes, *(0..=byte).collect::<Vec<u8>>());
        }
    }

    #[test]
    fn lengths_around_the_inline_ones() {
        for len in [0, 1, 15, 16, 17, 40] {
            let mut bytes: SmallVec<[u8; 16]> = smallvec![7; len];
            assert_eq!(*bytes, *vec![7; len]);
            bytes.iter_mut().for_each(|byte| *byte = 9);
            let copy: SmallVec<[u8; 16]> = bytes.to_smallvec();
            assert_eq!(*copy, *vec![9; len]);
        }
    }
}
