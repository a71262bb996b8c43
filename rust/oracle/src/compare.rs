//! Compare (document 01).

use crate::level::letters;
use crate::read::read;
use crate::record::{Description, Encoding, Extent};
use crate::text::codes_of;
use crate::{Refusal, refuse_if};

/// A description with all that it is lent.
#[derive(Clone, Copy, PartialEq, Eq, Debug)]
pub struct Record<'a> {
    /// The description.
    pub description: Description,
    /// The lent bytes.
    pub bytes: &'a [u8],
    /// Where the used bytes begin.
    pub byte_start: usize,
    /// The lent time indices.
    pub indices: &'a [u32],
    /// Where the used indices begin.
    pub index_start: usize,
}

impl Record<'_> {
    /// Whether number 2 does not hold of the record.
    fn stands(&self) -> bool {
        let bytes = Extent::new(self.bytes, self.byte_start);
        let indices = Extent::new(self.indices, self.index_start);
        self.description.holds(bytes, indices)
    }

    /// The index and the value of an entry. 9, 10.
    fn pair(&self, entry: u32) -> Result<(u32, Value), Refusal> {
        let (d, bytes, byte_start) = (self.description, self.bytes, self.byte_start);
        let value = match d.encoding {
            Encoding::Event => Value::Event,
            Encoding::Real => {
                let part = read(d, bytes, byte_start, entry)?.part;
                let bytes = bytes[part].try_into().expect("a real takes 8 bytes");
                Value::Real(f64::from_le_bytes(bytes))
            }
            Encoding::BitVector { .. } => {
                let (_, codes) = codes_of(d, bytes, byte_start, entry)?;
                Value::BitVector(letters(&codes)?)
            }
        };
        Ok((self.indices[self.index_start + entry as usize], value))
    }
}

/// What Compare compares: bit vectors by text, reals by float `==`.
#[derive(PartialEq)]
enum Value {
    Event,
    Real(f64),
    BitVector(Vec<u8>),
}

/// Whether both lists of index and value agree.
///
/// # Errors
/// 2 for the first record, then for the second; 9 and 10 in each pair up to the first difference.
pub fn compare(a: &Record, b: &Record) -> Result<bool, Refusal> {
    refuse_if(!a.stands(), 2)?;
    refuse_if(!b.stands(), 2)?;
    for entry in 0..a.description.count.min(b.description.count) {
        let first = a.pair(entry)?;
        let second = b.pair(entry)?;
        if first != second {
            return Ok(false);
        }
    }
    Ok(a.description.count == b.description.count)
}
