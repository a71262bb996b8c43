//! What calls have in common, read back from fields.

use crate::record::{LentRecord, SETS};
use oracle::{Derivation, Description, Encoding};

pub struct Reader<'a>(std::str::Split<'a, char>);

impl<'a> Reader<'a> {
    pub fn new(text: &'a str) -> Self {
        Self(text.split(' '))
    }

    /// There is no further field.
    pub fn end(mut self) -> Result<(), String> {
        match self.0.next() {
            None => Ok(()),
            Some(more) => Err(format!("unexpected field {more:?}")),
        }
    }

    pub fn field(&mut self) -> Result<&'a str, String> {
        self.0
            .next()
            .ok_or_else(|| "a field is missing".to_string())
    }

    pub fn number<T: std::str::FromStr>(&mut self) -> Result<T, String> {
        let field = self.field()?;
        field
            .parse()
            .map_err(|_| format!("not a number: {field:?}"))
    }

    /// Numbers of `bytes` bytes each.
    fn hexadecimal(&mut self, bytes: usize) -> Result<Vec<u64>, String> {
        let field = self.field()?;
        if field == "." {
            return Ok(Vec::new());
        }
        let digits = field.as_bytes().chunks(2 * bytes);
        let parsed = digits.map(|digits| {
            let text = std::str::from_utf8(digits)
                .ok()
                .filter(|text| text.len() == 2 * bytes);
            text.and_then(|text| u64::from_str_radix(text, 16).ok())
        });
        parsed
            .collect::<Option<_>>()
            .ok_or_else(|| format!("not hexadecimal: {field:?}"))
    }

    pub fn bytes(&mut self) -> Result<Vec<u8>, String> {
        let numbers = self.hexadecimal(1)?.into_iter();
        Ok(numbers.map(|number| number as u8).collect())
    }

    pub fn indices(&mut self) -> Result<Vec<u32>, String> {
        let numbers = self.hexadecimal(4)?.into_iter();
        Ok(numbers.map(|number| number as u32).collect())
    }

    pub fn description(&mut self) -> Result<Description, String> {
        let kind = self.field()?;
        let (width, set, count) = (self.number()?, self.number::<usize>()?, self.number()?);
        let encoding = match kind {
            "e" => Encoding::Event,
            "r" => Encoding::Real,
            "b" => Encoding::BitVector {
                width,
                max_states: *SETS.get(set).ok_or("no such set")?,
            },
            _ => return Err(format!("no such kind: {kind:?}")),
        };
        Ok(Description::counting(encoding, count))
    }

    /// A record without its indices.
    pub fn bytes_of(&mut self) -> Result<LentRecord, String> {
        Ok(LentRecord {
            description: self.description()?,
            bytes: self.bytes()?,
            byte_start: self.number()?,
            indices: Vec::new(),
            index_start: 0,
        })
    }

    pub fn record(&mut self) -> Result<LentRecord, String> {
        let record = self.bytes_of()?;
        Ok(LentRecord {
            indices: self.indices()?,
            index_start: self.number()?,
            ..record
        })
    }

    pub fn derivation(&mut self) -> Result<Derivation, String> {
        let (width, input_count) = (self.number()?, self.number()?);
        let inputs = self.indices()?.try_into().map_err(|_| "not 8 names")?;
        let piece_count = self.number()?;
        let pieces = self.hexadecimal(8)?;
        Ok(Derivation {
            width,
            input_count,
            inputs,
            piece_count,
            pieces: pieces.try_into().map_err(|_| "not 64 pieces")?,
        })
    }
}
