//! Add a piece.

use crate::domain;
use crate::generate::{Generator, Receiver};
use crate::operation::{Operation, Outcome, Slices};
use crate::stored::{Fields, Module, Reader, terms};
use oracle::{Derivation, MAX_WIDTH, Refusal, Side};
#[cfg(wellen)]
use {crate::by_wellen::Verdict, reference::Refused};

#[derive(Clone, Copy, PartialEq, Eq, Debug)]
pub struct AddPiece {
    pub derivation: Derivation,
    pub side: Side,
    pub name: u32,
    pub msb: u32,
    pub lsb: u32,
}

impl Operation for AddPiece {
    type Answer = Derivation;

    const NAMES: &'static [&'static str] = &["left", "right"];
    const NUMBERS: &'static [u8] = &[14, 12, 13];
    const DEFINITIONS: &'static [Module] = &[
        Module::new(
            "Rattle.derivation.specs.declared.DerivedBitVecSignal",
            "DerivedBitVecSignal",
        ),
        Module::new(
            "Rattle.derivation.specs.declared.Side.TheVariants",
            "Left Right",
        ),
        Module::new("Rattle.derivation.specs.Piece", ""),
    ];

    fn name(&self) -> &'static str {
        match self.side {
            Side::Left => "left",
            Side::Right => "right",
        }
    }

    fn by_oracle(&self, _: Slices) -> Result<Derivation, Refusal> {
        oracle::add_piece(&self.derivation, self.side, self.name, self.msb, self.lsb)
    }

    fn by_archive(&self, _: Slices) -> Result<Derivation, Refusal> {
        archive::add_piece(&self.derivation, self.side, self.name, self.msb, self.lsb)
    }

    fn is_in_domain(&self) -> bool {
        domain::is_derivation(&self.derivation) && self.has_names() && self.msb < MAX_WIDTH
    }

    /// "13: a ninth input, an unmerged 65th piece, or a sum above 4,096." Places of the derivation that are not in
    /// use come back as they were.
    #[cfg(wellen)]
    fn by_wellen(&self) -> Result<Verdict<Derivation>, Refused> {
        let mut out = self.derivation;
        let next = reference::add_piece(&out, self.side, self.name, self.msb, self.lsb)?;
        out.width = next.width;
        out.input_count = next.inputs.len() as u32;
        out.piece_count = next.pieces.len() as u32;
        let names = out.inputs.get_mut(..next.inputs.len());
        let pieces = out.pieces.get_mut(..next.pieces.len());
        let (Some(names), Some(pieces), 0..=MAX_WIDTH) = (names, pieces, next.width) else {
            return Ok(Verdict::Beyond(Refusal(13)));
        };
        names.copy_from_slice(&next.inputs);
        pieces.copy_from_slice(&next.pieces);
        Ok(Verdict::accepted(out))
    }

    fn put(&self, out: &mut Fields) {
        out.derivation(&self.derivation);
        out.push(format_args!("{} {} {}", self.name, self.msb, self.lsb));
    }

    fn put_outcome(&self, outcome: &Outcome<Derivation>, out: &mut Fields) {
        out.derivation(outcome.answer.as_ref().unwrap_or(&self.derivation));
    }

    fn parse(name: &str, fields: &mut Reader) -> Result<Self, String> {
        let side = if name == "left" {
            Side::Left
        } else {
            Side::Right
        };
        Ok(AddPiece {
            derivation: fields.derivation()?,
            side,
            name: fields.number()?,
            msb: fields.number()?,
            lsb: fields.number()?,
        })
    }

    fn share(number: u8) -> usize {
        if number == 0 { 50 } else { 200 }
    }

    fn equation(&self, outcome: &Outcome<Derivation>) -> Option<String> {
        let side = match self.side {
            Side::Left => "Left",
            Side::Right => "Right",
        };
        let given = terms::derivation(&self.derivation);
        let next = terms::derivation(outcome.answer.as_ref().unwrap_or(&self.derivation));
        let (name, msb, lsb) = (self.name, self.msb, self.lsb);
        let call = format!("add_piece {given} {side} {name} {msb} {lsb}");
        Some(terms::leaves("DerivedBitVecSignal", &call, outcome, &next))
    }
}

impl AddPiece {
    /// "each named by any 32-bit number (0 is added, the Rust has no such name)"
    fn has_names(&self) -> bool {
        let names = &self.derivation.inputs[..self.derivation.input_count as usize];
        self.name != 0 && !names.contains(&0)
    }
}

/// A name with the width of the record that goes by it.
#[derive(Clone, Copy)]
pub(super) struct Named {
    pub(super) name: u32,
    pub(super) width: u32,
}

impl Generator {
    pub(super) fn names(&mut self) -> Vec<Named> {
        let count = self.random.pick(&[1, 1, 2, 2, 2, 3, 3, 4, 5, 8, 9]);
        let zero = self.random.once_in(20);
        (0..count)
            .map(|at| Named {
                name: if zero {
                    at
                } else {
                    at * 7 + 1 + self.random.below(2) as u32 * 0x7fff_ffff
                },
                width: self.width(),
            })
            .collect()
    }

    /// Adds pieces at both ends, valid and not. Sometimes the unused places hold something from the start.
    pub(super) fn pieces(&mut self, named: &[Named], to: &mut dyn Receiver) -> Derivation {
        let mut derivation = oracle::empty_derivation();
        if self.random.once_in(3) {
            derivation.inputs = std::array::from_fn(|_| self.random.number() as u32);
            derivation.pieces = std::array::from_fn(|_| self.random.number());
        }
        let pieces = if self.random.once_in(16) {
            68
        } else {
            self.random.from_to(1, 7)
        };
        for _ in 0..pieces {
            let input = self.random.pick(named);
            let (msb, lsb) = self.bits(&derivation, input.width, pieces > 60);
            let piece = AddPiece {
                derivation,
                side: self.random.pick(&[Side::Left, Side::Right]),
                name: input.name,
                msb,
                lsb,
            };
            if self.random.once_in(16) {
                let derivation = self.spoilt_derivation(&derivation);
                to.call(AddPiece {
                    derivation,
                    ..piece
                });
            }
            let outcome = to.call(piece).outcome;
            derivation = outcome.answer.unwrap_or(derivation);
        }
        derivation
    }

    /// Bits of an input: any, or adjoining an end of the derivation; now and then none or too high.
    fn bits(&mut self, derivation: &Derivation, width: u32, narrow: bool) -> (u32, u32) {
        match self.random.below(24) {
            0 => return (0, self.random.pick(&[1, 5, u32::MAX])),
            1 => {
                return (
                    self.random.pick(&[4_095, 4_096, 70_000, u32::MAX]),
                    self.random.below(2) as u32,
                );
            }
            _ => {}
        }
        let wires = width as usize;
        let lsb = match (self.random.below(3), adjoining(derivation)) {
            (0, Some((above, _))) if above < width => above,
            (1, Some((_, Some(below)))) if below < width => {
                let low = below.saturating_sub(self.random.below(3) as u32);
                return (below, low);
            }
            _ => self.random.below(wires) as u32,
        };
        let most = if narrow { 1 } else { width - lsb };
        (lsb + self.random.below(most as usize) as u32, lsb)
    }

    pub(super) fn spoilt_derivation(&mut self, derivation: &Derivation) -> Derivation {
        let mut out = *derivation;
        let last = (out.piece_count as usize).saturating_sub(1);
        match self.random.below(9) {
            0 => out.piece_count = self.random.pick(&[65, 66, u32::MAX]),
            1 => out.input_count = self.random.pick(&[9, u32::MAX]),
            2 => out.width = out.width.wrapping_add(self.random.pick(&[1, u32::MAX])),
            3 => out.pieces[last] &= !(0xffff << 32),
            4 => out.pieces[last] |= 9 << 48,
            5 => out.pieces[last] |= 1 << 12,
            6 => out.pieces[last] |= 0xffff_ffff,
            7 => out.input_count = out.input_count.saturating_sub(1),
            _ => {
                // A made-up derivation that stands: inputs without a piece, a name twice.
                out.input_count = out.input_count.clamp(2, 8);
                out.inputs[1] = out.inputs[0];
            }
        }
        out
    }
}

/// The bit above the first piece, and the one below the last, if there is one.
fn adjoining(derivation: &Derivation) -> Option<(u32, Option<u32>)> {
    let used = &derivation.pieces[..derivation.piece_count as usize];
    let (first, last) = (used.first()?, used.last()?);
    let above = (first & 0xffff_ffff) as u32 + (first >> 32 & 0xffff) as u32;
    Some((above, ((last & 0xffff_ffff) as u32).checked_sub(1)))
}
