//! The operations of the proved archive `libyoksimert.a`, under the oracle's types and with the oracle's refusals. What the archive is
//! proved to leave on a refusal is asserted.

#![forbid(unsafe_code)]

mod numbers;
mod operations;
pub use {numbers::decode, operations::*};
