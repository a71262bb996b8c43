//! A call through the proved archive, brought into the form of an outcome.

use crate::operation::{Operation, Outcome, Slices};
use std::panic::{self, AssertUnwindSafe};

/// So many elements on each side of a slice that is lent to be altered must stay as they are.
const GUARD: usize = 8;
const GUARD_BYTE: u8 = 0xa5;
const GUARD_INDEX: u32 = 0xa5a5_a5a5;

/// The outcome, or what of it can be none: an answer that makes no sense, or a store outside the lent slices.
pub fn outcome<O: Operation>(call: &O) -> Result<Outcome<O::Answer>, String> {
    let (bytes, indices) = call.alterable();
    let mut bytes = guarded(bytes, GUARD_BYTE);
    let mut indices = guarded(indices, GUARD_INDEX);
    let answer = panic::catch_unwind(AssertUnwindSafe(|| {
        call.by_archive(Slices {
            bytes: within(&mut bytes),
            indices: within(&mut indices),
        })
    }));
    let answer = answer.map_err(|_| "an answer that makes no sense".to_string())?;
    Ok(Outcome {
        answer,
        bytes: unguarded(&bytes, GUARD_BYTE)?,
        indices: unguarded(&indices, GUARD_INDEX)?,
    })
}

fn guarded<T: Copy>(slice: &[T], guard: T) -> Vec<T> {
    [&[guard; GUARD][..], slice, &[guard; GUARD][..]].concat()
}

fn within<T>(guarded: &mut [T]) -> &mut [T] {
    let end = guarded.len() - GUARD;
    &mut guarded[GUARD..end]
}

fn unguarded<T: Copy + PartialEq>(guarded: &[T], guard: T) -> Result<Vec<T>, String> {
    let (before, rest) = guarded.split_at(GUARD);
    let (slice, behind) = rest.split_at(rest.len() - GUARD);
    if before == [guard; GUARD] && behind == [guard; GUARD] {
        Ok(slice.to_vec())
    } else {
        Err("a store outside a lent slice".to_string())
    }
}
