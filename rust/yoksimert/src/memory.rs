//! Vectors that grow, or say that memory is short.

use crate::Refusal;

/// Zeros up to this length, unless the vector is as long already. On a refusal it is as it was.
pub(crate) fn lengthen<T: Clone + Default>(
    elements: &mut Vec<T>,
    length: usize,
) -> Result<(), Refusal> {
    if let Some(more) = length.checked_sub(elements.len()) {
        // `resize` alone may keep more than is asked for, and aborts where memory is short.
        let room = elements.try_reserve_exact(more);
        room.map_err(|_| Refusal::OutOfMemory)?;
        elements.resize(length, T::default());
    }
    Ok(())
}

/// So many zeros.
pub(crate) fn zeros<T: Clone + Default>(length: usize) -> Result<Vec<T>, Refusal> {
    let mut elements = Vec::new();
    lengthen(&mut elements, length)?;
    Ok(elements)
}

/// An empty vector with room for so many.
pub(crate) fn room_for<T>(length: usize) -> Result<Vec<T>, Refusal> {
    let mut elements = Vec::new();
    let room = elements.try_reserve_exact(length);
    room.map_err(|_| Refusal::OutOfMemory)?;
    Ok(elements)
}

/// Twice the length, 64 at least and `most` at most.
pub(crate) fn doubled_length(length: usize, most: usize) -> usize {
    (length * 2).max(64).min(most)
}

#[cfg(test)]
mod tests {
    use super::*;

    #[test]
    fn a_vector_doubles_up_to_the_most() {
        let mut elements: Vec<u8> = vec![];
        let mut grown = |most| {
            let length = doubled_length(elements.len(), most);
            assert_eq!(lengthen(&mut elements, length), Ok(()));
            assert!(elements.iter().all(|byte| *byte == 0));
            (elements.len(), elements.capacity())
        };
        let lengths = [64, 128, 256, 512, 1_000, 1_000];
        assert_eq!(lengths.map(|_| grown(1_000)), lengths.map(|at| (at, at)));
        assert_eq!(grown(3_000), (2_000, 2_000));
        assert_eq!(lengthen(&mut elements, 7), Ok(()));
        assert_eq!(elements.len(), 2_000);
    }

    #[test]
    fn what_no_memory_holds_is_refused() {
        let mut elements = vec![1, 2, 3u32];
        for length in [usize::MAX, usize::MAX / 4, isize::MAX as usize / 4] {
            let answer = lengthen(&mut elements, length);
            assert_eq!(answer, Err(Refusal::OutOfMemory));
            assert_eq!(elements, [1, 2, 3]);
            assert_eq!(zeros::<u32>(length).err(), Some(Refusal::OutOfMemory));
            assert_eq!(room_for::<u32>(length).err(), Some(Refusal::OutOfMemory));
        }
    }
}
