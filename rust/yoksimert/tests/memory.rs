//! Memory that is short is an error, and the record is as it was. The allocator of this program refuses what is longer than a limit.

use std::alloc::{GlobalAlloc, Layout, System};
use std::cell::Cell;
use yoksimert::{
    Added, DerivedBitVecSignal, MAXIMUM, Refusal, Signal, SignalWriter, transform_signal,
};

struct Limited;

thread_local! {
    /// Each test has a thread of its own.
    static LIMIT: Cell<usize> = const { Cell::new(usize::MAX) };
}

fn is_refused(size: usize) -> bool {
    LIMIT.with(|limit| size > limit.get())
}

// SAFETY: each call is the system's, or gives no memory, as an allocator may.
unsafe impl GlobalAlloc for Limited {
    unsafe fn alloc(&self, layout: Layout) -> *mut u8 {
        if is_refused(layout.size()) {
            return std::ptr::null_mut();
        }
        // SAFETY: as the caller says.
        unsafe { System.alloc(layout) }
    }

    unsafe fn dealloc(&self, memory: *mut u8, layout: Layout) {
        // SAFETY: as the caller says; all memory is the system's.
        unsafe { System.dealloc(memory, layout) }
    }

    unsafe fn realloc(&self, memory: *mut u8, layout: Layout, size: usize) -> *mut u8 {
        if is_refused(size) {
            return std::ptr::null_mut();
        }
        // SAFETY: as the caller says; all memory is the system's.
        unsafe { System.realloc(memory, layout, size) }
    }
}

#[global_allocator]
static ALLOCATOR: Limited = Limited;

/// What is done while no more than so many bytes are had at once.
fn within<T>(limit: usize, work: impl FnOnce() -> T) -> T {
    LIMIT.set(limit);
    let done = work();
    LIMIT.set(usize::MAX);
    done
}

/// A string that differs from the last, of the levels 0 and 1.
fn string(time_idx: u32, width: u32) -> Vec<u8> {
    (0..width)
        .map(|wire| b'0' + (time_idx >> (wire % 8) & 1) as u8)
        .collect()
}

#[test]
fn the_limit_is_one() {
    let asked = |length: usize| within(1_000, || Vec::<u8>::new().try_reserve_exact(length));
    assert!(asked(1_000).is_ok() && asked(1_001).is_err());
}

/// Changes are added until memory is short, and again with more of it.
#[test]
fn a_writer_outlives_a_lack_of_memory() {
    for (width, limit) in [(0, 1_000), (1, 1_000), (64, 4_000), (4_096, 300_000)] {
        let mut writer = SignalWriter::new(width).expect("the width stands");
        let mut plain = writer.clone();
        let mut refused = 0;
        for time_idx in 0..700 {
            let string = string(time_idx, width.max(1));
            let mut answer = within(limit, || writer.add_change(time_idx, &string));
            if answer == Err(Refusal::OutOfMemory) {
                refused += 1;
                assert!(writer.as_signal().same_record(plain.as_signal()));
                answer = writer.add_change(time_idx, &string);
            }
            assert_eq!(answer, plain.add_change(time_idx, &string));
            assert_eq!(answer, Ok(Added::Kept));
        }
        assert!(refused > 0, "width {width}");
        assert!(writer.finish().same_record(&plain.finish()));
    }
}

#[test]
fn a_raise_outlives_a_lack_of_memory() {
    let mut writer = SignalWriter::new(64).expect("the width stands");
    for time_idx in 0..100 {
        let answer = writer.add_change(time_idx, &string(time_idx, 64));
        assert_eq!(answer, Ok(Added::Kept));
    }
    let before = writer.as_signal().clone();
    let raising = "x".repeat(64);
    let answer = within(1_000, || writer.add_change(200, &raising));
    assert_eq!(answer, Err(Refusal::OutOfMemory));
    assert!(writer.as_signal().same_record(&before));
    assert_eq!(writer.add_change(200, &raising), Ok(Added::Kept));
    assert_eq!(writer.bytes().len(), 101 * 17);
}

#[test]
fn room_that_memory_lacks_is_refused() {
    let megabytes = 1 << 20;
    let refusal = within(64 * megabytes, || {
        SignalWriter::with_capacity(4_096, MAXIMUM).err()
    });
    assert_eq!(refusal, Some(Refusal::OutOfMemory));
    let mut writer = SignalWriter::new(9).expect("the width stands");
    assert_eq!(writer.add_change(3, "100000001"), Ok(Added::Kept));
    let answer = within(megabytes, || writer.reserve(MAXIMUM - 1));
    assert_eq!(answer, Err(Refusal::OutOfMemory));
    assert_eq!(
        (writer.time_indices(), writer.bytes()),
        (&[3][..], &[1, 1][..])
    );
    let mut real = SignalWriter::new_real();
    let answer = within(megabytes, || real.reserve(MAXIMUM));
    assert_eq!(answer, Err(Refusal::OutOfMemory));
}

fn clock(width: u32, changes: u32) -> Signal {
    let mut writer = SignalWriter::new(width).expect("the width stands");
    for time_idx in 0..changes {
        let answer = writer.add_change(time_idx, &string(time_idx, width));
        assert_eq!(answer, Ok(Added::Kept));
    }
    writer.finish()
}

/// Both where the inputs are put together and where the derived record is laid out.
#[test]
fn a_derivation_outlives_a_lack_of_memory() {
    let (narrow, wide) = (clock(1, 2_000), clock(800, 2_000));
    let mut doubled = DerivedBitVecSignal::new_slice(0, 0, 0).expect("the range stands");
    for _ in 0..40 {
        doubled.concat_right(0, 0, 0).expect("there is room");
    }
    let bit = DerivedBitVecSignal::new_slice(0, 0, 0).expect("the range stands");
    for (derived, input, limit) in [
        (&bit, &wide, 100_000),
        (&doubled, &narrow, 9_000),
        (&bit, &narrow, 7_000),
    ] {
        let answer = within(limit, || transform_signal(derived, &[input]).err());
        assert_eq!(answer, Some(Refusal::OutOfMemory));
        let made = transform_signal(derived, &[input]).expect("there is memory");
        assert_eq!(
            made.encoding().bytes_per_entry(),
            Some(derived.width().div_ceil(8) as usize)
        );
    }
}
