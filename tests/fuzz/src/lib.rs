//! What the targets share: moves read from the fuzzer's bytes, and features told to the fuzzer.

pub mod features;
pub mod moves;

pub use moves::{Edit, Move, Moves, Room};

/// What the fuzzer hands to a target.
///
/// # Safety
/// `data` points to `size` bytes that nobody writes meanwhile.
pub unsafe fn input<'a>(data: *const u8, size: usize) -> &'a [u8] {
    match size {
        0 => &[],
        _ => unsafe { std::slice::from_raw_parts(data, size) },
    }
}
