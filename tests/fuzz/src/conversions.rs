//! Bytes as one line to both calls that turn a line through C, beside the independent converter.

#![no_main]

use fuzz::features::saw_turn;
use fuzz::Room;
use oracle::beside::{Outcome, Turning, TURNINGS};
use oracle::frame::hex;
use oracle::random::Dice;

/// # Safety
/// As `fuzz::input` asks.
#[no_mangle]
pub unsafe extern "C" fn LLVMFuzzerTestOneInput(data: *const u8, size: usize) -> i32 {
    let bytes = unsafe { fuzz::input(data, size) };
    if let Some((&[form, room], rest)) = bytes.split_first_chunk() {
        let line = match form & 1 {
            0 => rest.to_vec(),
            // Every pair is one of digits, so that only kind and length count.
            _ => hex(rest),
        };
        for (way, turning) in TURNINGS.iter().enumerate() {
            turn(way, turning, &line, Room(room));
        }
    }
    0
}

/// Into a buffer that just fits, one that lacks a byte, and the one that the input asks for.
fn turn(way: usize, turning: &Turning, line: &[u8], room: Room) {
    let need = turning.need(line);
    for room in [need, need.saturating_sub(1), room.bytes(need)] {
        match compare(turning, line, room) {
            Ok(returned) => saw_turn(way, returned),
            Err(difference) => {
                let (name, line) = (turning.name, line.escape_ascii());
                panic!("{name}, buffer of {room}, {difference}; the line:\n{line}");
            }
        }
    }
}

fn compare(turning: &Turning, line: &[u8], room: usize) -> Outcome<i32> {
    turning.compare(&mut Dice::new(0), line, room, turning.through_c)
}
