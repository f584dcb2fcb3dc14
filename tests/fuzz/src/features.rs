//! Features of what the part did. The fuzzer keeps an input that shows a new one, or a known one
//! another number of times.

use oracle::proved::Call;
use oracle::Choice;

extern "C" {
    /// In `blocks.c`. Numbers that are too large do not count.
    fn hadulmir_saw(feature: usize);
}

const RETURNS: usize = 128;
const FRESH: usize = 8 * RETURNS;
const HELD: usize = 9 * RETURNS;
const TEXTS: usize = 10 * RETURNS;
const TURNS: usize = 11 * RETURNS;

/// What a call returned, refusals and counts included, and how many events the image then held.
pub fn saw_call(call: &Call, returned: i32, held: u8) {
    let kind = match call {
        Call::Program(..) => 0,
        Call::Deliver(_) => 1,
        Call::Cancel(_) => 2,
        Call::Clock(..) => 3,
        Call::Ask(..) => 4,
        Call::List(_) => 5,
        Call::Choice(_, Choice::Out) => 6,
        Call::Choice(_, Choice::In) => 7,
    };
    saw(kind * RETURNS + place(returned));
    saw(HELD + usize::from(held));
}

pub fn saw_fresh(returned: i32) {
    saw(FRESH + place(returned));
}

/// What a call that turns a line returned; `way` is 0 or 1.
pub fn saw_turn(way: usize, returned: i32) {
    saw(TURNS + way * RETURNS + place(returned));
}

/// Refusals are above -16, counts below 100.
fn place(returned: i32) -> usize {
    (returned + 16).clamp(0, RETURNS as i32 - 1) as usize
}

/// What kind of text a printed line is.
pub fn saw_text(line: &[u8]) {
    let words: Vec<&[u8]> = line.split(|&byte| byte == b' ').collect();
    let number = |word: &[u8]| {
        word.iter()
            .fold(0, |sum, &digit| sum * 10 + usize::from(digit & 15))
    };
    let kind = match words[..] {
        [b"refused", refusal] => number(refusal) & 15,
        [_, b"none"] => 16,
        [_, b"event", _] => 17,
        [_, b"default", program] => 18 + (number(program) & 7),
        [_, _, code] => 26 + (number(code) & 15),
        _ => 42,
    };
    saw(TEXTS + kind);
}

fn saw(feature: usize) {
    // The function looks at nothing but its number.
    unsafe { hadulmir_saw(feature) }
}
