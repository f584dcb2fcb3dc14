//! Random lines with ids of 64 bits and of 128, sound and damaged, for the converter. Their fields
//! have any values, as it looks at none.

use crate::frame::{hex, Width, LONGEST_LINE};
use crate::random::Dice;

/// The kinds with an id, and how many bytes come behind it.
const WITH_ID: [(u8, usize); 4] = [(1, 25), (2, 0), (6, 0), (7, 0)];

/// The kinds without one, and how many bytes come behind the kind.
const WITHOUT_ID: [(u8, usize); 3] = [(3, 8), (4, 6), (5, 1)];

/// Three of four have an id.
pub fn sound(dice: &mut Dice, width: Width) -> Vec<u8> {
    let mut bytes = Vec::new();
    let rest = match dice.chance(3, 4) {
        true => {
            let (kind, rest) = dice.pick(&WITH_ID);
            bytes.push(kind);
            put_id(dice, width, &mut bytes);
            rest
        }
        false => {
            let (kind, rest) = dice.pick(&WITHOUT_ID);
            bytes.push(kind);
            rest
        }
    };
    bytes.extend((0..rest).map(|_| dice.roll() as u8));
    hex(&bytes)
}

fn put_id(dice: &mut Dice, width: Width, bytes: &mut Vec<u8>) {
    if width == Width::Long {
        bytes.extend(upper_half(dice).to_be_bytes());
    }
    bytes.extend(dice.roll().to_be_bytes());
}

/// Mostly zero; else often with one bit, so that each digit is looked at.
fn upper_half(dice: &mut Dice) -> u64 {
    match dice.below(8) {
        0 => dice.roll(),
        1 | 2 => 1 << dice.below(64),
        _ => 0,
    }
}

/// Of either width, half of them damaged, and some of nothing but noise.
pub fn any(dice: &mut Dice) -> Vec<u8> {
    let width = dice.pick(&[Width::Short, Width::Long]);
    let mut line = sound(dice, width);
    match dice.below(16) {
        0 => noise(dice),
        1 => digits(dice),
        2..8 => {
            hurt(dice, &mut line);
            line
        }
        _ => line,
    }
}

fn hurt(dice: &mut Dice, line: &mut Vec<u8>) {
    let at = dice.below(line.len() as u64) as usize;
    match dice.below(12) {
        0 => line.make_ascii_lowercase(),
        1 => line[at].make_ascii_lowercase(),
        2 => drop(line.remove(at)),
        3 => line.insert(at, b'0'),
        4 => line.truncate(line.len() - 2),
        5 => line.extend_from_slice(b"00"),
        6 => line.push(b'\r'),
        7 => line[at] = dice.pick(b"\0 /:@G`g\x7f\x80\xff"),
        8 => line[at] = dice.roll() as u8,
        9 => line[1] = dice.pick(b"0123456789AF"),
        10 => line[0] = dice.pick(b"123F"),
        _ => line.truncate(at),
    }
}

/// Bytes of any value.
fn noise(dice: &mut Dice) -> Vec<u8> {
    let size = dice.below(2 * LONGEST_LINE as u64);
    (0..size).map(|_| dice.roll() as u8).collect()
}

/// Digits from a known kind on, of a length around those of frames.
fn digits(dice: &mut Dice) -> Vec<u8> {
    let length = dice.pick(&[
        0, 1, 2, 3, 4, 5, 14, 17, 18, 19, 33, 34, 35, 67, 68, 69, 83, 84, 85,
    ]);
    let kind = dice.between(1, 7) as u8;
    let bytes: Vec<u8> = (0..LONGEST_LINE).map(|_| dice.roll() as u8).collect();
    let mut line = hex(&[&[kind], &bytes[..]].concat());
    line.truncate(length);
    line
}
