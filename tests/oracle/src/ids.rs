//! Ids for random lists. Many agree in one half, or have the same halves in the other order, so
//! that a comparison of one half alone, of the lower one first or of signed numbers shows.

use crate::random::Dice;

const TOP: u64 = 1 << 63;

pub const fn joined(high: u64, low: u64) -> u128 {
    (high as u128) << 64 | low as u128
}

/// The upper half and the lower.
pub fn halves(id: u128) -> (u64, u64) {
    ((id >> 64) as u64, id as u64)
}

/// Mostly the small number itself, else an id with it in one half and one of few numbers in the
/// other, or one as far from the largest id as the small number is from 0.
pub fn around(dice: &mut Dice, small: u64) -> u128 {
    let other = dice.pick(&[1, 2, TOP, TOP + 1, u64::MAX]);
    match dice.below(10) {
        0 => joined(other, small),
        1 => joined(small, other),
        2 => joined(small, 0),
        3 => !u128::from(small),
        _ => small.into(),
    }
}

/// Another id that has a half, or both halves, of this one.
pub fn beside(dice: &mut Dice, id: u128) -> u128 {
    let (high, low) = halves(id);
    let other = dice.pick(&[0, 1, TOP, u64::MAX, high, low]);
    match dice.below(5) {
        0 => joined(other, low),
        1 => joined(high, other),
        2 => joined(low, high),
        3 => joined(high ^ TOP, low),
        _ => joined(high, low ^ TOP),
    }
}

/// Of any size.
pub fn any(dice: &mut Dice) -> u128 {
    joined(dice.roll(), dice.roll())
}
