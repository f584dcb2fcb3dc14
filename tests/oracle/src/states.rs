//! Random images that keep the rules. Most of them no run reaches: starts later than any receipt
//! explains, and masks that were never won.

use std::collections::BTreeSet;

use crate::choice::{Choice, Participation};
use crate::event::{Event, Program, Programs, LAST_CLOCK};
use crate::ids;
use crate::image::{Entry, Image};
use crate::random::Dice;

/// How far from the clock starts and ends lie at most.
const NEAR: i64 = 60;

pub fn random_image(dice: &mut Dice) -> Image {
    // The last start and duration end at 8,589,941,790 at the latest.
    let clocks = [0, 3_600, 3_630, 3_700, 1_000_000, 4_294_967_290];
    let late_clocks = [4_294_970_900, 8_589_934_500, 8_589_941_700, LAST_CLOCK];
    let clock = match dice.chance(4, 5) {
        true => dice.pick(&clocks),
        false => dice.pick(&late_clocks),
    };
    let programs = random_programs(dice);
    let mut free = u32::MAX;
    let most = dice.pick(&[3, 8, 14, 30, 48]);
    let range = dice.pick(&[60, 1_000, u64::MAX]);
    let ids = random_ids(dice, most, range).into_iter();
    let entries = ids
        .filter_map(|id| random_entry(dice, id, &programs, clock, &mut free))
        .collect();
    Image {
        clock,
        programs,
        entries,
    }
}

fn random_programs(dice: &mut Dice) -> Programs {
    let mut programs = [None; 8];
    for slot in &mut programs {
        let primacy = dice.pick(&[0, 1, 1, 2, 65, 191]);
        let defaults = dice.roll() as u32 & dice.roll() as u32;
        *slot = dice.chance(7, 8).then_some(Program { primacy, defaults });
    }
    programs
}

/// At most so many, made of numbers in the range. Often one has a half of the one before.
pub(crate) fn random_ids(dice: &mut Dice, most: u64, range: u64) -> BTreeSet<u128> {
    let count = 1 + dice.below(most);
    let mut id = 0;
    let next = |_| {
        let small = dice.below(range);
        id = match dice.chance(1, 4) {
            true => ids::beside(dice, id),
            false => ids::around(dice, small),
        };
        id
    };
    (0..count).map(next).collect()
}

/// `None` if the drawn fields break a rule.
fn random_entry(
    dice: &mut Dice,
    id: u128,
    programs: &Programs,
    clock: u64,
    free: &mut u32,
) -> Option<Entry> {
    let event = random_event(dice, id, clock as i64);
    event.check_fields(programs).ok()?;
    let effective_start = random_start(dice, &event, clock);
    random_state(dice, event, effective_start, clock, free)
}

/// The event in any state that the rules allow at the clock: a started one may hold controls that
/// are free, and takes them. `None` if it has ended.
pub(crate) fn random_state(
    dice: &mut Dice,
    event: Event,
    effective_start: u64,
    clock: u64,
    free: &mut u32,
) -> Option<Entry> {
    let cancelled = dice.chance(1, 5);
    let started = effective_start <= clock;
    let mut held = 0;
    if started && !cancelled {
        held = event.controls & *free & dice.pick(&[0, 1, 3, 6, u32::MAX]);
        *free &= !held;
    }
    (event.effective_end() > clock).then_some(Entry {
        event,
        effective_start,
        held,
        cancelled,
        participation: random_participation(dice, started, held),
    })
}

/// The present choice is free. Who holds something was in or out before.
fn random_participation(dice: &mut Dice, started: bool, held: u32) -> Participation {
    let both = [false, true];
    let (was_in, was_out) = match (started, held) {
        (false, _) => (false, false),
        (true, 0) => (dice.pick(&both), dice.pick(&both)),
        (true, _) => dice.pick(&[(true, false), (false, true), (true, true)]),
    };
    Participation {
        choice: dice.pick(&[Choice::In, Choice::Out]),
        was_in,
        was_out,
    }
}

fn random_event(dice: &mut Dice, id: u128, clock: i64) -> Event {
    let (randomize_start, start_draw) = random_draw(dice);
    let (randomize_duration, duration_draw) = random_draw(dice);
    let around = clock + dice.between(-NEAR, NEAR);
    let start = (around - i64::from(start_draw)).clamp(3_600, u32::MAX.into());
    let drawn_start = start + i64::from(start_draw);
    let end = clock.max(drawn_start) + dice.between(1, NEAR);
    let duration = end - drawn_start - i64::from(duration_draw);
    Event {
        id,
        program: dice.below(8) as u8,
        controls: dice.pick(&[1, 2, 3, 7, 0xFF, 1 << 31, u32::MAX]),
        creation: dice.below(3) as u32,
        start: start as u32,
        duration: duration.clamp(1, u32::MAX.into()) as u32,
        randomize_start,
        randomize_duration,
        start_draw,
        duration_draw,
    }
}

fn random_draw(dice: &mut Dice) -> (i16, i16) {
    let widest = dice.pick(&[0, 0, 0, 1, 5, 20, 3_600]);
    let randomisation = dice.between(-widest, widest);
    let draw = dice.between(randomisation.min(0), randomisation.max(0));
    (randomisation as i16, draw as i16)
}

/// A moment of the event's period, often at an end of it or next to the clock.
fn random_start(dice: &mut Dice, event: &Event, clock: u64) -> u64 {
    let (begin, end) = (event.drawn_start(), event.effective_end());
    let inside = begin + dice.below(end - begin);
    let start = dice.pick(&[begin, begin, end - 1, inside, clock, clock + 1]);
    start.clamp(begin, end - 1)
}
