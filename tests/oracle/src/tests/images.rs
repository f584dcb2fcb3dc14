//! Images: the rules, the way there and back, and states that no run reaches.

use super::naive::Naive;
use crate::calls::lines_of;
use crate::event::CONTROLS;
use crate::generate::{generate, go_on};
use crate::image::{self, Image, ENTRY_BYTES, IMAGE_BYTES};
use crate::random::Dice;
use crate::spread::Spread;
use crate::states::{random_ids, random_state};
use crate::{Calls, Choice, Entry, Event, Fast, Participation, Program, Scheduler};

use super::support::{event, program, rows_to};

fn one_program() -> [Option<Program>; 8] {
    let mut programs = [None; 8];
    programs[0] = Some(program(0, 1));
    programs
}

/// In for a held second, and in now.
const IN: Participation = Participation {
    choice: Choice::In,
    was_in: true,
    was_out: false,
};

/// No second counts yet.
const NEW: Participation = Participation {
    was_in: false,
    ..IN
};

/// An image at clock 5100 whose only event started at 5000.
fn base() -> Image {
    let entry = Entry {
        event: event(7),
        effective_start: 5_000,
        held: 1,
        cancelled: false,
        participation: IN,
    };
    Image {
        clock: 5_100,
        programs: one_program(),
        entries: vec![entry],
    }
}

fn accepts(change: impl Fn(&mut Image)) -> bool {
    let mut image = base();
    change(&mut image);
    let bytes = image::write(&image);
    let loaded = Scheduler::from_image(&bytes);
    if let Some(mut scheduler) = loaded.clone() {
        assert_eq!(scheduler.to_image(), bytes);
    }
    loaded.is_some()
}

fn accepts_bytes(change: impl Fn(&mut Vec<u8>)) -> bool {
    let mut bytes = image::write(&base());
    change(&mut bytes);
    Scheduler::from_image(&bytes).is_some()
}

#[test]
fn fresh_is_zero() {
    assert_eq!(Scheduler::fresh().to_image(), vec![0; IMAGE_BYTES]);
    assert!(Scheduler::from_image(&[0; IMAGE_BYTES]).is_some());
    assert!(Scheduler::from_image(&[0; IMAGE_BYTES - 1]).is_none());
    assert!(Scheduler::from_image(&[0; IMAGE_BYTES + 1]).is_none());
    assert!(Scheduler::from_image(&[]).is_none());
}

#[test]
fn head_and_program_rules() {
    assert!(accepts(|_| ()));
    assert!(accepts(|i| {
        i.entries.clear();
        i.clock = 9_000_000_000;
    }));
    assert!(!accepts(|i| {
        i.entries.clear();
        i.clock = 9_000_000_001;
    }));
    assert!(!accepts_bytes(|b| b[8] = 0));
    assert!(!accepts_bytes(|b| b[8] = 2));
    assert!(!accepts_bytes(|b| b[8] = 49));
    assert!(!accepts_bytes(|b| b[8] = 255));
    assert!(!accepts_bytes(|b| b[9] = 2));
    assert!(!accepts_bytes(|b| b[9] = 0));
    assert!(!accepts_bytes(|b| b[10] = 3));
    assert!(accepts_bytes(|b| b[10] = 191));
    assert!(!accepts_bytes(|b| b[16] = 1));
    assert!(!accepts_bytes(|b| b[20] = 1));
    assert!(!accepts_bytes(|b| b[2_696] = 1));
    assert!(!accepts_bytes(|b| b[57 + 53] = 2));
}

#[test]
fn event_rules() {
    let first = |change: fn(&mut Entry)| accepts(|image| change(&mut image.entries[0]));
    assert!(!first(|e| e.event.program = 1));
    assert!(!first(|e| e.event.program = 8));
    assert!(!first(|e| e.event.controls = 0));
    assert!(!first(|e| e.event.start_draw = 1));
    assert!(first(|e| e.effective_start = 5_100));
    assert!(!first(|e| e.effective_start = 4_999));
    assert!(!first(|e| e.effective_start = 5_101));
    let first_new = |start| {
        accepts(|image| {
            let entry = &mut image.entries[0];
            (entry.effective_start, entry.held, entry.participation) = (start, 0, NEW);
        })
    };
    assert!(first_new(5_101));
    assert!(first_new(5_599));
    assert!(!first_new(5_600));
    assert!(first(|e| e.held = 0));
    assert!(!first(|e| e.held = 2));
    assert!(!first(|e| e.cancelled = true));
    assert!(first(|e| (e.cancelled, e.held) = (true, 0)));
    assert!(accepts(|i| i.clock = 5_599));
    assert!(!accepts(|i| i.clock = 5_600));
}

#[test]
fn rules_between_events() {
    let with = |id, controls, held| {
        accepts(|image| {
            image.entries.push(Entry {
                event: Event {
                    controls,
                    ..event(id)
                },
                effective_start: 5_050,
                held,
                cancelled: false,
                participation: IN,
            })
        })
    };
    assert!(with(8, 3, 2));
    assert!(with(8, 3, 0));
    assert!(!with(8, 3, 3));
    assert!(!with(8, 3, 1));
    assert!(!with(7, 2, 2));
    assert!(!with(6, 2, 2));
}

/// A holder of an image that a better event displaces in the next second gives its 7.
#[test]
fn displaced_right_after_the_image() {
    let mut image = base();
    image.entries.push(Entry {
        event: Event {
            creation: 900,
            start: 5_101,
            ..event(8)
        },
        effective_start: 5_101,
        held: 0,
        cancelled: false,
        participation: NEW,
    });
    let bytes = image::write(&image);
    let mut scheduler = Scheduler::from_image(&bytes).expect("an image");
    let expected = [(5_101, 7, 7), (5_101, 8, 2)];
    assert_eq!(rows_to(&mut scheduler, 5_101), expected);
}

/// A better event that had started without holding never comes to hold.
#[test]
fn a_started_event_gains_nothing() {
    let mut image = base();
    image.entries.push(Entry {
        event: Event {
            creation: 900,
            duration: 700,
            ..event(8)
        },
        effective_start: 5_000,
        held: 0,
        cancelled: false,
        participation: NEW,
    });
    let bytes = image::write(&image);
    let mut scheduler = Scheduler::from_image(&bytes).expect("an image");
    assert_eq!(rows_to(&mut scheduler, 5_900), [(5_600, 7, 3)]);
}

/// Tight and mostly overlapping events in any state that the rules allow.
fn random_image(dice: &mut Dice) -> Image {
    let clock = dice.pick(&[0, 3_600, 3_620, 3_630, 3_640]);
    let mut programs = [None; 8];
    for slot in &mut programs {
        let primacy = dice.pick(&[0, 1, 1, 2, 65]);
        *slot = Some(program(primacy, dice.roll() as u32 & 15));
    }
    let ids = random_ids(dice, 14, 60);
    let mut free = u32::MAX;
    let entries = ids
        .into_iter()
        .filter_map(|id| random_entry(dice, id, clock, &mut free));
    let entries = entries.collect();
    Image {
        clock,
        programs,
        entries,
    }
}

fn random_entry(dice: &mut Dice, id: u128, clock: u64, free: &mut u32) -> Option<Entry> {
    let early = clock == 0 && dice.chance(1, 2);
    let (randomize_start, start_draw) = match early {
        true => (-3_600, -3_600),
        false => (dice.pick(&[0, 0, 9, -9, 3_600, -3_600]), 0),
    };
    let event = Event {
        id,
        program: dice.below(8) as u8,
        controls: dice.pick(&[1, 2, 3, 7, 0xFF, u32::MAX]),
        creation: dice.below(3) as u32,
        start: 3_600 + dice.below(50) as u32,
        duration: 1 + dice.below(60) as u32,
        randomize_start,
        start_draw,
        ..Event::default()
    };
    let length = event.effective_end() - event.drawn_start();
    let delay = dice.pick(&[0, 0, length - 1, dice.clone().below(length)]);
    let effective_start = event.drawn_start() + delay;
    random_state(dice, event, effective_start, clock, free)
}

#[test]
fn states_that_no_run_reaches_run_on() {
    let mut dice = Dice::new(41);
    let mut loaded = 0;
    let mut spread = Spread::default();
    for seed in 0..4_000 {
        let image = random_image(&mut dice);
        let bytes = image::write(&image);
        let mut history = Scheduler::from_image(&bytes).expect("an image");
        let mut fast = Fast::from_image(&bytes).expect("an image");
        let mut naive = Naive::from_image(&bytes).expect("an image");
        assert_eq!(history.to_image(), bytes);
        assert_eq!(fast.to_image(), bytes);
        loaded += image.entries.len();
        spread.count_all(&history.list(48).expect("a listing"));
        let profile = dice.pick(&["tight", "choices", "cancel"]);
        let text = go_on(seed, 120, profile, &fast).expect("a profile");
        for line in lines_of(&text) {
            step_all(&mut history, &mut fast, &mut naive, line, seed);
        }
    }
    assert!(loaded > 10_000, "{loaded}");
    assert!(spread.is_wide(), "{spread}");
}

fn step_all(history: &mut Scheduler, fast: &mut Fast, naive: &mut Naive, line: &[u8], seed: u64) {
    let mut out = [Vec::new(), Vec::new(), Vec::new()];
    history.line(line, &mut out[0]);
    fast.line(line, &mut out[1]);
    naive.line(line, &mut out[2]);
    assert_eq!(out[0], out[1], "seed {seed}");
    assert_eq!(out[0], out[2], "seed {seed}");
    let image = history.to_image();
    assert_eq!(image, fast.to_image(), "seed {seed}");
    assert_eq!(image, naive.to_image(), "seed {seed}");
    let listing = history.list(48);
    assert_eq!(listing, fast.list(48), "seed {seed}");
    assert_eq!(listing, naive.list(48), "seed {seed}");
}

/// Storing and loading between any two calls changes nothing.
#[test]
fn image_between_calls_changes_nothing() {
    for seed in 0..150 {
        let text = generate(seed, 200, "mixed").expect("a profile");
        let mut kept = Scheduler::fresh();
        let mut bytes = vec![0; IMAGE_BYTES];
        for line in lines_of(&text) {
            let (mut out, mut again) = (Vec::new(), Vec::new());
            kept.line(line, &mut out);
            let mut loaded = Scheduler::from_image(&bytes).expect("a stored image");
            loaded.line(line, &mut again);
            bytes = loaded.to_image();
            assert_eq!(out, again, "seed {seed}");
            assert_eq!(bytes, kept.to_image(), "seed {seed}");
            assert_eq!(loaded.list(48), kept.list(48), "seed {seed}");
        }
    }
}

/// Whatever a changed byte makes of an image, an accepted one comes back as it was.
#[test]
fn accepted_images_come_back() {
    let mut dice = Dice::new(5);
    let (mut accepted, mut refused) = (0, 0);
    for _ in 0..20_000 {
        let image = random_image(&mut dice);
        let mut bytes = image::write(&image);
        let used = (57 + ENTRY_BYTES * image.entries.len()) as u64;
        let at = dice.below(used + 4) as usize;
        bytes[at] = dice.pick(&[0, 1, 2, 255, dice.clone().roll() as u8]);
        match Scheduler::from_image(&bytes) {
            Some(mut scheduler) => {
                assert_eq!(scheduler.to_image(), bytes);
                accepted += 1;
            }
            None => refused += 1,
        }
    }
    assert!(accepted > 2_000 && refused > 2_000, "{accepted} {refused}");
    assert_eq!(CONTROLS, 32);
}
