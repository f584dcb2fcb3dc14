//! The earliest start of document 02, #101: the lesser of start and start plus randomizeStart.

use super::support::{each, event, listed, program, rows_to};
use crate::calls::lines_of;
use crate::generate::{generate, profile_names};
use crate::image::{self, Record, ENTRY_BYTES, RECORD_BYTES};
use crate::pair::pair;
use crate::random::Dice;
use crate::spread::Spread;
use crate::states::random_image;
use crate::{Calls, Event, Fast, Scheduler};

/// The event of the bench marks with this randomizeStart and start draw.
fn drawn(randomize_start: i16, start_draw: i16) -> Event {
    Event {
        randomize_start,
        start_draw,
        ..event(1)
    }
}

fn earliest(calls: &mut dyn Calls) -> u64 {
    listed(calls, 1).earliest_start
}

/// Delivers the event at the clock and gives its earliest and its effective start.
fn starts(calls: &mut dyn Calls, clock: u64, event: &Event) -> (u64, u64) {
    rows_to(calls, clock);
    assert_eq!(calls.deliver(event), Ok(1));
    let Record {
        entry,
        earliest_start,
    } = listed(calls, event.id);
    (earliest_start, entry.effective_start)
}

fn expect(clock: u64, event: Event, expected: (u64, u64)) {
    each(|calls| assert_eq!(starts(calls, clock, &event), expected, "{event:?}"));
}

#[test]
fn t5_whatever_the_draw() {
    for draw in [-300, -299, -150, -1, 0] {
        let effective = 5_000u64.saturating_add_signed(draw.into());
        expect(4_000, drawn(-300, draw), (4_700, effective));
    }
}

#[test]
fn a_positive_randomisation_leaves_the_start() {
    for draw in [300, 299, 150, 1, 0] {
        let effective = 5_000u64.saturating_add_signed(draw.into());
        expect(4_000, drawn(300, draw), (5_000, effective));
    }
    expect(4_000, drawn(0, 0), (5_000, 5_000));
}

#[test]
fn a_late_receipt_does_not_move_it() {
    expect(5_000, drawn(0, 0), (5_000, 5_001));
    expect(5_598, drawn(0, 0), (5_000, 5_599));
    expect(4_700, drawn(-300, -300), (4_700, 4_701));
    expect(4_800, drawn(-300, -300), (4_700, 4_801));
    expect(5_298, drawn(-300, -300), (4_700, 5_299));
    expect(5_100, drawn(-300, 0), (4_700, 5_101));
    expect(5_400, drawn(300, 300), (5_000, 5_401));
}

#[test]
fn both_ends_of_the_range() {
    let at = |start, duration, event: Event| Event {
        start,
        duration,
        ..event
    };
    expect(0, at(3_600, 2, drawn(-3_600, -3_600)), (0, 1));
    expect(0, at(3_600, 1, drawn(-3_600, 0)), (0, 3_600));
    expect(0, at(3_600, 1, drawn(-3_599, -3_599)), (1, 1));
    expect(0, at(3_600, 1, drawn(3_600, 3_600)), (3_600, 7_200));
    let last = 4_294_967_295;
    let longest = |event| at(u32::MAX, u32::MAX, event);
    expect(0, longest(drawn(3_600, 3_600)), (last, 4_294_970_895));
    expect(0, longest(drawn(3_600, 0)), (last, last));
    expect(0, longest(drawn(0, 0)), (last, last));
    expect(0, longest(drawn(-3_600, 0)), (4_294_963_695, last));
    let early = longest(drawn(-3_600, -3_600));
    expect(0, early, (4_294_963_695, 4_294_963_695));
}

#[test]
fn the_duration_and_its_draw_do_not_count() {
    let shorter = Event {
        randomize_duration: -500,
        duration_draw: -400,
        ..drawn(-300, -100)
    };
    expect(4_000, shorter, (4_700, 4_900));
}

/// Listed at each stage: before the start, while it holds, delivered again, and to its last second.
#[test]
fn it_stays_while_the_event_is_held() {
    each(|calls| {
        let event = drawn(-300, -100);
        assert_eq!(starts(calls, 4_000, &event), (4_700, 4_900));
        for clock in [4_699, 4_700, 4_900, 5_499] {
            rows_to(calls, clock);
            assert_eq!(calls.deliver(&event), Ok(0));
            assert_eq!(earliest(calls), 4_700);
        }
    });
}

#[test]
fn it_stays_after_a_cancellation() {
    for clock in [4_000, 4_899, 4_900, 5_000] {
        each(|calls| {
            assert_eq!(starts(calls, 4_000, &drawn(-300, -100)), (4_700, 4_900));
            rows_to(calls, clock);
            assert_eq!(calls.cancel(1), Ok(6));
            assert_eq!(earliest(calls), 4_700);
            rows_to(calls, 5_499);
            assert!(listed(calls, 1).entry.cancelled);
            assert_eq!(earliest(calls), 4_700);
        });
    }
}

/// Superseded midway and at the start.
#[test]
fn it_stays_after_a_loss() {
    for start in [5_000, 4_800] {
        let worse = Event {
            program: 1,
            ..drawn(-300, -100)
        };
        let better = Event { start, ..event(2) };
        each(|calls| {
            assert_eq!(starts(calls, 4_000, &worse), (4_700, 4_900));
            assert_eq!(calls.deliver(&better), Ok(1));
            let rows = rows_to(calls, 5_000);
            assert!(rows.contains(&(u64::from(start).max(4_900), 1, 7)));
            assert_eq!(listed(calls, 1).entry.held, 0);
            assert_eq!(earliest(calls), 4_700);
            assert_eq!(listed(calls, 2).earliest_start, start.into());
        });
    }
}

/// Over C: the 55 bytes of the image entry, then the time, most significant byte first.
#[test]
fn a_record_is_the_entry_and_8_bytes() {
    let (mut history, mut fast) = (Scheduler::fresh(), Fast::fresh());
    let calls: [&mut dyn Calls; 2] = [&mut history, &mut fast];
    for calls in calls {
        assert_eq!(calls.add_program(0, program(0, 0)), Ok(()));
        assert_eq!(starts(calls, 4_000, &drawn(-300, 0)), (4_700, 5_000));
    }
    let record = listed(&mut history, 1);
    assert_eq!(record, listed(&mut fast, 1));
    let bytes = record.bytes();
    assert_eq!(bytes.len(), 63);
    assert_eq!(bytes[55..], [0, 0, 0, 0, 0, 0, 0x12, 0x5C]);
    assert_eq!(bytes[..55], history.to_image()[57..57 + 55]);
    assert_eq!(bytes[..55], fast.to_image()[57..57 + 55]);
    assert_eq!((ENTRY_BYTES, RECORD_BYTES), (55, 63));
    assert_eq!(48 * RECORD_BYTES, 3_024);
}

/// The least drawn start over all start draws in range, and not after the effective start.
fn assert_least(record: &Record) {
    let event = record.entry.event;
    let draws = event.randomize_start.min(0)..=event.randomize_start.max(0);
    let with = |start_draw| Event {
        start_draw,
        ..event
    };
    let drawn = draws.map(|start_draw| with(start_draw).drawn_start());
    assert_eq!(drawn.min(), Some(record.earliest_start), "{event:?}");
    assert!(record.earliest_start <= record.entry.effective_start);
}

#[test]
fn the_least_of_all_draws_on_random_lists() {
    for profile in profile_names() {
        for seed in 0..40 {
            let text = generate(seed, 300, profile).expect("a profile");
            let mut fast = Fast::fresh();
            for (number, line) in lines_of(&text).enumerate() {
                fast.line(line, &mut Vec::new());
                if number % 25 == 24 {
                    all_listed(&mut fast).iter().for_each(assert_least);
                }
            }
        }
    }
}

#[test]
fn the_least_of_all_draws_in_random_images() {
    let mut dice = Dice::new(8);
    for _ in 0..2_000 {
        let bytes = image::write(&random_image(&mut dice));
        let mut history = Scheduler::from_image(&bytes).expect("an image");
        all_listed(&mut history).iter().for_each(assert_least);
    }
}

/// What is listed after each line.
fn spread_of(texts: impl Iterator<Item = Vec<u8>>) -> Spread {
    let mut spread = Spread::default();
    for text in texts {
        let mut fast = Fast::fresh();
        for line in lines_of(&text) {
            fast.line(line, &mut Vec::new());
            spread.count_all(&all_listed(&mut fast));
        }
    }
    spread
}

#[test]
fn generators_tell_the_times_apart() {
    for profile in profile_names() {
        let text = |seed| generate(seed, 400, profile).expect("a profile");
        let spread = spread_of((0..30).map(text));
        assert!(spread.is_wide(), "{profile}: {spread}");
    }
    let spread = spread_of((0..500).map(|seed| pair(seed).0));
    assert!(spread.is_wide(), "pairs: {spread}");
    let mut dice = Dice::new(9);
    let mut spread = Spread::default();
    for _ in 0..2_000 {
        let bytes = image::write(&random_image(&mut dice));
        let mut fast = Fast::from_image(&bytes).expect("an image");
        spread.count_all(&all_listed(&mut fast));
    }
    assert!(spread.is_wide(), "images: {spread}");
}

fn all_listed(calls: &mut dyn Calls) -> Vec<Record> {
    calls.list(48).expect("an accepted listing")
}
