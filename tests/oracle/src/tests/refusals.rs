//! Both sides of every refusal, and the order of the checks.

use super::support::{each, event, holder, listed, program, rows_to, ROOM};
use crate::{Answer, Calls, Event, Fast, Scheduler};

fn at_4000(calls: &mut dyn Calls) {
    rows_to(calls, 4_000);
}

fn check(expected: Result<u8, u8>, change: impl Fn(&mut Event)) {
    each(|calls| {
        at_4000(calls);
        let mut changed = event(1);
        change(&mut changed);
        assert_eq!(calls.deliver(&changed), expected, "{changed:?}");
    });
}

#[test]
fn program_3_4_5() {
    each(|calls| {
        assert_eq!(calls.add_program(8, program(3, 0)), Err(3));
        assert_eq!(calls.add_program(255, program(0, 0)), Err(3));
        assert_eq!(calls.add_program(0, program(0, 0)), Err(4));
        assert_eq!(calls.add_program(0, program(3, 0)), Err(4));
        for reserved in [3, 64, 192, 255] {
            assert_eq!(calls.add_program(7, program(reserved, 0)), Err(5));
        }
        for (number, usable) in [(3, 2), (4, 65), (5, 191), (7, 0)] {
            assert_eq!(calls.add_program(number, program(usable, 0)), Ok(()));
        }
    });
}

#[test]
fn event_3_and_6() {
    check(Err(3), |e| e.program = 8);
    check(Err(6), |e| e.program = 7);
    check(Ok(1), |e| e.program = 2);
    check(Err(3), |e| (e.program, e.controls) = (8, 0));
    check(Err(6), |e| (e.program, e.controls) = (7, 0));
}

#[test]
fn event_7_plain_fields() {
    check(Err(7), |e| e.controls = 0);
    check(Ok(1), |e| e.controls = 1 << 31);
    check(Err(7), |e| (e.start, e.duration) = (3_599, 9_999));
    check(Ok(1), |e| (e.start, e.duration) = (3_600, 9_999));
    check(Err(7), |e| e.duration = 0);
    check(Ok(1), |e| e.duration = 1);
    check(Ok(1), |e| (e.start, e.duration) = (u32::MAX, u32::MAX));
}

#[test]
fn event_7_randomisations() {
    for wide in [3_601, -3_601, i16::MIN, i16::MAX] {
        check(Err(7), |e| e.randomize_start = wide);
        check(Err(7), |e| e.randomize_duration = wide);
        check(Err(7), |e| (e.randomize_start, e.start_draw) = (wide, wide));
    }
    for widest in [3_600, -3_600] {
        check(Ok(1), |e| e.randomize_start = widest);
        check(Ok(1), |e| e.randomize_duration = widest);
    }
    check(Ok(1), |e| {
        (e.randomize_start, e.start_draw) = (3_600, 3_600 - 3_001)
    });
}

#[test]
fn event_7_draws() {
    for (range, inside, outside) in [
        (9, [0, 5, 9], [-1, 10, i16::MIN]),
        (-9, [0, -5, -9], [1, -10, i16::MAX]),
        (0, [0, 0, 0], [1, -1, i16::MIN]),
    ] {
        for draw in inside {
            check(Ok(1), |e| (e.randomize_start, e.start_draw) = (range, draw));
            check(Ok(1), |e| {
                (e.randomize_duration, e.duration_draw) = (range, draw)
            });
        }
        for draw in outside {
            check(Err(7), |e| {
                (e.randomize_start, e.start_draw) = (range, draw)
            });
            check(Err(7), |e| {
                (e.randomize_duration, e.duration_draw) = (range, draw)
            });
        }
    }
}

#[test]
fn event_8_is_after_7_and_before_9() {
    each(|calls| {
        at_4000(calls);
        assert_eq!(calls.deliver(&event(1)), Ok(1));
        assert_eq!(calls.deliver(&event(1)), Ok(0));
        let mut other = event(1);
        other.creation += 1;
        assert_eq!(calls.deliver(&other), Err(8));
        other.controls = 0;
        assert_eq!(calls.deliver(&other), Err(7));
        let passed = Event {
            start: 3_600,
            duration: 1,
            ..event(1)
        };
        assert_eq!(calls.deliver(&passed), Err(8));
        assert_eq!(calls.cancel(1), Ok(6));
        assert_eq!(calls.deliver(&event(1)), Ok(0));
        assert!(listed(calls, 1).entry.cancelled);
    });
}

#[test]
fn event_9_sent_times_and_effective_end() {
    let longer = Event {
        randomize_duration: 100,
        duration_draw: 100,
        ..event(1)
    };
    each(|calls| {
        rows_to(calls, 5_599);
        assert_eq!(calls.deliver(&longer), Ok(1));
        rows_to(calls, 5_600);
        assert_eq!(calls.deliver(&longer), Ok(0));
        assert_eq!(calls.deliver(&Event { id: 2, ..longer }), Err(9));
    });
    let shorter = Event {
        randomize_duration: -100,
        duration_draw: -100,
        ..event(1)
    };
    each(|calls| {
        rows_to(calls, 5_498);
        assert_eq!(calls.deliver(&shorter), Ok(1));
        rows_to(calls, 5_499);
        assert_eq!(calls.deliver(&Event { id: 2, ..shorter }), Err(9));
    });
}

/// The earliest event of all can end at second 1, which is too late at clock 0.
#[test]
fn event_9_at_clock_0() {
    let earliest = |duration| Event {
        start: 3_600,
        duration,
        randomize_start: -3_600,
        start_draw: -3_600,
        ..event(1)
    };
    each(|calls| {
        assert_eq!(calls.deliver(&earliest(1)), Err(9));
        assert_eq!(calls.deliver(&earliest(2)), Ok(1));
        assert_eq!(rows_to(calls, 9), [(1, 1, 2), (2, 1, 3)]);
    });
}

#[test]
fn event_10_is_after_8_and_9() {
    each(|calls| {
        at_4000(calls);
        for id in 1..=48 {
            assert_eq!(calls.deliver(&event(id)), Ok(1));
        }
        assert_eq!(calls.deliver(&event(49)), Err(10));
        assert_eq!(calls.deliver(&event(48)), Ok(0));
        let late = Event {
            start: 3_600,
            duration: 1,
            ..event(49)
        };
        assert_eq!(calls.deliver(&late), Err(9));
        assert_eq!(calls.list(47), Err(13));
        assert_eq!(calls.list(48).map(|records| records.len()), Ok(48));
        assert_eq!(rows_to(calls, 5_600).len(), 49);
        assert_eq!(calls.list(0), Ok(Vec::new()));
    });
}

#[test]
fn cancel_11() {
    each(|calls| {
        at_4000(calls);
        assert_eq!(calls.cancel(1), Err(11));
        assert_eq!(calls.deliver(&event(1)), Ok(1));
        assert_eq!(calls.cancel(2), Err(11));
        rows_to(calls, 5_599);
        assert_eq!(calls.cancel(1), Ok(6));
        rows_to(calls, 5_600);
        assert_eq!(calls.cancel(1), Err(11));
    });
}

#[test]
fn clock_12_before_13() {
    each(|calls| {
        at_4000(calls);
        assert_eq!(calls.deliver(&event(1)), Ok(1));
        assert_eq!(calls.set_clock(3_999, 0), Err(12));
        assert_eq!(calls.set_clock(4_000, 0), Ok(&[][..]));
        assert_eq!(calls.set_clock(9_000_000_001, 0), Err(12));
        assert_eq!(calls.set_clock(u64::MAX, ROOM), Err(12));
        assert_eq!(calls.set_clock(5_600, 49), Err(13));
        assert_eq!(calls.set_clock(5_600, 0), Err(13));
        assert_eq!(calls.clock(), 4_000);
        assert_eq!(listed(calls, 1).entry.held, 0);
        assert_eq!(calls.set_clock(4_999, 0), Ok(&[][..]));
        assert_eq!(calls.set_clock(5_600, 50).map(|rows| rows.len()), Ok(2));
        assert_eq!(calls.set_clock(9_000_000_000, 0), Ok(&[][..]));
        assert_eq!(calls.set_clock(9_000_000_000, 0), Ok(&[][..]));
    });
}

#[test]
fn ask_14_and_defaults() {
    each(|calls| {
        assert_eq!(calls.ask(32), Err(14));
        assert_eq!(calls.ask(255), Err(14));
        assert_eq!(calls.ask(31), Ok(Answer::None));
        assert_eq!(calls.add_program(7, program(65, 1 << 31)), Ok(()));
        assert_eq!(calls.ask(31), Ok(Answer::Default(7)));
        assert_eq!(calls.add_program(6, program(65, 1 << 31)), Ok(()));
        assert_eq!(calls.ask(31), Ok(Answer::Default(6)));
        assert_eq!(calls.add_program(5, program(66, 1 << 31)), Ok(()));
        assert_eq!(calls.ask(31), Ok(Answer::Default(6)));
        assert_eq!(calls.ask(30), Ok(Answer::None));
    });
}

#[test]
fn an_id_comes_again_after_its_end() {
    each(|calls| {
        at_4000(calls);
        assert_eq!(calls.deliver(&event(1)), Ok(1));
        assert_eq!(calls.cancel(1), Ok(6));
        let next = Event {
            start: 5_700,
            ..event(1)
        };
        rows_to(calls, 5_599);
        assert_eq!(calls.deliver(&next), Err(8));
        rows_to(calls, 5_600);
        assert_eq!(calls.deliver(&event(1)), Err(9));
        assert_eq!(calls.deliver(&next), Ok(1));
        assert_eq!(rows_to(calls, 5_700), [(5_700, 1, 2)]);
        assert_eq!(holder(calls, 0), Some(1));
    });
}

#[test]
fn the_latest_event_of_all_ends() {
    let latest = Event {
        start: u32::MAX,
        duration: u32::MAX,
        randomize_start: 3_600,
        start_draw: 3_600,
        randomize_duration: 3_600,
        duration_draw: 3_600,
        ..event(1)
    };
    // Too far for a scheduler that goes second by second.
    let mut both: [Box<dyn Calls>; 2] = [Box::new(Scheduler::fresh()), Box::new(Fast::fresh())];
    for calls in &mut both {
        assert_eq!(calls.add_program(0, program(0, 0)), Ok(()));
        assert_eq!(calls.deliver(&latest), Ok(1));
        let expected = [(4_294_970_895, 1, 2), (8_589_941_790, 1, 3)];
        assert_eq!(rows_to(calls.as_mut(), 9_000_000_000), expected);
    }
}
