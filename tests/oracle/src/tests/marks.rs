//! The bench marks T1 to T12, the worked example and the misreadings of document 01.

use super::support::{each, effective_start, event, holder, rows_to};
use crate::{Calls, Event};

/// Delivers the event at the clock and gives its effective start and end.
fn period(calls: &mut dyn Calls, clock: u64, event: &Event) -> Result<(u64, u64), u8> {
    rows_to(calls, clock);
    calls.deliver(event)?;
    Ok((effective_start(calls, event.id), event.effective_end()))
}

#[test]
fn t1_to_t4_receipt_and_period() {
    each(|calls| assert_eq!(period(calls, 4_999, &event(1)), Ok((5_000, 5_600))));
    each(|calls| assert_eq!(period(calls, 5_000, &event(1)), Ok((5_001, 5_600))));
    each(|calls| assert_eq!(period(calls, 5_598, &event(1)), Ok((5_599, 5_600))));
    each(|calls| assert_eq!(period(calls, 5_599, &event(1)), Err(9)));
}

#[test]
fn t5_and_t6_start_draw() {
    let drawn = |start_draw| Event {
        randomize_start: -300,
        start_draw,
        ..event(1)
    };
    each(|calls| assert_eq!(period(calls, 4_000, &drawn(-300)), Ok((4_700, 5_300))));
    each(|calls| assert_eq!(period(calls, 4_000, &drawn(-301)), Err(7)));
    each(|calls| assert_eq!(period(calls, 4_000, &drawn(1)), Err(7)));
}

#[test]
fn t7_duration_draw() {
    let drawn = |duration_draw| Event {
        duration: 10,
        randomize_duration: -10,
        duration_draw,
        ..event(1)
    };
    each(|calls| assert_eq!(period(calls, 4_000, &drawn(-10)), Err(7)));
    each(|calls| assert_eq!(period(calls, 4_000, &drawn(-9)), Ok((5_000, 5_001))));
}

/// Delivers all at clock 4000 and gives the rows up to 6000.
fn rows(calls: &mut dyn Calls, events: &[Event]) -> Vec<(u64, u128, u8)> {
    rows_to(calls, 4_000);
    for event in events {
        assert_eq!(calls.deliver(event), Ok(1));
    }
    rows_to(calls, 6_000)
}

#[test]
fn t8_end_before_start() {
    let next = Event {
        start: 5_600,
        duration: 100,
        ..event(2)
    };
    let expected = [(5_000, 1, 2), (5_600, 1, 3), (5_600, 2, 2), (5_700, 2, 3)];
    each(|calls| assert_eq!(rows(calls, &[event(1), next]), expected));
}

#[test]
fn t9_same_start() {
    let worse = Event {
        program: 1,
        ..event(2)
    };
    let expected = [(5_000, 2, 7), (5_000, 1, 2), (5_600, 1, 3)];
    each(|calls| assert_eq!(rows(calls, &[event(1), worse]), expected));
}

#[test]
fn t10_an_event_that_holds_nothing_blocks_nobody() {
    let of_rank = |id, creation, start, duration| Event {
        creation,
        start,
        duration,
        ..event(id)
    };
    let best = of_rank(1, 300, 5_000, 10);
    let next = of_rank(2, 200, 5_005, 25);
    let worst = of_rank(3, 100, 5_012, 8);
    let expected = [
        (5_000, 1, 2),
        (5_005, 2, 7),
        (5_010, 1, 3),
        (5_012, 3, 2),
        (5_020, 3, 3),
    ];
    each(|calls| assert_eq!(rows(calls, &[best, next, worst]), expected));
}

#[test]
fn t11_one_control_of_two_stays() {
    let both = Event {
        program: 1,
        controls: 3,
        ..event(1)
    };
    let better = Event {
        start: 5_300,
        duration: 100,
        ..event(2)
    };
    each(|calls| {
        rows_to(calls, 4_000);
        assert_eq!(calls.deliver(&both), Ok(1));
        assert_eq!(calls.deliver(&better), Ok(1));
        assert_eq!(rows_to(calls, 5_350), [(5_000, 1, 2), (5_300, 2, 2)]);
        assert_eq!((holder(calls, 0), holder(calls, 1)), (Some(2), Some(1)));
        assert_eq!(rows_to(calls, 5_599), [(5_400, 2, 3)]);
        assert_eq!((holder(calls, 0), holder(calls, 1)), (None, Some(1)));
        assert_eq!(rows_to(calls, 5_600), [(5_600, 1, 3)]);
    });
}

#[test]
fn t12_primacy_before_creation() {
    let later = Event {
        program: 1,
        creation: 900,
        ..event(2)
    };
    each(|calls| {
        rows_to(calls, 4_000);
        assert_eq!(calls.deliver(&later), Ok(1));
        assert_eq!(calls.deliver(&event(1)), Ok(1));
        assert_eq!(rows_to(calls, 5_000), [(5_000, 2, 7), (5_000, 1, 2)]);
        assert_eq!(holder(calls, 0), Some(1));
    });
}

#[test]
fn misreading_a_superseded_event_resumes() {
    let long = Event {
        program: 1,
        ..event(1)
    };
    let short = Event {
        start: 5_100,
        duration: 10,
        ..event(2)
    };
    let expected = [(5_000, 1, 2), (5_100, 1, 7), (5_100, 2, 2), (5_110, 2, 3)];
    each(|calls| assert_eq!(rows(calls, &[long, short]), expected));
}

#[test]
fn misreading_an_event_that_lost_its_control_blocks_others() {
    let lost = Event {
        creation: 200,
        ..event(1)
    };
    let taker = Event {
        creation: 300,
        start: 5_100,
        duration: 10,
        ..event(2)
    };
    let worst = Event {
        start: 5_110,
        duration: 5,
        ..event(3)
    };
    let expected = [
        (5_000, 1, 2),
        (5_100, 1, 7),
        (5_100, 2, 2),
        (5_110, 2, 3),
        (5_110, 3, 2),
        (5_115, 3, 3),
    ];
    each(|calls| assert_eq!(rows(calls, &[lost, taker, worst]), expected));
}

/// The finished event is gone when the one that it beat is looked at again.
#[test]
fn misreading_a_finished_event_revives_one_that_it_beat() {
    let best = Event {
        duration: 50,
        ..event(1)
    };
    let beaten = Event {
        program: 1,
        start: 5_010,
        ..event(2)
    };
    each(|calls| {
        rows_to(calls, 4_000);
        assert_eq!(calls.deliver(&best), Ok(1));
        assert_eq!(calls.deliver(&beaten), Ok(1));
        rows_to(calls, 5_050);
        assert_eq!(holder(calls, 0), None);
        let other = Event {
            controls: 2,
            start: 5_100,
            ..event(3)
        };
        assert_eq!(calls.deliver(&other), Ok(1));
        assert_eq!(rows_to(calls, 5_200), [(5_100, 3, 2)]);
        assert_eq!(holder(calls, 0), None);
        assert_eq!(rows_to(calls, 5_620), []);
        assert_eq!(calls.list(48).map(|records| records.len()), Ok(1));
    });
}

#[test]
fn misreading_drawing_afresh_on_a_second_delivery() {
    let first = Event {
        randomize_start: 100,
        start_draw: 40,
        ..event(1)
    };
    let again = Event {
        start_draw: 70,
        ..first
    };
    each(|calls| {
        rows_to(calls, 4_000);
        assert_eq!(calls.deliver(&first), Ok(1));
        assert_eq!(calls.deliver(&again), Err(8));
        rows_to(calls, 5_100);
        assert_eq!(calls.deliver(&first), Ok(0));
        assert_eq!(effective_start(calls, 1), 5_040);
    });
}

#[test]
fn misreading_ranking_by_receipt() {
    let newer = Event {
        creation: 200,
        ..event(1)
    };
    each(|calls| {
        rows_to(calls, 4_000);
        assert_eq!(calls.deliver(&newer), Ok(1));
        rows_to(calls, 4_500);
        assert_eq!(calls.deliver(&event(2)), Ok(1));
        rows_to(calls, 5_000);
        assert_eq!(holder(calls, 0), Some(1));
    });
}

#[test]
fn larger_id_breaks_a_tie() {
    each(|calls| {
        let expected = [(5_000, 4, 7), (5_000, 5, 7), (5_000, 9, 2), (5_600, 9, 3)];
        assert_eq!(rows(calls, &[event(5), event(9), event(4)]), expected);
    });
}

#[test]
fn cancel_at_the_start_and_a_second_sooner_or_later() {
    let worse_at = |start| Event {
        program: 1,
        start,
        duration: 50,
        ..event(2)
    };
    each(|calls| {
        rows_to(calls, 4_000);
        assert_eq!(calls.deliver(&event(1)), Ok(1));
        assert_eq!(calls.deliver(&worse_at(5_000)), Ok(1));
        assert_eq!(rows_to(calls, 4_999), []);
        assert_eq!(calls.cancel(1), Ok(6));
        assert_eq!(rows_to(calls, 5_700), [(5_000, 2, 2), (5_050, 2, 3)]);
    });
    each(|calls| {
        rows_to(calls, 4_000);
        assert_eq!(calls.deliver(&event(1)), Ok(1));
        assert_eq!(calls.deliver(&worse_at(5_000)), Ok(1));
        assert_eq!(rows_to(calls, 5_000), [(5_000, 2, 7), (5_000, 1, 2)]);
        assert_eq!(calls.cancel(1), Ok(6));
        assert_eq!(calls.cancel(1), Ok(0));
        assert_eq!(holder(calls, 0), None);
        assert_eq!(rows_to(calls, 5_700), []);
    });
    each(|calls| {
        rows_to(calls, 4_000);
        assert_eq!(calls.deliver(&event(1)), Ok(1));
        assert_eq!(calls.deliver(&worse_at(5_001)), Ok(1));
        assert_eq!(rows_to(calls, 5_000), [(5_000, 1, 2)]);
        assert_eq!(calls.cancel(1), Ok(6));
        assert_eq!(rows_to(calls, 5_700), [(5_001, 2, 2), (5_051, 2, 3)]);
    });
}

#[test]
fn cancel_in_the_last_second_gives_no_end() {
    each(|calls| {
        rows_to(calls, 4_000);
        assert_eq!(calls.deliver(&event(1)), Ok(1));
        rows_to(calls, 5_599);
        assert_eq!(holder(calls, 0), Some(1));
        assert_eq!(calls.cancel(1), Ok(6));
        assert_eq!(rows_to(calls, 5_600), []);
        assert_eq!(calls.cancel(1), Err(11));
    });
}

/// Two better events take one control each in the same second.
#[test]
fn two_takers_leave_nothing() {
    let both = Event {
        program: 1,
        controls: 3,
        ..event(1)
    };
    let taker = |id, controls| Event {
        controls,
        start: 5_100,
        duration: 500,
        ..event(id)
    };
    let expected = [
        (5_000, 1, 2),
        (5_100, 1, 7),
        (5_100, 2, 2),
        (5_100, 3, 2),
        (5_600, 2, 3),
        (5_600, 3, 3),
    ];
    each(|calls| assert_eq!(rows(calls, &[taker(3, 2), both, taker(2, 1)]), expected));
}

/// Displaced exactly at its end: that is an end.
#[test]
fn displaced_at_the_end_is_an_end() {
    let worse = Event {
        program: 1,
        ..event(1)
    };
    let better = Event {
        start: 5_600,
        duration: 10,
        ..event(2)
    };
    let expected = [(5_000, 1, 2), (5_600, 1, 3), (5_600, 2, 2), (5_610, 2, 3)];
    each(|calls| assert_eq!(rows(calls, &[worse, better]), expected));
}
