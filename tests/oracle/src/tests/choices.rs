//! Opting out and in, document 02, #102: answers, questions, codes at the end, and the choice byte.

use std::collections::{BTreeMap, HashMap};

use super::support::{each, event, holder, listed, program, rows_to};
use crate::calls::lines_of;
use crate::choice::Choice::{self, In, Out};
use crate::choice::Made;
use crate::generate::generate;
use crate::{decode, Answer, Calls, Entry, Event, Fast, Frame, Scheduler};

/// Makes each choice at its clock. None is a repeat.
fn make(calls: &mut dyn Calls, id: u128, choices: &[Made]) {
    for &(clock, choice) in choices {
        rows_to(calls, clock);
        assert_eq!(calls.choose(id, choice), Ok(choice.code()), "{choices:?}");
    }
}

fn receive(calls: &mut dyn Calls, clock: u64, events: &[Event]) {
    rows_to(calls, clock);
    for event in events {
        assert_eq!(calls.deliver(event), Ok(1));
    }
}

/// The choice byte of a held event.
fn byte(calls: &mut dyn Calls, id: u128) -> u8 {
    listed(calls, id).entry.participation.byte()
}

/// The event of the bench marks, 5000 to 5600, gives this code at its end.
fn ends_with(code: u8, choices: &[Made]) {
    each(|calls| {
        receive(calls, 4_000, &[event(1)]);
        make(calls, 1, choices);
        let rows = rows_to(calls, 5_600);
        assert_eq!(rows.last(), Some(&(5_600, 1, code)), "{choices:?}");
    });
}

#[test]
fn in_throughout_is_3() {
    ends_with(3, &[]);
    ends_with(3, &[(4_000, Out), (4_000, In)]);
    ends_with(3, &[(4_000, Out), (4_998, In)]);
    ends_with(3, &[(4_000, Out), (4_999, In)]);
    ends_with(3, &[(5_100, Out), (5_100, In)]);
    ends_with(3, &[(5_598, Out), (5_598, In)]);
    ends_with(3, &[(5_599, Out)]);
    ends_with(3, &[(5_599, Out), (5_599, In)]);
}

#[test]
fn out_throughout_is_10() {
    ends_with(10, &[(4_000, Out)]);
    ends_with(10, &[(4_998, Out)]);
    ends_with(10, &[(4_999, Out)]);
    ends_with(10, &[(4_999, Out), (5_300, In), (5_300, Out)]);
    ends_with(10, &[(4_999, Out), (5_599, In)]);
    ends_with(10, &[(4_000, Out), (4_500, In), (4_999, Out)]);
}

#[test]
fn partly_in_and_out_at_the_end_is_8() {
    ends_with(8, &[(5_000, Out)]);
    ends_with(8, &[(5_001, Out)]);
    ends_with(8, &[(5_597, Out)]);
    ends_with(8, &[(5_598, Out)]);
    ends_with(8, &[(4_999, Out), (5_000, In), (5_001, Out)]);
    ends_with(8, &[(5_100, Out), (5_200, In), (5_599, Out)]);
    ends_with(8, &[(4_999, Out), (5_598, In), (5_599, Out)]);
}

#[test]
fn partly_in_and_in_at_the_end_is_9() {
    ends_with(9, &[(4_999, Out), (5_000, In)]);
    ends_with(9, &[(4_999, Out), (5_598, In)]);
    ends_with(9, &[(5_000, Out), (5_001, In)]);
    ends_with(9, &[(5_100, Out), (5_200, In)]);
    ends_with(9, &[(5_100, Out), (5_599, In)]);
    ends_with(9, &[(5_598, Out), (5_599, In)]);
}

/// One reading to the end and a reading of each second give the same.
#[test]
fn readings_between_do_not_count() {
    for (code, made) in [(10, (4_999, Out)), (8, (5_000, Out)), (8, (5_598, Out))] {
        each(|calls| {
            receive(calls, 4_000, &[event(1)]);
            make(calls, 1, &[made]);
            let seconds = made.0 + 1..=5_600;
            let rows: Vec<_> = seconds.flat_map(|second| rows_to(calls, second)).collect();
            assert_eq!(rows.last(), Some(&(5_600, 1, code)));
        });
    }
}

/// From 5000 to 5001.
#[test]
fn an_event_of_one_second() {
    let short = Event {
        duration: 1,
        ..event(1)
    };
    let cases: [(u8, &[Made]); 4] = [
        (3, &[]),
        (10, &[(4_999, Out)]),
        (3, &[(5_000, Out)]),
        (10, &[(4_999, Out), (5_000, In)]),
    ];
    for (code, choices) in cases {
        each(|calls| {
            receive(calls, 4_000, &[short]);
            make(calls, 1, choices);
            assert_eq!(rows_to(calls, 5_001).last(), Some(&(5_001, 1, code)));
        });
    }
}

/// Received at 5000, it starts at 5001, so a choice at the receipt counts for all of it.
#[test]
fn a_late_event_opted_out_at_its_receipt() {
    for (code, made) in [(10, (5_000, Out)), (8, (5_001, Out))] {
        each(|calls| {
            receive(calls, 5_000, &[event(1)]);
            make(calls, 1, &[made]);
            assert_eq!(rows_to(calls, 5_600).last(), Some(&(5_600, 1, code)));
        });
    }
}

#[test]
fn answers_4_5_and_0() {
    each(|calls| {
        receive(calls, 4_000, &[event(1)]);
        for (choice, answer) in [(In, 0), (Out, 4), (Out, 0), (In, 5), (In, 0), (Out, 4)] {
            assert_eq!(calls.choose(1, choice), Ok(answer));
        }
        assert_eq!(calls.deliver(&event(1)), Ok(0));
        assert_eq!(calls.choose(1, Out), Ok(0));
    });
}

#[test]
fn an_id_not_held_is_11() {
    each(|calls| {
        for choice in [In, Out] {
            assert_eq!(calls.choose(1, choice), Err(11));
        }
        receive(calls, 4_000, &[event(1)]);
        assert_eq!(calls.choose(2, Out), Err(11));
        rows_to(calls, 5_599);
        assert_eq!(calls.choose(1, Out), Ok(4));
        rows_to(calls, 5_600);
        for choice in [In, Out] {
            assert_eq!(calls.choose(1, choice), Err(11));
        }
    });
}

/// The choice goes with the event, not with its id.
#[test]
fn an_id_used_again_is_in() {
    let next = Event {
        start: 5_700,
        ..event(1)
    };
    each(|calls| {
        receive(calls, 4_000, &[event(1)]);
        make(calls, 1, &[(4_500, Out)]);
        assert_eq!(rows_to(calls, 5_600), [(5_000, 1, 2), (5_600, 1, 10)]);
        receive(calls, 5_600, &[next]);
        assert_eq!(byte(calls, 1), 0);
        assert_eq!(calls.choose(1, In), Ok(0));
        assert_eq!(rows_to(calls, 6_300), [(5_700, 1, 2), (6_300, 1, 3)]);
    });
}

/// 7 and 2 are given whatever was chosen.
#[test]
fn starts_and_losses_stay() {
    let worse = Event {
        program: 1,
        ..event(1)
    };
    let better = Event {
        start: 5_100,
        duration: 10,
        ..event(2)
    };
    let expected = [(5_000, 1, 2), (5_100, 1, 7), (5_100, 2, 2), (5_110, 2, 10)];
    each(|calls| {
        receive(calls, 4_000, &[worse, better]);
        make(calls, 1, &[(4_500, Out)]);
        make(calls, 2, &[(4_500, Out)]);
        assert_eq!(rows_to(calls, 5_600), expected);
    });
}

/// Only seconds in which it holds something count, and a superseded event stays held.
#[test]
fn a_superseded_event() {
    let worse = Event {
        program: 1,
        ..event(1)
    };
    let better = Event {
        start: 5_100,
        duration: 10,
        ..event(2)
    };
    each(|calls| {
        receive(calls, 4_000, &[worse, better]);
        rows_to(calls, 5_099);
        assert_eq!((calls.choose(1, Out), byte(calls, 1)), (Ok(4), 3));
        rows_to(calls, 5_100);
        assert_eq!((calls.choose(1, In), byte(calls, 1)), (Ok(5), 2));
        assert_eq!((calls.choose(1, Out), byte(calls, 1)), (Ok(4), 3));
        rows_to(calls, 5_599);
        assert_eq!((calls.choose(1, Out), byte(calls, 1)), (Ok(0), 3));
        assert_eq!(rows_to(calls, 5_600), []);
    });
}

/// One control of two is lost; the other is held to the end.
#[test]
fn a_control_lost_midway() {
    let both = Event {
        program: 1,
        controls: 3,
        ..event(1)
    };
    let better = Event {
        start: 5_300,
        duration: 100,
        ..event(2)
    };
    each(|calls| {
        receive(calls, 4_000, &[both, better]);
        make(calls, 1, &[(5_350, Out)]);
        assert_eq!((holder(calls, 0), holder(calls, 1)), (Some(2), None));
        assert_eq!(byte(calls, 1), 3);
        assert_eq!(rows_to(calls, 5_600), [(5_400, 2, 3), (5_600, 1, 8)]);
    });
}

/// What it holds at the clock of the cancellation counts, nothing after it.
#[test]
fn a_cancelled_event() {
    let cases = [
        (4_999, 0, [1, 0, 1]),
        (5_000, 2, [3, 2, 3]),
        (5_599, 2, [3, 2, 3]),
    ];
    for (clock, before, bytes) in cases {
        each(|calls| {
            receive(calls, 4_000, &[event(1)]);
            rows_to(calls, clock);
            assert_eq!(calls.cancel(1), Ok(6));
            assert_eq!(byte(calls, 1), before);
            for (choice, wanted) in [Out, In, Out].into_iter().zip(bytes) {
                assert_eq!(calls.choose(1, choice), Ok(choice.code()));
                assert_eq!(byte(calls, 1), wanted);
            }
            rows_to(calls, 5_599);
            assert_eq!(byte(calls, 1), bytes[2]);
            assert_eq!(rows_to(calls, 5_600), []);
        });
    }
}

/// Out when it is cancelled in its start second: that second was out.
#[test]
fn an_opted_out_event_cancelled_at_its_start() {
    each(|calls| {
        receive(calls, 4_000, &[event(1)]);
        make(calls, 1, &[(4_999, Out)]);
        assert_eq!(rows_to(calls, 5_000), [(5_000, 1, 2)]);
        assert_eq!(calls.cancel(1), Ok(6));
        assert_eq!((calls.choose(1, In), byte(calls, 1)), (Ok(5), 4));
        assert_eq!(rows_to(calls, 5_600), []);
    });
}

#[test]
fn the_byte_at_each_stage() {
    each(|calls| {
        receive(calls, 4_000, &[event(1)]);
        assert_eq!(byte(calls, 1), 0);
        make(calls, 1, &[(4_998, Out)]);
        assert_eq!(byte(calls, 1), 1);
        for (clock, wanted) in [(4_999, 1), (5_000, 5), (5_001, 5)] {
            rows_to(calls, clock);
            assert_eq!(byte(calls, 1), wanted);
        }
        make(calls, 1, &[(5_001, In)]);
        assert_eq!(byte(calls, 1), 4);
        rows_to(calls, 5_002);
        assert_eq!(byte(calls, 1), 6);
        make(calls, 1, &[(5_599, Out)]);
        assert_eq!(byte(calls, 1), 7);
        assert_eq!(rows_to(calls, 5_600), [(5_600, 1, 8)]);
    });
}

// Questions.

#[test]
fn a_question_goes_by_the_choice_at_once() {
    each(|calls| {
        receive(calls, 4_000, &[event(1)]);
        rows_to(calls, 5_000);
        assert_eq!(calls.ask(0), Ok(Answer::Event(1)));
        assert_eq!(calls.choose(1, Out), Ok(4));
        assert_eq!(calls.ask(0), Ok(Answer::None));
        assert_eq!(listed(calls, 1).entry.held, 1);
        assert_eq!(calls.choose(1, In), Ok(5));
        assert_eq!(calls.ask(0), Ok(Answer::Event(1)));
    });
}

/// No worse event steps in; the default is that of the best program.
#[test]
fn an_opted_out_event_keeps_its_rank_and_its_controls() {
    let worse = Event {
        program: 1,
        start: 5_100,
        ..event(2)
    };
    each(|calls| {
        assert_eq!(calls.add_program(6, program(65, 1)), Ok(()));
        assert_eq!(calls.add_program(5, program(2, 1)), Ok(()));
        receive(calls, 4_000, &[event(1), worse]);
        make(calls, 1, &[(4_500, Out)]);
        assert_eq!(rows_to(calls, 5_100), [(5_000, 1, 2), (5_100, 2, 7)]);
        assert_eq!(calls.ask(0), Ok(Answer::Default(5)));
        assert_eq!(listed(calls, 1).entry.held, 1);
        assert_eq!(listed(calls, 2).entry.held, 0);
        assert_eq!(calls.choose(1, In), Ok(5));
        assert_eq!(calls.ask(0), Ok(Answer::Event(1)));
    });
}

#[test]
fn out_of_one_event_is_in_for_the_others() {
    let other = Event {
        controls: 2,
        ..event(2)
    };
    each(|calls| {
        receive(calls, 4_000, &[event(1), other]);
        make(calls, 1, &[(5_200, Out)]);
        assert_eq!((holder(calls, 0), holder(calls, 1)), (None, Some(2)));
        assert_eq!(rows_to(calls, 5_600), [(5_600, 1, 8), (5_600, 2, 3)]);
    });
}

// The order of rows.

/// Four ends in one second, each with its own code, in any order of the ids.
#[test]
fn ends_go_by_id_whatever_their_codes() {
    let on_own_control = |id| Event {
        controls: 1 << id as u32,
        ..event(id)
    };
    let ids = [0, 1, 2, 3];
    for shift in ids {
        let code_of = |id: u128| [3, 8, 9, 10][(id + shift) as usize % 4];
        each(|calls| {
            receive(calls, 4_000, &ids.map(on_own_control));
            let mut choose = |clock, choice, codes: &[u8]| {
                for id in ids.into_iter().filter(|&id| codes.contains(&code_of(id))) {
                    make(calls, id, &[(clock, choice)]);
                }
            };
            choose(4_000, Out, &[10]);
            choose(5_200, Out, &[8, 9]);
            choose(5_300, In, &[9]);
            let expected = ids.map(|id| (5_600, id, code_of(id)));
            assert_eq!(rows_to(calls, 5_600), expected);
        });
    }
}

/// At 5600: an end with 10, a loss, an end with 3 and two starts.
#[test]
fn ends_come_before_losses_and_starts() {
    let at = |id, controls, program, start| Event {
        controls,
        program,
        start,
        ..event(id)
    };
    let events = [
        at(5, 1, 0, 5_000),
        at(9, 2, 0, 5_000),
        at(2, 4, 1, 5_100),
        at(1, 4, 0, 5_600),
        at(3, 1, 0, 5_600),
    ];
    let expected = [
        (5_600, 5, 3),
        (5_600, 9, 10),
        (5_600, 2, 7),
        (5_600, 1, 2),
        (5_600, 3, 2),
    ];
    each(|calls| {
        receive(calls, 4_000, &events);
        make(calls, 9, &[(4_500, Out)]);
        rows_to(calls, 5_599);
        assert_eq!(rows_to(calls, 5_600), expected);
    });
}

// The image.

/// The image at the clock with the event of the bench marks, held or not, cancelled or not, and
/// this choice byte at the end of its entry.
fn image(clock: u64, held: u8, cancelled: u8, choice: u8) -> Vec<u8> {
    let mut fast = Fast::fresh();
    assert_eq!(fast.add_program(0, program(0, 0)), Ok(()));
    receive(&mut fast, 4_000, &[event(1)]);
    rows_to(&mut fast, clock);
    let mut bytes = fast.to_image();
    bytes[57 + 52..57 + 55].copy_from_slice(&[held, cancelled, choice]);
    bytes
}

/// Whether both schedulers take the bytes, and then give them back.
fn accepts(bytes: &[u8]) -> bool {
    let history = Scheduler::from_image(bytes);
    let fast = Fast::from_image(bytes);
    assert_eq!(history.is_some(), fast.is_some());
    if let Some((mut history, fast)) = history.zip(fast) {
        assert_eq!(history.to_image(), bytes);
        assert_eq!(fast.to_image(), bytes);
        return true;
    }
    false
}

#[test]
fn every_choice_byte_at_every_stage() {
    for choice in 0..=255 {
        let is_waiting = choice < 2;
        let is_holding = (2..8).contains(&choice);
        assert_eq!(accepts(&image(4_999, 0, 0, choice)), is_waiting);
        assert_eq!(accepts(&image(4_999, 0, 1, choice)), is_waiting);
        for clock in [5_000, 5_599] {
            assert_eq!(accepts(&image(clock, 1, 0, choice)), is_holding);
            assert_eq!(accepts(&image(clock, 0, 0, choice)), choice < 8);
            assert_eq!(accepts(&image(clock, 0, 1, choice)), choice < 8);
        }
    }
}

#[test]
fn the_choice_byte_of_an_unused_entry_is_zero() {
    for entry in 1..48 {
        let mut bytes = image(5_000, 1, 0, 2);
        assert!(accepts(&bytes));
        bytes[57 + 55 * entry + 54] = 1;
        assert!(!accepts(&bytes));
    }
    assert_eq!(image(5_000, 1, 0, 2).len(), 2_697);
}

/// From the choice byte to the code at the end, a hundred seconds before it and in the last second.
#[test]
fn an_image_runs_on_by_its_choice_byte() {
    let cases = [
        (2, 3, 3),
        (3, 8, 3),
        (4, 9, 10),
        (5, 10, 10),
        (6, 9, 9),
        (7, 8, 8),
    ];
    for (choice, early, late) in cases {
        for (clock, code) in [(5_500, early), (5_599, late)] {
            let bytes = image(clock, 1, 0, choice);
            let mut history = Scheduler::from_image(&bytes).expect("an image");
            let mut fast = Fast::from_image(&bytes).expect("an image");
            let expected = [(5_600, 1, code)];
            assert_eq!(rows_to(&mut history, 5_600), expected, "{choice} {clock}");
            assert_eq!(rows_to(&mut fast, 5_600), expected, "{choice} {clock}");
        }
    }
}

/// A started event that holds nothing gives no row, whatever its choice byte says.
#[test]
fn an_image_of_an_event_that_holds_nothing() {
    for choice in 0..8 {
        let bytes = image(5_500, 0, 0, choice);
        let mut history = Scheduler::from_image(&bytes).expect("an image");
        rows_to(&mut history, 5_599);
        assert_eq!(byte(&mut history, 1), choice);
        assert_eq!(rows_to(&mut history, 5_600), []);
    }
}

// What the generators reach.

/// What of an event's life a choice may meet, and whether this one does.
type Met = (&'static str, bool);

fn met(entry: &Entry, clock: u64, choice: Choice) -> Vec<Met> {
    let (start, end) = (entry.effective_start, entry.event.effective_end());
    let (cancelled, holding, waiting) = (entry.cancelled, entry.held != 0, clock < start);
    vec![
        ("start - 2", clock + 2 == start),
        ("start - 1", clock + 1 == start),
        ("start", clock == start),
        ("start + 1", clock == start + 1),
        ("end - 2", clock + 2 == end),
        ("end - 1", clock + 1 == end),
        ("holding", holding),
        ("waiting", waiting),
        ("cancelled", cancelled),
        ("superseded", !cancelled && !waiting && !holding),
        ("repeated", choice == entry.participation.choice),
    ]
}

/// How often each comes in the list.
fn count_met(text: &[u8], counts: &mut BTreeMap<&'static str, usize>) {
    let mut fast = Fast::fresh();
    let mut ends = HashMap::new();
    for line in lines_of(text) {
        let (entries, clock) = (fast.entries(), fast.clock());
        if let Some(Frame::Choice(id, choice)) = decode(line) {
            let found = match entries.iter().find(|entry| entry.event.id == id) {
                Some(entry) => met(entry, clock, choice),
                None => vec![("not held", true), ("end", ends.get(&id) == Some(&clock))],
            };
            for (what, is_met) in found {
                *counts.entry(what).or_default() += usize::from(is_met);
            }
        }
        let events = entries.iter().map(|entry| entry.event);
        ends.extend(events.map(|event| (event.id, event.effective_end())));
        fast.line(line, &mut Vec::new());
    }
}

#[test]
fn generators_choose_at_every_edge() {
    for profile in ["choices", "tight", "reuse", "cancel", "ties", "mixed"] {
        let mut counts = BTreeMap::new();
        for seed in 0..40 {
            let text = generate(seed, 1_000, profile).expect("a profile");
            count_met(&text, &mut counts);
        }
        assert_eq!(counts.len(), 13);
        assert!(
            counts.values().all(|&count| count >= 40),
            "{profile}: {counts:?}"
        );
    }
}
