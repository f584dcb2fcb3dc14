//! What a picture is drawn from: before which starts it shows that the event might have begun, and
//! where the user is out.

use std::ops::Range;

use super::support::{event, program};
use crate::frame::{encode, Frame};
use crate::generate::join;
use crate::story::{Names, Story};
use crate::{Choice, Event};

/// Early moments of the first event at controls 0 to 2, and the extent of the whole.
type Told = ([Option<Range<u64>>; 3], Option<(u64, u64)>);

/// Programs 0 (primacy 0) and 1 (primacy 1), then the frames.
fn text_of(frames: &[Frame]) -> Vec<u8> {
    let programs = [(0, program(0, 0)), (1, program(1, 0))];
    let opening = programs.map(|(number, program)| Frame::Program(number, program));
    let lines: Vec<Vec<u8>> = opening.iter().chain(frames).map(encode).collect();
    join(&lines)
}

fn told(frames: &[Frame]) -> Told {
    let names = Names::default();
    let story = Story::new(&text_of(frames), &names);
    let first = &story.known[0];
    let early = [0, 1, 2].map(|control| first.early(control, story.limit()));
    (early, story.extent())
}

/// Controls 0 and 1, start 5000, randomizeStart -300, start draw -100, program 1.
fn drawn() -> Event {
    Event {
        program: 1,
        controls: 3,
        randomize_start: -300,
        start_draw: -100,
        ..event(1)
    }
}

fn at(clock: u64, event: Event, last: u64) -> Told {
    told(&[Frame::Clock(clock), Frame::Event(event), Frame::Clock(last)])
}

#[test]
fn before_the_start_at_each_control() {
    let early = Some(4_700..4_900);
    let expected = [early.clone(), early, None];
    assert_eq!(
        at(4_000, drawn(), 5_000),
        (expected.clone(), Some((4_700, 5_001)))
    );
    assert_eq!(at(4_000, drawn(), 6_000), (expected, Some((4_700, 5_500))));
}

#[test]
fn none_if_it_starts_at_its_earliest_start() {
    for (randomize_start, start_draw) in [(0, 0), (300, 0), (-300, -300)] {
        let event = Event {
            randomize_start,
            start_draw,
            ..drawn()
        };
        assert_eq!(at(4_000, event, 6_000).0, [None, None, None]);
    }
}

#[test]
fn a_late_one_from_its_earliest_start() {
    let plain = Event {
        randomize_start: 0,
        start_draw: 0,
        ..drawn()
    };
    assert_eq!(at(5_000, plain, 6_000).0[0], Some(5_000..5_001));
    assert_eq!(at(5_200, plain, 6_000).0[0], Some(5_000..5_201));
    assert_eq!(at(5_200, drawn(), 6_000).0[1], Some(4_700..5_201));
}

#[test]
fn none_if_it_has_not_started() {
    let cancelled = |clock| {
        told(&[
            Frame::Event(drawn()),
            Frame::Clock(clock),
            Frame::Cancel(1),
            Frame::Clock(6_000),
        ])
    };
    assert_eq!(at(4_000, drawn(), 4_899).0[0], None);
    assert_eq!(at(4_000, drawn(), 4_900).0[0], Some(4_700..4_900));
    assert_eq!(cancelled(4_899).0[0], None);
    assert_eq!(cancelled(4_900).0[0], Some(4_700..4_900));
}

/// A better event has both controls, or one of them.
#[test]
fn also_where_it_never_holds() {
    for controls in [3, 1] {
        let better = Event {
            controls,
            start: 4_800,
            ..event(2)
        };
        let (early, _) = told(&[
            Frame::Event(drawn()),
            Frame::Event(better),
            Frame::Clock(6_000),
        ]);
        assert_eq!(early, [Some(4_700..4_900), Some(4_700..4_900), None]);
    }
}

/// Where the user is out of the first event at controls 0 to 2, and the marks of calls.
fn outs(frames: &[Frame]) -> ([Vec<Range<u64>>; 3], Vec<(u64, u8, u32)>) {
    let names = Names::default();
    let story = Story::new(&text_of(frames), &names);
    let first = &story.known[0];
    let outs = [0, 1, 2].map(|control| first.out(control, story.limit()));
    let calls = story
        .marks
        .iter()
        .filter(|mark| (4..7).contains(&mark.code));
    let calls = calls.map(|mark| (mark.time, mark.code, mark.controls));
    (outs, calls.collect())
}

const NOWHERE: [Vec<Range<u64>>; 3] = [Vec::new(), Vec::new(), Vec::new()];

/// A better event takes control 0 from 5200 on. A repeat and a choice without a held second show
/// nothing.
#[test]
fn out_while_it_holds_the_control() {
    let both = Event {
        program: 1,
        controls: 3,
        ..event(1)
    };
    let better = Event {
        start: 5_200,
        ..event(2)
    };
    let (out, back) = (Frame::Choice(1, Choice::Out), Frame::Choice(1, Choice::In));
    let (found, calls) = outs(&[
        Frame::Event(both),
        Frame::Event(better),
        Frame::Clock(5_100),
        back,
        out,
        out,
        Frame::Clock(5_300),
        back,
        out,
        back,
        Frame::Clock(5_500),
        out,
        Frame::Clock(6_000),
    ]);
    let second = vec![5_101..5_301, 5_501..5_600];
    assert_eq!(found, [vec![5_101..5_200], second, Vec::new()]);
    let late = [(5_300, 5, 2), (5_300, 4, 2), (5_300, 5, 2), (5_500, 4, 2)];
    assert_eq!(calls, [vec![(5_100, 4, 3)], late.to_vec()].concat());
}

#[test]
fn out_before_the_start_and_to_the_last_reading() {
    let lines = |last| {
        let out = Frame::Choice(1, Choice::Out);
        outs(&[Frame::Event(event(1)), out, Frame::Clock(last)])
    };
    let before = vec![(0, 4, 1)];
    assert_eq!(lines(4_999), (NOWHERE, before.clone()));
    let [first, ..] = lines(5_000).0;
    assert_eq!(first, [5_000..5_001]);
    let [first, ..] = lines(6_000).0;
    assert_eq!(first, [5_000..5_600]);
    assert_eq!(lines(6_000).1, before);
}

/// Cancelled at 5100 while out: the last second is that of the cancellation.
#[test]
fn out_to_a_cancellation() {
    let (found, calls) = outs(&[
        Frame::Event(event(1)),
        Frame::Clock(5_050),
        Frame::Choice(1, Choice::Out),
        Frame::Clock(5_100),
        Frame::Cancel(1),
        Frame::Choice(1, Choice::In),
        Frame::Clock(6_000),
    ]);
    assert_eq!(found[0], [5_051..5_101]);
    assert_eq!(calls, [(5_050, 4, 1), (5_100, 6, 1), (5_100, 5, 1)]);
}
