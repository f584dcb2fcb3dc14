//! Pairs of lists meet the premise of demand 3, and then its conclusion holds.

use std::collections::{BTreeMap, BTreeSet};

use super::support::{listed, ROOM};
use crate::calls::lines_of;
use crate::choice::Made;
use crate::pair::pair;
use crate::{decode, Answer, Calls, Event, Frame, Record, Row, Scheduler};

/// What demand 3 says of a list: first its premise, then its results.
#[derive(PartialEq, Debug, Default)]
struct Premise {
    programs: BTreeSet<(u8, u8, u32)>,
    events: BTreeSet<Event>,
    cancellations: BTreeMap<Event, u64>,
    /// Without repeats of the present choice.
    choices: BTreeMap<Event, Vec<Made>>,
    last: u64,
}

#[derive(PartialEq, Debug)]
struct Results {
    rows: Vec<Row>,
    held: Vec<Record>,
    answers: Vec<Answer>,
}

fn run(text: &[u8]) -> (Premise, Results) {
    let mut calls = Scheduler::fresh();
    let mut premise = Premise::default();
    let mut rows = Vec::new();
    for line in lines_of(text) {
        if let Some(frame) = decode(line) {
            follow(&mut calls, frame, &mut premise, &mut rows);
            assert_no_two_holders(&mut calls);
        }
    }
    premise.last = calls.clock();
    assert_eq!(rows, calls.rows_so_far());
    let results = Results {
        rows,
        held: calls.list(48).expect("a listing"),
        answers: (0..32).filter_map(|c| calls.ask(c).ok()).collect(),
    };
    (premise, results)
}

fn follow(calls: &mut Scheduler, frame: Frame, premise: &mut Premise, rows: &mut Vec<Row>) {
    match frame {
        Frame::Event(event) => {
            if calls.deliver(&event) == Ok(1) {
                assert!(calls.clock() < event.drawn_start());
                premise.events.insert(event);
            }
        }
        Frame::Cancel(id) => {
            if calls.cancel(id) == Ok(6) {
                let event = listed(calls, id).entry.event;
                premise.cancellations.insert(event, calls.clock());
            }
        }
        Frame::Choice(id, choice) => {
            if calls.choose(id, choice) == Ok(choice.code()) {
                let event = listed(calls, id).entry.event;
                let choices = premise.choices.entry(event).or_default();
                choices.push((calls.clock(), choice));
            }
        }
        Frame::Clock(reading) => {
            if let Ok(more) = calls.set_clock(reading, ROOM) {
                rows.extend_from_slice(more);
            }
        }
        Frame::Program(number, program) => {
            if calls.add_program(number, program).is_ok() {
                let entry = (number, program.primacy, program.defaults);
                premise.programs.insert(entry);
            }
        }
        Frame::Ask(_) => (),
    }
}

fn assert_no_two_holders(calls: &mut Scheduler) {
    let mut seen = 0;
    for record in calls.list(48).expect("a listing") {
        assert_eq!(seen & record.entry.held, 0);
        seen |= record.entry.held;
    }
}

/// How many lines opt out or in.
fn choices_in(text: &[u8]) -> usize {
    let is_choice = |frame: &Frame| matches!(frame, Frame::Choice(..));
    lines_of(text).filter_map(decode).filter(is_choice).count()
}

#[test]
fn pairs_meet_premise_and_conclusion() {
    let (mut with_rows, mut different, mut more_choices) = (0, 0, 0);
    let mut codes = BTreeMap::new();
    for seed in 0..1_500 {
        let (first, second) = pair(seed);
        let (premise, results) = run(&first);
        let (other_premise, other_results) = run(&second);
        assert_eq!(premise, other_premise, "seed {seed}");
        assert_eq!(results, other_results, "seed {seed}");
        with_rows += usize::from(results.rows.len() > 3);
        different += usize::from(first != second);
        more_choices += usize::from(choices_in(&first) != choices_in(&second));
        for row in &results.rows {
            *codes.entry(row.code).or_insert(0) += 1;
        }
    }
    assert!(with_rows > 700, "{with_rows}");
    assert!(different > 1_400, "{different}");
    assert!(more_choices > 700, "{more_choices}");
    let often = [2, 3, 7, 8, 9, 10].map(|code| codes[&code] > 200);
    assert_eq!(often, [true; 6], "{codes:?}");
}
