//! Short words for the tests.

use crate::{Answer, Calls, Event, Fast, Program, Record, Row, Scheduler};

use super::naive::Naive;

/// Room for any clock call.
pub const ROOM: usize = 2_400;

/// The event of the bench marks: start 5000, duration 600, no randomisation, control 0.
pub fn event(id: u128) -> Event {
    Event {
        id,
        controls: 1,
        creation: 100,
        start: 5_000,
        duration: 600,
        ..Event::default()
    }
}

pub fn program(primacy: u8, defaults: u32) -> Program {
    Program { primacy, defaults }
}

/// All three schedulers, each with programs 0 (primacy 0), 1 (primacy 1) and 2 (primacy 1).
pub fn each(test: impl Fn(&mut dyn Calls)) {
    let mut all: [Box<dyn Calls>; 3] = [
        Box::new(Scheduler::fresh()),
        Box::new(Fast::fresh()),
        Box::new(Naive::fresh()),
    ];
    for calls in &mut all {
        assert_eq!(calls.add_program(0, program(0, 0)), Ok(()));
        assert_eq!(calls.add_program(1, program(1, 0)), Ok(()));
        assert_eq!(calls.add_program(2, program(1, 0)), Ok(()));
        test(calls.as_mut());
    }
}

/// The rows as (time, id, code).
pub fn rows_to(calls: &mut dyn Calls, reading: u64) -> Vec<(u64, u128, u8)> {
    let rows = calls.set_clock(reading, ROOM).expect("an accepted reading");
    rows.iter()
        .map(|&Row { time, id, code }| (time, id, code))
        .collect()
}

pub fn listed(calls: &mut dyn Calls, id: u128) -> Record {
    let records = calls.list(48).expect("an accepted listing");
    let record = records.iter().find(|record| record.entry.event.id == id);
    *record.expect("a held event")
}

pub fn effective_start(calls: &mut dyn Calls, id: u128) -> u64 {
    listed(calls, id).entry.effective_start
}

pub fn holder(calls: &mut dyn Calls, control: u8) -> Option<u128> {
    match calls.ask(control) {
        Ok(Answer::Event(id)) => Some(id),
        _ => None,
    }
}
