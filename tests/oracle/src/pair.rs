//! Pairs of lists that meet the premise of demand 3: the same programs, events, cancellations at
//! the same clocks, choices for each event in the same sequence at the same clocks, and last
//! reading, and everything else different.

use std::collections::{BTreeMap, BTreeSet};

use crate::calls::Calls;
use crate::choice::Choice;
use crate::event::{Event, Program};
use crate::fast::Fast;
use crate::frame::{encode, Frame};
use crate::generate::{idle_line, join};
use crate::ids;
use crate::random::Dice;

/// An event with the clocks between which it may be received, the one at which it is cancelled and
/// those at which the user opts out, in again, out and so on. Repeats come in by idle lines.
#[derive(Clone, Debug)]
struct Planned {
    event: Event,
    earliest: u64,
    latest: u64,
    cancelled_at: Option<u64>,
    chosen_at: Vec<u64>,
}

#[derive(Clone, Debug)]
struct Scenario {
    programs: Vec<(u8, Program)>,
    events: Vec<Planned>,
    last: u64,
}

/// Two texts of lines. Each ends with a question for every control.
pub fn pair(seed: u64) -> (Vec<u8>, Vec<u8>) {
    let mut dice = Dice::new(seed);
    loop {
        let scenario = draw_scenario(&mut dice);
        let first = arrange(&scenario, &mut dice.fork());
        let second = arrange(&scenario, &mut dice.fork());
        if let (Some(first), Some(second)) = (first, second) {
            return (first, second);
        }
    }
}

fn draw_scenario(dice: &mut Dice) -> Scenario {
    let programs = draw_programs(dice);
    let size = dice.pick(&[0, 1, 2, 3, 5, 8, 12, 20, 30, 44, 60, 90]);
    let ids = dice.pick(&[2, 4, 10, 1_000, u64::MAX]);
    let span = dice.pick(&[5, 20, 60, 300]);
    let mut free_from = BTreeMap::new();
    let mut events = Vec::new();
    for _ in 0..size {
        let id = draw_id(dice, ids, &events);
        let earliest = free_from.get(&id).copied().unwrap_or(0);
        let program = dice.pick(&programs).0;
        let planned = draw_planned(dice, id, program, earliest, span);
        if planned.earliest <= planned.latest {
            free_from.insert(id, planned.event.effective_end());
            events.push(planned);
        }
    }
    cut(dice, programs, events)
}

/// Often one that has a half of the id drawn before.
fn draw_id(dice: &mut Dice, ids: u64, events: &[Planned]) -> u128 {
    let small = dice.below(ids);
    match events.last() {
        Some(before) if dice.chance(1, 4) => ids::beside(dice, before.event.id),
        _ => ids::around(dice, small),
    }
}

fn draw_programs(dice: &mut Dice) -> Vec<(u8, Program)> {
    let count = dice.between(1, 8) as u8;
    let shift = dice.below(8) as u8;
    let program = |number: u8| {
        let primacy = dice.pick(&[0, 1, 1, 2, 65, 65, 191]);
        let defaults = dice.roll() as u32 & dice.roll() as u32;
        ((number + shift) % 8, Program { primacy, defaults })
    };
    (0..count).map(program).collect()
}

/// An event that can be received from `earliest` on and before its drawn start.
fn draw_planned(dice: &mut Dice, id: u128, program: u8, earliest: u64, span: u64) -> Planned {
    let randomize_start = dice.pick(&[0, 0, 0, 4, -4, 30, -30]);
    let randomize_duration = dice.pick(&[0, 0, 0, 3, -3, 25]);
    let start_draw = dice.between(0.min(randomize_start), 0.max(randomize_start));
    let duration_draw = dice.between(0.min(randomize_duration), 0.max(randomize_duration));
    let base = earliest.max(3_599) as i64 + 1 + dice.below(span) as i64;
    let length = 1 + dice.below(span) as i64;
    let event = Event {
        id,
        program,
        controls: dice.pick(&[1, 2, 3, 5, 6, 7, 1 << 31, u32::MAX]),
        creation: dice.below(3) as u32,
        start: (base - start_draw).max(3_600) as u32,
        duration: (length - duration_draw).max(1) as u32,
        randomize_start: randomize_start as i16,
        randomize_duration: randomize_duration as i16,
        start_draw: start_draw as i16,
        duration_draw: duration_draw as i16,
    };
    let raw_end = u64::from(event.start) + u64::from(event.duration);
    let before_start = event.drawn_start().min(raw_end) - 1;
    let cancelled_at = draw_cancellation(dice, &event, earliest);
    let chosen_at = draw_choices(dice, &event, earliest);
    let named = cancelled_at.into_iter().chain(chosen_at.first().copied());
    Planned {
        event,
        earliest,
        latest: named.fold(before_start, u64::min),
        cancelled_at,
        chosen_at,
    }
}

fn draw_cancellation(dice: &mut Dice, event: &Event, earliest: u64) -> Option<u64> {
    if dice.chance(2, 3) {
        return None;
    }
    Some(draw_moment(dice, event, earliest))
}

/// Several may be made at one clock.
fn draw_choices(dice: &mut Dice, event: &Event, earliest: u64) -> Vec<u64> {
    let count = dice.pick(&[0, 0, 1, 1, 2, 3, 6]);
    let mut clocks: Vec<u64> = (0..count)
        .map(|_| draw_moment(dice, event, earliest))
        .collect();
    clocks.sort_unstable();
    clocks
}

/// A clock at which the event can be held, mostly next to its start or its end.
fn draw_moment(dice: &mut Dice, event: &Event, earliest: u64) -> u64 {
    let (start, end) = (event.drawn_start(), event.effective_end());
    let inside = start + dice.below(end - start);
    let moments = [
        start - 2,
        start - 1,
        start,
        start + 1,
        inside,
        end - 2,
        end - 1,
        earliest,
    ];
    dice.pick(&moments).clamp(earliest, end - 1)
}

/// Chooses the last reading and leaves out what comes after it.
fn cut(dice: &mut Dice, programs: Vec<(u8, Program)>, mut events: Vec<Planned>) -> Scenario {
    let ends = events.iter().map(|planned| planned.event.effective_end());
    let end = ends.max().unwrap_or(3_600);
    let middle = 3_600 + dice.below(end - 3_599);
    let last = dice.pick(&[end - 1, end, end + 5, middle, 9_000_000_000]);
    events.retain(|planned| planned.earliest <= last);
    for planned in &mut events {
        planned.latest = planned.latest.min(last);
        planned.cancelled_at = planned.cancelled_at.filter(|&clock| clock <= last);
        planned.chosen_at.retain(|&clock| clock <= last);
    }
    Scenario {
        programs,
        events,
        last,
    }
}

/// One accepted call that a list has to make, at its clock.
#[derive(Clone, Copy, Debug)]
struct Task {
    clock: u64,
    frame: Frame,
}

impl Task {
    fn delivers(&self, id: u128) -> bool {
        matches!(self.frame, Frame::Event(event) if event.id == id)
    }

    fn chooses(&self, id: u128) -> bool {
        matches!(self.frame, Frame::Choice(of, _) if of == id)
    }
}

/// A list of lines for the scenario. `None` if a call that counts was refused, as when more than 48
/// events would be held.
fn arrange(scenario: &Scenario, dice: &mut Dice) -> Option<Vec<u8>> {
    let mut tasks = draw_tasks(scenario, dice);
    let mut list = List::default();
    for reading in draw_readings(scenario, &tasks, dice) {
        list.set_clock(reading, dice)?;
        let (now, later) = tasks.into_iter().partition(|task| task.clock == reading);
        tasks = later;
        list.run_all(now, dice)?;
    }
    for control in 0..32 {
        list.put(encode(&Frame::Ask(control)));
    }
    Some(join(&list.lines))
}

fn draw_tasks(scenario: &Scenario, dice: &mut Dice) -> Vec<Task> {
    let mut tasks = Vec::new();
    let mut needed: BTreeMap<u8, u64> = BTreeMap::new();
    for planned in &scenario.events {
        let clock = draw_receipt(planned, dice);
        let first = needed.entry(planned.event.program).or_insert(clock);
        *first = clock.min(*first);
        let frame = Frame::Event(planned.event);
        tasks.push(Task { clock, frame });
        let frame = Frame::Cancel(planned.event.id);
        tasks.extend(planned.cancelled_at.map(|clock| Task { clock, frame }));
        let choices = [Choice::Out, Choice::In].into_iter().cycle();
        for (&clock, choice) in planned.chosen_at.iter().zip(choices) {
            let frame = Frame::Choice(planned.event.id, choice);
            tasks.push(Task { clock, frame });
        }
    }
    for &(number, program) in &scenario.programs {
        let latest = needed.get(&number).copied().unwrap_or(scenario.last);
        let clock = dice.pick(&[0, latest, dice.clone().below(latest + 1)]);
        let frame = Frame::Program(number, program);
        tasks.push(Task { clock, frame });
    }
    tasks
}

fn draw_receipt(planned: &Planned, dice: &mut Dice) -> u64 {
    let Planned {
        earliest, latest, ..
    } = *planned;
    let near = latest.saturating_sub(dice.below(30)).max(earliest);
    let any = earliest + dice.below(latest - earliest + 1);
    dice.pick(&[earliest, latest, near, near, any])
}

/// The clocks of the tasks, the last reading and some more, ascending. A list starts at clock 0.
fn draw_readings(scenario: &Scenario, tasks: &[Task], dice: &mut Dice) -> BTreeSet<u64> {
    let mut readings: BTreeSet<u64> = tasks.iter().map(|task| task.clock).collect();
    readings.insert(0);
    readings.insert(scenario.last);
    for _ in 0..dice.pick(&[0, 0, 3, 40]) {
        let planned = scenario.events.iter().map(|p| p.event.drawn_start());
        let around = planned.clone().nth(dice.below(9) as usize).unwrap_or(3_600);
        let reading = around.saturating_add_signed(dice.between(-40, 40));
        readings.insert(reading.min(scenario.last));
    }
    readings
}

#[derive(Clone, Debug)]
struct List {
    schedule: Fast,
    lines: Vec<Vec<u8>>,
}

impl Default for List {
    fn default() -> Self {
        List {
            schedule: Fast::fresh(),
            lines: Vec::new(),
        }
    }
}

impl List {
    /// Gives what the line printed.
    fn put(&mut self, line: Vec<u8>) -> Vec<u8> {
        let mut printed = Vec::new();
        self.schedule.line(&line, &mut printed);
        self.lines.push(line);
        printed
    }

    fn put_counting(&mut self, frame: &Frame) -> Option<()> {
        let printed = self.put(encode(frame));
        (!printed.starts_with(b"refused")).then_some(())
    }

    /// The reading 0 needs no call at first; any reading may come more than once.
    fn set_clock(&mut self, reading: u64, dice: &mut Dice) -> Option<()> {
        let least = u64::from(reading > 0);
        for _ in 0..least + dice.below(5) / 4 {
            self.put_counting(&Frame::Clock(reading))?;
        }
        Some(())
    }

    /// Runs the tasks of one clock in any order in which each can be accepted, with idle lines
    /// between them.
    fn run_all(&mut self, mut tasks: Vec<Task>, dice: &mut Dice) -> Option<()> {
        self.idle(dice);
        while !tasks.is_empty() {
            let ready: Vec<usize> = (0..tasks.len())
                .filter(|&at| self.is_ready(at, &tasks))
                .collect();
            if ready.is_empty() {
                return None;
            }
            let task = tasks.remove(dice.pick(&ready));
            self.put_counting(&task.frame)?;
            self.idle(dice);
        }
        Some(())
    }

    /// A program comes before its events, an event before its cancellation and its choices, and
    /// of these one after the other.
    fn is_ready(&self, at: usize, tasks: &[Task]) -> bool {
        let is_here = |id| !tasks.iter().any(|task| task.delivers(id));
        let is_next = |id| !tasks[..at].iter().any(|task| task.chooses(id));
        match tasks[at].frame {
            Frame::Event(event) => self.schedule.programs()[usize::from(event.program)].is_some(),
            Frame::Cancel(id) => is_here(id),
            Frame::Choice(id, _) => is_here(id) && is_next(id),
            _ => true,
        }
    }

    /// Some lines that leave the schedule as it is.
    fn idle(&mut self, dice: &mut Dice) {
        for _ in 0..dice.pick(&[0, 0, 0, 1, 3]) {
            let line = idle_line(dice, &self.schedule);
            let mut trial = self.schedule.clone();
            trial.line(&line, &mut Vec::new());
            if trial.to_image() == self.schedule.to_image() {
                self.put(line);
            }
        }
    }
}
