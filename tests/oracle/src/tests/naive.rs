//! The rules second by second, with nothing left out and nothing clever. It shares only the record
//! types with the schedulers that it is compared with.

use crate::image::{self, Image};
use crate::{Answer, Calls, Choice, Entry, Event, Participation, Program, Record, Row};

#[derive(Clone, Debug)]
struct Held {
    event: Event,
    primacy: u8,
    start: i64,
    end: i64,
    holds: [bool; 32],
    cancelled: bool,
    is_out: bool,
    was_in: bool,
    was_out: bool,
}

impl Held {
    fn better_than(&self, other: &Held) -> bool {
        if self.primacy != other.primacy {
            return self.primacy < other.primacy;
        }
        if self.event.creation != other.event.creation {
            return self.event.creation > other.event.creation;
        }
        self.event.id > other.event.id
    }

    fn holds_any(&self) -> bool {
        self.holds.contains(&true)
    }

    /// By the choice of the second before, which nobody has changed since.
    fn count_second(&mut self) {
        if self.holds_any() && self.is_out {
            self.was_out = true;
        } else if self.holds_any() {
            self.was_in = true;
        }
    }

    fn end_code(&self) -> u8 {
        if !self.was_out {
            return 3;
        }
        if !self.was_in {
            return 10;
        }
        if self.is_out {
            return 8;
        }
        9
    }
}

#[derive(Clone, Debug)]
pub struct Naive {
    clock: i64,
    programs: Vec<(u8, Program)>,
    events: Vec<Held>,
    rows: Vec<Row>,
}

fn drawn_start(event: &Event) -> i64 {
    i64::from(event.start) + i64::from(event.start_draw)
}

fn end(event: &Event) -> i64 {
    drawn_start(event) + i64::from(event.duration) + i64::from(event.duration_draw)
}

fn earliest_start(event: &Event) -> i64 {
    let sent = i64::from(event.start);
    let moved = sent + i64::from(event.randomize_start);
    if moved < sent {
        moved
    } else {
        sent
    }
}

fn wrong_draw(draw: i16, randomisation: i16) -> bool {
    let (draw, randomisation) = (i32::from(draw), i32::from(randomisation));
    if !(-3_600..=3_600).contains(&randomisation) {
        return true;
    }
    if randomisation >= 0 {
        draw < 0 || draw > randomisation
    } else {
        draw > 0 || draw < randomisation
    }
}

impl Naive {
    pub fn fresh() -> Self {
        Naive {
            clock: 0,
            programs: Vec::new(),
            events: Vec::new(),
            rows: Vec::new(),
        }
    }

    pub fn from_image(bytes: &[u8]) -> Option<Self> {
        let image = image::read(bytes)?;
        let mut naive = Naive::fresh();
        naive.clock = image.clock as i64;
        for (number, slot) in image.programs.iter().enumerate() {
            naive.programs.extend(slot.map(|p| (number as u8, p)));
        }
        for entry in &image.entries {
            let held = naive.take_in(entry);
            naive.events.push(held);
        }
        Some(naive)
    }

    pub fn to_image(&self) -> Vec<u8> {
        let mut programs = [None; 8];
        for &(number, program) in &self.programs {
            programs[usize::from(number)] = Some(program);
        }
        image::write(&Image {
            clock: self.clock as u64,
            programs,
            entries: self.entries(),
        })
    }

    fn entries(&self) -> Vec<Entry> {
        let mut entries: Vec<Entry> = self.events.iter().map(entry).collect();
        entries.sort_by_key(|entry| entry.event.id);
        entries
    }

    fn take_in(&self, entry: &Entry) -> Held {
        Held {
            event: entry.event,
            primacy: self.program(entry.event.program).map_or(0, |p| p.primacy),
            start: entry.effective_start as i64,
            end: end(&entry.event),
            holds: std::array::from_fn(|control| entry.held & 1 << control != 0),
            cancelled: entry.cancelled,
            is_out: entry.participation.choice == Choice::Out,
            was_in: entry.participation.was_in,
            was_out: entry.participation.was_out,
        }
    }

    fn program(&self, number: u8) -> Option<Program> {
        let found = self.programs.iter().find(|(n, _)| *n == number);
        found.map(|&(_, program)| program)
    }

    fn position(&self, id: u128) -> Option<usize> {
        self.events.iter().position(|held| held.event.id == id)
    }

    /// One second: ends, then from the best event down who holds what.
    fn tick(&mut self) {
        self.clock += 1;
        let now = self.clock;
        let before = self.events.clone();
        self.events.retain(|held| held.end > now);
        self.settle(now);
        self.events.iter_mut().for_each(Held::count_second);
        self.note_rows(&before, now);
    }

    fn settle(&mut self, now: i64) {
        let mut order: Vec<usize> = (0..self.events.len()).collect();
        order.sort_by(|&a, &b| match self.events[a].better_than(&self.events[b]) {
            true => std::cmp::Ordering::Less,
            false => std::cmp::Ordering::Greater,
        });
        let mut taken = [false; 32];
        for index in order {
            let held = &mut self.events[index];
            for (control, taken) in taken.iter_mut().enumerate() {
                let starts = held.start == now && held.event.controls & 1 << control != 0;
                let keeps = held.holds[control];
                let wants = !held.cancelled && (starts || keeps);
                held.holds[control] = wants && !*taken;
                *taken |= held.holds[control];
            }
        }
    }

    fn note_rows(&mut self, before: &[Held], now: i64) {
        let mut noted = [Vec::new(), Vec::new(), Vec::new()];
        for old in before.iter().filter(|old| !old.cancelled) {
            let id = old.event.id;
            match self.position(id).map(|at| &self.events[at]) {
                None if old.holds_any() => noted[0].push((id, old.end_code())),
                None => (),
                Some(new) if new.start == now && new.holds_any() => noted[2].push((id, 2)),
                Some(new) if new.start == now => noted[1].push((id, 7)),
                Some(new) if old.holds_any() && !new.holds_any() => noted[1].push((id, 7)),
                Some(_) => (),
            }
        }
        for mut class in noted {
            class.sort();
            let row = |(id, code)| Row {
                time: now as u64,
                id,
                code,
            };
            self.rows.extend(class.into_iter().map(row));
        }
    }

    fn check_event(&self, event: &Event) -> Result<(), u8> {
        if event.program > 7 {
            return Err(3);
        }
        if self.program(event.program).is_none() {
            return Err(6);
        }
        if event.controls == 0
            || event.start < 3_600
            || event.duration == 0
            || wrong_draw(event.start_draw, event.randomize_start)
            || wrong_draw(event.duration_draw, event.randomize_duration)
            || end(event) - drawn_start(event) < 1
        {
            return Err(7);
        }
        Ok(())
    }
}

impl Calls for Naive {
    fn clock(&self) -> u64 {
        self.clock as u64
    }

    fn add_program(&mut self, number: u8, program: Program) -> Result<(), u8> {
        if number > 7 {
            return Err(3);
        }
        if self.program(number).is_some() {
            return Err(4);
        }
        let primacy = program.primacy;
        if (3..=64).contains(&primacy) || primacy >= 192 {
            return Err(5);
        }
        self.programs.push((number, program));
        Ok(())
    }

    fn deliver(&mut self, event: &Event) -> Result<u8, u8> {
        self.check_event(event)?;
        if let Some(at) = self.position(event.id) {
            return match self.events[at].event == *event {
                true => Ok(0),
                false => Err(8),
            };
        }
        let raw_end = i64::from(event.start) + i64::from(event.duration);
        if raw_end <= self.clock || end(event) <= self.clock + 1 {
            return Err(9);
        }
        if self.events.len() >= 48 {
            return Err(10);
        }
        let held = self.take_in(&Entry {
            event: *event,
            effective_start: drawn_start(event).max(self.clock + 1) as u64,
            held: 0,
            cancelled: false,
            participation: Participation::default(),
        });
        self.events.push(held);
        Ok(1)
    }

    fn cancel(&mut self, id: u128) -> Result<u8, u8> {
        let at = self.position(id).ok_or(11)?;
        let held = &mut self.events[at];
        if held.cancelled {
            return Ok(0);
        }
        held.cancelled = true;
        held.holds = [false; 32];
        Ok(6)
    }

    fn choose(&mut self, id: u128, choice: Choice) -> Result<u8, u8> {
        let at = self.position(id).ok_or(11)?;
        let was = self.events[at].is_out;
        self.events[at].is_out = choice == Choice::Out;
        match (was, choice) {
            (false, Choice::Out) => Ok(4),
            (true, Choice::In) => Ok(5),
            _ => Ok(0),
        }
    }

    fn set_clock(&mut self, reading: u64, room: usize) -> Result<&[Row], u8> {
        if reading > 9_000_000_000 || (reading as i64) < self.clock {
            return Err(12);
        }
        let mut next = self.clone();
        next.rows.clear();
        while next.clock < reading as i64 {
            // Without events nothing is left to watch.
            if next.events.is_empty() {
                next.clock = reading as i64;
            } else {
                next.tick();
            }
        }
        if room < 25 * next.rows.len() {
            return Err(13);
        }
        *self = next;
        Ok(&self.rows)
    }

    fn ask(&mut self, control: u8) -> Result<Answer, u8> {
        if control > 31 {
            return Err(14);
        }
        let holds = |held: &&Held| held.holds[usize::from(control)] && !held.is_out;
        if let Some(held) = self.events.iter().find(holds) {
            return Ok(Answer::Event(held.event.id));
        }
        let mut best: Option<(u8, u8)> = None;
        for &(number, program) in &self.programs {
            let offer = (program.primacy, number);
            if program.defaults & 1 << control != 0 && best.is_none_or(|b| offer < b) {
                best = Some(offer);
            }
        }
        Ok(best.map_or(Answer::None, |(_, number)| Answer::Default(number)))
    }

    fn list(&mut self, room: usize) -> Result<Vec<Record>, u8> {
        if self.events.len() > room {
            return Err(13);
        }
        let record = |entry: Entry| Record {
            entry,
            earliest_start: earliest_start(&entry.event) as u64,
        };
        Ok(self.entries().into_iter().map(record).collect())
    }
}

fn entry(held: &Held) -> Entry {
    let bit = |control: usize| u32::from(held.holds[control]) << control;
    Entry {
        event: held.event,
        effective_start: held.start as u64,
        held: (0..32).map(bit).sum(),
        cancelled: held.cancelled,
        participation: Participation {
            choice: match held.is_out {
                true => Choice::Out,
                false => Choice::In,
            },
            was_in: held.was_in,
            was_out: held.was_out,
        },
    }
}
