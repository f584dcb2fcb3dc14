//! What a list of lines makes of the schedule over time: who holds each control, the response rows
//! and the defaults. It is asked of the scheduler at each moment of change.

use std::collections::HashMap;
use std::ops::Range;

use crate::calls::{lines_of, Calls, Row, AMPLE};
use crate::choice::{seconds_out, Choice, Made};
use crate::event::{check_clock, default_program, Event, Program, Programs, CONTROLS, MOST_EVENTS};
use crate::frame::{decode, Frame};
use crate::history::Scheduler;
use crate::image::Entry;

/// The names under `7`, `control 7` or `program 7`. An id that is used again has several.
#[derive(Default)]
pub struct Names(HashMap<String, Vec<String>>);

impl Names {
    /// The error is the first line that is not `ID NAME`, `control NUMBER NAME` or `program NUMBER
    /// NAME`.
    pub fn read(text: &str) -> Result<Self, &str> {
        let mut names = Names::default();
        for line in text.lines().filter(|line| !line.trim().is_empty()) {
            names.add(line.trim()).ok_or(line)?;
        }
        Ok(names)
    }

    fn add(&mut self, line: &str) -> Option<()> {
        let (kind, rest) = match line.split_once(' ')? {
            (kind @ ("control" | "program"), rest) => (format!("{kind} "), rest),
            _ => (String::new(), line),
        };
        let (number, name) = rest.split_once(' ')?;
        let key = format!("{kind}{}", number.parse::<u128>().ok()?);
        self.0.entry(key).or_default().push(name.trim().into());
        Some(())
    }

    /// The name for the use of this count, the last one if there are not so many.
    pub fn get(&self, key: &str, count: usize) -> Option<&str> {
        let names = self.0.get(key)?;
        names.get(count).or(names.last()).map(String::as_str)
    }
}

/// An accepted event, with the moments in which it holds each control.
pub struct Known {
    pub event: Event,
    pub label: String,
    start: u64,
    cancelled: Option<u64>,
    choices: Vec<Made>,
    held: [Option<Range<u64>>; CONTROLS],
    /// Time and controls of its row 7.
    superseded: Option<(u64, u32)>,
}

/// A response row, a cancellation or a choice, and the controls next to which it is drawn.
pub struct Mark {
    pub time: u64,
    pub code: u8,
    /// The event's place in the story.
    pub who: usize,
    pub controls: u32,
}

pub struct Story<'a> {
    pub names: &'a Names,
    pub programs: Programs,
    /// The default of each control by the clocks from which it applies.
    pub defaults: [Vec<(u64, u8)>; CONTROLS],
    pub known: Vec<Known>,
    pub marks: Vec<Mark>,
    /// The accepted clock readings.
    pub readings: Vec<u64>,
    pub scheduler: Scheduler,
    /// The last event under an id, and how often the id was used.
    latest: HashMap<u128, usize>,
    uses: HashMap<u128, usize>,
}

impl<'a> Story<'a> {
    pub fn new(text: &[u8], names: &'a Names) -> Self {
        let mut story = Story {
            names,
            programs: [None; 8],
            defaults: Default::default(),
            known: Vec::new(),
            marks: Vec::new(),
            readings: Vec::new(),
            scheduler: Scheduler::fresh(),
            latest: HashMap::new(),
            uses: HashMap::new(),
        };
        lines_of(text).for_each(|line| story.line(line));
        story
    }

    /// A refused line leaves nothing in the picture.
    fn line(&mut self, bytes: &[u8]) {
        match decode(bytes) {
            Some(Frame::Event(event)) => self.deliver(&event),
            Some(Frame::Cancel(id)) => self.cancel(id),
            Some(Frame::Clock(reading)) => self.read_clock(reading),
            Some(Frame::Program(number, program)) => self.add_program(number, program),
            Some(Frame::Choice(id, choice)) => self.choose(id, choice),
            Some(Frame::Ask(_)) | None => {}
        }
    }

    fn add_program(&mut self, number: u8, program: Program) {
        if self.scheduler.add_program(number, program).is_err() {
            return;
        }
        self.programs[usize::from(number)] = Some(program);
        for (control, changes) in (0u8..).zip(&mut self.defaults) {
            let now = default_program(&self.programs, control);
            let before = changes.last().map(|&(_, number)| number);
            let change = now.filter(|_| now != before);
            changes.extend(change.map(|number| (self.scheduler.clock(), number)));
        }
    }

    fn deliver(&mut self, event: &Event) {
        if self.scheduler.deliver(event) != Ok(1) {
            return;
        }
        let id = event.id.to_string();
        let uses = self.uses.entry(event.id).or_default();
        let name = self.names.get(&id, *uses).map(String::from);
        *uses += 1;
        self.latest.insert(event.id, self.known.len());
        self.known.push(Known {
            event: *event,
            label: name.unwrap_or(id),
            start: event.effective_start(self.scheduler.clock()),
            cancelled: None,
            choices: Vec::new(),
            held: Default::default(),
            superseded: None,
        });
    }

    /// What is held now, with its masks.
    fn entries(&mut self) -> Vec<Entry> {
        let records = self.scheduler.list(MOST_EVENTS).unwrap_or_default();
        records.into_iter().map(|record| record.entry).collect()
    }

    /// What the event holds at this clock counts as held, so its bars end one second later.
    fn cancel(&mut self, id: u128) {
        let mask = mask_of(&self.entries(), id);
        if self.scheduler.cancel(id) != Ok(6) {
            return;
        }
        let time = self.scheduler.clock();
        let known = self.mark_call(id, 6, mask);
        known.cancelled = Some(time);
        known.change(time + 1, mask, 0);
    }

    /// A repeat of the present choice leaves nothing in the picture either.
    fn choose(&mut self, id: u128, choice: Choice) {
        if self.scheduler.choose(id, choice) != Ok(choice.code()) {
            return;
        }
        let (time, mask) = (self.scheduler.clock(), mask_of(&self.entries(), id));
        let known = self.mark_call(id, choice.code(), mask);
        known.choices.push((time, choice));
    }

    /// What a call answers goes to the controls that the event holds, or to all that it carries.
    fn mark_call(&mut self, id: u128, code: u8, mask: u32) -> &mut Known {
        let who = self.latest[&id];
        let known = &mut self.known[who];
        let controls = match mask {
            0 => known.event.controls,
            _ => mask,
        };
        self.marks.push(Mark {
            time: self.scheduler.clock(),
            code,
            who,
            controls,
        });
        known
    }

    fn read_clock(&mut self, reading: u64) {
        let clock = self.scheduler.clock();
        if check_clock(clock, reading).is_err() {
            return;
        }
        let entries = self.entries();
        let changes = entries
            .iter()
            .flat_map(|entry| [entry.effective_start, entry.event.effective_end()]);
        let mut moments: Vec<u64> = changes.chain([reading]).collect();
        moments.retain(|&moment| clock < moment && moment <= reading);
        moments.sort_unstable();
        moments.dedup();
        moments.into_iter().for_each(|moment| self.pass(moment));
        self.readings.push(reading);
    }

    /// Moves the clock to the next moment and compares the masks before and after.
    fn pass(&mut self, moment: u64) {
        let before = self.entries();
        let rows = self.scheduler.set_clock(moment, AMPLE);
        let rows = rows.map_or(Vec::new(), <[Row]>::to_vec);
        let after = self.entries();
        for Entry { event, held, .. } in &before {
            let known = &mut self.known[self.latest[&event.id]];
            known.change(moment, *held, mask_of(&after, event.id));
        }
        for row in &rows {
            self.mark(row, mask_of(&before, row.id), mask_of(&after, row.id));
        }
    }

    /// A start goes to the controls that it brings, an end or a loss to those that it leaves, and
    /// a loss at the start to all that the event carries.
    fn mark(&mut self, row: &Row, before: u32, after: u32) {
        let &Row { time, id, code } = row;
        let who = self.latest[&id];
        let known = &mut self.known[who];
        let controls = match code {
            2 => after,
            7 if before == 0 => known.event.controls,
            _ => before,
        };
        if code == 7 {
            known.superseded = Some((time, controls));
        }
        self.marks.push(Mark {
            time,
            code,
            who,
            controls,
        });
    }

    /// The first moment of which nothing is known.
    pub fn limit(&self) -> u64 {
        self.scheduler.clock() + 1
    }

    /// The controls that some event carries or some default covers.
    pub fn controls(&self) -> impl Iterator<Item = usize> + '_ {
        let carried = self.known.iter().fold(0, |all, k| all | k.event.controls);
        (0..CONTROLS).filter(move |&c| carried >> c & 1 == 1 || !self.defaults[c].is_empty())
    }

    /// The first and the last moment at which something happens or might have.
    pub fn extent(&self) -> Option<(u64, u64)> {
        let limit = self.limit();
        let started = |known: &&Known| known.start < known.end(limit);
        let events = self.known.iter().filter(started);
        let times = events
            .flat_map(|known| [known.event.earliest_start(), known.end(limit)])
            .chain(self.marks.iter().map(|mark| mark.time));
        Some((times.clone().min()?, times.max()?))
    }
}

impl Known {
    fn change(&mut self, moment: u64, before: u32, after: u32) {
        for (control, held) in self.held.iter_mut().enumerate() {
            match (before >> control & 1, after >> control & 1, held.as_mut()) {
                (0, 1, _) => *held = Some(moment..u64::MAX),
                (1, 0, Some(span)) => span.end = moment,
                _ => {}
            }
        }
    }

    /// The end of the period, or of what is known of it.
    fn end(&self, limit: u64) -> u64 {
        let cancelled = self.cancelled.map_or(limit, |clock| clock + 1);
        self.event.effective_end().min(cancelled).min(limit)
    }

    /// The moments before the limit in which the event holds the control.
    pub fn with(&self, control: usize, limit: u64) -> Option<Range<u64>> {
        let held = self.held[control].as_ref()?;
        Some(held.start..held.end.min(limit))
    }

    /// Those of them in which the user is out.
    pub fn out(&self, control: usize, limit: u64) -> Vec<Range<u64>> {
        let held = self.with(control, limit).unwrap_or_default();
        let outs = seconds_out(&self.choices);
        outs.map(|out| out.start.max(held.start)..out.end.min(held.end))
            .filter(|out| !out.is_empty())
            .collect()
    }

    /// The moments before the limit in which the event goes on without the control, though it
    /// carries it.
    pub fn without(&self, control: usize, limit: u64) -> Option<Range<u64>> {
        let held = self.held[control].as_ref();
        let begin = held.map_or(self.start, |held| held.end);
        let end = self.end(limit);
        (self.event.controls >> control & 1 == 1 && begin < end).then_some(begin..end)
    }

    /// The moments before the event's start in which it might have begun, if it has started and
    /// carries the control.
    pub fn early(&self, control: usize, limit: u64) -> Option<Range<u64>> {
        let carried = self.event.controls >> control & 1 == 1;
        let started = carried && self.start < self.end(limit);
        let span = self.event.earliest_start()..self.start;
        (started && !span.is_empty()).then_some(span)
    }

    /// Whether row 7 came at this time for this control.
    pub fn superseded(&self, control: usize, time: u64) -> bool {
        let here = |&(at, controls): &(u64, u32)| at == time && controls >> control & 1 == 1;
        self.superseded.as_ref().is_some_and(here)
    }
}

fn mask_of(entries: &[Entry], id: u128) -> u32 {
    let found = entries.iter().find(|entry| entry.event.id == id);
    found.map_or(0, |entry| entry.held)
}
