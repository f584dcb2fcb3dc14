//! The scheduler that works every answer out from the history, by intervals.

use std::ops::Range;

use crate::calls::{Answer, Calls, Row, ROW_BYTES};
use crate::choice::{seconds_out, Choice, Made, Participation};
use crate::event::{
    check_clock, check_program, default_program, Event, Program, Programs, Rank, CONTROLS,
    MOST_EVENTS,
};
use crate::image::{self, Entry, Image, Record};

/// How an event came in.
#[derive(Clone, Copy, Debug)]
enum Origin {
    /// Accepted at this clock.
    Received { receipt: u64 },
    /// Part of an image with this clock.
    Loaded {
        clock: u64,
        effective_start: u64,
        held: u32,
        participation: Participation,
    },
}

impl Origin {
    /// The choice that the event came in with.
    fn opening(&self) -> Made {
        match *self {
            Origin::Received { receipt } => (receipt, Choice::In),
            Origin::Loaded {
                clock,
                participation,
                ..
            } => (clock, participation.choice),
        }
    }
}

/// An event of the history, with its cancellation if there is one.
#[derive(Clone, Debug)]
struct Past {
    event: Event,
    rank: Rank,
    origin: Origin,
    cancelled_at: Option<u64>,
    /// The choices that were no repeats, in their sequence. The first is the one that the event
    /// came in with, so there always is one.
    choices: Vec<Made>,
}

impl Past {
    fn effective_start(&self) -> u64 {
        match self.origin {
            Origin::Received { receipt } => self.event.effective_start(receipt),
            Origin::Loaded {
                effective_start, ..
            } => effective_start,
        }
    }

    /// The controls that the event goes for, and when. Of an event that had started in an image
    /// only the held mask is left, and that was held at the image's clock already.
    fn claim(&self) -> (u64, u32) {
        match self.origin {
            Origin::Loaded {
                clock,
                effective_start,
                held,
                ..
            } if effective_start <= clock => (clock, held),
            _ => (self.effective_start(), self.event.controls),
        }
    }

    /// The first moment at which the event holds nothing even if no better one comes.
    fn limit(&self) -> u64 {
        let end = self.event.effective_end();
        self.cancelled_at.map_or(end, |clock| end.min(clock + 1))
    }

    fn uncancelled_before(&self, moment: u64) -> bool {
        self.cancelled_at.is_none_or(|clock| clock >= moment)
    }

    fn row(&self, time: u64, code: u8) -> Option<Row> {
        let id = self.event.id;
        self.uncancelled_before(time)
            .then_some(Row { time, id, code })
    }

    /// The choice that stood after the calls at the clock.
    fn choice_at(&self, clock: u64) -> Choice {
        let made = self.choices.partition_point(|&(at, _)| at <= clock);
        self.choices[made - 1].1
    }

    /// The seconds in which the event holds something. All its spans begin together. What came
    /// before an image is left to the image.
    fn seconds_held(&self, spans: &[Span]) -> Range<u64> {
        let begin = spans.iter().map(|span| span.begin).min().unwrap_or(0);
        let end = spans.iter().map(|span| span.end).max().unwrap_or(0);
        begin.max(self.origin.opening().0 + 1)..end
    }

    /// What the choices at clocks up to this one make of the held seconds up to it.
    fn participation(&self, spans: &[Span], clock: u64) -> Participation {
        let held = self.seconds_held(spans);
        let passed = held.start..held.end.min(clock + 1);
        let outs = seconds_out(&self.choices);
        let out = outs.map(|out| shared(&passed, &out)).sum();
        let before = match self.origin {
            Origin::Received { .. } => Participation::default(),
            Origin::Loaded { participation, .. } => participation,
        };
        Participation {
            choice: self.choice_at(clock),
            was_in: before.was_in || length(&passed) > out,
            was_out: before.was_out || out > 0,
        }
    }

    /// All rows that the event ever gives: at its start, and when it stops holding.
    fn rows(&self, spans: &[Span]) -> [Option<Row>; 2] {
        let last_held = spans.iter().map(|span| span.end).max();
        let at_start = if last_held.is_some() { 2 } else { 7 };
        let end = self.event.effective_end();
        let at_end = || self.participation(spans, end - 1).end_code();
        let at_last = |time| self.row(time, if time == end { at_end() } else { 7 });
        [
            self.row(self.effective_start(), at_start),
            last_held.and_then(at_last),
        ]
    }
}

fn length(seconds: &Range<u64>) -> u64 {
    seconds.end.saturating_sub(seconds.start)
}

/// How many seconds lie in both.
fn shared(one: &Range<u64>, other: &Range<u64>) -> u64 {
    length(&(one.start.max(other.start)..one.end.min(other.end)))
}

/// An event holds the control from `begin` on and no more at `end`.
#[derive(Clone, Copy, PartialEq, Eq, Debug)]
struct Span {
    control: u8,
    begin: u64,
    end: u64,
}

/// The spans on one control of the events placed so far, by their begin. They never overlap.
type Line = Vec<Span>;

/// Places one event's claim on one control below everything better. An empty interval is `None`.
fn place(line: &mut Line, control: u8, begin: u64, limit: u64) -> Option<Span> {
    let next = line.partition_point(|span| span.begin <= begin);
    let blocked = next > 0 && line[next - 1].end > begin;
    let end = line.get(next).map_or(limit, |span| limit.min(span.begin));
    if blocked || end <= begin {
        return None;
    }
    let span = Span {
        control,
        begin,
        end,
    };
    line.insert(next, span);
    Some(span)
}

/// The spans of each event, in the order of the events.
fn work_out(events: &[Past]) -> Vec<Vec<Span>> {
    let mut best_first: Vec<usize> = (0..events.len()).collect();
    best_first.sort_by_key(|&index| events[index].rank);
    let mut lines: [Line; CONTROLS] = Default::default();
    let mut spans = vec![Vec::new(); events.len()];
    for index in best_first {
        spans[index] = place_event(&events[index], &mut lines);
    }
    spans
}

fn place_event(past: &Past, lines: &mut [Line; CONTROLS]) -> Vec<Span> {
    let (begin, controls) = past.claim();
    let limit = past.limit();
    (0u8..)
        .zip(lines)
        .filter(|(control, _)| controls >> control & 1 == 1)
        .filter_map(|(control, line)| place(line, control, begin, limit))
        .collect()
}

#[derive(Clone, Debug)]
pub struct Scheduler {
    programs: Programs,
    /// Every event ever accepted, in the order of acceptance.
    history: Vec<Past>,
    /// Id and index in the history of what is held, by id.
    held: Vec<(u128, usize)>,
    clock: u64,
    /// The events before this index had all ended at a clock at which nothing was held, so they
    /// cannot meet any later event, and their spans are not worked out again.
    chapter: usize,
    /// The spans of the events from `chapter` on, if nothing came in since.
    spans: Option<Vec<Vec<Span>>>,
    rows: Vec<Row>,
}

impl Scheduler {
    pub fn fresh() -> Self {
        Scheduler {
            programs: [None; 8],
            history: Vec::new(),
            held: Vec::new(),
            clock: 0,
            chapter: 0,
            spans: None,
            rows: Vec::new(),
        }
    }

    /// `None` is refusal 2.
    pub fn from_image(bytes: &[u8]) -> Option<Self> {
        let image = image::read(bytes)?;
        let mut scheduler = Scheduler {
            clock: image.clock,
            programs: image.programs,
            ..Scheduler::fresh()
        };
        for entry in &image.entries {
            scheduler.load(entry);
        }
        Some(scheduler)
    }

    /// When an event of an image was cancelled is not known; any clock up to the image's will do,
    /// as its mask is empty.
    fn load(&mut self, entry: &Entry) {
        let origin = Origin::Loaded {
            clock: self.clock,
            effective_start: entry.effective_start,
            held: entry.held,
            participation: entry.participation,
        };
        self.held.push((entry.event.id, self.history.len()));
        self.remember(&entry.event, origin);
        if entry.cancelled {
            let last = self.history.len() - 1;
            self.history[last].cancelled_at = Some(self.clock);
        }
    }

    pub fn to_image(&mut self) -> Vec<u8> {
        image::write(&Image {
            clock: self.clock,
            programs: self.programs,
            entries: self.entries(),
        })
    }

    /// Adds an event whose program is known.
    fn remember(&mut self, event: &Event, origin: Origin) {
        let primacy = self.programs[usize::from(event.program)].map_or(0, |p| p.primacy);
        self.history.push(Past {
            event: *event,
            rank: event.rank(primacy),
            origin,
            cancelled_at: None,
            choices: vec![origin.opening()],
        });
        self.spans = None;
    }

    /// Where the id is held, or where it would go.
    fn find(&self, id: u128) -> Result<usize, usize> {
        self.held.binary_search_by_key(&id, |&(held, _)| held)
    }

    fn ready(&mut self) {
        if self.spans.is_none() {
            self.spans = Some(work_out(&self.history[self.chapter..]));
        }
    }

    fn spans_of(&mut self, index: usize) -> &[Span] {
        self.ready();
        let chapter = self.chapter;
        self.spans
            .as_ref()
            .map_or(&[], |spans| &spans[index - chapter])
    }

    /// The controls that the event holds now, which is after every call so far.
    fn mask_now(&mut self, index: usize) -> u32 {
        if self.history[index].cancelled_at.is_some() {
            return 0;
        }
        let clock = self.clock;
        self.spans_of(index)
            .iter()
            .filter(|span| (span.begin..span.end).contains(&clock))
            .fold(0, |mask, span| mask | 1 << span.control)
    }

    fn entries(&mut self) -> Vec<Entry> {
        let held = self.held.clone();
        held.iter().map(|&(_, index)| self.entry(index)).collect()
    }

    fn entry(&mut self, index: usize) -> Entry {
        let held = self.mask_now(index);
        let spans = self.spans_of(index).to_vec();
        let past = &self.history[index];
        Entry {
            event: past.event,
            effective_start: past.effective_start(),
            held,
            cancelled: past.cancelled_at.is_some(),
            participation: past.participation(&spans, self.clock),
        }
    }

    /// The rows of the moments after the clock and up to the reading. Only what is held now can
    /// give any: the rest has ended.
    fn rows_until(&mut self, reading: u64) -> Vec<Row> {
        let clock = self.clock;
        let mut rows = Vec::new();
        for (_, index) in self.held.clone() {
            let spans = self.spans_of(index).to_vec();
            rows.extend(self.history[index].rows(&spans).into_iter().flatten());
        }
        rows.retain(|row| clock < row.time && row.time <= reading);
        rows.sort_by_key(Row::place);
        rows
    }

    /// The schedule's rows for the moments from 1 to the clock, worked out anew from the whole
    /// history. From a fresh schedule the clock calls have written just these.
    pub fn rows_so_far(&self) -> Vec<Row> {
        let spans = work_out(&self.history);
        let events = self.history.iter().zip(&spans);
        let mut rows: Vec<Row> = events
            .flat_map(|(past, spans)| past.rows(spans).into_iter().flatten())
            .filter(|row| row.time <= self.clock)
            .collect();
        rows.sort_by_key(Row::place);
        rows
    }

    fn move_clock(&mut self, reading: u64) {
        self.clock = reading;
        let history = &self.history;
        self.held
            .retain(|&(_, index)| history[index].event.effective_end() > reading);
        if self.held.is_empty() && self.chapter < self.history.len() {
            self.chapter = self.history.len();
            self.spans = None;
        }
    }
}

impl Calls for Scheduler {
    fn clock(&self) -> u64 {
        self.clock
    }

    fn add_program(&mut self, number: u8, program: Program) -> Result<(), u8> {
        check_program(&self.programs, number, program.primacy)?;
        self.programs[usize::from(number)] = Some(program);
        Ok(())
    }

    fn deliver(&mut self, event: &Event) -> Result<u8, u8> {
        event.check_fields(&self.programs)?;
        let place = match self.find(event.id) {
            Ok(at) if self.history[self.held[at].1].event == *event => return Ok(0),
            Ok(_) => return Err(8),
            Err(place) => place,
        };
        if event.is_late(self.clock) {
            return Err(9);
        }
        if self.held.len() == MOST_EVENTS {
            return Err(10);
        }
        self.held.insert(place, (event.id, self.history.len()));
        let receipt = self.clock;
        self.remember(event, Origin::Received { receipt });
        Ok(1)
    }

    fn cancel(&mut self, id: u128) -> Result<u8, u8> {
        let at = self.find(id).map_err(|_| 11)?;
        let past = &mut self.history[self.held[at].1];
        if past.cancelled_at.is_some() {
            return Ok(0);
        }
        past.cancelled_at = Some(self.clock);
        self.spans = None;
        Ok(6)
    }

    fn choose(&mut self, id: u128, choice: Choice) -> Result<u8, u8> {
        let at = self.find(id).map_err(|_| 11)?;
        let past = &mut self.history[self.held[at].1];
        if past.choice_at(self.clock) == choice {
            return Ok(0);
        }
        past.choices.push((self.clock, choice));
        Ok(choice.code())
    }

    fn set_clock(&mut self, reading: u64, room: usize) -> Result<&[Row], u8> {
        check_clock(self.clock, reading)?;
        let rows = self.rows_until(reading);
        if room < ROW_BYTES * rows.len() {
            return Err(13);
        }
        self.rows = rows;
        self.move_clock(reading);
        Ok(&self.rows)
    }

    fn ask(&mut self, control: u8) -> Result<Answer, u8> {
        if usize::from(control) >= CONTROLS {
            return Err(14);
        }
        for (id, index) in self.held.clone() {
            let is_in = self.history[index].choice_at(self.clock) == Choice::In;
            if is_in && self.mask_now(index) >> control & 1 == 1 {
                return Ok(Answer::Event(id));
            }
        }
        Ok(default_program(&self.programs, control).map_or(Answer::None, Answer::Default))
    }

    fn list(&mut self, room: usize) -> Result<Vec<Record>, u8> {
        if room < self.held.len() {
            return Err(13);
        }
        Ok(self.entries().into_iter().map(Entry::listed).collect())
    }
}
