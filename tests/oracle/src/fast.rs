//! The scheduler that keeps only the present state. It is the rival in speed, and is compared with
//! the one that keeps the history.

use crate::calls::{Answer, Calls, Row, ROW_BYTES};
use crate::choice::{Choice, Participation};
use crate::event::{
    check_clock, check_program, default_program, Event, Program, Programs, Rank, CONTROLS,
    MOST_EVENTS,
};
use crate::image::{self, Entry, Image, Record};

/// A set of places, one bit each.
type Places = u64;

const ALL_PLACES: Places = (1 << MOST_EVENTS) - 1;

/// A held event stays in one place until it ends.
#[derive(Clone, Copy, Debug, Default)]
struct Place {
    event: Event,
    effective_start: u64,
    rank: Rank,
    cancelled: bool,
}

/// A start or an end to come, packed so that numbers sort as the moments go: time, then ends
/// before starts, then place.
type Change = u64;

const TIME_SHIFT: u32 = 7;
const START: Change = 1 << 6;

#[derive(Clone, Debug)]
pub struct Fast {
    clock: u64,
    programs: Programs,
    /// The default of each control, kept since programs come seldom.
    defaults: [Answer; CONTROLS],
    /// The ids of what is held, ascending, with their places.
    held: Vec<(u128, usize)>,
    places: [Place; MOST_EVENTS],
    masks: [u32; MOST_EVENTS],
    free: Places,
    /// The places whose mask is not zero, and all these masks joined.
    holding: Places,
    taken: u32,
    /// The places whose user is out, and those whose user was in, or out, for a held second.
    out: Places,
    was_in: Places,
    was_out: Places,
    /// The changes to come, the next one last.
    agenda: Vec<Change>,
    rows: Vec<Row>,
}

impl Fast {
    pub fn fresh() -> Self {
        Fast {
            clock: 0,
            programs: [None; 8],
            defaults: [Answer::None; CONTROLS],
            held: Vec::with_capacity(MOST_EVENTS),
            places: [Place::default(); MOST_EVENTS],
            masks: [0; MOST_EVENTS],
            free: ALL_PLACES,
            holding: 0,
            taken: 0,
            out: 0,
            was_in: 0,
            was_out: 0,
            agenda: Vec::with_capacity(2 * MOST_EVENTS),
            rows: Vec::with_capacity(2 * MOST_EVENTS),
        }
    }

    /// `None` is refusal 2.
    pub fn from_image(bytes: &[u8]) -> Option<Self> {
        let image = image::read(bytes)?;
        let mut fast = Fast::fresh();
        fast.clock = image.clock;
        fast.programs = image.programs;
        fast.refresh_defaults();
        for entry in &image.entries {
            fast.put(fast.held.len(), entry);
        }
        Some(fast)
    }

    pub fn to_image(&self) -> Vec<u8> {
        image::write(&Image {
            clock: self.clock,
            programs: self.programs,
            entries: self.entries(),
        })
    }

    pub fn entries(&self) -> Vec<Entry> {
        self.held.iter().map(|&(_, at)| self.entry(at)).collect()
    }

    fn entry(&self, at: usize) -> Entry {
        let place = &self.places[at];
        Entry {
            event: place.event,
            effective_start: place.effective_start,
            held: self.masks[at],
            cancelled: place.cancelled,
            participation: self.participation(at),
        }
    }

    fn choice(&self, at: usize) -> Choice {
        match self.out >> at & 1 {
            0 => Choice::In,
            _ => Choice::Out,
        }
    }

    fn participation(&self, at: usize) -> Participation {
        Participation {
            choice: self.choice(at),
            was_in: self.was_in >> at & 1 == 1,
            was_out: self.was_out >> at & 1 == 1,
        }
    }

    fn set_participation(&mut self, at: usize, participation: Participation) {
        let Participation {
            choice,
            was_in,
            was_out,
        } = participation;
        let others = !(1 << at);
        self.out = self.out & others | u64::from(choice == Choice::Out) << at;
        self.was_in = self.was_in & others | u64::from(was_in) << at;
        self.was_out = self.was_out & others | u64::from(was_out) << at;
    }

    pub fn programs(&self) -> &Programs {
        &self.programs
    }

    /// Where the id is among what is held, or where it would go.
    fn find(&self, id: u128) -> Result<usize, usize> {
        self.held.binary_search_by_key(&id, |&(held, _)| held)
    }

    fn refresh_defaults(&mut self) {
        for (control, answer) in (0u8..).zip(&mut self.defaults) {
            let best = default_program(&self.programs, control);
            *answer = best.map_or(Answer::None, Answer::Default);
        }
    }

    /// Holds one more event, whose id belongs at `order` among the ids.
    fn put(&mut self, order: usize, entry: &Entry) {
        let at = self.free.trailing_zeros() as usize;
        let event = &entry.event;
        let primacy = self.programs[usize::from(event.program)].map_or(0, |p| p.primacy);
        self.free &= !(1 << at);
        self.held.insert(order, (event.id, at));
        self.places[at] = Place {
            event: *event,
            effective_start: entry.effective_start,
            rank: event.rank(primacy),
            cancelled: entry.cancelled,
        };
        self.set_mask(at, entry.held);
        self.set_participation(at, entry.participation);
        self.taken |= entry.held;
        self.plan(event.effective_end() << TIME_SHIFT | at as u64);
        if entry.effective_start > self.clock {
            self.plan(entry.effective_start << TIME_SHIFT | START | at as u64);
        }
    }

    fn plan(&mut self, change: Change) {
        let order = self.agenda.partition_point(|&other| other > change);
        self.agenda.insert(order, change);
    }

    fn set_mask(&mut self, at: usize, mask: u32) {
        let bit = 1 << at;
        self.masks[at] = mask;
        if mask == 0 {
            self.holding &= !bit;
        } else {
            self.holding |= bit;
        }
    }

    fn release(&mut self, at: usize) {
        self.taken &= !self.masks[at];
        self.set_mask(at, 0);
    }

    fn advance(&mut self, reading: u64) {
        while let Some(&change) = self.agenda.last() {
            let moment = change >> TIME_SHIFT;
            if moment > reading {
                break;
            }
            self.hold_until(moment - 1);
            self.pass(moment);
        }
        self.hold_until(reading);
    }

    /// The seconds after the clock up to this one, in which nothing starts or ends.
    fn hold_until(&mut self, second: u64) {
        if second > self.clock {
            self.clock = second;
            self.count_second();
        }
    }

    /// Who holds something at the clock was in or out for a held second.
    fn count_second(&mut self) {
        self.was_in |= self.holding & !self.out;
        self.was_out |= self.holding & self.out;
    }

    /// Everything of the second after the clock, with its rows.
    fn pass(&mut self, moment: u64) {
        let ending = self.take_changes(moment << TIME_SHIFT | START);
        let starting = self.take_changes((moment + 1) << TIME_SHIFT);
        self.report(moment, ending & self.holding, |fast, at| {
            fast.participation(at).end_code()
        });
        for at in bits(ending) {
            self.drop_event(at);
        }
        if starting != 0 {
            self.start_all(moment, starting);
        }
        self.clock = moment;
        self.count_second();
    }

    /// Takes what comes before the given change off the agenda.
    fn take_changes(&mut self, before: Change) -> Places {
        let mut places = 0;
        while let Some(change) = self.agenda.pop_if(|change| *change < before) {
            places |= 1 << (change & (START - 1));
        }
        places
    }

    fn drop_event(&mut self, at: usize) {
        self.release(at);
        self.free |= 1 << at;
        if let Ok(order) = self.find(self.places[at].event.id) {
            self.held.remove(order);
        }
    }

    /// The starters come one after the other in no order that matters: the best of all that claim
    /// a control ends up with it.
    fn start_all(&mut self, moment: u64, starting: Places) {
        let before = self.holding;
        let mut started = 0;
        for at in bits(starting) {
            if !self.places[at].cancelled {
                started |= 1 << at;
                self.start(at);
            }
        }
        self.report(moment, (before | started) & !self.holding, |_, _| 7);
        self.report(moment, started & self.holding, |_, _| 2);
    }

    fn start(&mut self, at: usize) {
        let Place { event, rank, .. } = self.places[at];
        let mut claim = event.controls;
        if claim & self.taken != 0 {
            claim = self.contend(claim, rank);
        }
        self.taken |= claim;
        self.set_mask(at, claim);
    }

    /// What is left of a claim after the better holders; the worse ones lose what it takes.
    fn contend(&mut self, mut claim: u32, rank: Rank) -> u32 {
        for other in bits(self.holding) {
            let shared = claim & self.masks[other];
            if shared == 0 {
                continue;
            }
            if self.places[other].rank < rank {
                claim &= !shared;
            } else {
                self.set_mask(other, self.masks[other] & !shared);
            }
        }
        claim
    }

    /// Adds rows of one moment, by id.
    fn report(&mut self, time: u64, places: Places, code: impl Fn(&Self, usize) -> u8) {
        let first = self.rows.len();
        for at in bits(places) {
            let (id, code) = (self.places[at].event.id, code(self, at));
            self.rows.push(Row { time, id, code });
        }
        if self.rows.len() - first > 1 {
            self.rows[first..].sort_unstable_by_key(|row| row.id);
        }
    }

    /// Only a buffer that could be too short is worth a trial on a copy.
    fn check_room(&self, reading: u64, room: usize) -> Result<(), u8> {
        if room >= 2 * ROW_BYTES * self.held.len() {
            return Ok(());
        }
        let mut trial = self.clone();
        trial.advance(reading);
        if room < ROW_BYTES * trial.rows.len() {
            return Err(13);
        }
        Ok(())
    }
}

fn bits(mut places: Places) -> impl Iterator<Item = usize> {
    std::iter::from_fn(move || {
        let next = places.trailing_zeros() as usize;
        let more = places != 0;
        places &= places.wrapping_sub(1);
        more.then_some(next)
    })
}

impl Calls for Fast {
    fn clock(&self) -> u64 {
        self.clock
    }

    fn add_program(&mut self, number: u8, program: Program) -> Result<(), u8> {
        check_program(&self.programs, number, program.primacy)?;
        self.programs[usize::from(number)] = Some(program);
        self.refresh_defaults();
        Ok(())
    }

    fn deliver(&mut self, event: &Event) -> Result<u8, u8> {
        event.check_fields(&self.programs)?;
        let order = match self.find(event.id) {
            Ok(order) if self.places[self.held[order].1].event == *event => return Ok(0),
            Ok(_) => return Err(8),
            Err(order) => order,
        };
        if event.is_late(self.clock) {
            return Err(9);
        }
        if self.free == 0 {
            return Err(10);
        }
        let entry = Entry {
            event: *event,
            effective_start: event.effective_start(self.clock),
            held: 0,
            cancelled: false,
            participation: Participation::default(),
        };
        self.put(order, &entry);
        Ok(1)
    }

    fn cancel(&mut self, id: u128) -> Result<u8, u8> {
        let order = self.find(id).map_err(|_| 11)?;
        let at = self.held[order].1;
        if self.places[at].cancelled {
            return Ok(0);
        }
        self.places[at].cancelled = true;
        self.release(at);
        Ok(6)
    }

    fn choose(&mut self, id: u128, choice: Choice) -> Result<u8, u8> {
        let order = self.find(id).map_err(|_| 11)?;
        let at = self.held[order].1;
        if self.choice(at) == choice {
            return Ok(0);
        }
        self.out ^= 1 << at;
        Ok(choice.code())
    }

    fn set_clock(&mut self, reading: u64, room: usize) -> Result<&[Row], u8> {
        check_clock(self.clock, reading)?;
        self.rows.clear();
        self.check_room(reading, room)?;
        self.advance(reading);
        Ok(&self.rows)
    }

    fn ask(&mut self, control: u8) -> Result<Answer, u8> {
        let default = *self.defaults.get(usize::from(control)).ok_or(14)?;
        if self.taken >> control & 1 == 0 {
            return Ok(default);
        }
        let holds = |&at: &usize| self.masks[at] >> control & 1 == 1;
        let holder = bits(self.holding & !self.out).find(holds);
        Ok(holder.map_or(default, |at| Answer::Event(self.places[at].event.id)))
    }

    fn list(&mut self, room: usize) -> Result<Vec<Record>, u8> {
        if room < self.held.len() {
            return Err(13);
        }
        let places = self.held.iter().map(|&(_, at)| at);
        Ok(places.map(|at| self.entry(at).listed()).collect())
    }
}
