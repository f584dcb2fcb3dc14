//! Random lists of lines. The generator runs a schedule of its own beside the list, so that it can
//! aim at the moments that matter.

use crate::calls::Calls;
use crate::choice::Choice;
use crate::event::{is_usable, Event, Program, LAST_CLOCK, MOST_EVENTS};
use crate::fast::Fast;
use crate::frame::{decode_over, encode_over, hex, Frame, Width, ID_BYTES};
use crate::ids;
use crate::image::Entry;
use crate::random::Dice;

/// What kind of masks events carry.
#[derive(Clone, Copy, Debug)]
enum Masks {
    /// One of few controls.
    One,
    /// Some of few controls.
    Few,
    /// One to three of all controls.
    Spread,
    /// Any mask, mostly dense.
    Many,
}

#[derive(Clone, Copy, Debug)]
pub struct Profile {
    pub name: &'static str,
    /// How many small numbers ids are made of.
    ids: u64,
    /// How far after the clock a drawn start mostly lies.
    ahead: u64,
    longest: u64,
    step: u64,
    masks: Masks,
    primacies: &'static [u8],
    creations: u64,
    /// How often each of `ACTIONS` is taken.
    odds: [u8; ACTIONS.len()],
}

type Action = fn(&mut Generator);

const ACTIONS: [Action; 21] = [
    Generator::deliver_ahead,
    Generator::deliver_late,
    Generator::deliver_at_edge,
    Generator::deliver_again,
    Generator::deliver_twin,
    Generator::deliver_changed,
    Generator::deliver_spoiled,
    Generator::fill,
    Generator::cancel_now,
    Generator::cancel_at_moment,
    Generator::cancel_unknown,
    Generator::choose_now,
    Generator::choose_at_moment,
    Generator::choose_unknown,
    Generator::step,
    Generator::step_to_change,
    Generator::drain,
    Generator::spoil_clock,
    Generator::program,
    Generator::ask,
    Generator::damage,
];

const SOME: &[u8] = &[0, 1, 2, 65, 66, 190, 191];

const MIXED: &str = "mixed";

/// The number of ids of a profile whose ids are of any size.
const ALL: u64 = u64::MAX;

/// The columns of `odds`: ahead, late, edge, again, twin, changed, spoiled, fill, cancel, at moment,
/// unknown, choose, at moment, unknown, step, to change, drain, bad clock, program, ask, damage.
pub const PROFILES: [Profile; 12] = [
    Profile {
        name: "tight",
        ids: 6,
        ahead: 12,
        longest: 20,
        step: 6,
        masks: Masks::Few,
        primacies: SOME,
        creations: 4,
        odds: [
            30, 6, 2, 2, 4, 2, 1, 0, 3, 3, 1, 5, 6, 1, 20, 16, 1, 1, 1, 8, 1,
        ],
    },
    Profile {
        name: "full",
        ids: 400,
        ahead: 60,
        longest: 90,
        step: 3,
        masks: Masks::Spread,
        primacies: SOME,
        creations: 9,
        odds: [
            60, 4, 1, 2, 2, 1, 1, 2, 2, 2, 1, 3, 3, 1, 8, 8, 0, 1, 1, 6, 1,
        ],
    },
    Profile {
        name: "wide",
        ids: 40,
        ahead: 30,
        longest: 60,
        step: 8,
        masks: Masks::Many,
        primacies: SOME,
        creations: 6,
        odds: [
            36, 5, 1, 1, 2, 1, 1, 0, 3, 2, 1, 4, 5, 1, 12, 20, 1, 1, 1, 16, 1,
        ],
    },
    Profile {
        name: "ties",
        ids: 12,
        ahead: 5,
        longest: 12,
        step: 4,
        masks: Masks::Few,
        primacies: &[1],
        creations: 2,
        odds: [
            40, 4, 1, 1, 8, 1, 0, 0, 2, 2, 0, 3, 5, 0, 12, 20, 1, 0, 1, 8, 0,
        ],
    },
    Profile {
        name: "late",
        ids: 10,
        ahead: 8,
        longest: 30,
        step: 5,
        masks: Masks::Few,
        primacies: SOME,
        creations: 5,
        odds: [
            8, 40, 10, 2, 2, 2, 1, 0, 2, 3, 1, 4, 6, 1, 14, 16, 1, 1, 1, 8, 0,
        ],
    },
    Profile {
        name: "reuse",
        ids: 2,
        ahead: 4,
        longest: 6,
        step: 4,
        masks: Masks::Few,
        primacies: &[0, 1, 1, 2],
        creations: 2,
        odds: [
            40, 8, 3, 2, 3, 2, 0, 0, 3, 3, 2, 5, 8, 2, 16, 20, 4, 0, 1, 6, 0,
        ],
    },
    Profile {
        name: "cancel",
        ids: 12,
        ahead: 10,
        longest: 16,
        step: 4,
        masks: Masks::One,
        primacies: SOME,
        creations: 3,
        odds: [
            36, 4, 1, 2, 2, 1, 0, 0, 8, 16, 3, 5, 12, 1, 12, 12, 1, 0, 1, 10, 0,
        ],
    },
    Profile {
        name: "choices",
        ids: 7,
        ahead: 6,
        longest: 9,
        step: 2,
        masks: Masks::Few,
        primacies: SOME,
        creations: 3,
        odds: [
            24, 4, 1, 1, 2, 1, 0, 0, 2, 3, 0, 16, 40, 2, 8, 8, 1, 0, 1, 10, 0,
        ],
    },
    Profile {
        name: "refuse",
        ids: 60,
        ahead: 20,
        longest: 40,
        step: 5,
        masks: Masks::Few,
        primacies: SOME,
        creations: 5,
        odds: [
            12, 3, 10, 6, 2, 10, 20, 2, 3, 3, 8, 3, 3, 6, 6, 6, 1, 8, 10, 8, 12,
        ],
    },
    Profile {
        name: "damage",
        ids: 20,
        ahead: 20,
        longest: 40,
        step: 8,
        masks: Masks::Few,
        primacies: SOME,
        creations: 5,
        odds: [
            12, 2, 1, 1, 1, 1, 2, 0, 2, 1, 1, 2, 2, 1, 8, 6, 1, 2, 2, 4, 40,
        ],
    },
    Profile {
        name: "far",
        ids: ALL,
        ahead: 2_000_000,
        longest: u32::MAX as u64,
        step: 2_000_000,
        masks: Masks::Many,
        primacies: SOME,
        creations: 1 << 32,
        odds: [
            30, 12, 2, 2, 2, 2, 2, 0, 10, 3, 1, 8, 3, 1, 20, 10, 0, 2, 1, 10, 1,
        ],
    },
    Profile {
        name: "busy",
        ids: ALL,
        ahead: 300,
        longest: 600,
        step: 40,
        masks: Masks::Spread,
        primacies: SOME,
        creations: 1 << 20,
        odds: [
            40, 4, 0, 3, 1, 0, 0, 0, 3, 0, 0, 4, 0, 0, 40, 0, 0, 0, 0, 10, 0,
        ],
    },
];

/// The names that `gen` takes.
pub fn profile_names() -> Vec<&'static str> {
    let single = PROFILES.iter().map(|profile| profile.name);
    single.chain([MIXED]).collect()
}

/// `None` if there is no such profile.
pub fn generate(seed: u64, count: usize, profile: &str) -> Option<Vec<u8>> {
    generate_over(Width::Long, seed, count, profile)
}

/// The same with ids of the given width.
pub fn generate_over(width: Width, seed: u64, count: usize, profile: &str) -> Option<Vec<u8>> {
    let profiles = profiles(profile);
    let mut generator = Generator::new(seed, *profiles.first()?);
    generator.width = width;
    generator.open();
    generator.act_until(count, &profiles);
    Some(join(&generator.lines))
}

/// Lines that go on from a schedule. `None` if there is no such profile.
pub fn go_on(seed: u64, count: usize, profile: &str, schedule: &Fast) -> Option<Vec<u8>> {
    let profiles = profiles(profile);
    let mut generator = Generator::new(seed, *profiles.first()?);
    generator.schedule = schedule.clone();
    generator.act_until(count, &profiles);
    Some(join(&generator.lines))
}

fn profiles(name: &str) -> Vec<Profile> {
    PROFILES
        .into_iter()
        .filter(|p| p.name == name || name == MIXED && p.name != "far")
        .collect()
}

pub fn join(lines: &[Vec<u8>]) -> Vec<u8> {
    let mut text = Vec::new();
    for line in lines {
        text.extend_from_slice(line);
        text.push(b'\n');
    }
    text
}

/// Lines that a schedule refuses or that change nothing, for lists made elsewhere.
pub fn idle_line(dice: &mut Dice, schedule: &Fast) -> Vec<u8> {
    const IDLE: [Action; 12] = [
        Generator::deliver_again,
        Generator::deliver_again,
        Generator::deliver_changed,
        Generator::deliver_spoiled,
        Generator::cancel_unknown,
        Generator::cancel_again,
        Generator::choose_again,
        Generator::choose_again,
        Generator::choose_unknown,
        Generator::spoil_clock,
        Generator::program,
        Generator::damage,
    ];
    let mut generator = Generator::new(dice.roll(), PROFILES[0]);
    generator.schedule = schedule.clone();
    generator.dice.pick(&IDLE)(&mut generator);
    generator.lines.pop().unwrap_or_default()
}

struct Generator {
    dice: Dice,
    /// Of the ids in lines. Wider ones are cut when a line is put.
    width: Width,
    schedule: Fast,
    profile: Profile,
    lines: Vec<Vec<u8>>,
    output: Vec<u8>,
    /// A program that is never added, so that 5 and 6 stay within reach.
    missing: u8,
}

impl Generator {
    fn new(seed: u64, profile: Profile) -> Self {
        let mut dice = Dice::new(seed);
        let missing = dice.below(8) as u8;
        Generator {
            dice,
            width: Width::Long,
            schedule: Fast::fresh(),
            profile,
            lines: Vec::new(),
            output: Vec::new(),
            missing,
        }
    }

    /// Just `count` lines.
    fn act_until(&mut self, count: usize, profiles: &[Profile]) {
        while self.lines.len() < count {
            if self.dice.chance(1, 40) {
                self.profile = self.dice.pick(profiles);
            }
            self.act();
        }
        self.lines.truncate(count);
    }

    fn act(&mut self) {
        let odds = self.profile.odds;
        let total = odds.iter().map(|&odd| u64::from(odd)).sum();
        let mut left = self.dice.below(total);
        for (action, odd) in ACTIONS.into_iter().zip(odds) {
            if left < u64::from(odd) {
                return action(self);
            }
            left -= u64::from(odd);
        }
    }

    /// Some programs, and a clock shortly before the earliest start that an event may have.
    fn open(&mut self) {
        for _ in 0..self.dice.between(3, 8) {
            self.add_usable();
        }
        let opening = self.dice.pick(&[0, 3_590, 3_598, 3_599, 3_600, 3_700]);
        self.put(Frame::Clock(opening));
    }

    fn put(&mut self, frame: Frame) {
        self.put_line(encode_over(self.width, &frame));
    }

    fn put_line(&mut self, line: Vec<u8>) {
        self.output.clear();
        let frame = decode_over(self.width, &line);
        self.schedule.frame(frame, &mut self.output);
        self.lines.push(line);
    }

    fn clock(&self) -> u64 {
        self.schedule.clock()
    }

    fn any_held(&mut self) -> Option<Entry> {
        let entries = self.schedule.entries();
        (!entries.is_empty()).then(|| self.dice.pick(&entries))
    }

    // Events.

    fn deliver_ahead(&mut self) {
        if self.is_crowded() {
            return self.step_to_change();
        }
        let target = self.clock() + 1 + self.amount(self.profile.ahead);
        let event = self.event_at(target);
        self.put(Frame::Event(event));
    }

    /// True mostly if no id or no place is free, so that time has to pass first.
    fn is_crowded(&mut self) -> bool {
        let held = self.schedule.entries().len();
        let crowded = held as u64 >= self.profile.ids.min(MOST_EVENTS as u64);
        crowded && self.dice.chance(7, 8)
    }

    /// The drawn start is now or past, and some seconds are left.
    fn deliver_late(&mut self) {
        if self.is_crowded() {
            return self.step_to_change();
        }
        let clock = self.clock();
        let past = self.amount(self.profile.longest);
        let mut event = self.event_at(clock.saturating_sub(past));
        let left = clock + 2 + self.amount(self.profile.longest);
        let length = left.saturating_sub(event.drawn_start());
        let drawn = length.saturating_add_signed(-i64::from(event.duration_draw));
        event.duration = drawn.clamp(1, u32::MAX.into()) as u32;
        self.put(Frame::Event(event));
    }

    /// Around check 9, from both sides and for both of its reasons.
    fn deliver_at_edge(&mut self) {
        let clock = self.clock();
        let length = 1 + self.dice.below(self.profile.longest);
        let mut event = self.event_at(clock.saturating_sub(length));
        let draw = self.dice.pick(&[0, 0, 3, 100, -1, -2]);
        event.randomize_duration = draw;
        event.duration_draw = draw;
        let edge = clock + self.dice.pick(&[0, 1, 2]);
        let from = if self.dice.chance(1, 2) {
            u64::from(event.start)
        } else {
            event.drawn_start().saturating_add_signed(draw.into())
        };
        event.duration = edge.saturating_sub(from).clamp(1, u32::MAX.into()) as u32;
        self.put(Frame::Event(event));
    }

    fn event_at(&mut self, drawn_start: u64) -> Event {
        let length = 1 + self.amount(self.profile.longest);
        let (randomize_start, start_draw) = self.draw(drawn_start.saturating_sub(3_600));
        let (randomize_duration, duration_draw) = self.draw(length - 1);
        let start = drawn_start.saturating_add_signed(-i64::from(start_draw));
        let duration = length.saturating_add_signed(-i64::from(duration_draw));
        Event {
            id: self.free_id(),
            program: self.known_program(),
            controls: self.mask(),
            creation: self.dice.below(self.profile.creations) as u32,
            start: start.clamp(3_600, u32::MAX.into()) as u32,
            duration: duration.clamp(1, u32::MAX.into()) as u32,
            randomize_start,
            randomize_duration,
            start_draw,
            duration_draw,
        }
    }

    /// Less than `limit`. Large limits give numbers of every size.
    fn amount(&mut self, limit: u64) -> u64 {
        const LARGE: u64 = 100_000;
        let size = 1 << self.dice.below(34);
        let limit = if limit > LARGE {
            limit.min(size)
        } else {
            limit
        };
        self.dice.below(limit)
    }

    /// A randomisation and a draw of it, which mostly keeps to `most` so that the event does not
    /// last much longer or start much later than it was meant to.
    fn draw(&mut self, most: u64) -> (i16, i16) {
        let widest: i64 = self.dice.pick(&[0, 0, 0, 0, 1, 5, 20, 3_600]);
        let randomisation = self.dice.between(-widest, widest);
        let draw = match self.dice.below(3) {
            0 => randomisation,
            1 => 0,
            _ => self
                .dice
                .between(randomisation.min(0), randomisation.max(0)),
        };
        let kept = if self.dice.chance(1, 100) {
            draw
        } else {
            draw.min(most.min(3_600) as i64)
        };
        (randomisation as i16, kept as i16)
    }

    /// An id that is not held, if some tries find one.
    fn free_id(&mut self) -> u128 {
        let held = self.schedule.entries();
        for _ in 0..8 {
            let id = self.any_id();
            if held.iter().all(|entry| entry.event.id != id) {
                return id;
            }
        }
        self.any_id()
    }

    fn any_id(&mut self) -> u128 {
        match self.dice.below(30) {
            0 => u128::MAX - u128::from(self.dice.below(2)),
            1 => 0,
            2..=4 => self.id_beside(),
            _ if self.profile.ids == ALL => ids::any(&mut self.dice),
            _ => self.id_around(),
        }
    }

    fn id_around(&mut self) -> u128 {
        let small = 1 + self.dice.below(self.profile.ids);
        ids::around(&mut self.dice, small)
    }

    /// Has a half of a held id.
    fn id_beside(&mut self) -> u128 {
        match self.any_held() {
            Some(entry) => ids::beside(&mut self.dice, entry.event.id),
            None => self.id_around(),
        }
    }

    fn known_program(&mut self) -> u8 {
        let programs = self.schedule.programs();
        let known: Vec<u8> = (0..8)
            .filter(|&n| programs[usize::from(n)].is_some())
            .collect();
        match known.is_empty() {
            true => self.missing,
            false => self.dice.pick(&known),
        }
    }

    fn mask(&mut self) -> u32 {
        const FEW: [u32; 4] = [0, 1, 2, 31];
        match self.profile.masks {
            Masks::One => 1 << self.dice.pick(&FEW),
            Masks::Few => {
                let second = self.dice.pick(&FEW);
                let third = self.dice.pick(&FEW);
                1 << self.dice.pick(&FEW) | (self.dice.below(2) as u32) << second | 1 << third
            }
            Masks::Spread => {
                let third = self.dice.below(32);
                1 << self.dice.below(32)
                    | (self.dice.below(2) as u32) << self.dice.below(32)
                    | 1 << third
            }
            Masks::Many => match self.dice.below(4) {
                0 => u32::MAX,
                1 => self.dice.roll() as u32 & self.dice.roll() as u32 | 1,
                2 => self.dice.roll() as u32 | self.dice.roll() as u32,
                _ => self.dice.roll() as u32 | 1 << 31,
            },
        }
    }

    fn deliver_again(&mut self) {
        match self.any_held() {
            Some(entry) => self.put(Frame::Event(entry.event)),
            None => self.deliver_ahead(),
        }
    }

    /// A held event under an id that has a half of its own, so that often the id alone breaks a tie.
    fn deliver_twin(&mut self) {
        match self.any_held() {
            Some(Entry { mut event, .. }) => {
                event.id = ids::beside(&mut self.dice, event.id);
                self.put(Frame::Event(event));
            }
            None => self.deliver_ahead(),
        }
    }

    /// A held id with one field changed, sometimes into a forbidden value.
    fn deliver_changed(&mut self) {
        let Some(Entry { mut event, .. }) = self.any_held() else {
            return self.deliver_ahead();
        };
        match self.dice.below(10) {
            0 => event.program = (event.program + 1) % 8,
            1 => event.controls ^= 1 << self.dice.below(32),
            2 => event.creation ^= 1,
            3 => event.start ^= 1,
            4 => event.duration ^= 1,
            5 => event.randomize_start ^= 1,
            6 => event.randomize_duration ^= 1,
            7 => event.start_draw ^= 1,
            8 => event.duration_draw ^= 1,
            _ => event.controls = 0,
        }
        self.put(Frame::Event(event));
    }

    /// One thing wrong, sometimes two, so that the order of the checks shows.
    fn deliver_spoiled(&mut self) {
        let target = self.clock() + 1 + self.amount(self.profile.ahead);
        let mut event = self.event_at(target);
        for _ in 0..self.dice.pick(&[1, 1, 1, 2]) {
            self.spoil(&mut event);
        }
        self.put(Frame::Event(event));
    }

    fn spoil(&mut self, event: &mut Event) {
        match self.dice.below(13) {
            0 => event.program = self.dice.pick(&[8, 9, 128, 255]),
            1 => event.program = self.missing,
            2 => event.controls = 0,
            3 => event.start = self.dice.pick(&[0, 1, 3_599]),
            4 => event.duration = 0,
            5 => event.randomize_start = self.dice.pick(&[3_601, -3_601, i16::MIN, i16::MAX]),
            6 => event.randomize_duration = self.dice.pick(&[3_601, -3_601, i16::MIN, i16::MAX]),
            7 => event.start_draw = self.past_draw(event.randomize_start),
            8 => event.duration_draw = self.past_draw(event.randomize_duration),
            9 | 10 => shorten(event, self.dice.below(3) as i16),
            11 => event.duration = self.dice.below(3) as u32,
            _ => event.start = 3_600 + self.dice.below(30) as u32,
        }
    }

    /// A draw just outside its range.
    fn past_draw(&mut self, randomisation: i16) -> i16 {
        let below = randomisation.min(0).saturating_sub(1);
        let above = randomisation.max(0).saturating_add(1);
        self.dice.pick(&[below, above, i16::MIN, i16::MAX])
    }

    /// Delivers until 48 are held, and some more.
    fn fill(&mut self) {
        let missing = MOST_EVENTS - self.schedule.entries().len();
        for _ in 0..missing + 2 {
            let target = self.clock() + 1 + self.amount(self.profile.ahead);
            let mut event = self.event_at(target);
            let small = self.dice.roll() >> 40;
            event.id = ids::around(&mut self.dice, small);
            self.put(Frame::Event(event));
        }
    }

    // Cancellations.

    fn cancel_now(&mut self) {
        match self.any_held() {
            Some(entry) => self.put(Frame::Cancel(entry.event.id)),
            None => self.cancel_unknown(),
        }
    }

    fn cancel_again(&mut self) {
        let mut entries = self.schedule.entries();
        entries.retain(|entry| entry.cancelled);
        if !entries.is_empty() {
            let entry = self.dice.pick(&entries);
            self.put(Frame::Cancel(entry.event.id));
        }
    }

    fn cancel_at_moment(&mut self) {
        let Some(entry) = self.held_at_moment() else {
            return self.cancel_unknown();
        };
        self.put(Frame::Cancel(entry.event.id));
        if self.dice.chance(1, 4) {
            self.put(Frame::Cancel(entry.event.id));
        }
        if self.dice.chance(1, 2) {
            self.ask_about(&entry);
        }
    }

    fn cancel_unknown(&mut self) {
        let id = self.unknown_id();
        self.put(Frame::Cancel(id));
    }

    /// An event with the clock around its start, in its last seconds, or at its end, where the id
    /// is gone.
    fn held_at_moment(&mut self) -> Option<Entry> {
        let entry = self.any_held()?;
        let (start, end) = (entry.effective_start, entry.event.effective_end());
        let around_start = [-2, -1, 0, 1].map(|seconds| (start, seconds));
        let before_end = [-2, -1, 0].map(|seconds| (end, seconds));
        let moments = [&around_start[..], &before_end].concat();
        let (edge, seconds) = self.dice.pick(&moments);
        self.clock_at_least(edge.saturating_add_signed(seconds));
        Some(entry)
    }

    fn unknown_id(&mut self) -> u128 {
        match self.dice.below(3) {
            0 => ids::any(&mut self.dice),
            1 => self.id_beside(),
            _ => self.free_id(),
        }
    }

    // Choices.

    /// Often back again some seconds later.
    fn choose_now(&mut self) {
        let Some(entry) = self.any_held() else {
            return self.choose_unknown();
        };
        self.choose(&entry);
        if self.dice.chance(1, 2) {
            self.step();
            let before = entry.participation.choice;
            self.put(Frame::Choice(entry.event.id, before));
        }
    }

    /// Mostly the choice that is not the present one.
    fn choose(&mut self, entry: &Entry) {
        let present = entry.participation.choice;
        let choice = match self.dice.chance(3, 4) {
            true => present.other(),
            false => present,
        };
        self.put(Frame::Choice(entry.event.id, choice));
    }

    /// Sometimes two or three choices at one clock.
    fn choose_at_moment(&mut self) {
        let Some(entry) = self.held_at_moment() else {
            return self.choose_unknown();
        };
        let id = entry.event.id;
        self.choose(&entry);
        for _ in 0..self.dice.pick(&[0, 0, 0, 1, 2]) {
            let choice = self.dice.pick(&[Choice::In, Choice::Out]);
            self.put(Frame::Choice(id, choice));
        }
        if self.dice.chance(1, 2) {
            self.ask_about(&entry);
        }
    }

    fn choose_again(&mut self) {
        if let Some(entry) = self.any_held() {
            let present = entry.participation.choice;
            self.put(Frame::Choice(entry.event.id, present));
        }
    }

    fn choose_unknown(&mut self) {
        let id = self.unknown_id();
        let choice = self.dice.pick(&[Choice::In, Choice::Out]);
        self.put(Frame::Choice(id, choice));
    }

    // The clock.

    /// Moves on to the moment unless that is past or far off.
    fn clock_at_least(&mut self, moment: u64) {
        let near = self.clock() + 4 * (self.profile.ahead + self.profile.step);
        if moment >= self.clock() && moment <= near {
            self.put(Frame::Clock(moment));
        }
    }

    fn step(&mut self) {
        let reading = self.clock() + self.amount(self.profile.step + 1);
        self.put(Frame::Clock(reading.min(LAST_CLOCK)));
    }

    fn step_to_change(&mut self) {
        let Some(entry) = self.any_held() else {
            return self.step();
        };
        let end = entry.event.effective_end();
        let moment = self.dice.pick(&[entry.effective_start, end]);
        let reading = moment.saturating_add_signed(self.dice.between(-1, 1));
        self.clock_at_least(reading);
    }

    fn drain(&mut self) {
        let entries = self.schedule.entries();
        let last = entries.iter().map(|e| e.event.effective_end()).max();
        let reading = last.unwrap_or(self.clock());
        self.clock_at_least(reading);
    }

    fn spoil_clock(&mut self) {
        let clock = self.clock();
        let back = clock.saturating_sub(1 + self.dice.below(5));
        let readings = [back, 0, clock, LAST_CLOCK + 1, 1 << 63, u64::MAX];
        let reading = self.dice.pick(&readings);
        self.put(Frame::Clock(reading));
    }

    // Programs, questions and damage.

    fn add_usable(&mut self) {
        let number = self.dice.below(8) as u8;
        if number != self.missing {
            let program = self.usable_program();
            self.put(Frame::Program(number, program));
        }
    }

    fn usable_program(&mut self) -> Program {
        Program {
            primacy: self.dice.pick(self.profile.primacies),
            defaults: self.dice.roll() as u32 & self.dice.roll() as u32,
        }
    }

    fn program(&mut self) {
        if self.dice.chance(1, 3) {
            return self.add_usable();
        }
        let mut number = self.dice.below(10) as u8;
        let mut program = self.usable_program();
        if number == self.missing || self.dice.chance(1, 3) {
            number = self.missing;
            program.primacy = self.dice.pick(&[3, 30, 64, 192, 255]);
            debug_assert!(!is_usable(program.primacy));
        }
        self.put(Frame::Program(number, program));
    }

    fn ask(&mut self) {
        let control = match self.dice.below(12) {
            0 => self.dice.pick(&[32, 33, 128, 255]),
            1..=4 => self.dice.below(32) as u8,
            _ => self.dice.pick(&[0, 1, 2, 31]),
        };
        self.put(Frame::Ask(control));
    }

    /// A question for the first control that the event carries.
    fn ask_about(&mut self, entry: &Entry) {
        let control = entry.event.controls.trailing_zeros() as u8;
        self.put(Frame::Ask(control));
    }

    fn damage(&mut self) {
        let mut line = self.sound_line();
        self.hurt(&mut line);
        self.put_line(line);
    }

    fn sound_line(&mut self) -> Vec<u8> {
        let clock = self.clock();
        let event = self.event_at(clock + 5);
        let program = self.usable_program();
        let frames = [
            Frame::Event(event),
            Frame::Cancel(event.id),
            Frame::Clock(clock),
            Frame::Program(event.program, program),
            Frame::Ask(self.dice.below(32) as u8),
            Frame::Choice(event.id, Choice::Out),
            Frame::Choice(event.id, Choice::In),
        ];
        encode_over(self.width, &self.dice.pick(&frames))
    }

    fn hurt(&mut self, line: &mut Vec<u8>) {
        let at = self.dice.below(line.len() as u64) as usize;
        let foreign = b"\0\r \t/:@G`g.-\x7f\x80\xc3\xff";
        match self.dice.below(15) {
            0 => lower_case(line),
            1 => drop(line.pop()),
            2 => line.push(b'0'),
            3 => line.extend_from_slice(b"00"),
            4 => line.truncate(line.len() - 2),
            5 => line.push(b'\r'),
            6..=8 => line[at] = self.dice.pick(foreign),
            9 => line[..2].copy_from_slice(self.dice.pick(&[b"00", b"08", b"09", b"FF"])),
            10 => line[..2].copy_from_slice(self.dice.pick(&[b"01", b"02", b"05", b"06", b"07"])),
            11 => line.clear(),
            12 | 13 => self.change_width(line),
            _ => *line = self.noise(),
        }
    }

    /// Takes bytes off the front of a long id, or puts zeros before a short one. They are mostly
    /// eight, which makes a frame of the other width.
    fn change_width(&mut self, line: &mut Vec<u8>) {
        let bytes = self.dice.pick(&[8, 8, 8, 1, 4, 7, 9, ID_BYTES]);
        let end = line.len().min(2 + 2 * bytes);
        match self.width {
            Width::Long => drop(line.drain(2..end)),
            Width::Short => drop(line.splice(2..2, b"00".repeat(bytes))),
        }
    }

    fn noise(&mut self) -> Vec<u8> {
        let size = self.dice.pick(&[1, 2, 3, 9, 17, 34, 42, 43, 500]);
        let bytes: Vec<u8> = (0..size).map(|_| self.dice.roll() as u8).collect();
        match self.dice.chance(1, 2) {
            true => hex(&bytes),
            false => bytes.into_iter().filter(|&byte| byte != b'\n').collect(),
        }
    }
}

/// The event's length becomes the given one, or the event comes to have none.
fn shorten(event: &mut Event, length: i16) {
    event.duration = 10;
    event.randomize_duration = -10;
    event.duration_draw = length - 10;
}

/// A line without letters gets one that is wrong.
fn lower_case(line: &mut [u8]) {
    match line.iter_mut().rfind(|c| c.is_ascii_uppercase()) {
        Some(letter) => letter.make_ascii_lowercase(),
        None => line[line.len() - 1] = b'a',
    }
}
