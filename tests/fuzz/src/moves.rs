//! Moves of a host, read from the fuzzer's bytes. Any bytes give some moves. Most numbers are short
//! and close to the clock, so that a changed byte changes a schedule rather than a refusal; one
//! form of each call takes its numbers whole.

use oracle::event::LAST_CLOCK;
use oracle::frame::{read_event, EVENT_FIELDS, ID_BYTES};
use oracle::ids::joined;
use oracle::image::{ENTRY_BYTES, IMAGE_BYTES, RECORD_BYTES};
use oracle::{Choice, Event, Frame, Program};

/// More would make a run slow and show little.
const MOST_MOVES: usize = 300;

const LEAST_START: u64 = 3_600;
const EVENTS_AT: usize = IMAGE_BYTES - 48 * ENTRY_BYTES;

pub enum Move<'a> {
    Frame(Frame, Room),
    List(Room),
    Fresh,
    Edit(Edit),
    /// Bytes as they are: the front of an image, or a part of a text.
    Raw(&'a [u8]),
    Length(usize),
}

/// The length of a lent buffer, once it is known how many bytes the call has to write.
#[derive(Clone, Copy)]
pub struct Room(pub u8);

impl Room {
    pub const AMPLE: Room = Room(4);

    pub fn bytes(self, exact: usize) -> usize {
        match self.0 {
            0 => exact,
            1 => exact.saturating_sub(1),
            2 => exact + 1,
            3 => 0,
            4 => 48 * RECORD_BYTES + 1,
            // Of a listing: enough for as many image entries, not for as many records.
            5 => exact - exact / 8,
            some => usize::from(some),
        }
    }
}

/// A byte of an image or a text changed.
pub struct Edit {
    at: usize,
    manner: u8,
    value: u8,
}

impl Edit {
    pub fn make(&self, bytes: &mut [u8]) {
        if bytes.is_empty() {
            return;
        }
        let at = self.at % bytes.len();
        match self.manner % 4 {
            0 => bytes[at] = self.value,
            1 => bytes[at] ^= 1 << (self.value & 7),
            2 => add(&mut bytes[..=at], self.value),
            _ => subtract(&mut bytes[..=at], self.value),
        }
    }
}

/// To the number that ends here, most significant byte first.
fn add(bytes: &mut [u8], value: u8) {
    let mut carry = value;
    for byte in bytes.iter_mut().rev().take(ID_BYTES) {
        let (sum, over) = byte.overflowing_add(carry);
        *byte = sum;
        carry = over.into();
    }
}

fn subtract(bytes: &mut [u8], value: u8) {
    let mut borrow = value;
    for byte in bytes.iter_mut().rev().take(ID_BYTES) {
        let (difference, under) = byte.overflowing_sub(borrow);
        *byte = difference;
        borrow = under.into();
    }
}

pub struct Moves<'a> {
    bytes: &'a [u8],
    left: usize,
    /// The clock that short numbers are close to.
    pub clock: u64,
    /// The event delivered last, and how often it is still to be delivered under the next id.
    last: Event,
    again: u8,
}

impl<'a> Moves<'a> {
    pub fn of(bytes: &'a [u8]) -> Self {
        Moves {
            bytes,
            left: MOST_MOVES,
            clock: 0,
            last: Event::default(),
            again: 0,
        }
    }

    fn byte(&mut self) -> Option<u8> {
        self.take::<1>().map(|[byte]| byte)
    }

    fn take<const N: usize>(&mut self) -> Option<[u8; N]> {
        let (&taken, rest) = self.bytes.split_first_chunk()?;
        self.bytes = rest;
        Some(taken)
    }

    fn read(&mut self) -> Option<Move<'a>> {
        let made = match self.byte()? % 16 {
            0 => Move::Frame(self.program()?, Room::AMPLE),
            1..=4 => self.deliver(Moves::near_event)?,
            5 => self.deliver(Moves::whole_event)?,
            6 => Move::Frame(Frame::Cancel(self.byte().map(id_of)?), Room::AMPLE),
            7 => self.clock_after(0)?,
            8 => self.choose()?,
            9 => self.clock_after(8)?,
            10 => self.whole_number()?,
            11 => Move::Frame(Frame::Ask(self.byte()?), Room(self.byte()?)),
            12 => Move::List(Room(self.byte()?)),
            13 => self.deliver_again()?,
            14 => Move::Edit(self.edit()?),
            _ => self.seldom()?,
        };
        Some(made)
    }

    fn program(&mut self) -> Option<Frame> {
        let [number, primacy, defaults] = self.take()?;
        let defaults = mask_of(defaults);
        Some(Frame::Program(number % 10, Program { primacy, defaults }))
    }

    fn deliver(&mut self, event: fn(&mut Self) -> Option<Event>) -> Option<Move<'a>> {
        self.last = event(self)?;
        Some(Move::Frame(Frame::Event(self.last), Room::AMPLE))
    }

    /// The top bits of the second byte tell which of the fields follow that are mostly 0, and the
    /// next one that draws have the sign of their randomisation, so that most are in range.
    fn near_event(&mut self) -> Option<Event> {
        let [id, program, controls, start, duration] = self.take()?;
        let around = self.clock.max(LEAST_START) as i64 + i64::from(start as i8);
        let mut event = Event {
            id: id_of(id),
            program: (program & 15) % 9,
            controls: mask_of(controls),
            start: around as u32,
            duration: duration.into(),
            ..Event::default()
        };
        if program & 64 != 0 {
            event.creation = self.byte()?.into();
        }
        if program & 128 != 0 {
            let bytes = self.take()?.map(|byte| i16::from(byte as i8));
            let [start, duration, start_draw, duration_draw] = bytes;
            let signed = |draw: i16, randomisation: i16| match program & 32 {
                0 => draw,
                _ => draw.abs() * randomisation.signum(),
            };
            event.randomize_start = start * 30;
            event.randomize_duration = duration * 30;
            event.start_draw = signed(start_draw, start);
            event.duration_draw = signed(duration_draw, duration);
        }
        Some(event)
    }

    fn whole_event(&mut self) -> Option<Event> {
        self.take::<EVENT_FIELDS>()
            .map(|fields| read_event(&fields))
    }

    fn clock_after(&mut self, shift: u32) -> Option<Move<'a>> {
        let seconds = u64::from(self.byte()?) << shift;
        let room = Room(self.byte()?);
        Some(self.clock(self.clock + seconds, room))
    }

    fn clock(&mut self, reading: u64, room: Room) -> Move<'a> {
        if (self.clock..=LAST_CLOCK).contains(&reading) {
            self.clock = reading;
        }
        Move::Frame(Frame::Clock(reading), room)
    }

    fn choose(&mut self) -> Option<Move<'a>> {
        let [choice, id] = self.take()?;
        Some(Move::Frame(choice_of(choice, id_of(id)), Room::AMPLE))
    }

    /// A reading of 8 bytes or an id of 16.
    fn whole_number(&mut self) -> Option<Move<'a>> {
        let [kind, room] = self.take()?;
        Some(match kind & 3 {
            0 => {
                let reading = u64::from_be_bytes(self.take()?);
                self.clock(reading, Room(room))
            }
            1 => Move::Frame(Frame::Cancel(self.whole_id()?), Room::AMPLE),
            other => Move::Frame(choice_of(other, self.whole_id()?), Room::AMPLE),
        })
    }

    fn whole_id(&mut self) -> Option<u128> {
        self.take().map(u128::from_be_bytes)
    }

    /// Otherwise a full schedule would need a long input.
    fn deliver_again(&mut self) -> Option<Move<'a>> {
        self.again = self.byte()? % 50;
        self.next_again()
    }

    fn next_again(&mut self) -> Option<Move<'a>> {
        self.last.id = self.last.id.wrapping_add(1);
        Some(Move::Frame(Frame::Event(self.last), Room::AMPLE))
    }

    /// In an event entry, in the head of the image, or anywhere.
    fn edit(&mut self) -> Option<Edit> {
        let [entry, field, manner, value] = self.take()?;
        let (entry, field) = (usize::from(entry), usize::from(field));
        let at = match entry {
            0..48 => EVENTS_AT + ENTRY_BYTES * entry + field % ENTRY_BYTES,
            48..96 => field % EVENTS_AT,
            _ => entry << 8 | field,
        };
        Some(Edit { at, manner, value })
    }

    fn seldom(&mut self) -> Option<Move<'a>> {
        let [choice, size] = self.take()?;
        Some(match choice % 4 {
            0 => Move::Fresh,
            1 => Move::Length(match size {
                0 | 1 => IMAGE_BYTES - 1 + 2 * usize::from(size),
                2..16 => IMAGE_BYTES,
                some => 20 * usize::from(some - 16),
            }),
            2 => Move::Raw(self.raw(size.into())),
            _ => Move::Raw(self.raw(IMAGE_BYTES)),
        })
    }

    fn raw(&mut self, size: usize) -> &'a [u8] {
        let (raw, rest) = self.bytes.split_at(size.min(self.bytes.len()));
        self.bytes = rest;
        raw
    }
}

impl<'a> Iterator for Moves<'a> {
    type Item = Move<'a>;

    fn next(&mut self) -> Option<Move<'a>> {
        self.left = self.left.checked_sub(1)?;
        if self.again > 0 {
            self.again -= 1;
            return self.next_again();
        }
        self.read()
    }
}

fn choice_of(byte: u8, id: u128) -> Frame {
    match byte & 1 {
        0 => Frame::Choice(id, Choice::Out),
        _ => Frame::Choice(id, Choice::In),
    }
}

/// Small ids, and ids that share a half with one of these or with each other, with the top bit and
/// without. A larger byte gives a larger id.
fn id_of(byte: u8) -> u128 {
    let low = u64::from(byte & 31);
    match byte {
        254 | 255 => u128::MAX - u128::from(255 - byte),
        0..128 => byte.into(),
        128..160 => joined(1, low),
        160..192 => joined(2 + low, 1),
        192..224 => joined(1 << 63, low),
        224..254 => joined(u64::MAX, low),
    }
}

/// Masks of few low controls, of one control, and of many.
fn mask_of(byte: u8) -> u32 {
    let low = u32::from(byte & 31);
    match byte >> 5 {
        0..=3 => low,
        4 | 5 => 1 << low,
        6 => u32::MAX >> low,
        _ => u32::MAX << low,
    }
}
