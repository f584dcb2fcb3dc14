//! Lines of hexadecimal pairs and the frames that they may hold.

use crate::choice::Choice;
use crate::event::{Event, Program};

#[derive(Clone, Copy, PartialEq, Eq, Debug)]
pub enum Frame {
    Event(Event),
    Cancel(u128),
    Clock(u64),
    Program(u8, Program),
    Ask(u8),
    Choice(u128, Choice),
}

pub const ID_BYTES: usize = 16;
pub const EVENT_FIELDS: usize = ID_BYTES + REST;

/// The bytes of an event behind its id.
const REST: usize = 25;

/// The longest line that can be a frame, in characters.
pub const LONGEST_LINE: usize = 2 * (1 + EVENT_FIELDS);

/// How wide the ids in a line are: 64 bits before #104, 128 since.
#[derive(Clone, Copy, PartialEq, Eq, Debug)]
pub enum Width {
    Short,
    Long,
}

impl Width {
    fn bytes(self) -> usize {
        match self {
            Width::Short => 8,
            Width::Long => ID_BYTES,
        }
    }

    fn read(self, digits: &[u8]) -> Option<u128> {
        match self {
            Width::Short => unhex(digits).map(|id| u64::from_be_bytes(id).into()),
            Width::Long => unhex(digits).map(u128::from_be_bytes),
        }
    }
}

/// `None` is refusal 1.
pub fn decode(line: &[u8]) -> Option<Frame> {
    decode_over(Width::Long, line)
}

/// The same with ids of the given width.
#[inline]
pub fn decode_over(width: Width, line: &[u8]) -> Option<Frame> {
    let (kind, fields) = line.split_at_checked(2)?;
    match kind {
        b"01" => decode_event(width, fields),
        b"02" => width.read(fields).map(Frame::Cancel),
        b"03" => unhex(fields).map(|reading| Frame::Clock(u64::from_be_bytes(reading))),
        b"04" => unhex(fields).map(|fields| decode_program(&fields)),
        b"05" => unhex(fields).map(|[control]| Frame::Ask(control)),
        b"06" => width.read(fields).map(|id| Frame::Choice(id, Choice::Out)),
        b"07" => width.read(fields).map(|id| Frame::Choice(id, Choice::In)),
        _ => None,
    }
}

fn decode_event(width: Width, fields: &[u8]) -> Option<Frame> {
    let (id, rest) = fields.split_at_checked(2 * width.bytes())?;
    let event = event_of(width.read(id)?, &unhex(rest)?);
    Some(Frame::Event(event))
}

fn decode_program(&[number, primacy, ref defaults @ ..]: &[u8; 6]) -> Frame {
    let defaults = u32::from_be_bytes(*defaults);
    Frame::Program(number, Program { primacy, defaults })
}

/// The 41 field bytes of an event, as a frame and an image have them.
pub fn read_event(fields: &[u8]) -> Event {
    event_of(
        u128::from_be_bytes(part(fields, 0)),
        &part(fields, ID_BYTES),
    )
}

fn event_of(id: u128, rest: &[u8; REST]) -> Event {
    Event {
        id,
        program: rest[0],
        controls: u32::from_be_bytes(part(rest, 1)),
        creation: u32::from_be_bytes(part(rest, 5)),
        start: u32::from_be_bytes(part(rest, 9)),
        duration: u32::from_be_bytes(part(rest, 13)),
        randomize_start: i16::from_be_bytes(part(rest, 17)),
        randomize_duration: i16::from_be_bytes(part(rest, 19)),
        start_draw: i16::from_be_bytes(part(rest, 21)),
        duration_draw: i16::from_be_bytes(part(rest, 23)),
    }
}

pub fn write_event(event: &Event, bytes: &mut Vec<u8>) {
    bytes.extend_from_slice(&event.id.to_be_bytes());
    write_rest(event, bytes);
}

fn write_rest(event: &Event, bytes: &mut Vec<u8>) {
    bytes.push(event.program);
    for word in [event.controls, event.creation, event.start, event.duration] {
        bytes.extend_from_slice(&word.to_be_bytes());
    }
    let randomisations = [event.randomize_start, event.randomize_duration];
    let draws = [event.start_draw, event.duration_draw];
    for signed in randomisations.into_iter().chain(draws) {
        bytes.extend_from_slice(&signed.to_be_bytes());
    }
}

pub fn part<const N: usize>(bytes: &[u8], from: usize) -> [u8; N] {
    let mut taken = [0; N];
    taken.copy_from_slice(&bytes[from..from + N]);
    taken
}

/// The frame as the upper-case line that `decode` takes back.
pub fn encode(frame: &Frame) -> Vec<u8> {
    encode_over(Width::Long, frame)
}

/// With ids of the given width, which lose their upper bits if they are wider.
pub fn encode_over(width: Width, frame: &Frame) -> Vec<u8> {
    let mut bytes = Vec::with_capacity(1 + EVENT_FIELDS);
    match *frame {
        Frame::Event(event) => {
            write_id(width, 1, event.id, &mut bytes);
            write_rest(&event, &mut bytes);
        }
        Frame::Cancel(id) => write_id(width, 2, id, &mut bytes),
        Frame::Clock(reading) => {
            bytes.push(3);
            bytes.extend_from_slice(&reading.to_be_bytes());
        }
        Frame::Program(number, program) => {
            bytes.extend_from_slice(&[4, number, program.primacy]);
            bytes.extend_from_slice(&program.defaults.to_be_bytes());
        }
        Frame::Ask(control) => bytes.extend_from_slice(&[5, control]),
        Frame::Choice(id, Choice::Out) => write_id(width, 6, id, &mut bytes),
        Frame::Choice(id, Choice::In) => write_id(width, 7, id, &mut bytes),
    }
    hex(&bytes)
}

fn write_id(width: Width, kind: u8, id: u128, bytes: &mut Vec<u8>) {
    bytes.push(kind);
    bytes.extend_from_slice(&id.to_be_bytes()[ID_BYTES - width.bytes()..]);
}

pub fn hex(bytes: &[u8]) -> Vec<u8> {
    const DIGITS: &[u8; 16] = b"0123456789ABCDEF";
    let pair = |&byte: &u8| [byte >> 4, byte & 15].map(|digit| DIGITS[usize::from(digit)]);
    bytes.iter().flat_map(pair).collect()
}

/// Just `N` bytes. Looks at all digits before it decides, so that the loop has no branch.
fn unhex<const N: usize>(digits: &[u8]) -> Option<[u8; N]> {
    if digits.len() != 2 * N {
        return None;
    }
    let mut bytes = [0; N];
    let mut all_good = true;
    for (byte, pair) in bytes.iter_mut().zip(digits.chunks_exact(2)) {
        let (high, high_good) = digit(pair[0]);
        let (low, low_good) = digit(pair[1]);
        *byte = high << 4 | low;
        all_good &= high_good & low_good;
    }
    all_good.then_some(bytes)
}

/// The value is meant only if the mark is true.
fn digit(character: u8) -> (u8, bool) {
    let decimal = character.wrapping_sub(b'0');
    let letter = character.wrapping_sub(b'A');
    let value = if decimal < 10 {
        decimal
    } else {
        letter.wrapping_add(10) & 15
    };
    (value, (decimal < 10) | (letter < 6))
}
