//! The calls, and the lines and printed output that rest on them.

use crate::choice::Choice;
use crate::event::{Event, Program};
use crate::frame::{decode, decode_over, Frame, Width};
use crate::image::Record;

pub const ROW_BYTES: usize = 25;

/// Enough for the rows of any clock call: an event gives two rows at most.
pub const AMPLE: usize = 2 * crate::event::MOST_EVENTS * ROW_BYTES;

#[derive(Clone, Copy, PartialEq, Eq, Debug)]
pub struct Row {
    pub time: u64,
    pub id: u128,
    pub code: u8,
}

impl Row {
    pub fn bytes(&self) -> [u8; ROW_BYTES] {
        let mut bytes = [0; ROW_BYTES];
        bytes[..8].copy_from_slice(&self.time.to_be_bytes());
        bytes[8..24].copy_from_slice(&self.id.to_be_bytes());
        bytes[24] = self.code;
        bytes
    }

    /// Of one moment the rows of ends come first, then 7, then 2.
    pub fn place(&self) -> (u64, u8, u128) {
        let class = match self.code {
            code if is_end(code) => 0,
            7 => 1,
            _ => 2,
        };
        (self.time, class, self.id)
    }
}

/// Whether the code is that of an event that held something until its end.
pub fn is_end(code: u8) -> bool {
    matches!(code, 3 | 8 | 9 | 10)
}

#[derive(Clone, Copy, PartialEq, Eq, Debug)]
pub enum Answer {
    Event(u128),
    Default(u8),
    None,
}

/// Each call gives the refusal number as its error, and then has changed nothing.
pub trait Calls {
    fn clock(&self) -> u64;

    fn add_program(&mut self, number: u8, program: Program) -> Result<(), u8>;

    /// Gives code 1, or 0 for an equal event that is held already.
    fn deliver(&mut self, event: &Event) -> Result<u8, u8>;

    /// Gives code 6, or 0 if the event was cancelled before.
    fn cancel(&mut self, id: u128) -> Result<u8, u8>;

    /// Opts out of the event or in. Gives the code of the choice, or 0 if it is the present one.
    fn choose(&mut self, id: u128, choice: Choice) -> Result<u8, u8>;

    /// `room` is the length of the caller's buffer in bytes.
    fn set_clock(&mut self, reading: u64, room: usize) -> Result<&[Row], u8>;

    fn ask(&mut self, control: u8) -> Result<Answer, u8>;

    /// `room` is the length of the caller's list in records.
    fn list(&mut self, room: usize) -> Result<Vec<Record>, u8>;

    /// Runs one line, without its line feed, and prints what the program `schedule` prints.
    fn line(&mut self, bytes: &[u8], out: &mut Vec<u8>) {
        self.frame(decode(bytes), out);
    }

    /// What the line of a frame prints; `None` is a line that is no frame.
    fn frame(&mut self, frame: Option<Frame>, out: &mut Vec<u8>) {
        if let Err(number) = self.act(frame, out) {
            print_refusal(number, out);
        }
    }

    fn act(&mut self, frame: Option<Frame>, out: &mut Vec<u8>) -> Result<(), u8> {
        match frame.ok_or(1)? {
            Frame::Event(event) => {
                let code = self.deliver(&event)?;
                print_code(self.clock(), event.id, code, out);
            }
            Frame::Cancel(id) => {
                let code = self.cancel(id)?;
                print_code(self.clock(), id, code, out);
            }
            Frame::Choice(id, choice) => {
                let code = self.choose(id, choice)?;
                print_code(self.clock(), id, code, out);
            }
            Frame::Clock(reading) => print_rows(self.set_clock(reading, AMPLE)?, out),
            Frame::Program(number, program) => self.add_program(number, program)?,
            Frame::Ask(control) => print_answer(control, self.ask(control)?, out),
        }
        Ok(())
    }

    /// Runs a whole text of lines. A line feed at the end begins no further line.
    fn text(&mut self, text: &[u8], out: &mut Vec<u8>) {
        for line in lines_of(text) {
            self.line(line, out);
        }
    }

    /// The same over ids of the given width.
    fn text_over(&mut self, width: Width, text: &[u8], out: &mut Vec<u8>) {
        for line in lines_of(text) {
            self.frame(decode_over(width, line), out);
        }
    }
}

pub fn lines_of(text: &[u8]) -> impl Iterator<Item = &[u8]> {
    text.split_inclusive(|&byte| byte == b'\n')
        .map(|line| line.strip_suffix(b"\n").unwrap_or(line))
}

/// A printed line, made from its right end so that numbers need no turning round.
struct Printed {
    bytes: [u8; Printed::LONGEST],
    first: usize,
}

impl Printed {
    /// Room for a time of 20 digits, an id of 39, a code of 3 and the signs between.
    const LONGEST: usize = 65;

    fn new() -> Self {
        let mut printed = Printed {
            bytes: [0; Printed::LONGEST],
            first: Printed::LONGEST,
        };
        printed.before(b"\n");
        printed
    }

    fn before(&mut self, text: &[u8]) {
        let end = self.first;
        self.first -= text.len();
        self.bytes[self.first..end].copy_from_slice(text);
    }

    fn number_before(&mut self, mut number: u64) {
        while number >= EIGHT_DIGITS {
            self.eight_before(number % EIGHT_DIGITS);
            number /= EIGHT_DIGITS;
        }
        while number >= 100 {
            self.before(&DIGIT_PAIRS[number as usize % 100]);
            number /= 100;
        }
        let pair = DIGIT_PAIRS[number as usize];
        if number >= 10 {
            self.before(&pair);
        } else {
            self.before(&pair[1..]);
        }
    }

    /// Few divisions of 128 bits, as these cost most.
    fn id_before(&mut self, mut id: u128) {
        const SIXTEEN_DIGITS: u128 = 10u128.pow(16);
        while id > u64::MAX.into() {
            let rest = id / SIXTEEN_DIGITS;
            let part = (id - rest * SIXTEEN_DIGITS) as u64;
            self.eight_before(part % EIGHT_DIGITS);
            self.eight_before(part / EIGHT_DIGITS);
            id = rest;
        }
        self.number_before(id as u64);
    }

    /// Eight digits, zeros in front included. No division waits for all those before it.
    fn eight_before(&mut self, number: u64) {
        let (left, right) = (number as u32 / 10_000, number as u32 % 10_000);
        for pair in [right % 100, right / 100, left % 100, left / 100] {
            self.before(&DIGIT_PAIRS[pair as usize]);
        }
    }

    fn put(&self, out: &mut Vec<u8>) {
        out.extend_from_slice(&self.bytes[self.first..]);
    }
}

const EIGHT_DIGITS: u64 = 100_000_000;

const DIGIT_PAIRS: [[u8; 2]; 100] = digit_pairs();

const fn digit_pairs() -> [[u8; 2]; 100] {
    let mut pairs = [[0; 2]; 100];
    let mut number = 0;
    while number < 100 {
        pairs[number] = [b'0' + number as u8 / 10, b'0' + number as u8 % 10];
        number += 1;
    }
    pairs
}

fn print_refusal(number: u8, out: &mut Vec<u8>) {
    let mut printed = Printed::new();
    printed.number_before(number.into());
    printed.before(b"refused ");
    printed.put(out);
}

fn print_code(clock: u64, id: u128, code: u8, out: &mut Vec<u8>) {
    if code == 0 {
        return;
    }
    let mut printed = Printed::new();
    printed.number_before(code.into());
    printed.before(b" ");
    printed.id_before(id);
    printed.before(b" ");
    printed.number_before(clock);
    printed.put(out);
}

fn print_rows(rows: &[Row], out: &mut Vec<u8>) {
    for row in rows {
        print_code(row.time, row.id, row.code, out);
    }
}

fn print_answer(control: u8, answer: Answer, out: &mut Vec<u8>) {
    let mut printed = Printed::new();
    match answer {
        Answer::Event(id) => {
            printed.id_before(id);
            printed.before(b" event ");
        }
        Answer::Default(number) => {
            printed.number_before(number.into());
            printed.before(b" default ");
        }
        Answer::None => printed.before(b" none"),
    }
    printed.number_before(control.into());
    printed.put(out);
}
