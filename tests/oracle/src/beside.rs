//! A call made on both sides, by an oracle and through C, and all that a host can see of it
//! compared: the number returned, the image and the lent bytes, with guards around both.

use crate::convert::{self, turn_into};
use crate::frame::ID_BYTES;
use crate::image::{IMAGE_BYTES, RECORD_BYTES};
use crate::proved::{self, Call};
use crate::random::Dice;
use crate::{Answer, Calls, Choice, Event, Fast, Program, Record, Row, Scheduler};

/// An error tells what differs.
pub type Outcome<T = ()> = Result<T, String>;

pub trait Oracle: Calls + Clone {
    fn image(&mut self) -> Vec<u8>;
}

impl Oracle for Scheduler {
    fn image(&mut self) -> Vec<u8> {
        self.to_image()
    }
}

impl Oracle for Fast {
    fn image(&mut self) -> Vec<u8> {
        self.to_image()
    }
}

/// An image that breaks a rule: each call is refused with 2.
#[derive(Clone)]
pub struct Broken(pub Vec<u8>);

impl Oracle for Broken {
    fn image(&mut self) -> Vec<u8> {
        self.0.clone()
    }
}

impl Calls for Broken {
    fn clock(&self) -> u64 {
        0
    }

    fn add_program(&mut self, _: u8, _: Program) -> Result<(), u8> {
        Err(2)
    }

    fn deliver(&mut self, _: &Event) -> Result<u8, u8> {
        Err(2)
    }

    fn cancel(&mut self, _: u128) -> Result<u8, u8> {
        Err(2)
    }

    fn choose(&mut self, _: u128, _: Choice) -> Result<u8, u8> {
        Err(2)
    }

    fn set_clock(&mut self, _: u64, _: usize) -> Result<&[Row], u8> {
        Err(2)
    }

    fn ask(&mut self, _: u8) -> Result<Answer, u8> {
        Err(2)
    }

    fn list(&mut self, _: usize) -> Result<Vec<Record>, u8> {
        Err(2)
    }
}

/// Gives the number that C has to return, a refusal as error, and writes what C has to write.
fn answer(oracle: &mut impl Calls, call: &Call, lent: &mut [u8]) -> Result<i32, u8> {
    match *call {
        Call::Program(number, program) => oracle.add_program(number, program).map(|()| 0),
        Call::Deliver(event) => oracle.deliver(&event).map(i32::from),
        Call::Cancel(id) => oracle.cancel(id).map(i32::from),
        Call::Choice(id, choice) => oracle.choose(id, choice).map(i32::from),
        Call::Clock(reading, room) => {
            let rows = oracle.set_clock(reading, room)?;
            write_front(lent, rows.iter().map(Row::bytes));
            Ok(rows.len() as i32)
        }
        Call::Ask(control, room) => match oracle.ask(control)? {
            Answer::Event(_) if room < ID_BYTES => Err(13),
            Answer::Event(id) => {
                write_front(lent, [id.to_be_bytes()]);
                Ok(1)
            }
            Answer::Default(program) => Ok(2 + i32::from(program)),
            Answer::None => Ok(0),
        },
        Call::List(room) => {
            let records = oracle.list(room / RECORD_BYTES)?;
            write_front(lent, records.iter().map(Record::bytes));
            Ok(records.len() as i32)
        }
    }
}

fn write_front<P: AsRef<[u8]>>(lent: &mut [u8], pieces: impl IntoIterator<Item = P>) {
    let mut at = 0;
    for piece in pieces {
        let piece = piece.as_ref();
        lent[at..at + piece.len()].copy_from_slice(piece);
        at += piece.len();
    }
}

/// Bytes between guards. The odd length of a guard keeps them off the borders of words.
#[derive(Clone)]
pub struct Lent(Vec<u8>);

const GUARD: usize = 33;

impl Lent {
    /// Bytes that a call would hardly write by chance.
    pub fn noise(dice: &mut Dice, size: usize) -> Self {
        let words = (size + 2 * GUARD).div_ceil(8);
        let mut bytes: Vec<u8> = (0..words).flat_map(|_| dice.roll().to_ne_bytes()).collect();
        bytes.truncate(size + 2 * GUARD);
        Lent(bytes)
    }

    pub fn holding(dice: &mut Dice, content: &[u8]) -> Self {
        let mut lent = Lent::noise(dice, content.len());
        lent.inside().copy_from_slice(content);
        lent
    }

    pub fn inside(&mut self) -> &mut [u8] {
        let end = self.0.len() - GUARD;
        &mut self.0[GUARD..end]
    }
}

/// All that a host can see of a call.
#[derive(Clone)]
pub struct Seen {
    pub returned: i32,
    pub image: Lent,
    pub lent: Lent,
}

impl Seen {
    /// What there is before a call: the image as it is, and noise where the call may write.
    pub fn before(call: &Call, image: &Lent, dice: &mut Dice) -> Self {
        Seen {
            returned: 0,
            image: image.clone(),
            lent: Lent::noise(dice, call.room()),
        }
    }

    pub fn by_oracle(mut self, oracle: &mut impl Oracle, call: &Call) -> Self {
        self.returned = match answer(oracle, call, self.lent.inside()) {
            Ok(number) => number,
            Err(refusal) => -i32::from(refusal),
        };
        self.image.inside().copy_from_slice(&oracle.image());
        self
    }

    pub fn through_c(mut self, call: &Call) -> Self {
        self.returned = call.make(self.image.inside(), self.lent.inside());
        self
    }
}

/// Makes the fresh image by C, over whatever was there. Only the length of an image counts here.
pub fn make_fresh(image: &mut Lent) -> Outcome {
    let mut wanted = image.clone();
    let is_right_length = wanted.inside().len() == IMAGE_BYTES;
    if is_right_length {
        wanted.inside().fill(0);
    }
    let returned = proved::fresh(image.inside());
    same_number(if is_right_length { 0 } else { -2 }, returned)
        .and_then(|()| same_lent("image", &wanted, image))
        .map_err(|reason| format!("fresh: {reason}"))
}

pub fn compare(before: &Seen, wanted: &Seen, found: &Seen) -> Outcome {
    same_number(wanted.returned, found.returned)?;
    same_lent("lent bytes", &wanted.lent, &found.lent)?;
    same_lent("image", &wanted.image, &found.image)?;
    if found.returned < 0 {
        same_lent("lent bytes, refused", &before.lent, &found.lent)?;
        same_lent("image, refused", &before.image, &found.image)?;
    }
    Ok(())
}

/// A call that turns a line, by the converter and through C.
#[derive(Clone, Copy)]
pub struct Turning {
    pub name: &'static str,
    pub by_oracle: convert::Turn,
    pub through_c: fn(&[u8], &mut [u8]) -> i32,
}

pub const TURNINGS: [Turning; 2] = [
    Turning {
        name: "lengthen",
        by_oracle: convert::lengthen,
        through_c: proved::lengthen,
    },
    Turning {
        name: "shorten",
        by_oracle: convert::shorten,
        through_c: proved::shorten,
    },
];

impl Turning {
    /// The bytes that the turned line needs; 0 if the line is refused.
    pub fn need(&self, line: &[u8]) -> usize {
        (self.by_oracle)(line).map_or(0, |turned| turned.len())
    }

    /// Turns the line on both sides, through C by `call`, into a buffer of so many bytes. Gives
    /// the number.
    pub fn compare(
        &self,
        dice: &mut Dice,
        line: &[u8],
        room: usize,
        call: impl FnOnce(&[u8], &mut [u8]) -> i32,
    ) -> Outcome<i32> {
        let before = Lent::noise(dice, room);
        let (mut wanted, mut found) = (before.clone(), before.clone());
        let number = match turn_into(self.by_oracle, line, wanted.inside()) {
            Ok(length) => length as i32,
            Err(refusal) => -i32::from(refusal),
        };
        let returned = call(Lent::holding(dice, line).inside(), found.inside());
        same_number(number, returned)?;
        same_lent("turned line", &wanted, &found)?;
        if returned < 0 {
            same_lent("lent bytes, refused", &before, &found)?;
        }
        Ok(returned)
    }
}

pub fn same_number(wanted: i32, returned: i32) -> Outcome {
    match wanted == returned {
        true => Ok(()),
        false => Err(format!("returned: oracle {wanted}, C {returned}")),
    }
}

pub const SIDES: [&str; 2] = ["oracle", "C"];

/// Guards stand before byte 0 and behind the last.
pub fn same_lent(what: &str, wanted: &Lent, found: &Lent) -> Outcome {
    same_from(GUARD, SIDES, what, &wanted.0, &found.0)
}

/// The error shows both sides from the first byte that differs, counted from `origin`.
pub fn same_from(
    origin: usize,
    sides: [&str; 2],
    what: &str,
    left: &[u8],
    right: &[u8],
) -> Outcome {
    if left == right {
        return Ok(());
    }
    let equal = left.iter().zip(right).take_while(|(a, b)| a == b).count();
    let at = equal as i64 - origin as i64;
    let [one, other] = sides;
    let (left, right) = (show(&left[equal..]), show(&right[equal..]));
    Err(format!(
        "{what} from byte {at}: {one} {left}, {other} {right}"
    ))
}

fn show(bytes: &[u8]) -> String {
    const SHOWN: usize = 24;
    let shown = bytes.iter().take(SHOWN);
    shown.map(|byte| format!("{byte:02X}")).collect()
}
