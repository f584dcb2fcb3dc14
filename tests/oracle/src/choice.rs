//! A user's choice for an event, and what an image keeps of all choices so far.

use std::ops::Range;

/// A new event is in.
#[derive(Clone, Copy, PartialEq, Eq, PartialOrd, Ord, Debug, Default)]
pub enum Choice {
    #[default]
    In,
    Out,
}

impl Choice {
    /// What the call answers unless the choice is the present one.
    pub fn code(self) -> u8 {
        match self {
            Choice::Out => 4,
            Choice::In => 5,
        }
    }

    pub fn other(self) -> Self {
        match self {
            Choice::Out => Choice::In,
            Choice::In => Choice::Out,
        }
    }
}

/// A choice and the clock at which it was made.
pub type Made = (u64, Choice);

/// The stretches of seconds in which the user is out, from the choices in their sequence. A choice
/// counts from the second after its clock, and up to the clock of the next one.
pub fn seconds_out(choices: &[Made]) -> impl Iterator<Item = Range<u64>> + '_ {
    let begins = choices.iter().map(|&(clock, _)| clock + 1);
    let ends = begins.clone().skip(1).chain([u64::MAX]);
    let stretches = begins.zip(ends).zip(choices);
    stretches
        .filter(|(_, &(_, choice))| choice == Choice::Out)
        .map(|((begin, end), _)| begin..end)
}

/// The present choice, and whether the user was in, or out, for a second in which the event held
/// something.
#[derive(Clone, Copy, PartialEq, Eq, Debug, Default)]
pub struct Participation {
    pub choice: Choice,
    pub was_in: bool,
    pub was_out: bool,
}

impl Participation {
    pub fn byte(self) -> u8 {
        let out = u8::from(self.choice == Choice::Out);
        out | u8::from(self.was_in) << 1 | u8::from(self.was_out) << 2
    }

    /// `None` if a bit is set that has no meaning.
    pub fn from_byte(byte: u8) -> Option<Self> {
        let choice = match byte & 1 {
            0 => Choice::In,
            _ => Choice::Out,
        };
        (byte < 8).then_some(Participation {
            choice,
            was_in: byte >> 1 & 1 == 1,
            was_out: byte >> 2 & 1 == 1,
        })
    }

    /// The code of an event that held something until its end, at which the present choice counts.
    pub fn end_code(self) -> u8 {
        match (self.was_in, self.was_out, self.choice) {
            (_, false, _) => 3,
            (false, true, _) => 10,
            (true, true, Choice::Out) => 8,
            (true, true, Choice::In) => 9,
        }
    }
}
