//! The converter of document 02, #105: lines recorded with ids of 64 bits, turned into those with
//! ids of 128 bits and back. It looks at digits alone, so that it shares nothing with the decoder.

use crate::calls::lines_of;
use crate::generate::join;

/// Turns one line, without its line feed. The error is the number of the refusal.
pub type Turn = fn(&[u8]) -> Result<Vec<u8>, u8>;

/// Both ways, by the names of the programs and calls.
pub const TURNS: [(&str, Turn); 2] = [("lengthen", lengthen), ("shorten", shorten)];

/// A kind of frame: its two digits, and the bytes of the frame with a short id and with a long one.
struct Kind {
    digits: &'static [u8; 2],
    short: usize,
    long: usize,
}

impl Kind {
    const fn new(digits: &'static [u8; 2], short: usize, long: usize) -> Self {
        Kind {
            digits,
            short,
            long,
        }
    }

    /// Without an id there is one length.
    fn has_id(&self) -> bool {
        self.short != self.long
    }
}

const KINDS: [Kind; 7] = [
    Kind::new(b"01", 34, 42),
    Kind::new(b"02", 9, 17),
    Kind::new(b"03", 9, 9),
    Kind::new(b"04", 7, 7),
    Kind::new(b"05", 2, 2),
    Kind::new(b"06", 9, 17),
    Kind::new(b"07", 9, 17),
];

/// The digits of the upper half of a long id that is a short one widened.
const ZEROS: &[u8; 16] = b"0000000000000000";

pub fn lengthen(line: &[u8]) -> Result<Vec<u8>, u8> {
    let kind = kind_of(line, |kind| kind.short).ok_or(1)?;
    if !kind.has_id() {
        return Ok(line.to_vec());
    }
    let (digits, rest) = line.split_at(2);
    Ok([digits, ZEROS, rest].concat())
}

pub fn shorten(line: &[u8]) -> Result<Vec<u8>, u8> {
    let kind = kind_of(line, |kind| kind.long).ok_or(1)?;
    if !kind.has_id() {
        return Ok(line.to_vec());
    }
    let (digits, rest) = line.split_at(2);
    let rest = rest.strip_prefix(ZEROS).ok_or(15)?;
    Ok([digits, rest].concat())
}

/// The kind of a frame that has the given bytes. `None` if the line is no such frame.
fn kind_of(line: &[u8], bytes: fn(&Kind) -> usize) -> Option<&'static Kind> {
    let is_digit = |byte: &u8| matches!(byte, b'0'..=b'9' | b'A'..=b'F');
    let fits = |kind: &&Kind| line.len() == 2 * bytes(kind) && line.starts_with(kind.digits);
    KINDS
        .iter()
        .find(fits)
        .filter(|_| line.iter().all(is_digit))
}

/// What the program prints for a text: for each line the turned one or its refusal.
pub fn turn_text(turn: Turn, text: &[u8]) -> Vec<u8> {
    let print = |line| match turn(line) {
        Ok(turned) => turned,
        Err(number) => format!("refused {number}").into_bytes(),
    };
    let printed: Vec<Vec<u8>> = lines_of(text).map(print).collect();
    join(&printed)
}

/// What a call does that is lent a buffer: the turned line over its front, and the line's length.
pub fn turn_into(turn: Turn, line: &[u8], out: &mut [u8]) -> Result<usize, u8> {
    let turned = turn(line)?;
    let front = out.get_mut(..turned.len()).ok_or(13)?;
    front.copy_from_slice(&turned);
    Ok(turned.len())
}
