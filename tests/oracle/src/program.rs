//! The program `schedule`: lines from a reader, printed output to a writer.

use std::io::{self, BufRead, Write};

use crate::calls::Calls;
use crate::frame::LONGEST_LINE;

/// The worked example of document 01 with eight zero bytes before each id, and what is printed for
/// it.
pub const EXAMPLE: &str = "\
04000100000001
030000000000000FA0
010000000000000000000000000000000100000000010000006400001388000002580000000000000000
01000000000000000000000000000000020000000001000000C8000014B40000003C0000000000000000
030000000000001770
0500
";

pub const EXAMPLE_OUTPUT: &str = "\
4000 1 1
4000 2 1
5000 1 2
5300 1 7
5300 2 2
5360 2 3
0 default 0
";

/// A line in parts. One character more than the longest frame is enough to know that it is none,
/// so a line of any length needs little room.
#[derive(Default)]
struct Part {
    line: Vec<u8>,
    begun: bool,
}

impl Part {
    fn add(&mut self, bytes: &[u8]) {
        let room = LONGEST_LINE + 1 - self.line.len();
        self.line.extend_from_slice(&bytes[..room.min(bytes.len())]);
        self.begun = true;
    }

    fn finish(&mut self, calls: &mut impl Calls, out: &mut Vec<u8>) {
        calls.line(&self.line, out);
        self.line.clear();
        self.begun = false;
    }
}

pub fn serve<C: Calls>(
    calls: &mut C,
    input: &mut impl BufRead,
    output: &mut impl Write,
) -> io::Result<()> {
    let mut part = Part::default();
    let mut out = Vec::new();
    loop {
        let chunk = input.fill_buf()?;
        if chunk.is_empty() {
            break;
        }
        let size = chunk.len();
        for piece in chunk.split_inclusive(|&byte| byte == b'\n') {
            feed(piece, &mut part, calls, &mut out);
        }
        input.consume(size);
        output.write_all(&out)?;
        output.flush()?;
        out.clear();
    }
    if part.begun {
        part.finish(calls, &mut out);
    }
    output.write_all(&out)?;
    output.flush()
}

fn feed(piece: &[u8], part: &mut Part, calls: &mut impl Calls, out: &mut Vec<u8>) {
    match piece.strip_suffix(b"\n") {
        Some(line) if !part.begun => calls.line(line, out),
        Some(rest) => {
            part.add(rest);
            part.finish(calls, out);
        }
        None => part.add(piece),
    }
}

/// The error tells the first line that differs. A missing line feed at the end counts.
pub fn same(expected: &[u8], printed: &[u8]) -> Result<(), String> {
    if expected == printed {
        return Ok(());
    }
    let mut wanted = expected.split(|&byte| byte == b'\n');
    let mut found = printed.split(|&byte| byte == b'\n');
    let mut number = 1;
    loop {
        let (left, right) = (wanted.next(), found.next());
        if left != right {
            let (left, right) = (show(left), show(right));
            return Err(format!("line {number}: expected {left}, printed {right}"));
        }
        number += 1;
    }
}

fn show(line: Option<&[u8]>) -> String {
    match line {
        None => "no more".to_string(),
        Some(line) => format!("`{}`", line[..line.len().min(80)].escape_ascii()),
    }
}
