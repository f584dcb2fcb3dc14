//! Texts through the program `schedule`, beside both independent schedulers. The program's own
//! object code runs within the target: its `read` and `write` are the two functions below.

#![no_main]

use std::cell::RefCell;
use std::io::BufReader;

use fuzz::features::saw_text;
use fuzz::{Move, Moves};
use oracle::frame::{encode, LONGEST_LINE};
use oracle::program::{same, serve};
use oracle::{Calls, Fast, Scheduler};

extern "C" {
    /// The program's `main`, renamed.
    fn schedule_main() -> i32;
}

/// # Safety
/// As `fuzz::input` asks.
#[no_mangle]
pub unsafe extern "C" fn LLVMFuzzerTestOneInput(data: *const u8, size: usize) -> i32 {
    let bytes = unsafe { fuzz::input(data, size) };
    if let Some((&[form, read, write], rest)) = bytes.split_first_chunk() {
        let text = match form & 1 {
            // Given again and again, a short input fills the program's buffers.
            0 => rest.repeat(1 + usize::from(form >> 4)),
            _ => text_of(Moves::of(rest)),
        };
        compare(&text, Piece(read), Piece(write));
    }
    0
}

/// Frames as lines, damaged here and there.
fn text_of(moves: Moves) -> Vec<u8> {
    let mut text = Vec::new();
    let mut line_at = 0;
    for made in moves {
        match made {
            Move::Frame(frame, _) => {
                line_at = text.len();
                text.extend(encode(&frame));
                text.push(b'\n');
            }
            Move::List(_) | Move::Fresh => text.push(b'\n'),
            Move::Edit(edit) => edit.make(&mut text[line_at..]),
            Move::Raw(bytes) => text.extend_from_slice(bytes),
            Move::Length(size) => text.truncate(line_at + size % (LONGEST_LINE + 2)),
        }
        line_at = line_at.min(text.len());
    }
    text
}

/// How many bytes the system reads or writes at once, at most. 0 is as many as are asked for.
#[derive(Clone, Copy)]
struct Piece(u8);

impl Piece {
    fn of(self, asked: usize) -> usize {
        match self.0 {
            0 => asked,
            most => asked.min(most.into()),
        }
    }
}

fn compare(text: &[u8], read: Piece, write: Piece) {
    let (returned, printed) = by_program(text, read, write);
    printed.split(|&byte| byte == b'\n').for_each(saw_text);
    let oracles = [("history", by_history(text)), ("fast", by_fast(text, read))];
    for (oracle, wanted) in oracles {
        if let Err(difference) = same(&wanted, &printed) {
            let text = text.escape_ascii();
            panic!("{oracle}, {difference}; the text:\n{text}");
        }
    }
    assert_eq!(returned, 0, "the program's exit status");
}

fn by_history(text: &[u8]) -> Vec<u8> {
    let mut printed = Vec::new();
    Scheduler::fresh().text(text, &mut printed);
    printed
}

/// In pieces as well.
fn by_fast(text: &[u8], read: Piece) -> Vec<u8> {
    let mut printed = Vec::new();
    let mut input = BufReader::with_capacity(read.of(65_536), text);
    let served = serve(&mut Fast::fresh(), &mut input, &mut printed);
    assert!(served.is_ok(), "reading from memory");
    printed
}

// The system that the program runs on.

struct System {
    text: Vec<u8>,
    at: usize,
    read: Piece,
    write: Piece,
    printed: Vec<u8>,
}

thread_local! {
    static SYSTEM: RefCell<Option<System>> = const { RefCell::new(None) };
}

fn by_program(text: &[u8], read: Piece, write: Piece) -> (i32, Vec<u8>) {
    let system = System {
        text: text.to_vec(),
        at: 0,
        read,
        write,
        printed: Vec::new(),
    };
    SYSTEM.set(Some(system));
    // It keeps nothing between runs, and asks nothing but that its `read` and `write` are there.
    let returned = unsafe { schedule_main() };
    let printed = SYSTEM.take().map(|system| system.printed);
    (returned, printed.unwrap_or_default())
}

fn with_system(act: impl FnOnce(&mut System) -> isize) -> isize {
    SYSTEM.with_borrow_mut(|system| system.as_mut().map_or(-1, act))
}

/// # Safety
/// `buffer` has room for `size` bytes.
#[no_mangle]
pub unsafe extern "C" fn fed_read(file: i32, buffer: *mut u8, size: usize) -> isize {
    assert_eq!(file, 0, "read from standard input alone");
    with_system(|system| {
        let rest = &system.text[system.at..];
        let size = system.read.of(size).min(rest.len());
        unsafe { std::ptr::copy_nonoverlapping(rest.as_ptr(), buffer, size) };
        system.at += size;
        size as isize
    })
}

/// # Safety
/// `bytes` points to `size` bytes.
#[no_mangle]
pub unsafe extern "C" fn fed_write(file: i32, bytes: *const u8, size: usize) -> isize {
    assert_eq!(file, 1, "written to standard output alone");
    with_system(|system| {
        let size = system.write.of(size);
        let bytes = unsafe { std::slice::from_raw_parts(bytes, size) };
        system.printed.extend_from_slice(bytes);
        size as isize
    })
}
