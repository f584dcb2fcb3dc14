//! The proved part through its C face, as `include/hadulmir.h` declares it. The archive that it is
//! linked from is named at build time, see `build.rs`.

use crate::choice::Choice;
use crate::event::{Event, Program};
use crate::ids::halves;

extern "C" {
    fn hadulmir_fresh(image: *mut u8, image_len: usize) -> i32;

    fn hadulmir_add_program(
        image: *mut u8,
        image_len: usize,
        number: u8,
        primacy: u8,
        defaults: u32,
    ) -> i32;

    fn hadulmir_deliver(
        image: *mut u8,
        image_len: usize,
        id_high: u64,
        id_low: u64,
        program: u8,
        controls: u32,
        created: u32,
        start: u32,
        duration: u32,
        randomize_start: u16,
        randomize_duration: u16,
        start_draw: u16,
        duration_draw: u16,
    ) -> i32;

    fn hadulmir_cancel(image: *mut u8, image_len: usize, id_high: u64, id_low: u64) -> i32;

    fn hadulmir_opt_out(image: *mut u8, image_len: usize, id_high: u64, id_low: u64) -> i32;

    fn hadulmir_opt_in(image: *mut u8, image_len: usize, id_high: u64, id_low: u64) -> i32;

    fn hadulmir_set_clock(
        image: *mut u8,
        image_len: usize,
        reading: u64,
        rows: *mut u8,
        rows_len: usize,
    ) -> i32;

    fn hadulmir_ask(
        image: *mut u8,
        image_len: usize,
        control: u8,
        id: *mut u8,
        id_len: usize,
    ) -> i32;

    fn hadulmir_list(image: *mut u8, image_len: usize, records: *mut u8, records_len: usize)
        -> i32;

    fn hadulmir_lengthen(line: *const u8, line_len: usize, out: *mut u8, out_len: usize) -> i32;

    fn hadulmir_shorten(line: *const u8, line_len: usize, out: *mut u8, out_len: usize) -> i32;
}

// An id is given as two numbers, the upper half first.
//
// Each pointer below is that of a slice and goes with its length, no slice is shared with another,
// and all pointers of slices are other than null. The header asks for no more.

pub fn fresh(image: &mut [u8]) -> i32 {
    unsafe { hadulmir_fresh(image.as_mut_ptr(), image.len()) }
}

pub fn add_program(image: &mut [u8], number: u8, program: &Program) -> i32 {
    let Program { primacy, defaults } = *program;
    unsafe { hadulmir_add_program(image.as_mut_ptr(), image.len(), number, primacy, defaults) }
}

pub fn deliver(image: &mut [u8], event: &Event) -> i32 {
    let (id_high, id_low) = halves(event.id);
    unsafe {
        hadulmir_deliver(
            image.as_mut_ptr(),
            image.len(),
            id_high,
            id_low,
            event.program,
            event.controls,
            event.creation,
            event.start,
            event.duration,
            event.randomize_start as u16,
            event.randomize_duration as u16,
            event.start_draw as u16,
            event.duration_draw as u16,
        )
    }
}

pub fn cancel(image: &mut [u8], id: u128) -> i32 {
    let (id_high, id_low) = halves(id);
    unsafe { hadulmir_cancel(image.as_mut_ptr(), image.len(), id_high, id_low) }
}

pub fn choose(image: &mut [u8], id: u128, choice: Choice) -> i32 {
    let (id_high, id_low) = halves(id);
    let (bytes, size) = (image.as_mut_ptr(), image.len());
    match choice {
        Choice::Out => unsafe { hadulmir_opt_out(bytes, size, id_high, id_low) },
        Choice::In => unsafe { hadulmir_opt_in(bytes, size, id_high, id_low) },
    }
}

pub fn set_clock(image: &mut [u8], reading: u64, rows: &mut [u8]) -> i32 {
    unsafe {
        hadulmir_set_clock(
            image.as_mut_ptr(),
            image.len(),
            reading,
            rows.as_mut_ptr(),
            rows.len(),
        )
    }
}

pub fn ask(image: &mut [u8], control: u8, id: &mut [u8]) -> i32 {
    unsafe {
        hadulmir_ask(
            image.as_mut_ptr(),
            image.len(),
            control,
            id.as_mut_ptr(),
            id.len(),
        )
    }
}

pub fn list(image: &mut [u8], records: &mut [u8]) -> i32 {
    unsafe {
        hadulmir_list(
            image.as_mut_ptr(),
            image.len(),
            records.as_mut_ptr(),
            records.len(),
        )
    }
}

pub fn lengthen(line: &[u8], out: &mut [u8]) -> i32 {
    unsafe { hadulmir_lengthen(line.as_ptr(), line.len(), out.as_mut_ptr(), out.len()) }
}

pub fn shorten(line: &[u8], out: &mut [u8]) -> i32 {
    unsafe { hadulmir_shorten(line.as_ptr(), line.len(), out.as_mut_ptr(), out.len()) }
}

/// One of the calls on an image. The last number of those that are lent a buffer is its length in bytes.
#[derive(Clone, Copy, Debug)]
pub enum Call {
    Program(u8, Program),
    Deliver(Event),
    Cancel(u128),
    Choice(u128, Choice),
    Clock(u64, usize),
    Ask(u8, usize),
    List(usize),
}

impl Call {
    pub fn name(&self) -> &'static str {
        match self {
            Call::Program(..) => "add_program",
            Call::Deliver(_) => "deliver",
            Call::Cancel(_) => "cancel",
            Call::Choice(_, Choice::Out) => "opt_out",
            Call::Choice(_, Choice::In) => "opt_in",
            Call::Clock(..) => "set_clock",
            Call::Ask(..) => "ask",
            Call::List(_) => "list",
        }
    }

    pub fn room(&self) -> usize {
        match *self {
            Call::Clock(_, room) | Call::Ask(_, room) | Call::List(room) => room,
            _ => 0,
        }
    }

    /// `lent` is what the call is lent, if anything; its length is what counts.
    pub fn make(&self, image: &mut [u8], lent: &mut [u8]) -> i32 {
        match *self {
            Call::Program(number, program) => add_program(image, number, &program),
            Call::Deliver(event) => deliver(image, &event),
            Call::Cancel(id) => cancel(image, id),
            Call::Choice(id, choice) => choose(image, id, choice),
            Call::Clock(reading, _) => set_clock(image, reading, lent),
            Call::Ask(control, _) => ask(image, control, lent),
            Call::List(_) => list(image, lent),
        }
    }
}
