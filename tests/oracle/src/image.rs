//! The image of 2,697 bytes, its rules, and the record that a listing gives.

use crate::choice::Participation;
use crate::event::{is_usable, Event, Program, Programs, LAST_CLOCK, MOST_EVENTS};
use crate::frame::{part, read_event, write_event, EVENT_FIELDS};

pub const IMAGE_BYTES: usize = 2_697;
pub const ENTRY_BYTES: usize = 55;
/// A listed record over C: an image entry, then the earliest start.
pub const RECORD_BYTES: usize = ENTRY_BYTES + 8;
const PROGRAM_BYTES: usize = 6;
const HEAD_BYTES: usize = 9;
const EVENTS_AT: usize = HEAD_BYTES + 8 * PROGRAM_BYTES;

/// A held event as an image has it.
#[derive(Clone, Copy, PartialEq, Eq, Debug)]
pub struct Entry {
    pub event: Event,
    pub effective_start: u64,
    pub held: u32,
    pub cancelled: bool,
    pub participation: Participation,
}

/// A held event as it is listed.
#[derive(Clone, Copy, PartialEq, Eq, Debug)]
pub struct Record {
    pub entry: Entry,
    pub earliest_start: u64,
}

#[derive(Clone, PartialEq, Eq, Debug)]
pub struct Image {
    pub clock: u64,
    pub programs: Programs,
    pub entries: Vec<Entry>,
}

/// `None` is refusal 2.
pub fn read(bytes: &[u8]) -> Option<Image> {
    if bytes.len() != IMAGE_BYTES {
        return None;
    }
    let image = Image {
        clock: u64::from_be_bytes(part(bytes, 0)),
        programs: read_programs(bytes)?,
        entries: read_entries(bytes)?,
    };
    obeys_rules(&image).then_some(image)
}

fn read_programs(bytes: &[u8]) -> Option<Programs> {
    let mut programs = [None; 8];
    let entries = bytes[HEAD_BYTES..EVENTS_AT].chunks_exact(PROGRAM_BYTES);
    for (slot, entry) in programs.iter_mut().zip(entries) {
        *slot = read_program(entry)?;
    }
    Some(programs)
}

/// The outer `None` is a broken entry, the inner one an unused entry.
fn read_program(entry: &[u8]) -> Option<Option<Program>> {
    let primacy = entry[1];
    let defaults = u32::from_be_bytes(part(entry, 2));
    match entry[0] {
        0 if primacy == 0 && defaults == 0 => Some(None),
        1 if is_usable(primacy) => Some(Some(Program { primacy, defaults })),
        _ => None,
    }
}

fn read_entries(bytes: &[u8]) -> Option<Vec<Entry>> {
    let count = usize::from(bytes[8]);
    if count > MOST_EVENTS {
        return None;
    }
    let (used, unused) = bytes[EVENTS_AT..].split_at(count * ENTRY_BYTES);
    if unused.iter().any(|&byte| byte != 0) {
        return None;
    }
    used.chunks_exact(ENTRY_BYTES).map(read_entry).collect()
}

fn read_entry(entry: &[u8]) -> Option<Entry> {
    let cancelled = match entry[ENTRY_BYTES - 2] {
        0 => false,
        1 => true,
        _ => return None,
    };
    Some(Entry {
        event: read_event(&entry[..EVENT_FIELDS]),
        effective_start: u64::from_be_bytes(part(entry, EVENT_FIELDS)),
        held: u32::from_be_bytes(part(entry, EVENT_FIELDS + 8)),
        cancelled,
        participation: Participation::from_byte(entry[ENTRY_BYTES - 1])?,
    })
}

fn obeys_rules(image: &Image) -> bool {
    let rising = |pair: &[Entry]| pair[0].event.id < pair[1].event.id;
    image.clock <= LAST_CLOCK
        && image.entries.windows(2).all(rising)
        && image.entries.iter().all(|entry| fits(entry, image))
        && masks_are_apart(&image.entries)
}

fn fits(entry: &Entry, image: &Image) -> bool {
    entry.event.check_fields(&image.programs).is_ok()
        && period_fits(entry, image.clock)
        && mask_fits(entry, image.clock)
        && participation_fits(entry, image.clock)
}

fn period_fits(entry: &Entry, clock: u64) -> bool {
    let end = entry.event.effective_end();
    let possible = entry.event.drawn_start()..end;
    possible.contains(&entry.effective_start) && end > clock
}

fn mask_fits(entry: &Entry, clock: u64) -> bool {
    let may_hold = clock >= entry.effective_start && !entry.cancelled;
    let allowed = if may_hold { entry.event.controls } else { 0 };
    entry.held & !allowed == 0
}

/// Nobody was in or out before the start. Of an event that holds something the present second is
/// one that counts.
fn participation_fits(entry: &Entry, clock: u64) -> bool {
    let Participation {
        was_in, was_out, ..
    } = entry.participation;
    let counted = was_in || was_out;
    if clock < entry.effective_start {
        !counted
    } else {
        counted || entry.held == 0
    }
}

fn masks_are_apart(entries: &[Entry]) -> bool {
    let mut seen = 0;
    entries.iter().all(|entry| {
        let apart = seen & entry.held == 0;
        seen |= entry.held;
        apart
    })
}

pub fn write(image: &Image) -> Vec<u8> {
    let mut bytes = Vec::with_capacity(IMAGE_BYTES);
    bytes.extend_from_slice(&image.clock.to_be_bytes());
    bytes.push(image.entries.len() as u8);
    for program in &image.programs {
        write_program(program, &mut bytes);
    }
    for entry in &image.entries {
        bytes.extend_from_slice(&entry.bytes());
    }
    bytes.resize(IMAGE_BYTES, 0);
    bytes
}

fn write_program(slot: &Option<Program>, bytes: &mut Vec<u8>) {
    let Some(program) = slot else {
        bytes.extend_from_slice(&[0; PROGRAM_BYTES]);
        return;
    };
    bytes.extend_from_slice(&[1, program.primacy]);
    bytes.extend_from_slice(&program.defaults.to_be_bytes());
}

impl Entry {
    pub fn listed(self) -> Record {
        Record {
            entry: self,
            earliest_start: self.event.earliest_start(),
        }
    }

    pub fn bytes(&self) -> Vec<u8> {
        let mut bytes = Vec::with_capacity(ENTRY_BYTES);
        write_event(&self.event, &mut bytes);
        bytes.extend_from_slice(&self.effective_start.to_be_bytes());
        bytes.extend_from_slice(&self.held.to_be_bytes());
        bytes.push(self.cancelled.into());
        bytes.push(self.participation.byte());
        bytes
    }
}

impl Record {
    /// The record as a C host gets it.
    pub fn bytes(&self) -> Vec<u8> {
        let mut bytes = self.entry.bytes();
        bytes.extend_from_slice(&self.earliest_start.to_be_bytes());
        bytes
    }
}
