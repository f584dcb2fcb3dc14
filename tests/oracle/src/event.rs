//! Programs, events and what one record decides alone: its period and the checks of its fields.

pub const MOST_EVENTS: usize = 48;
pub const LAST_CLOCK: u64 = 9_000_000_000;
pub const CONTROLS: usize = 32;
const LEAST_START: u32 = 3_600;
const WIDEST: i16 = 3_600;

#[derive(Clone, Copy, PartialEq, Eq, Debug)]
pub struct Program {
    pub primacy: u8,
    pub defaults: u32,
}

/// The programs by number; `None` was not added.
pub type Programs = [Option<Program>; 8];

#[derive(Clone, Copy, PartialEq, Eq, PartialOrd, Ord, Debug, Default)]
pub struct Event {
    pub id: u128,
    pub program: u8,
    pub controls: u32,
    pub creation: u32,
    pub start: u32,
    pub duration: u32,
    pub randomize_start: i16,
    pub randomize_duration: i16,
    pub start_draw: i16,
    pub duration_draw: i16,
}

/// Of two events the one with the smaller rank is the better: primacy and creation packed into one
/// number, then the id.
pub type Rank = (u64, u128);

impl Event {
    /// Cut off at 0, which only matters to events that check 7 refuses.
    pub fn drawn_start(&self) -> u64 {
        u64::from(self.start).saturating_add_signed(self.start_draw.into())
    }

    /// Counted from the drawn start, so a late receipt shortens the event.
    pub fn effective_end(&self) -> u64 {
        let full = self.drawn_start() + u64::from(self.duration);
        full.saturating_add_signed(self.duration_draw.into())
    }

    pub fn effective_start(&self, receipt: u64) -> u64 {
        self.drawn_start().max(receipt + 1)
    }

    /// The lesser of start and start plus randomizeStart, whatever the draw and the receipt. Cut
    /// off at 0 likewise.
    pub fn earliest_start(&self) -> u64 {
        let start = u64::from(self.start);
        start.min(start.saturating_add_signed(self.randomize_start.into()))
    }

    /// Lower primacy first, then later creation, then larger id.
    pub fn rank(&self, primacy: u8) -> Rank {
        let by_creation = u64::from(primacy) << 32 | u64::from(!self.creation);
        (by_creation, !self.id)
    }

    /// Checks 3, 6 and 7, in this order.
    pub fn check_fields(&self, programs: &Programs) -> Result<(), u8> {
        match programs.get(usize::from(self.program)) {
            None => Err(3),
            Some(None) => Err(6),
            Some(Some(_)) if !self.in_range() => Err(7),
            Some(Some(_)) => Ok(()),
        }
    }

    fn in_range(&self) -> bool {
        self.controls != 0
            && self.start >= LEAST_START
            && self.duration != 0
            && draw_fits(self.start_draw, self.randomize_start)
            && draw_fits(self.duration_draw, self.randomize_duration)
            && i64::from(self.duration) + i64::from(self.duration_draw) >= 1
    }

    /// Check 9. Its first reason takes the times as sent, without draws.
    pub fn is_late(&self, clock: u64) -> bool {
        u64::from(self.start) + u64::from(self.duration) <= clock
            || self.effective_end() <= clock + 1
    }
}

fn draw_fits(draw: i16, randomisation: i16) -> bool {
    let least = randomisation.min(0);
    let most = randomisation.max(0);
    (-WIDEST..=WIDEST).contains(&randomisation) && (least..=most).contains(&draw)
}

pub fn is_usable(primacy: u8) -> bool {
    matches!(primacy, 0..=2 | 65..=191)
}

/// Checks 3, 4 and 5, in this order.
pub fn check_program(programs: &Programs, number: u8, primacy: u8) -> Result<(), u8> {
    match programs.get(usize::from(number)) {
        None => Err(3),
        Some(Some(_)) => Err(4),
        Some(None) if !is_usable(primacy) => Err(5),
        Some(None) => Ok(()),
    }
}

pub fn check_clock(old: u64, new: u64) -> Result<(), u8> {
    if new < old || new > LAST_CLOCK {
        return Err(12);
    }
    Ok(())
}

/// The number of the program whose default applies to the control. Programs of equal primacy keep
/// their order, as `min_by_key` gives the first of several least ones.
pub fn default_program(programs: &Programs, control: u8) -> Option<u8> {
    let carries = |p: &Program| p.defaults >> control & 1 == 1;
    (0u8..)
        .zip(programs)
        .filter_map(|(number, slot)| Some((number, slot.filter(carries)?.primacy)))
        .min_by_key(|&(_, primacy)| primacy)
        .map(|(number, _)| number)
}
