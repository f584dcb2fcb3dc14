//! Images and calls on them through C, beside both independent schedulers. Between calls bytes of
//! the image are changed; then the oracles begin anew from it, or all calls have to be refused.

#![no_main]

use fuzz::features::{saw_call, saw_fresh};
use fuzz::{Move, Moves, Room};
use oracle::beside::{compare, make_fresh, Broken, Lent, Oracle, Outcome, Seen};
use oracle::calls::ROW_BYTES;
use oracle::event::LAST_CLOCK;
use oracle::frame::ID_BYTES;
use oracle::image::{IMAGE_BYTES, RECORD_BYTES};
use oracle::proved::Call;
use oracle::random::Dice;
use oracle::{Calls, Fast, Frame, Row, Scheduler};

/// # Safety
/// As `fuzz::input` asks.
#[no_mangle]
pub unsafe extern "C" fn LLVMFuzzerTestOneInput(data: *const u8, size: usize) -> i32 {
    let bytes = unsafe { fuzz::input(data, size) };
    if let Err(difference) = run(bytes, false) {
        // Once more, to show how it comes to this.
        let _ = run(bytes, true);
        panic!("{difference}");
    }
    0
}

fn run(bytes: &[u8], tells: bool) -> Outcome {
    let mut host = Host::fresh(tells)?;
    let mut moves = Moves::of(bytes);
    while let Some(made) = moves.next() {
        host.make(made)?;
        moves.clock = host.clock();
    }
    host.finish()
}

struct Host {
    image: Lent,
    dice: Dice,
    /// `None` if the image breaks a rule.
    oracles: Option<(Scheduler, Fast)>,
    /// Whether each call is printed.
    tells: bool,
}

impl Host {
    fn fresh(tells: bool) -> Outcome<Self> {
        let mut dice = Dice::new(0);
        let mut image = Lent::noise(&mut dice, IMAGE_BYTES);
        make_fresh(&mut image)?;
        let oracles = Some((Scheduler::fresh(), Fast::fresh()));
        Ok(Host {
            image,
            dice,
            oracles,
            tells,
        })
    }

    /// 0 while the image is refused.
    fn clock(&self) -> u64 {
        self.oracles.as_ref().map_or(0, |(_, fast)| fast.clock())
    }

    fn make(&mut self, made: Move) -> Outcome {
        match made {
            Move::Frame(frame, room) => {
                let call = self.call_of(&frame, room);
                self.call(&call)
            }
            Move::List(room) => {
                let records = self.count(|fast| fast.entries().len());
                self.call(&Call::List(room.bytes(RECORD_BYTES * records)))
            }
            Move::Fresh => self.make_fresh(),
            Move::Edit(edit) => self.change(|image| edit.make(image)),
            Move::Raw(bytes) => self.change(|image| {
                let size = bytes.len().min(image.len());
                image[..size].copy_from_slice(&bytes[..size]);
            }),
            Move::Length(size) => {
                let mut bytes = self.image.inside().to_vec();
                bytes.resize(size, 0);
                self.image = Lent::holding(&mut self.dice, &bytes);
                self.begin_anew()
            }
        }
    }

    fn call_of(&mut self, frame: &Frame, room: Room) -> Call {
        match *frame {
            Frame::Program(number, program) => Call::Program(number, program),
            Frame::Event(event) => Call::Deliver(event),
            Frame::Cancel(id) => Call::Cancel(id),
            Frame::Choice(id, choice) => Call::Choice(id, choice),
            Frame::Clock(reading) => {
                let rows =
                    |fast: &mut Fast| fast.set_clock(reading, usize::MAX).map_or(0, <[Row]>::len);
                Call::Clock(reading, room.bytes(ROW_BYTES * self.count(rows)))
            }
            Frame::Ask(control) => Call::Ask(control, room.bytes(ID_BYTES)),
        }
    }

    /// Counted on a copy; 0 while the image is refused.
    fn count(&self, of: impl FnOnce(&mut Fast) -> usize) -> usize {
        self.oracles
            .as_ref()
            .map_or(0, |(_, fast)| of(&mut fast.clone()))
    }

    fn make_fresh(&mut self) -> Outcome {
        make_fresh(&mut self.image)?;
        saw_fresh(if self.image.inside().len() == IMAGE_BYTES {
            0
        } else {
            -2
        });
        self.begin_anew()
    }

    fn change(&mut self, change: impl FnOnce(&mut [u8])) -> Outcome {
        change(self.image.inside());
        self.begin_anew()
    }

    /// From the image as it is now. The first call tells whether the part takes it up too.
    fn begin_anew(&mut self) -> Outcome {
        let image = self.image.inside();
        self.oracles = Scheduler::from_image(image).zip(Fast::from_image(image));
        let is_sound = self.oracles.is_some();
        self.tell(|| format!("the image is changed, and sound: {is_sound}"));
        self.make(Move::List(Room::AMPLE))
    }

    fn tell(&self, what: impl FnOnce() -> String) {
        if self.tells {
            eprintln!("{}", what());
        }
    }

    fn call(&mut self, call: &Call) -> Outcome {
        let before = Seen::before(call, &self.image, &mut self.dice);
        let mut found = before.clone().through_c(call);
        let held = found.image.inside().get(8).copied().unwrap_or_default();
        saw_call(call, found.returned, held);
        self.tell(|| format!("{call:?} returned {}", found.returned));
        match &mut self.oracles {
            Some((history, fast)) => {
                beside(history, call, &before, &found)?;
                beside(fast, call, &before, &found)?;
            }
            None => {
                let bytes = self.image.inside().to_vec();
                beside(&mut Broken(bytes), call, &before, &found)?;
            }
        }
        self.image = found.image;
        Ok(())
    }

    /// Shows what the moves left behind: all that is held, some holders, all rows to come.
    fn finish(&mut self) -> Outcome {
        self.make(Move::List(Room::AMPLE))?;
        for control in [0, 1, 2, 31] {
            self.call(&Call::Ask(control, ID_BYTES))?;
        }
        self.make(Move::Frame(Frame::Clock(LAST_CLOCK), Room::AMPLE))
    }
}

fn beside(oracle: &mut impl Oracle, call: &Call, before: &Seen, found: &Seen) -> Outcome {
    let wanted = before.clone().by_oracle(oracle, call);
    compare(before, &wanted, found).map_err(|reason| format!("{call:?}: {reason}"))
}
