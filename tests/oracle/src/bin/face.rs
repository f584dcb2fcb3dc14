//! The proved part, called through C, against the oracle. `face [LISTS]` makes random lists of
//! calls on both and compares after each call all that a host can see: the number returned, the
//! image and the lent bytes, with guards around both. Lists of lines go through the calls that turn
//! a line, beside the converter.

use std::collections::BTreeMap;
use std::process::ExitCode;
use std::time::Instant;

use oracle::beside::{
    compare, make_fresh, same_from, Broken, Lent, Oracle, Outcome, Seen, Turning, SIDES, TURNINGS,
};
use oracle::both_kinds;
use oracle::calls::{lines_of, AMPLE, ROW_BYTES};
use oracle::event::MOST_EVENTS;
use oracle::frame::{EVENT_FIELDS, ID_BYTES, LONGEST_LINE};
use oracle::generate::{generate, go_on, profile_names};
use oracle::ids;
use oracle::image::{self, ENTRY_BYTES, IMAGE_BYTES, RECORD_BYTES};
use oracle::pair::pair;
use oracle::proved::Call;
use oracle::random::Dice;
use oracle::spread::Spread;
use oracle::states::random_image;
use oracle::{decode, Calls, Choice, Event, Fast, Frame, Program, Row, Scheduler};

const USAGE: &str = "\
face [LISTS [FIRST]]   LISTS is the number of lists, 20000 if not given,
                       FIRST the seed of the first one, 0 if not given;
                       a twentieth as many lists of lines come behind them";

const LISTS: u64 = 20_000;

/// Where the event entries begin in an image, and the held mask and the choice byte in an entry.
const EVENTS_AT: usize = 57;
const MASK_AT: usize = EVENT_FIELDS + 8;
const CHOICE_AT: usize = ENTRY_BYTES - 1;

fn main() -> ExitCode {
    let arguments: Vec<String> = std::env::args().skip(1).collect();
    let words: Vec<&str> = arguments.iter().map(String::as_str).collect();
    let Some((plant, numbers)) = read_plant(&words) else {
        return give_up();
    };
    let numbers: Result<Vec<u64>, _> = numbers.iter().map(|word| word.parse()).collect();
    match numbers.as_deref() {
        Ok([]) => test_all(plant, LISTS, 0),
        Ok(&[lists]) => test_all(plant, lists, 0),
        Ok(&[lists, first]) => test_all(plant, lists, first),
        _ => give_up(),
    }
}

/// `--plant FAULT` is for the tests of this test. `None` if there is no such fault.
fn read_plant<'a>(words: &'a [&'a str]) -> Option<(Option<Plant>, &'a [&'a str])> {
    let ["--plant", name, rest @ ..] = words else {
        return Some((None, words));
    };
    let (_, plant) = PLANTS.into_iter().find(|(known, _)| known == name)?;
    Some((Some(plant), rest))
}

fn give_up() -> ExitCode {
    eprintln!("{USAGE}");
    ExitCode::from(2)
}

fn test_all(plant: Option<Plant>, lists: u64, first: u64) -> ExitCode {
    let begin = Instant::now();
    let mut face = Face::new(plant);
    let mut totals = Totals::default();
    let of_calls = (first..).take(lists as usize).map(List::draw);
    let of_lines = (first..).take(lists.div_ceil(20) as usize);
    for list in of_calls.chain(of_lines.map(List::of_lines)) {
        let outcome = list.run(&mut face);
        totals.count(&list, outcome);
    }
    face.print();
    totals.print();
    println!("{:.1} s", begin.elapsed().as_secs_f64());
    let (passed, failed) = (totals.passed, totals.failed);
    println!("face lists: {passed} passed, {failed} failed");
    match failed {
        0 => ExitCode::SUCCESS,
        _ => ExitCode::FAILURE,
    }
}

#[derive(Default)]
struct Totals {
    passed: u64,
    failed: u64,
    by_kind: BTreeMap<String, u64>,
}

impl Totals {
    fn count(&mut self, list: &List, outcome: Outcome) {
        const SHOWN: u64 = 20;
        *self.by_kind.entry(format!("{:?}", list.kind)).or_default() += 1;
        let Err(reason) = outcome else {
            self.passed += 1;
            return;
        };
        self.failed += 1;
        if self.failed <= SHOWN {
            println!(
                "FAILED seed {}, {:?}, profile {}, {reason}",
                list.seed, list.kind, list.profile
            );
        }
    }

    fn print(&self) {
        let kinds = self.by_kind.iter();
        let kinds: Vec<String> = kinds.map(|(kind, n)| format!("{kind} {n}")).collect();
        println!("lists: {}", kinds.join(", "));
    }
}

// The lists.

#[derive(Clone, Copy, Debug)]
enum Kind {
    /// From the fresh schedule, beside the history.
    Fresh,
    /// The same, too long for the history.
    Long,
    /// From images with one byte changed or of a wrong length.
    Damaged,
    /// From an image that no run reaches.
    Unreached,
    /// Two lists that meet the premise of demand 3.
    Pair,
    /// Lines of both widths for the calls that turn one.
    Lines,
}

/// The seed decides everything.
struct List {
    seed: u64,
    kind: Kind,
    profile: &'static str,
}

impl List {
    fn draw(seed: u64) -> Self {
        let mut dice = Dice::new(seed);
        let kind = match seed % 100 {
            0 => Kind::Long,
            1..60 => Kind::Fresh,
            60..75 => Kind::Damaged,
            75..90 => Kind::Unreached,
            _ => Kind::Pair,
        };
        let profile = match kind {
            Kind::Long => dice.pick(&["busy", "full", "mixed"]),
            Kind::Pair => "none",
            _ => dice.pick(&profile_names()),
        };
        List {
            seed,
            kind,
            profile,
        }
    }

    fn of_lines(seed: u64) -> Self {
        List {
            seed,
            kind: Kind::Lines,
            profile: "none",
        }
    }

    fn run(&self, face: &mut Face) -> Outcome {
        let mut dice = Dice::new(self.seed).fork();
        let count = dice.between(20, 240) as usize;
        match self.kind {
            Kind::Fresh => self.fresh(face, dice, Scheduler::fresh(), count),
            Kind::Long => self.fresh(face, dice, Fast::fresh(), 20 * count),
            Kind::Damaged => self.damaged(face, dice),
            Kind::Unreached => {
                let bytes = image::write(&random_image(&mut dice));
                let oracle = Scheduler::from_image(&bytes).ok_or("the oracle refuses the image")?;
                self.go_on(face, dice, oracle, &bytes, count)
            }
            Kind::Pair => pair_of_lists(face, dice),
            Kind::Lines => turned_lines(face, dice, count),
        }
    }

    fn fresh<O: Oracle>(
        &self,
        face: &mut Face,
        mut dice: Dice,
        oracle: O,
        count: usize,
    ) -> Outcome {
        let text = generate(dice.roll(), count, self.profile).ok_or("no such profile")?;
        Run::fresh(face, dice, oracle)?.all_of(&text, Run::look_and_stray)
    }

    fn go_on(
        &self,
        face: &mut Face,
        mut dice: Dice,
        oracle: Scheduler,
        bytes: &[u8],
        count: usize,
    ) -> Outcome {
        let schedule = Fast::from_image(bytes).ok_or("the fast oracle refuses the image")?;
        let text = go_on(dice.roll(), count, self.profile, &schedule).ok_or("no such profile")?;
        Run::from(face, dice, oracle, bytes).all_of(&text, Run::look_and_stray)
    }

    /// Each damage is accepted by both, and then some calls are made, or refused by both.
    fn damaged(&self, face: &mut Face, mut dice: Dice) -> Outcome {
        let sound = self.sound_image(&mut dice)?;
        for round in 0..24 {
            let bytes = damage(&mut dice, &sound);
            let outcome = match Scheduler::from_image(&bytes) {
                Some(oracle) => {
                    face.accepted_images += 1;
                    self.go_on(face, dice.fork(), oracle, &bytes, 6)
                }
                None => {
                    face.refused_images += 1;
                    Run::from(face, dice.fork(), Broken(bytes.clone()), &bytes).one_of_each()
                }
            };
            outcome.map_err(|reason| format!("damage {round}, {reason}"))?;
        }
        Ok(())
    }

    /// Reached by a run or not.
    fn sound_image(&self, dice: &mut Dice) -> Outcome<Vec<u8>> {
        if dice.chance(1, 2) {
            return Ok(image::write(&random_image(dice)));
        }
        let count = dice.between(10, 150) as usize;
        let text = generate(dice.roll(), count, self.profile).ok_or("no such profile")?;
        let mut schedule = Fast::fresh();
        schedule.text(&text, &mut Vec::new());
        Ok(schedule.to_image())
    }
}

/// One byte changed, mostly among those in use, or sometimes another length.
fn damage(dice: &mut Dice, sound: &[u8]) -> Vec<u8> {
    let mut bytes = sound.to_vec();
    if dice.chance(1, 20) {
        let length = dice.pick(&[0, 1, 57, IMAGE_BYTES - 1, IMAGE_BYTES + 1, 2 * IMAGE_BYTES]);
        bytes.resize(length, 0);
        return bytes;
    }
    let at = damaged_at(dice, sound[8].into());
    let old = bytes[at];
    let flipped = old ^ 1 << dice.below(8);
    let any = dice.roll() as u8;
    let (above, below) = (old.wrapping_add(1), old.wrapping_sub(1));
    bytes[at] = dice.pick(&[flipped, above, below, 0, 1, 2, 255, any]);
    if bytes[at] == old {
        bytes[at] = flipped;
    }
    bytes
}

/// One place in eight is the choice byte of an entry, used or not.
fn damaged_at(dice: &mut Dice, count: usize) -> usize {
    if dice.chance(1, 8) {
        let entry = dice.below((count + 1).min(MOST_EVENTS) as u64) as usize;
        return EVENTS_AT + ENTRY_BYTES * entry + CHOICE_AT;
    }
    let used = EVENTS_AT + ENTRY_BYTES * count;
    let among = dice.pick(&[used, used, used, (used + 4).min(IMAGE_BYTES), IMAGE_BYTES]);
    dice.below(among as u64) as usize
}

// Demand 3.

/// What has to be equal for two lists that meet the premise.
#[derive(PartialEq)]
struct Conclusion {
    rows: Vec<u8>,
    listing: Vec<u8>,
    answers: Vec<(i32, Vec<u8>)>,
}

const BOTH: [&str; 2] = ["first list", "second list"];

fn pair_of_lists(face: &mut Face, mut dice: Dice) -> Outcome {
    let (first, second) = differing_pair(&mut dice);
    let first = conclusion(face, dice.fork(), &first).map_err(|e| format!("first list, {e}"))?;
    let second = conclusion(face, dice.fork(), &second).map_err(|e| format!("second list, {e}"))?;
    same_from(0, BOTH, "joined rows", &first.rows, &second.rows)?;
    let (left, right) = (&first.listing, &second.listing);
    same_from(0, BOTH, "last listing", left, right)?;
    if first != second {
        let (left, right) = (&first.answers, &second.answers);
        return Err(format!("last answers: first {left:?}, second {right:?}"));
    }
    Ok(())
}

/// Two lists that are the same line by line would show nothing.
fn differing_pair(dice: &mut Dice) -> (Vec<u8>, Vec<u8>) {
    loop {
        let (first, second) = pair(dice.roll());
        if first != second {
            return (first, second);
        }
    }
}

/// Besides, the joined rows are those of the schedule, worked out from the whole history.
fn conclusion(face: &mut Face, dice: Dice, text: &[u8]) -> Outcome<Conclusion> {
    let mut run = Run::fresh(face, dice, Scheduler::fresh())?;
    run.all_of(text, Run::look)?;
    let schedule = run.oracle.rows_so_far();
    let schedule: Vec<u8> = schedule.iter().flat_map(Row::bytes).collect();
    same_from(0, SIDES, "joined rows", &schedule, &run.rows)?;
    let (listed, mut listing) = run.call(&Call::List(MOST_EVENTS * RECORD_BYTES))?;
    listing.truncate(listed as usize * RECORD_BYTES);
    let ask = |control| {
        let (answer, id) = run.call(&Call::Ask(control, ID_BYTES))?;
        Ok((answer, if answer == 1 { id } else { Vec::new() }))
    };
    Ok(Conclusion {
        answers: (0..32).map(ask).collect::<Outcome<_>>()?,
        listing,
        rows: run.rows,
    })
}

// Lines with ids of 64 bits and of 128.

fn turned_lines(face: &mut Face, mut dice: Dice, count: usize) -> Outcome {
    for _ in 0..count {
        let line = both_kinds::any(&mut dice);
        for turning in &TURNINGS {
            turned_line(face, &mut dice, turning, &line).map_err(|reason| {
                let line = line.escape_ascii();
                format!("{} {line}: {reason}", turning.name)
            })?;
        }
    }
    Ok(())
}

/// Into buffers of all lengths around the need, and some others.
fn turned_line(face: &mut Face, dice: &mut Dice, turning: &Turning, line: &[u8]) -> Outcome {
    let need = turning.need(line);
    let around = need.saturating_sub(3)..need + 4;
    let any = dice.below(3 * LONGEST_LINE as u64) as usize;
    for room in around.chain([0, line.len(), LONGEST_LINE, any]) {
        turning
            .compare(dice, line, room, |line, out| face.turn(turning, line, out))
            .map_err(|reason| format!("buffer of {room}, {reason}"))?;
    }
    Ok(())
}

// The proved side of a call.

/// A fault that is put into what C gave, to see that it is noticed.
#[derive(Clone, Copy)]
enum Plant {
    Row,
    Mask,
    Choice,
    Earliest,
    Answer,
    Digit,
}

impl Plant {
    fn fits(self, call: &Call, returned: i32, image: &[u8]) -> bool {
        match self {
            Plant::Row => matches!(call, Call::Clock(..)) && returned > 0,
            Plant::Mask | Plant::Choice => returned >= 0 && image[8] > 0,
            Plant::Earliest => matches!(call, Call::List(_)) && returned > 0,
            Plant::Answer => returned >= 0,
            Plant::Digit => false,
        }
    }

    fn spoil(self, dice: &mut Dice, returned: &mut i32, image: &mut [u8], lent: &mut [u8]) {
        match self {
            Plant::Row => flip_bit(dice, &mut lent[..*returned as usize * ROW_BYTES]),
            Plant::Mask => {
                let mask = any_entry(dice, image) + MASK_AT;
                flip_bit(dice, &mut image[mask..mask + 4]);
            }
            Plant::Choice => {
                let choice = any_entry(dice, image) + CHOICE_AT;
                flip_bit(dice, &mut image[choice..=choice]);
            }
            Plant::Earliest => {
                let record = dice.below(*returned as u64) as usize;
                let time = RECORD_BYTES * record + ENTRY_BYTES;
                flip_bit(dice, &mut lent[time..time + 8]);
            }
            Plant::Answer => *returned += dice.pick(&[1, -1]),
            Plant::Digit => flip_bit(dice, &mut lent[..*returned as usize]),
        }
    }
}

/// Where a used entry of the image begins.
fn any_entry(dice: &mut Dice, image: &[u8]) -> usize {
    EVENTS_AT + ENTRY_BYTES * dice.below(image[8].into()) as usize
}

/// Of so many places for a fault one gets it.
const SELDOM: u64 = 1_000;

const PLANTS: [(&str, Plant); 6] = [
    ("row", Plant::Row),
    ("mask", Plant::Mask),
    ("choice", Plant::Choice),
    ("earliest", Plant::Earliest),
    ("answer", Plant::Answer),
    ("digit", Plant::Digit),
];

/// The C calls, with a tally of what they returned.
struct Face {
    plant: Option<Plant>,
    /// How often the fault could have been planted, and how often it was.
    chances: u64,
    planted: u64,
    tally: BTreeMap<(&'static str, i32), u64>,
    spread: Spread,
    accepted_images: u64,
    refused_images: u64,
}

impl Face {
    fn new(plant: Option<Plant>) -> Self {
        Face {
            plant,
            chances: 0,
            planted: 0,
            tally: BTreeMap::new(),
            spread: Spread::default(),
            accepted_images: 0,
            refused_images: 0,
        }
    }

    fn call(&mut self, call: &Call, image: &mut [u8], lent: &mut [u8]) -> i32 {
        let mut returned = call.make(image, lent);
        let class = match call {
            Call::Clock(..) | Call::List(_) => returned.min(1),
            _ => returned,
        };
        *self.tally.entry((call.name(), class)).or_default() += 1;
        if let Some(plant) = self.plant.filter(|plant| plant.fits(call, returned, image)) {
            self.plant(plant, &mut returned, image, lent);
        }
        returned
    }

    fn turn(&mut self, turning: &Turning, line: &[u8], out: &mut [u8]) -> i32 {
        let mut returned = (turning.through_c)(line, out);
        let entry = (turning.name, returned.min(1));
        *self.tally.entry(entry).or_default() += 1;
        if let (Some(plant @ (Plant::Digit | Plant::Answer)), 1..) = (self.plant, returned) {
            self.plant(plant, &mut returned, &mut [], out);
        }
        returned
    }

    fn plant(&mut self, plant: Plant, returned: &mut i32, image: &mut [u8], lent: &mut [u8]) {
        self.chances += 1;
        if self.chances.is_multiple_of(SELDOM) {
            self.planted += 1;
            plant.spoil(&mut Dice::new(self.planted), returned, image, lent);
        }
    }

    fn print(&self) {
        let calls: u64 = self.tally.values().sum();
        println!("calls: {calls}; returned number and how often, counts above 1 as 1:");
        let names = [
            "add_program",
            "deliver",
            "cancel",
            "opt_out",
            "opt_in",
            "set_clock",
            "ask",
            "list",
            "lengthen",
            "shorten",
        ];
        for name in names {
            let of_name = self.tally.iter().filter(|((known, _), _)| *known == name);
            let parts: Vec<String> = of_name
                .map(|((_, n), times)| format!("{n}: {times}"))
                .collect();
            println!("  {name}  {}", parts.join(", "));
        }
        println!("{}", self.spread);
        let (accepted, refused) = (self.accepted_images, self.refused_images);
        println!("damaged images: {accepted} accepted, {refused} refused");
        if self.plant.is_some() {
            println!("faults planted: {}", self.planted);
        }
    }
}

fn flip_bit(dice: &mut Dice, bytes: &mut [u8]) {
    let at = dice.below(bytes.len() as u64) as usize;
    bytes[at] ^= 1 << dice.below(8);
}

// Both sides.

/// A list under way on both sides.
struct Run<'a, O> {
    face: &'a mut Face,
    dice: Dice,
    oracle: O,
    image: Lent,
    /// All rows that C wrote.
    rows: Vec<u8>,
    calls: usize,
}

impl<'a, O: Oracle> Run<'a, O> {
    fn from(face: &'a mut Face, mut dice: Dice, oracle: O, bytes: &[u8]) -> Self {
        Run {
            face,
            oracle,
            image: Lent::holding(&mut dice, bytes),
            dice,
            rows: Vec::new(),
            calls: 0,
        }
    }

    /// The fresh image is made by C, over whatever was there.
    fn fresh(face: &'a mut Face, mut dice: Dice, oracle: O) -> Outcome<Self> {
        let noise = Lent::noise(&mut dice, IMAGE_BYTES).inside().to_vec();
        let mut run = Run::from(face, dice, oracle, &noise);
        make_fresh(&mut run.image)?;
        Ok(run)
    }

    /// Lines that are no frames are no calls. After each call something may come `between`.
    fn all_of(&mut self, text: &[u8], between: fn(&mut Self) -> Outcome) -> Outcome {
        for frame in lines_of(text).filter_map(decode) {
            self.frame(&frame)?;
            between(self)?;
        }
        Ok(())
    }

    /// Questions now and then, which change nothing.
    fn look(&mut self) -> Outcome {
        if self.dice.chance(1, 5) {
            self.list()?;
        }
        if self.dice.chance(1, 8) {
            let control = self.dice.below(34) as u8;
            self.ask(control)?;
        }
        Ok(())
    }

    /// Besides now and then a call that nobody expects.
    fn look_and_stray(&mut self) -> Outcome {
        self.look()?;
        match self.dice.chance(1, 40) {
            true => self.wild(),
            false => Ok(()),
        }
    }

    /// A call with numbers of any size.
    fn wild(&mut self) -> Outcome {
        let any = [(); 5].map(|()| self.dice.roll());
        let [small, long, short, mask, other] = any;
        let id = ids::any(&mut self.dice);
        let program = Program {
            primacy: small as u8,
            defaults: mask as u32,
        };
        let event = Event {
            id,
            program: (other % 9) as u8,
            controls: mask as u32,
            creation: long as u32,
            start: (long >> 32) as u32,
            duration: other as u32,
            randomize_start: short as i16,
            randomize_duration: (short >> 16) as i16,
            start_draw: (short >> 32) as i16,
            duration_draw: (short >> 48) as i16,
        };
        let calls = [
            Call::Program(other as u8, program),
            Call::Deliver(event),
            Call::Cancel(id),
            Call::Choice(id, Choice::Out),
            Call::Choice(id, Choice::In),
            Call::Ask(small as u8, ID_BYTES),
        ];
        let call = self.dice.pick(&calls);
        self.make(&call)
    }

    fn frame(&mut self, frame: &Frame) -> Outcome {
        match *frame {
            Frame::Program(number, program) => self.make(&Call::Program(number, program)),
            Frame::Event(event) => self.make(&Call::Deliver(event)),
            Frame::Cancel(id) => self.make(&Call::Cancel(id)),
            Frame::Choice(id, choice) => self.make(&Call::Choice(id, choice)),
            Frame::Clock(reading) => self.set_clock(reading),
            Frame::Ask(control) => self.ask(control),
        }
    }

    /// The last buffer is long enough, so that the list goes on as it was meant to.
    fn set_clock(&mut self, reading: u64) -> Outcome {
        let mut trial = self.oracle.clone();
        let rows = trial.set_clock(reading, usize::MAX).map_or(0, <[Row]>::len);
        let exact = ROW_BYTES * rows;
        let short = exact.saturating_sub(1);
        let longer = exact + 1 + self.dice.below(40) as usize;
        let choices: [&[usize]; 7] = [
            &[exact],
            &[short, exact],
            &[0, exact],
            &[0, longer],
            &[longer],
            &[AMPLE],
            &[short, 0, exact],
        ];
        for &room in self.dice.pick(&choices) {
            self.make(&Call::Clock(reading, room))?;
        }
        Ok(())
    }

    fn ask(&mut self, control: u8) -> Outcome {
        let choices: [&[usize]; 6] = [&[15], &[16], &[28], &[0, 16], &[8, 16], &[15, 16, 28]];
        for &room in self.dice.pick(&choices) {
            self.make(&Call::Ask(control, room))?;
        }
        Ok(())
    }

    /// Lengths around each edge, and one that has room for as many image entries, but not for as
    /// many records.
    fn list(&mut self) -> Outcome {
        let records = self.oracle.list(MOST_EVENTS).unwrap_or_default();
        let exact = RECORD_BYTES * records.len();
        let entries = ENTRY_BYTES * records.len();
        let between = entries + self.dice.below((exact - entries) as u64) as usize;
        let rooms = [
            exact,
            exact.saturating_sub(1),
            exact.saturating_sub(RECORD_BYTES),
            exact + 1,
            exact + RECORD_BYTES,
            MOST_EVENTS * RECORD_BYTES + 9,
            between,
            0,
        ];
        let room = self.dice.pick(&rooms);
        if room >= exact {
            self.face.spread.count_all(&records);
        }
        self.make(&Call::List(room))
    }

    /// For an image that refuses all. Some of the calls give cause for other refusals too.
    fn one_of_each(&mut self) -> Outcome {
        let number = self.dice.below(10) as u8;
        let small = self.dice.below(60);
        let program = Program {
            primacy: self.dice.pick(&[0, 1, 3, 65]),
            defaults: self.dice.roll() as u32,
        };
        let event = Event {
            id: ids::around(&mut self.dice, small),
            program: number,
            controls: self.dice.below(4) as u32,
            start: self.dice.pick(&[0, 3_600, 4_000, u32::MAX]),
            duration: self.dice.below(3_000) as u32,
            ..Event::default()
        };
        self.make(&Call::Program(number, program))?;
        self.make(&Call::Deliver(event))?;
        self.make(&Call::Cancel(event.id))?;
        self.make(&Call::Choice(event.id, Choice::Out))?;
        self.make(&Call::Choice(event.id, Choice::In))?;
        let reading = self.dice.pick(&[0, 3_600, 5_000, 9_000_000_000, u64::MAX]);
        self.set_clock(reading)?;
        let control = self.dice.below(40) as u8;
        self.ask(control)?;
        self.list()?;
        make_fresh(&mut self.image)
    }

    fn make(&mut self, call: &Call) -> Outcome {
        self.call(call).map(|_| ())
    }

    /// Makes one call on both sides. Gives the number and the lent bytes.
    fn call(&mut self, call: &Call) -> Outcome<(i32, Vec<u8>)> {
        self.calls += 1;
        let before = Seen::before(call, &self.image, &mut self.dice);
        let wanted = before.clone().by_oracle(&mut self.oracle, call);
        let mut found = self.through_c(call, before.clone());
        compare(&before, &wanted, &found)
            .map_err(|reason| format!("call {} {call:?}: {reason}", self.calls))?;
        self.image = found.image;
        let lent = found.lent.inside().to_vec();
        if let Call::Clock(..) = call {
            let written = ROW_BYTES * found.returned.max(0) as usize;
            self.rows.extend_from_slice(&lent[..written]);
        }
        Ok((found.returned, lent))
    }

    /// Counted, and with a fault if one is to be planted.
    fn through_c(&mut self, call: &Call, mut seen: Seen) -> Seen {
        let (image, lent) = (seen.image.inside(), seen.lent.inside());
        seen.returned = self.face.call(call, image, lent);
        seen
    }
}
