//! Time of the program `schedule` beside that of the oracle's fast scheduler, program against
//! program; under the feature `face` also the time of each C call.

use std::fs::{self, File};
use std::io;
use std::path::{Path, PathBuf};
use std::process::{Command, ExitCode};
use std::time::Instant;

use oracle::calls::lines_of;
use oracle::generate::generate;
use oracle::{Calls, Fast};

const USAGE: &str = "measure PROGRAM RIVAL   times PROGRAM and `RIVAL schedule fast`";

const SEED: u64 = 1;
const TURNS: usize = 7;
/// The time of an empty input goes off every other time, so it has to be good.
const EMPTY_TURNS: usize = 35;
/// Less than this after the subtraction is mostly noise of starting a process.
const SHORTEST: f64 = 1.0;
/// A middle turn that takes so many times the best one tells of a busy machine.
const CALM: f64 = 1.2;

fn main() -> ExitCode {
    let arguments: Vec<String> = std::env::args().skip(1).collect();
    let [program, rival] = &arguments[..] else {
        eprintln!("{USAGE}");
        return ExitCode::from(2);
    };
    match measure(program, rival) {
        Ok(()) => ExitCode::SUCCESS,
        Err(message) => {
            eprintln!("{message}");
            ExitCode::FAILURE
        }
    }
}

type Done<T = ()> = Result<T, String>;

fn say(error: impl std::fmt::Display) -> String {
    error.to_string()
}

fn measure(program: &str, rival: &str) -> Done {
    let race = Race::new(program, rival).map_err(say)?;
    let [of_program, of_rival] = race.empty;
    println!("milliseconds of the process, best of {TURNS} turns, less those on empty input,");
    println!("which are {of_program:.2} for program and {of_rival:.2} for rival");
    println!("ratio: program / rival");
    print_head();
    for profile in ["mixed", "busy", "full"] {
        race.file(profile, 10_000)?;
    }
    println!();
    print_head();
    let mut before = None;
    for count in [1_000, 10_000, 100_000, 1_000_000] {
        let times = race.file("mixed", count)?;
        print_growth(before, times);
        before = Some(times);
    }
    print_how_to_count(program, rival);
    print_calls();
    Ok(())
}

/// Milliseconds of the program and of the rival.
type Times = [f64; 2];

fn print_head() {
    let (of_list, of_time) = (
        "profile   lines  refused  events  ended",
        "program    rival  ratio",
    );
    println!("{of_list}  {of_time}");
}

fn print_growth(before: Option<Times>, now: Times) {
    if let Some(before) = before {
        let [program, rival] = [0, 1].map(|at| now[at] / before[at]);
        println!("    10 times the lines: program {program:.1} times, rival {rival:.1} times");
    }
}

fn print_how_to_count(program: &str, rival: &str) {
    const COUNT: &str = "valgrind --tool=callgrind --callgrind-out-file=/dev/null";
    println!("\ninstructions of 10,000 mixed lines and of none (`Collected`):");
    println!("{rival} gen {SEED} 10000 mixed > /tmp/mixed");
    for command in [program.to_string(), rival_words(rival).join(" ")] {
        println!("for f in /tmp/mixed /dev/null; do {COUNT} {command} < $f > /dev/null; done");
    }
}

fn rival_words(rival: &str) -> Vec<String> {
    [rival, "schedule", "fast"].map(String::from).to_vec()
}

// Program against program.

struct Race {
    folder: PathBuf,
    commands: [Vec<String>; 2],
    /// On empty input.
    empty: Times,
}

impl Drop for Race {
    fn drop(&mut self) {
        // A folder that stays behind does no harm.
        let _ = fs::remove_dir_all(&self.folder);
    }
}

impl Race {
    fn new(program: &str, rival: &str) -> io::Result<Self> {
        let name = format!("measure-{}", std::process::id());
        let mut race = Race {
            folder: std::env::temp_dir().join(name),
            commands: [vec![program.to_string()], rival_words(rival)],
            empty: [0.0; 2],
        };
        fs::create_dir_all(&race.folder)?;
        race.empty = race.turns(b"", EMPTY_TURNS)?.map(|turns| turns[0]);
        Ok(race)
    }

    /// Prints the row of one file and gives its times.
    fn file(&self, profile: &str, count: usize) -> Done<Times> {
        let text = generate(SEED, count, profile).ok_or("no such profile")?;
        let turns = self.turns(&text, TURNS).map_err(say)?;
        let times = [0, 1].map(|at| turns[at][0] - self.empty[at]);
        let [program, rival] = times;
        let ratio = program / rival;
        print!("{profile:7} {count:7}  {}", describe(&text));
        println!(
            "  {program:7.2}  {rival:7.2}  {ratio:5.2}{}",
            doubt(times, &turns)
        );
        Ok(times)
    }

    /// The two take turns, so that a slow spell of the machine meets both. Each one's times
    /// ascend, so the first is its best.
    fn turns(&self, text: &[u8], turns: usize) -> io::Result<[Vec<f64>; 2]> {
        let input = self.folder.join("input");
        let outputs = ["program", "rival"].map(|name| self.folder.join(name));
        fs::write(&input, text)?;
        let mut times = [vec![], vec![]];
        for _ in 0..turns {
            for (at, command) in self.commands.iter().enumerate() {
                times[at].push(time(command, &input, &outputs[at])?);
            }
        }
        times.iter_mut().for_each(|one| one.sort_by(f64::total_cmp));
        match fs::read(&outputs[0])? == fs::read(&outputs[1])? {
            true => Ok(times),
            false => Err(io::Error::other("the two outputs differ")),
        }
    }
}

fn time(command: &[String], input: &Path, output: &Path) -> io::Result<f64> {
    let (input, output) = (File::open(input)?, File::create(output)?);
    let mut process = Command::new(&command[0]);
    process.args(&command[1..]).stdin(input).stdout(output);
    let begin = Instant::now();
    let status = process.status()?;
    let time = begin.elapsed().as_secs_f64() * 1_000.0;
    match status.success() {
        true => Ok(time),
        false => Err(io::Error::other(format!("{command:?} ended by {status}"))),
    }
}

fn doubt(times: Times, turns: &[Vec<f64>; 2]) -> &'static str {
    let busy = |one: &Vec<f64>| one[one.len() / 2] > CALM * one[0];
    match (
        times.iter().any(|&time| time < SHORTEST),
        turns.iter().any(busy),
    ) {
        (true, _) => "  too short to trust",
        (_, true) => "  the machine is busy",
        _ => "",
    }
}

/// Percentage of lines refused, accepted events, and percentage of these that came to their end.
fn describe(text: &[u8]) -> String {
    let mut schedule = Fast::fresh();
    let mut out = Vec::new();
    let (mut lines, mut refused, mut events) = (0, 0, 0);
    for line in lines_of(text) {
        out.clear();
        schedule.line(line, &mut out);
        let is_refused = out.starts_with(b"refused");
        let is_new = !is_refused && line.starts_with(b"01") && !out.is_empty();
        lines += 1;
        refused += usize::from(is_refused);
        events += usize::from(is_new);
    }
    let ended = events - schedule.entries().len();
    let percent = |part, whole: usize| 100 * part / whole.max(1);
    let (refused, ended) = (percent(refused, lines), percent(ended, events));
    format!("{refused:5} %  {events:6}  {ended:3} %")
}

// Call against call.

#[cfg(not(feature = "face"))]
fn print_calls() {
    println!("\nC calls: not measured, as this was built without the feature `face`");
}

#[cfg(feature = "face")]
fn print_calls() {
    calls::print();
}

#[cfg(feature = "face")]
mod calls {
    use std::hint::black_box;
    use std::time::Instant;

    use oracle::beside::{compare, Lent, Outcome, Seen};
    use oracle::calls::AMPLE;
    use oracle::event::MOST_EVENTS;
    use oracle::frame::ID_BYTES;
    use oracle::image::RECORD_BYTES;
    use oracle::proved::Call;
    use oracle::random::Dice;
    use oracle::{Answer, Calls, Choice, Event, Fast, Program};

    const TURNS: usize = 500;
    /// So many calls are timed together, each on a copy of the state that was made before.
    const BATCH: usize = 16;

    const CLOCK: u64 = 10_000;
    const COMING: u32 = 12_000;

    pub fn print() {
        println!("\nnanoseconds of a call: through C; by Fast loaded from the image before and");
        println!("stored in it after; by Fast alone. Ratios: C / Fast with image, C / Fast alone.");
        println!("A new event is the last of those held. Times below 20 are rough.");
        println!("held  call                     returned        C    image  ratio   alone  ratio");
        let nothing = best(&(), |_| ());
        for held in [4, 16, MOST_EVENTS] {
            for (name, call) in cases() {
                print_case(held, held, name, &call, nothing);
            }
            let last = Call::Deliver(new_event(held));
            print_case(held, held - 1, "deliver, new", &last, nothing);
        }
    }

    fn cases() -> [(&'static str, Call); 12] {
        let program = Program {
            primacy: 70,
            defaults: 1,
        };
        let records = MOST_EVENTS * RECORD_BYTES;
        [
            ("add_program", Call::Program(7, program)),
            ("deliver, again", Call::Deliver(event(2))),
            ("cancel", Call::Cancel(event(2).id)),
            ("opt_out", Call::Choice(event(2).id, Choice::Out)),
            ("opt_in", Call::Choice(event(0).id, Choice::In)),
            ("set_clock, nothing due", Call::Clock(CLOCK + 1, AMPLE)),
            (
                "set_clock, one start",
                Call::Clock(u64::from(COMING) + 1, AMPLE),
            ),
            ("set_clock, all to their ends", Call::Clock(100_000, AMPLE)),
            ("ask, an event holds", Call::Ask(1, ID_BYTES)),
            ("ask, its user is out", Call::Ask(0, ID_BYTES)),
            ("ask, default", Call::Ask(31, ID_BYTES)),
            ("list", Call::List(records)),
        ]
    }

    /// The even ones have started at the clock, the odd ones come later, each on a control that an
    /// even one holds. The even ones might have begun sooner. The user is out of the first.
    fn event(index: usize) -> Event {
        let started = index.is_multiple_of(2);
        let index = index as u32;
        Event {
            id: 2 * u128::from(index + 1),
            program: (index % 7) as u8,
            controls: 1 << (index / 2),
            creation: index,
            start: if started { 9_000 } else { COMING } + index,
            duration: if started { 11_000 } else { 2_000 },
            randomize_start: if started { -600 } else { 600 },
            ..Event::default()
        }
    }

    /// Its id lies in the middle of the others.
    fn new_event(held: usize) -> Event {
        Event {
            id: held as u128 | 1,
            ..event(held)
        }
    }

    fn schedule(held: usize) -> Result<Fast, u8> {
        let mut fast = Fast::fresh();
        for (number, primacy) in (0..).zip([65, 2, 1, 190, 0, 66, 191]) {
            let defaults = 1 << 31;
            fast.add_program(number, Program { primacy, defaults })?;
        }
        for index in 0..held {
            fast.deliver(&event(index))?;
        }
        fast.set_clock(CLOCK, AMPLE)?;
        fast.choose(event(0).id, Choice::Out)?;
        Ok(fast)
    }

    fn print_case(held: usize, before: usize, name: &str, call: &Call, nothing: f64) {
        let Ok(fast) = schedule(before) else {
            return println!("{held:4}  {name}: the oracle refuses the state");
        };
        let returned = match by_both(&fast, call) {
            Ok(returned) => returned,
            Err(difference) => return println!("{held:4}  {name}: {difference}"),
        };
        let image = fast.to_image();
        let mut lent = vec![0; call.room()];
        let c = best(&image, |image| call.make(image, &mut lent)) - nothing;
        let loaded = best(&image, |image| through_image(image, call)) - nothing;
        let alone = best(&fast, |fast| by_fast(fast, call)) - nothing;
        let (to_loaded, to_alone) = (c / loaded, c / alone);
        print!("{held:4}  {name:28} {returned:4}  {c:7.0}  {loaded:7.0}  {to_loaded:5.2}");
        println!("  {alone:6.0}  {to_alone:5.1}");
    }

    /// The number that both sides return, if they return and write the same.
    fn by_both(fast: &Fast, call: &Call) -> Outcome<i32> {
        let mut dice = Dice::new(0);
        let image = Lent::holding(&mut dice, &fast.to_image());
        let before = Seen::before(call, &image, &mut dice);
        let wanted = before.clone().by_oracle(&mut fast.clone(), call);
        let found = before.clone().through_c(call);
        compare(&before, &wanted, &found).map(|()| found.returned)
    }

    fn through_image(image: &mut Vec<u8>, call: &Call) -> i32 {
        let Some(mut fast) = Fast::from_image(image) else {
            return -2;
        };
        let returned = by_fast(&mut fast, call);
        *image = fast.to_image();
        returned
    }

    /// The number that C returns.
    fn by_fast(fast: &mut Fast, call: &Call) -> i32 {
        let number = match *call {
            Call::Program(number, program) => fast.add_program(number, program).map(|()| 0),
            Call::Deliver(event) => fast.deliver(&event).map(i32::from),
            Call::Cancel(id) => fast.cancel(id).map(i32::from),
            Call::Choice(id, choice) => fast.choose(id, choice).map(i32::from),
            Call::Clock(reading, room) => fast.set_clock(reading, room).map(|r| r.len() as i32),
            Call::Ask(control, _) => fast.ask(control).map(answer_number),
            Call::List(room) => fast.list(room / RECORD_BYTES).map(|r| r.len() as i32),
        };
        number.unwrap_or_else(|refusal| -i32::from(refusal))
    }

    fn answer_number(answer: Answer) -> i32 {
        match answer {
            Answer::Event(_) => 1,
            Answer::Default(program) => 2 + i32::from(program),
            Answer::None => 0,
        }
    }

    /// Nanoseconds of one call in the best turn.
    fn best<S: Clone, T>(state: &S, mut call: impl FnMut(&mut S) -> T) -> f64 {
        let mut best = f64::INFINITY;
        for _ in 0..TURNS {
            let mut copies = vec![state.clone(); BATCH];
            let begin = Instant::now();
            for copy in &mut copies {
                black_box(call(black_box(copy)));
            }
            best = best.min(begin.elapsed().as_nanos() as f64);
        }
        best / BATCH as f64
    }
}
