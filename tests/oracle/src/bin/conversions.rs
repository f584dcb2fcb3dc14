//! Tests of the programs `lengthen` and `shorten` by their lines alone, and of `schedule` behind
//! `lengthen`: `conversions LENGTHEN SHORTEN SCHEDULE` runs them as child processes on recorded
//! lists, on lines of both widths, damaged ones among them, and on generated lists.

use std::fs;
use std::io;
use std::path::{Path, PathBuf};
use std::process::ExitCode;
use std::time::Duration;

use oracle::both_kinds;
use oracle::calls::lines_of;
use oracle::convert::{turn_text, Turn, TURNS};
use oracle::generate::{generate_over, join, profile_names};
use oracle::program::same;
use oracle::random::Dice;
use oracle::trial::{run_measured, run_piped, Feed, Program, Tally};
use oracle::{Calls, Scheduler, Width};

const USAGE: &str = "conversions LENGTHEN SHORTEN SCHEDULE";

const RECORDED: &str = concat!(env!("CARGO_MANIFEST_DIR"), "/../recorded");

fn main() -> ExitCode {
    let arguments: Vec<String> = std::env::args().skip(1).collect();
    let [lengthen, shorten, schedule] = &arguments[..] else {
        return give_up(USAGE);
    };
    let mut tests = Tests {
        ways: [Way::new(0, lengthen), Way::new(1, shorten)],
        schedule: Program::new(schedule),
        tally: Tally::default(),
        seen: Seen::default(),
    };
    for (name, program) in arguments.iter().zip(tests.programs()) {
        if let Err(error) = program.run(b"", Feed::File) {
            return give_up(&format!("{name}: {error}"));
        }
    }
    test_all(&mut tests);
    let Seen { turned, refused } = tests.seen;
    let [one, fifteen] = refused;
    println!("lines: {turned} turned, {one} refused with 1, {fifteen} with 15");
    tests.tally.close("conversions")
}

fn give_up(message: &str) -> ExitCode {
    eprintln!("{message}");
    ExitCode::from(2)
}

fn test_all(tests: &mut Tests) {
    tests.section("recorded lists", recorded_lists);
    tests.section("each byte at each place", each_byte_at_each_place);
    tests.section("kinds and lengths", kinds_and_lengths);
    tests.section("upper halves", upper_halves);
    tests.section("long lines", long_lines);
    tests.section("first and last lines", first_and_last_lines);
    tests.section("borders of reads", borders);
    tests.section("input in pieces", pieces);
    tests.section("random lines", random_lines);
    tests.section("there and back", there_and_back);
    tests.section("generated lists, scheduled", generated_lists);
    tests.section("memory", memory);
}

/// One of the two programs and its converter.
struct Way {
    name: &'static str,
    turn: Turn,
    program: Program,
}

impl Way {
    fn new(index: usize, path: &str) -> Self {
        let (name, turn) = TURNS[index];
        let program = Program::new(path);
        Way {
            name,
            turn,
            program,
        }
    }
}

/// What the converter said to the lines of the tests.
#[derive(Default)]
struct Seen {
    turned: usize,
    refused: [usize; 2],
}

impl Seen {
    fn count(&mut self, printed: &[u8]) {
        for line in lines_of(printed) {
            match line {
                b"refused 1" => self.refused[0] += 1,
                b"refused 15" => self.refused[1] += 1,
                _ => self.turned += 1,
            }
        }
    }
}

struct Tests {
    ways: [Way; 2],
    schedule: Program,
    tally: Tally,
    seen: Seen,
}

type Outcome<T = ()> = Result<T, String>;

fn say(error: io::Error) -> String {
    error.to_string()
}

impl Tests {
    fn programs(&self) -> [&Program; 3] {
        let [lengthen, shorten] = &self.ways;
        [&lengthen.program, &shorten.program, &self.schedule]
    }

    fn section(&mut self, name: &str, run: fn(&mut Tests)) {
        let before = self.tally.mark();
        run(self);
        self.tally.print_since(&before, name);
    }

    /// A test of each program: it prints what the converter gives.
    fn both(&mut self, name: &str, text: &[u8], feed: Feed) {
        for way in &self.ways {
            let expected = turn_text(way.turn, text);
            self.seen.count(&expected);
            let outcome = way.program.expect(text, feed, &expected);
            self.tally.count(&format!("{}, {name}", way.name), outcome);
        }
    }

    /// `lengthen | schedule` prints just the expected bytes.
    fn schedules(&self, text: &[u8], expected: &[u8]) -> Outcome {
        let [lengthen, _, schedule] = self.programs();
        let printed = run_piped(lengthen, schedule, text).map_err(say)?;
        same(expected, &printed)
    }
}

// Recorded lists.

fn recorded_lists(tests: &mut Tests) {
    match recorded_names() {
        Ok(names) => names.iter().for_each(|name| recorded_list(tests, name)),
        Err(error) => tests.tally.count(RECORDED, Err(say(error))),
    }
}

fn recorded_names() -> io::Result<Vec<PathBuf>> {
    let mut names = Vec::new();
    for entry in fs::read_dir(RECORDED)? {
        let path = entry?.path();
        if path.extension().is_some_and(|end| end == "frames") {
            names.push(path);
        }
    }
    names.sort();
    match names.is_empty() {
        true => Err(io::Error::other("no list is there")),
        false => Ok(names),
    }
}

/// Three tests: the output of then, and the lines by each program.
fn recorded_list(tests: &mut Tests, path: &Path) {
    let name = path.file_stem().unwrap_or_default().display().to_string();
    let (frames, out) = (fs::read(path), fs::read(path.with_extension("out")));
    match (frames, out) {
        (Ok(frames), Ok(out)) => {
            let outcome = tests.schedules(&frames, &out);
            tests.tally.count(&format!("{name}, scheduled"), outcome);
            tests.both(&name, &frames, Feed::WHOLE);
        }
        (Err(error), _) | (_, Err(error)) => tests.tally.count(&name, Err(say(error))),
    }
}

// Lines that are frames and lines that nearly are.

const WIDTHS: [Width; 2] = [Width::Short, Width::Long];

/// A frame of each kind with all digits among its fields: digits of the kind, of the id's lower
/// half, if it has an id, and of the rest.
const SOUND: [(&str, &str, &str); 7] = [
    (
        "01",
        "FEDCBA9876543210",
        "00F0E1D2C3B4A5968778695A4B3C2D1E0F0123456789ABCDEF",
    ),
    ("02", "FEDCBA9876543210", ""),
    ("03", "", "0123456789ABCDEF"),
    ("04", "", "07BE89ABCDEF"),
    ("05", "", "1F"),
    ("06", "0123456789ABCDEF", ""),
    ("07", "89ABCDEF01234567", ""),
];

/// The frame with an id of that width; the upper half of a long one is given.
fn sound((kind, id, rest): (&str, &str, &str), width: Width, upper: u64) -> Vec<u8> {
    let upper = match width == Width::Long && !id.is_empty() {
        true => format!("{upper:016X}"),
        false => String::new(),
    };
    [kind, &upper, id, rest].concat().into_bytes()
}

/// A frame of each kind, of both widths if it has an id.
fn sound_lines() -> Vec<Vec<u8>> {
    let frames = SOUND.into_iter();
    let of_widths = |frame| WIDTHS.map(|width| sound(frame, width, 0));
    let mut lines: Vec<Vec<u8>> = frames.flat_map(of_widths).collect();
    lines.dedup();
    lines
}

/// A line feed among the bytes makes two lines of one.
fn each_byte_at_each_place(tests: &mut Tests) {
    for line in sound_lines() {
        let mut lines = Vec::new();
        for at in 0..line.len() {
            for byte in 0..=255 {
                let mut changed = line.clone();
                changed[at] = byte;
                lines.push(changed);
            }
        }
        let name = format!("changed {}", line.escape_ascii());
        tests.both(&name, &join(&lines), Feed::File);
    }
}

/// All kinds at all lengths from 0 to 172, and these of digits other than 0.
fn kinds_and_lengths(tests: &mut Tests) {
    for filling in ["0", "9AF"] {
        let mut lines = Vec::new();
        for kind in 0..=255 {
            let long = format!("{kind:02X}{}", filling.repeat(171)).into_bytes();
            lines.extend((0..=172).map(|length| long[..length].to_vec()));
        }
        let name = format!("all kinds and lengths of {filling}");
        tests.both(&name, &join(&lines), Feed::File);
    }
    for line in sound_lines() {
        let damages = [&line[1..], &line[2..], &line.to_ascii_lowercase()].map(<[u8]>::to_vec);
        let name = format!("cut or lowered {}", line.escape_ascii());
        tests.both(&name, &join(&damages), Feed::File);
    }
}

/// Each bit of the upper half, and of a line that is no frame besides.
fn upper_halves(tests: &mut Tests) {
    for frame in SOUND {
        let uppers = (0..64).map(|bit| 1 << bit).chain([u64::MAX, 0]);
        let sound = uppers.map(|upper| sound(frame, Width::Long, upper));
        let lines: Vec<Vec<u8>> = sound
            .flat_map(|line| {
                let short = line[..line.len() - 1].to_vec();
                let long = [&line[..], b"0"].concat();
                [short, long, line.to_ascii_lowercase(), line]
            })
            .collect();
        let name = format!("upper halves of kind {}", frame.0);
        tests.both(&name, &join(&lines), Feed::File);
    }
}

/// A line behind a long one shows that the long one was left at its end.
const TAIL: &[u8] = b"\n050A\n";

fn long_lines(tests: &mut Tests) {
    const MEGABYTE: usize = 1 << 20;
    let lengths = [67, 68, 69, 70, 83, 84, 85, 86];
    let buffers = [4_095, 4_096, 4_097, 65_535, 65_536, 65_537];
    let large = [MEGABYTE - 1, 3 * MEGABYTE + 1];
    let fillings: [&[u8]; 4] = [b"0", b"\xff", b"\0", b"\r"];
    for length in lengths.into_iter().chain(buffers).chain(large) {
        for filling in fillings {
            let name = format!("{length} bytes {}", filling.escape_ascii());
            let line = filling.repeat(length);
            tests.both(&name, &line, Feed::File);
            tests.both(&name, &[&line, TAIL].concat(), Feed::WHOLE);
        }
    }
    for line in sound_lines() {
        wrapped_lengths(tests, &line);
    }
}

/// Lines that would be of the right length if that were kept in 8 or 16 bits.
fn wrapped_lengths(tests: &mut Tests, line: &[u8]) {
    let mut lines = Vec::new();
    for more in [256, 65_536] {
        let zeros = vec![b'0'; more];
        lines.push([line, &zeros].concat());
        lines.push([&zeros, line].concat());
    }
    let name = format!("{} with 256 and 65,536 digits more", line.escape_ascii());
    tests.both(&name, &join(&lines), Feed::File);
}

fn first_and_last_lines(tests: &mut Tests) {
    for feed in [Feed::File, Feed::WHOLE] {
        for program in tests.ways.iter().map(|way| &way.program) {
            let outcome = program.expect(b"", feed, b"");
            tests.tally.count("no input", outcome);
        }
        for text in ["\n", "\n\n", "\n\n\n", "\r\n", "\r", "0", "05"] {
            let name = text.escape_debug().to_string();
            tests.both(&name, text.as_bytes(), feed);
        }
    }
    for line in sound_lines() {
        let ends: [&[u8]; 8] = [
            b"", b"\n", b"\n\n", b"\r\n", b"\r", b"\0", b"\n0", b" \n050A",
        ];
        for end in ends {
            let text = [&line, end].concat();
            let name = format!("only {}", text.escape_ascii());
            tests.both(&name, &text, Feed::File);
        }
    }
}

// Lines cut by the reads, and by the writes as well, which hold more or less than was read.

fn borders(tests: &mut Tests) {
    const READ: usize = 65_536;
    let round = join(&sound_lines());
    let many = round.repeat(2 * READ / round.len() + 1);
    for before in 0..=90 {
        let filling = [&vec![b'0'; before], &b"\n"[..]].concat();
        let name = format!("{} bytes before many lines", filling.len());
        tests.both(&name, &[&filling, &many[..]].concat(), Feed::File);
    }
    for line in sound_lines() {
        for before in 0..=line.len() + 1 {
            cut_line(tests, &line, READ - before);
        }
    }
}

/// One long line, so that the border comes just behind so many bytes, and the line.
fn cut_line(tests: &mut Tests, line: &[u8], from: usize) {
    let filling = [&vec![b'0'; from - 1], &b"\n"[..]].concat();
    let name = format!("{} from byte {from}", line.escape_ascii());
    tests.both(&name, &[&filling, line, TAIL].concat(), Feed::File);
}

fn pieces(tests: &mut Tests) {
    let mut dice = Dice::new(0);
    let text = text_of(&mut dice, 80);
    for piece in [1, 2, 3, 7, 83, 85, 1_021, 4_095] {
        let pause = Duration::from_micros(30 + piece as u64 / 2);
        let feed = Feed::Pipe { piece, pause };
        tests.both(&format!("pieces of {piece} bytes"), &text, feed);
    }
}

// Random lines.

/// Lines of both widths. Every other text has no line feed at its end.
fn text_of(dice: &mut Dice, count: usize) -> Vec<u8> {
    let lines: Vec<Vec<u8>> = (0..count).map(|_| both_kinds::any(dice)).collect();
    let mut text = join(&lines);
    if dice.chance(1, 2) {
        text.pop();
    }
    text
}

fn random_lines(tests: &mut Tests) {
    for seed in 0..200 {
        let mut dice = Dice::new(seed);
        let count = dice.pick(&[1, 2, 10, 100, 1_000, 5_000]);
        let text = text_of(&mut dice, count);
        let piece = dice.pick(&[61, 997, 4_099, 65_537]);
        let pause = Duration::ZERO;
        let feed = dice.pick(&[Feed::File, Feed::WHOLE, Feed::Pipe { piece, pause }]);
        tests.both(&format!("seed {seed}"), &text, feed);
    }
}

/// Each line that one program accepts is what the other gives for the turned one; a refusal, read
/// as a line, is refused with 1.
fn there_and_back(tests: &mut Tests) {
    for seed in 0..100 {
        let text = text_of(&mut Dice::new(1_000 + seed), 400);
        for [first, second] in [[0, 1], [1, 0]] {
            let outcome = back_again(&tests.ways[first], &tests.ways[second], &text);
            let name = format!("seed {seed}, {} first", tests.ways[first].name);
            tests.tally.count(&name, outcome);
        }
    }
}

fn back_again(there: &Way, back: &Way, text: &[u8]) -> Outcome {
    let kept = |line: &[u8]| match (there.turn)(line) {
        Ok(_) => line.to_vec(),
        Err(_) => b"refused 1".to_vec(),
    };
    let expected: Vec<Vec<u8>> = lines_of(text).map(kept).collect();
    let printed = run_piped(&there.program, &back.program, text).map_err(say)?;
    same(&join(&expected), &printed)
}

// Lists with ids of 64 bits.

/// What a list printed before #104. The name of a test tells how the list was made.
fn generated_lists(tests: &mut Tests) {
    for (seed, profile) in (0..520).zip(profile_names().into_iter().cycle()) {
        let count = 50 + Dice::new(seed).below(351) as usize;
        let outcome = match generate_over(Width::Short, seed, count, profile) {
            Some(text) => tests.schedules(&text, &over_short_ids(&text)),
            None => Err("no such profile".to_string()),
        };
        let name = format!("gen {seed} {count} {profile}, short ids");
        tests.tally.count(&name, outcome);
    }
}

fn over_short_ids(text: &[u8]) -> Vec<u8> {
    let mut out = Vec::new();
    Scheduler::fresh().text_over(Width::Short, text, &mut out);
    out
}

// Memory.

/// A line of 64 megabytes, and 11 megabytes of lines.
fn memory(tests: &mut Tests) {
    let zeros = vec![b'0'; 1 << 20];
    let lines = join(&sound_lines()).repeat(1_000);
    let inputs = [("one line", zeros, 64), ("many lines", lines, 32)];
    for (name, piece, times) in &inputs {
        for way in &tests.ways {
            let outcome = in_little_memory(way, piece, *times);
            tests.tally.count(&format!("{}, {name}", way.name), outcome);
        }
    }
}

fn in_little_memory(way: &Way, piece: &[u8], times: usize) -> Outcome {
    const MOST: u64 = 4_096;
    let (printed, peak) = run_measured(&way.program, piece, times).map_err(say)?;
    let expected = match piece.ends_with(b"\n") {
        true => turn_text(way.turn, piece).repeat(times),
        false => b"refused 1\n".to_vec(),
    };
    same(&expected, &printed)?;
    println!(
        "{} took {peak} kB for {} bytes",
        way.name,
        piece.len() * times
    );
    match peak <= MOST {
        true => Ok(()),
        false => Err(format!("{peak} kB are more than {MOST}")),
    }
}
