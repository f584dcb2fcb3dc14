//! Tests of the program `schedule` by its lines alone. `lines PROGRAM [LISTS]` runs it as a child
//! process on damaged lines, lines cut in pieces, random lists, pairs of lists and long lists.

use std::process::ExitCode;
use std::time::{Duration, Instant};

use oracle::frame::ID_BYTES;
use oracle::generate::{generate, profile_names};
use oracle::pair::pair;
use oracle::program::{same, EXAMPLE, EXAMPLE_OUTPUT};
use oracle::random::Dice;
use oracle::trial::{Feed, Program, Tally};
use oracle::{Calls, Scheduler};

const USAGE: &str = "lines PROGRAM [LISTS]   LISTS is the number of random lists, 500 if not given";

fn main() -> ExitCode {
    let arguments: Vec<String> = std::env::args().skip(1).collect();
    let words: Vec<&str> = arguments.iter().map(String::as_str).collect();
    let (program, lists) = match words[..] {
        [program] => (program, Ok(500)),
        [program, lists] => (program, lists.parse()),
        _ => return give_up(USAGE),
    };
    let Ok(lists) = lists else {
        return give_up(USAGE);
    };
    let mut tests = Tests {
        program: Program::new(program),
        tally: Tally::default(),
    };
    if let Err(error) = tests.program.run(b"", Feed::File) {
        return give_up(&format!("{program}: {error}"));
    }
    test_all(&mut tests, lists);
    tests.tally.close("lines")
}

fn give_up(message: &str) -> ExitCode {
    eprintln!("{message}");
    ExitCode::from(2)
}

fn test_all(tests: &mut Tests, lists: u64) {
    tests.section("sound frames", sound_frames);
    tests.section("damaged frames", damaged_frames);
    tests.section("kinds and lengths", kinds_and_lengths);
    tests.section("shorter ids", shorter_ids);
    tests.section("ids of all sizes", ids_of_all_sizes);
    tests.section("short and long lines", short_and_long_lines);
    tests.section("first and last lines", first_and_last_lines);
    tests.section("borders of reads", borders);
    tests.section("input in pieces", pieces);
    tests.section("random lists", |tests| random_lists(tests, lists));
    tests.section("pairs of lists", |tests| pairs(tests, lists));
    tests.section("10,000 lines", long_lists);
}

struct Tests {
    program: Program,
    tally: Tally,
}

impl Tests {
    fn section(&mut self, name: &str, run: impl FnOnce(&mut Tests)) {
        let before = self.tally.mark();
        run(self);
        self.tally.print_since(&before, name);
    }

    /// One test: the program prints just the expected bytes.
    fn expect(&mut self, name: &str, text: &[u8], feed: Feed, expected: &[u8]) {
        let outcome = self.program.expect(text, feed, expected);
        self.count(name, outcome);
    }

    fn count(&mut self, name: &str, outcome: Result<(), String>) {
        self.tally.count(name, outcome);
    }
}

// The lines that the tests are made of.

/// A program, the clock 4000 and an event from 5000 to 5600 on control 0.
const OPENING: &str = "\
04000100000001
030000000000000FA0
0100000000000000000000000000ABCDEF00000000010000006400001388000002580000000000000000
";
const OPENED: &str = "4000 11259375 1\n";

/// Shows that the lines between it and the opening changed nothing: the clock 5000, the holder of
/// control 0, and a control that an event of `SOUND` would hold later.
const CLOSING: &str = "030000000000001388\n0500\n030000000000001450\n0502\n";
const CLOSED: &str = "5000 11259375 2\n0 event 11259375\n2 none\n";

/// After the opening: out twice, in twice and out before the start, then in again at it.
const CHOICES: &str = "\
0600000000000000000000000000ABCDEF
0600000000000000000000000000ABCDEF
0700000000000000000000000000ABCDEF
0700000000000000000000000000ABCDEF
0600000000000000000000000000ABCDEF
030000000000001388
0500
0700000000000000000000000000ABCDEF
0500
0300000000000015E0
0600000000000000000000000000ABCDEF
";
const CHOSEN: &str = "\
4000 11259375 4
4000 11259375 5
4000 11259375 4
5000 11259375 2
0 default 0
5000 11259375 5
0 event 11259375
5600 11259375 9
refused 11
";

/// A question that has one answer whatever came before.
const TAIL: &str = "051F\n";
const TAIL_ANSWER: &str = "31 none\n";

const REFUSED: &str = "refused 1\n";

/// A frame of each kind with a letter among its digits, and the line that it prints after the
/// opening. The program is there already, and the id to opt in is not held: else nothing would show
/// that the line was read.
struct Sound {
    kind: &'static str,
    line: &'static str,
    printed: &'static str,
}

impl Sound {
    fn has_id(&self) -> bool {
        matches!(self.kind, "event" | "cancel" | "opt-out" | "opt-in")
    }
}

const SOUND: [Sound; 7] = [
    EVENT,
    Sound {
        kind: "cancel",
        line: "0200000000000000000000000000ABCDEF",
        printed: "4000 11259375 6\n",
    },
    Sound {
        kind: "opt-out",
        line: "0600000000000000000000000000ABCDEF",
        printed: "4000 11259375 4\n",
    },
    Sound {
        kind: "opt-in",
        line: "0700000000000000000000000000ABCDEE",
        printed: "refused 11\n",
    },
    Sound {
        kind: "clock",
        line: "0300000000000013AB",
        printed: "5000 11259375 2\n",
    },
    Sound {
        kind: "program",
        line: "0400BE000000FF",
        printed: "refused 4\n",
    },
    Sound {
        kind: "ask",
        line: "050A",
        printed: "10 none\n",
    },
];

const EVENT: Sound = Sound {
    kind: "event",
    line: "01000000000000000000000000000000AB000000000C0000006E0000138A0000025F000A000B000A000B",
    printed: "4000 171 1\n",
};

/// The texts joined, each a line or lines with their feeds.
fn join(parts: &[&[u8]]) -> Vec<u8> {
    parts.concat()
}

/// The lines, each with a line feed behind it.
fn feed_each(lines: &[Vec<u8>]) -> Vec<u8> {
    lines.iter().fold(Vec::new(), |mut text, line| {
        text.extend_from_slice(line);
        text.push(b'\n');
        text
    })
}

/// One test: each of the lines is refused and changes nothing.
fn expect_refusals(tests: &mut Tests, name: &str, lines: &[Vec<u8>]) {
    let bad = feed_each(lines);
    let refusals = REFUSED.repeat(lines.len());
    let text = join(&[OPENING.as_bytes(), &bad, CLOSING.as_bytes()]);
    let expected = [OPENED, &refusals, CLOSED].concat();
    tests.expect(name, &text, Feed::File, expected.as_bytes());
}

// Bad input.

/// Without this the refusals below might be due to more than the damage.
fn sound_frames(tests: &mut Tests) {
    let (text, expected) = (EXAMPLE.as_bytes(), EXAMPLE_OUTPUT.as_bytes());
    tests.expect("the example of document 01", text, Feed::File, expected);
    for (name, rest, printed) in [
        ("opening and closing", CLOSING, CLOSED),
        ("opting out and in", CHOICES, CHOSEN),
    ] {
        let text = [OPENING, rest].concat();
        let expected = [OPENED, printed].concat();
        tests.expect(name, text.as_bytes(), Feed::File, expected.as_bytes());
    }
    for sound in &SOUND {
        let text = [OPENING, sound.line, "\n", TAIL].concat();
        let expected = [OPENED, sound.printed, TAIL_ANSWER].concat();
        let name = format!("sound {}", sound.kind);
        tests.expect(&name, text.as_bytes(), Feed::File, expected.as_bytes());
    }
}

type Damage = fn(&[u8]) -> Vec<Vec<u8>>;

const DAMAGES: [(&str, Damage); 9] = [
    ("one digit short", |line| {
        vec![line[1..].to_vec(), line[..line.len() - 1].to_vec()]
    }),
    ("one digit long", |line| around(line, b"0")),
    ("a pair short", |line| {
        vec![line[2..].to_vec(), line[..line.len() - 2].to_vec()]
    }),
    ("a pair long", |line| around(line, b"00")),
    ("lower case", lower_cases),
    ("a carriage return", |line| foreign(line, b"\r")),
    ("a NUL", |line| foreign(line, b"\0")),
    ("a byte above 127", above_127),
    ("a space or a sign next to the digits", |line| {
        foreign(line, b" \t/:@G`g")
    }),
];

fn damaged_frames(tests: &mut Tests) {
    for sound in &SOUND {
        for (name, damage) in DAMAGES {
            let name = format!("{} with {name}", sound.kind);
            expect_refusals(tests, &name, &damage(sound.line.as_bytes()));
        }
    }
}

/// The text before the line, behind it and on both sides.
fn around(line: &[u8], text: &[u8]) -> Vec<Vec<u8>> {
    vec![
        join(&[text, line]),
        join(&[line, text]),
        join(&[text, line, text]),
    ]
}

/// All letters lowered, and each alone.
fn lower_cases(line: &[u8]) -> Vec<Vec<u8>> {
    let mut lines = vec![line.to_ascii_lowercase()];
    for at in (0..line.len()).filter(|&at| line[at].is_ascii_uppercase()) {
        lines.push(replaced(line, at, line[at].to_ascii_lowercase()));
    }
    lines
}

/// Each of the bytes around the line, and instead of each of its digits.
fn foreign(line: &[u8], bytes: &[u8]) -> Vec<Vec<u8>> {
    let mut lines = Vec::new();
    for &byte in bytes {
        lines.extend(around(line, &[byte]));
        lines.extend((0..line.len()).map(|at| replaced(line, at, byte)));
    }
    lines
}

/// The lowest and the highest such byte, and each digit with its top bit set.
fn above_127(line: &[u8]) -> Vec<Vec<u8>> {
    let mut lines = foreign(line, b"\x80\xff");
    lines.extend((0..line.len()).map(|at| replaced(line, at, line[at] | 0x80)));
    lines
}

fn replaced(line: &[u8], at: usize, byte: u8) -> Vec<u8> {
    let mut line = line.to_vec();
    line[at] = byte;
    line
}

/// At each known length all kinds but those of that length, and event lines of every length.
fn kinds_and_lengths(tests: &mut Tests) {
    let with_kind = |sound: &Sound, kind: u8| format!("{kind:02X}{}", &sound.line[2..]);
    let is_known = |line: &String| {
        let same_kind = |sound: &Sound| sound.line[..2] == line[..2];
        SOUND
            .iter()
            .any(|sound| sound.line.len() == line.len() && same_kind(sound))
    };
    for sound in &SOUND {
        let length = sound.line.len();
        let ends = [0, 8].map(|kind| with_kind(sound, kind).into_bytes());
        expect_refusals(tests, &format!("kinds 00 and 08 as {}", sound.kind), &ends);
        let lines: Vec<Vec<u8>> = (0..=255)
            .map(|kind| with_kind(sound, kind))
            .filter(|line| !is_known(line))
            .map(String::into_bytes)
            .collect();
        expect_refusals(tests, &format!("{length} digits of other kinds"), &lines);
    }
    for length in [83, 84, 85, 86] {
        event_of_lengths(tests, &format!("{length} bytes"), length..=length);
    }
    event_of_lengths(tests, "0 to 172 bytes", 0..=172);
}

/// The event's line cut or with digits behind it: right at 84 alone.
fn event_of_lengths(tests: &mut Tests, name: &str, lengths: std::ops::RangeInclusive<usize>) {
    let long = EVENT.line.repeat(3);
    let mut text = OPENING.to_string();
    let mut expected = OPENED.to_string();
    for length in lengths {
        text.extend([&long[..length], "\n"]);
        expected.push_str(match length {
            84 => EVENT.printed,
            _ => REFUSED,
        });
    }
    text.push_str(TAIL);
    expected.push_str(TAIL_ANSWER);
    tests.expect(name, text.as_bytes(), Feed::File, expected.as_bytes());
}

/// Each frame with an id, once for each number of bytes that its id may lack. The bytes are taken
/// off the front, which is zero, so that the rest is the id in fewer bytes, with eight the frame
/// of an id of 64 bits; or off the end.
fn shorter_ids(tests: &mut Tests) {
    for sound in SOUND.iter().filter(|sound| sound.has_id()) {
        let (kind, rest) = sound.line.split_at(2);
        let (id, fields) = rest.split_at(2 * ID_BYTES);
        for missing in 1..=ID_BYTES {
            let kept = 2 * (ID_BYTES - missing);
            let lines = [&id[2 * missing..], &id[..kept]]
                .map(|id| [kind, id, fields].concat().into_bytes());
            let name = format!("{} with {missing} bytes of its id missing", sound.kind);
            expect_refusals(tests, &name, &lines);
        }
    }
}

/// The numbers around each border of digits and of halves, delivered, asked for, opted out of and
/// cancelled, each in a list of its own.
fn ids_of_all_sizes(tests: &mut Tests) {
    let tens = (0..39).map(|power| 10u128.pow(power));
    let twos = (0..128).map(|power| 1 << power);
    let borders = tens.chain(twos).flat_map(|border| [border - 1, border]);
    for id in borders.chain([u128::MAX]) {
        let event = format!("01{id:032X}{}", &EVENT.line[34..]);
        let text = format!(
            "04000100000000\n030000000000000FA0\n{event}\n0300000000000013AB\n\
             0502\n06{id:032X}\n02{id:032X}\n"
        );
        let expected =
            format!("4000 {id} 1\n5012 {id} 2\n2 event {id}\n5035 {id} 4\n5035 {id} 6\n");
        let name = format!("id {id}");
        tests.expect(&name, text.as_bytes(), Feed::File, expected.as_bytes());
    }
}

fn short_and_long_lines(tests: &mut Tests) {
    expect_refusals(tests, "an empty line", &[Vec::new()]);
    // The line feed among them makes two empty lines.
    let mut lines: Vec<Vec<u8>> = (0..=255).map(|byte| vec![byte]).collect();
    lines.splice(10..=10, [Vec::new(), Vec::new()]);
    expect_refusals(tests, "all lines of one byte", &lines);
    for sound in &SOUND {
        wrapped_lengths(tests, sound);
    }
    let fillings: [&[u8]; 4] = [b"0", b"\xff", b"\r", EVENT.line.as_bytes()];
    for filling in fillings {
        megabyte(tests, filling);
    }
}

/// Lines that would be of the right length if that were kept in 8 or 16 bits.
fn wrapped_lengths(tests: &mut Tests, sound: &Sound) {
    let mut lines = Vec::new();
    for more in [256, 65_536] {
        let zeros = vec![b'0'; more];
        lines.push(join(&[sound.line.as_bytes(), &zeros]));
        lines.push(join(&[&zeros, sound.line.as_bytes()]));
    }
    let name = format!("{} lengthened by 256 and 65,536 digits", sound.kind);
    expect_refusals(tests, &name, &lines);
}

/// A megabyte without a line feed is one refusal, whether or not a line follows.
fn megabyte(tests: &mut Tests, filling: &[u8]) {
    const MEGABYTE: usize = 1 << 20;
    let name = format!("a megabyte of {}", filling.escape_ascii());
    let long = filling.repeat(MEGABYTE / filling.len() + 1);
    let long = &long[..MEGABYTE];
    tests.expect(&name, long, Feed::File, REFUSED.as_bytes());
    let rest = ["\n", EVENT.line, "\n", TAIL].concat();
    let text = join(&[OPENING.as_bytes(), long, rest.as_bytes()]);
    let expected = [OPENED, REFUSED, EVENT.printed, TAIL_ANSWER].concat();
    let name = format!("{name} and an event");
    tests.expect(&name, &text, Feed::File, expected.as_bytes());
}

fn first_and_last_lines(tests: &mut Tests) {
    tests.expect("no input", b"", Feed::File, b"");
    tests.expect("no input by a pipe", b"", Feed::WHOLE, b"");
    for count in [1, 2, 3] {
        let text = "\n".repeat(count);
        let expected = REFUSED.repeat(count);
        let name = format!("only line feeds, {count}");
        tests.expect(&name, text.as_bytes(), Feed::File, expected.as_bytes());
    }
    for sound in &SOUND {
        let short = &sound.line[..sound.line.len() - 1];
        let long = [sound.line, "0"].concat();
        last_line(tests, "sound", sound, sound.line, sound.printed);
        last_line(tests, "short", sound, short, REFUSED);
        last_line(tests, "long", sound, &long, REFUSED);
    }
}

/// The line comes last, without its line feed.
fn last_line(tests: &mut Tests, manner: &str, sound: &Sound, line: &str, printed: &str) {
    let text = [OPENING, line].concat();
    let expected = [OPENED, printed].concat();
    let name = format!("{manner} {} without a line feed", sound.kind);
    tests.expect(&name, text.as_bytes(), Feed::File, expected.as_bytes());
}

// Lines cut by the reads.

/// What fills the input up to the line that a border cuts.
#[derive(Clone, Copy, Debug)]
enum Filler {
    LineFeeds,
    OneLongLine,
    /// The clock 4000 again and again, which prints nothing, then line feeds.
    Clocks,
}

impl Filler {
    /// Lines of `size` bytes in all, which is not 0, and what they print.
    fn lines(self, size: usize) -> (String, String) {
        const CLOCK: &str = "030000000000000FA0\n";
        match self {
            Filler::LineFeeds => ("\n".repeat(size), REFUSED.repeat(size)),
            Filler::OneLongLine => (format!("{}\n", "0".repeat(size - 1)), REFUSED.to_string()),
            Filler::Clocks => {
                let clocks = CLOCK.repeat(size / CLOCK.len());
                let rest = size % CLOCK.len();
                (clocks + &"\n".repeat(rest), REFUSED.repeat(rest))
            }
        }
    }
}

fn borders(tests: &mut Tests) {
    const READ: usize = 65_536;
    for sound in &SOUND {
        for before in 0..=sound.line.len() + 1 {
            for filler in [Filler::LineFeeds, Filler::OneLongLine, Filler::Clocks] {
                cut_line(tests, sound, READ, before, filler);
            }
            cut_line(tests, sound, 2 * READ, before, Filler::OneLongLine);
        }
        end_at_border(tests, sound, READ, "");
        end_at_border(tests, sound, READ, "\n");
    }
}

/// The border comes after `before` bytes of the line, its line feed counted.
fn cut_line(tests: &mut Tests, sound: &Sound, border: usize, before: usize, filler: Filler) {
    let (filling, refusals) = filler.lines(border - before - OPENING.len());
    let text = [OPENING, &filling, sound.line, "\n", TAIL].concat();
    let expected = [OPENED, &refusals, sound.printed, TAIL_ANSWER].concat();
    let kind = sound.kind;
    let name = format!("{kind} cut after {before} bytes at {border}, {filler:?}");
    tests.expect(&name, text.as_bytes(), Feed::File, expected.as_bytes());
}

/// The input ends with the read, so that the next one gets nothing.
fn end_at_border(tests: &mut Tests, sound: &Sound, border: usize, feed: &str) {
    let size = border - OPENING.len() - sound.line.len() - feed.len();
    let (filling, refusals) = Filler::OneLongLine.lines(size);
    let text = [OPENING, &filling, sound.line, feed].concat();
    let expected = [OPENED, &refusals, sound.printed].concat();
    let feeds = feed.len();
    let name = format!("{} and {feeds} line feeds up to {border}", sound.kind);
    tests.expect(&name, text.as_bytes(), Feed::File, expected.as_bytes());
}

fn pieces(tests: &mut Tests) {
    let (text, expected) = mixed_lines();
    for piece in [1, 2, 3, 7, 85, 4_096] {
        let pause = Duration::from_micros(30 + piece as u64 / 2);
        let feed = Feed::Pipe { piece, pause };
        let name = format!("pieces of {piece} bytes");
        tests.expect(&name, text.as_bytes(), feed, expected.as_bytes());
    }
}

/// Good and bad lines of many lengths, more than two pieces of 4,096 bytes, and at the end each
/// sound frame, the last without its line feed.
fn mixed_lines() -> (String, String) {
    let mut text = OPENING.to_string();
    let mut expected = OPENED.to_string();
    for round in 0..40 {
        let again = OPENING.lines().last().unwrap_or_default();
        let long = EVENT.line.repeat(1 + round % 3);
        let bad = [&EVENT.line.to_lowercase(), "\n\n", &long, "0\n"].concat();
        text.extend([&bad, again, "\n0500\n030000000000000FA0\n"]);
        expected.extend([REFUSED, REFUSED, REFUSED, "0 default 0\n"]);
    }
    // When the clock comes, the first event is cancelled and the second starts at 5012.
    for sound in &SOUND {
        text.extend([sound.line, "\n"]);
        expected.push_str(match sound.kind {
            "clock" => "5012 171 2\n",
            _ => sound.printed,
        });
    }
    text.pop();
    (text, expected)
}

// Random lists, pairs and long lists.

fn by_oracle(text: &[u8]) -> Vec<u8> {
    let mut out = Vec::new();
    Scheduler::fresh().text(text, &mut out);
    out
}

/// `oracle gen` makes the same lists from the seed, the count and the profile in a test's name.
fn random_lists(tests: &mut Tests, lists: u64) {
    let profiles = profile_names();
    for (seed, profile) in (0..lists).zip(profiles.into_iter().cycle()) {
        let count = 50 + Dice::new(seed).below(351) as usize;
        let name = format!("gen {seed} {count} {profile}");
        match generate(seed, count, profile) {
            Some(text) => tests.expect(&name, &text, Feed::WHOLE, &by_oracle(&text)),
            None => tests.count(&name, Err("no such profile".to_string())),
        }
    }
}

/// Demand 3. `oracle pair` makes the same pair from the seed in a test's name. Two lists that are
/// the same line by line would show nothing, so they do not count.
fn pairs(tests: &mut Tests, count: u64) {
    let drawn = (0..).map(|seed| (seed, pair(seed)));
    let differing = drawn.filter(|(_, (first, second))| first != second);
    for (seed, (first, second)) in differing.take(count as usize) {
        let outcome = compare_pair(tests, &first, &second);
        tests.count(&format!("pair {seed}"), outcome);
    }
}

/// The joined rows and the last answers of the two lists are equal, and the rows are those of the
/// schedule: two lists without any rows would be equal as well.
fn compare_pair(tests: &Tests, first: &[u8], second: &[u8]) -> Result<(), String> {
    let run = |text| {
        tests
            .program
            .run(text, Feed::WHOLE)
            .map_err(|e| e.to_string())
    };
    let (first_out, second_out) = (run(first)?, run(second)?);
    let rows = rows_of(&first_out);
    same(&schedule_rows(first), &rows).map_err(|e| format!("rows of the schedule, {e}"))?;
    same(&rows, &rows_of(&second_out)).map_err(|e| format!("rows, {e}"))?;
    let (left, right) = (answers_of(&first_out)?, answers_of(&second_out)?);
    same(&left, &right).map_err(|e| format!("answers, {e}"))
}

/// The printed rows. Codes 1, 4, 5 and 6 have the same form but come from deliveries, choices and
/// cancellations.
fn rows_of(out: &[u8]) -> Vec<u8> {
    const CODES: [&[u8]; 6] = [b"2", b"3", b"7", b"8", b"9", b"10"];
    let is_row = |line: &&[u8]| {
        let words: Vec<&[u8]> = line.split(|&byte| byte == b' ').collect();
        let is_number = |word: &[u8]| !word.is_empty() && word.iter().all(u8::is_ascii_digit);
        matches!(words[..], [time, id, code]
            if is_number(time) && is_number(id) && CODES.contains(&code))
    };
    let lines = out.split(|&byte| byte == b'\n');
    let rows: Vec<Vec<u8>> = lines.filter(is_row).map(<[u8]>::to_vec).collect();
    feed_each(&rows)
}

/// The rows that the oracle works out anew from the whole history of the list.
fn schedule_rows(text: &[u8]) -> Vec<u8> {
    let mut schedule = Scheduler::fresh();
    schedule.text(text, &mut Vec::new());
    let rows = schedule.rows_so_far();
    let print = |row: &oracle::Row| format!("{} {} {}\n", row.time, row.id, row.code);
    rows.iter().map(print).collect::<String>().into_bytes()
}

/// The last 32 lines, which have to answer for the controls 0 to 31.
fn answers_of(out: &[u8]) -> Result<Vec<u8>, String> {
    let lines: Vec<&[u8]> = out.split_inclusive(|&byte| byte == b'\n').collect();
    let first = lines.len().checked_sub(32).ok_or("less than 32 lines")?;
    for (control, line) in lines[first..].iter().enumerate() {
        if !line.starts_with(format!("{control} ").as_bytes()) {
            let line = line.escape_ascii();
            return Err(format!("no answer for control {control}: `{line}`"));
        }
    }
    Ok(lines[first..].concat())
}

fn long_lists(tests: &mut Tests) {
    for profile in ["busy", "mixed"] {
        match generate(1, 10_000, profile) {
            Some(text) => long_list(tests, profile, &text),
            None => tests.count(profile, Err("no such profile".to_string())),
        }
    }
}

/// Two tests: the output and the time, the start of the process included.
fn long_list(tests: &mut Tests, profile: &str, text: &[u8]) {
    const LIMIT: Duration = Duration::from_millis(500);
    let begin = Instant::now();
    let out = tests
        .program
        .run(text, Feed::File)
        .map_err(|e| e.to_string());
    let time = begin.elapsed();
    println!("10,000 lines of {profile}: {:.3} s", time.as_secs_f64());
    let expected = by_oracle(text);
    tests.count(profile, out.and_then(|out| same(&expected, &out)));
    let outcome = match time < LIMIT {
        true => Ok(()),
        false => Err(format!("{time:?} is not below {LIMIT:?}")),
    };
    tests.count(&format!("{profile}, time"), outcome);
}
