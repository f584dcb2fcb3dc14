//! The converter of document 02, #105: what is turned, what is refused, and the way back.

use crate::both_kinds;
use crate::calls::lines_of;
use crate::convert::{lengthen, shorten, turn_into, turn_text, Turn, TURNS};
use crate::frame::{decode_over, encode_over, Frame, Width};
use crate::generate::{generate_over, profile_names};
use crate::program::{EXAMPLE, EXAMPLE_OUTPUT};
use crate::random::Dice;
use crate::{Calls, Fast, Scheduler};

/// The worked example as document 01 gives it.
const OLD_EXAMPLE: &str = "\
04000100000001
030000000000000FA0
01000000000000000100000000010000006400001388000002580000000000000000
0100000000000000020000000001000000C8000014B40000003C0000000000000000
030000000000001770
0500
";

/// A frame of each kind with an id, short and long.
const WITH_ID: [[&str; 2]; 4] = [
    [
        "0189ABCDEF0123456700000000010000006400001388000002580000000000000000",
        "01000000000000000089ABCDEF0123456700000000010000006400001388000002580000000000000000",
    ],
    ["0289ABCDEF01234567", "02000000000000000089ABCDEF01234567"],
    ["0689ABCDEF01234567", "06000000000000000089ABCDEF01234567"],
    ["0789ABCDEF01234567", "07000000000000000089ABCDEF01234567"],
];

const WITHOUT_ID: [&str; 3] = ["0389ABCDEF01234567", "0407FF89ABCDEF", "05FF"];

fn turned(turn: Turn, line: &str) -> Result<String, u8> {
    let plain = |line| String::from_utf8(line).expect("plain text");
    turn(line.as_bytes()).map(plain)
}

/// All lines that each way takes.
fn accepted(turn: Turn) -> Vec<&'static str> {
    let all = WITH_ID.into_iter().flatten().chain(WITHOUT_ID);
    all.filter(|line| turn(line.as_bytes()).is_ok()).collect()
}

// What is turned.

#[test]
fn zeros_come_before_an_id_and_go() {
    for [short, long] in WITH_ID {
        assert_eq!(turned(lengthen, short), Ok(long.to_string()));
        assert_eq!(turned(shorten, long), Ok(short.to_string()));
    }
}

#[test]
fn a_frame_of_the_kind_asked_for_is_none() {
    for [short, long] in WITH_ID {
        assert_eq!(turned(lengthen, long), Err(1));
        assert_eq!(turned(shorten, short), Err(1));
    }
}

#[test]
fn a_frame_without_an_id_passes() {
    for line in WITHOUT_ID {
        for (name, turn) in TURNS {
            assert_eq!(turned(turn, line), Ok(line.to_string()), "{name}");
        }
    }
}

/// No field counts: program 255, no controls, no duration, draws out of range, a late clock.
#[test]
fn fields_are_not_looked_at() {
    let fields = "FF00000000000000000000000000000000FFFFFFFFFFFFFFFF";
    let [short, long] =
        ["8", "00000000000000008"].map(|id| format!("01{id}000000000000000{fields}"));
    assert_eq!(turned(lengthen, &short), Ok(long.clone()));
    assert_eq!(turned(shorten, &long), Ok(short));
    for line in ["03FFFFFFFFFFFFFFFF", "04FFFFFFFFFFFF", "05FF"] {
        assert_eq!(turned(lengthen, line), Ok(line.to_string()));
    }
}

// What is refused.

#[test]
fn each_bit_of_the_upper_half_is_refused() {
    for [_, long] in WITH_ID {
        for bit in 0..64 {
            let upper = format!("{:016X}", 1u64 << bit);
            let line = [&long[..2], &upper, &long[18..]].concat();
            assert_eq!(turned(shorten, &line), Err(15), "{line}");
        }
        let line = [&long[..2], "FFFFFFFFFFFFFFFF", &long[18..]].concat();
        assert_eq!(turned(shorten, &line), Err(15), "{line}");
    }
}

/// A line that is no frame gets 1, whatever stands where an id would.
#[test]
fn number_1_comes_before_15() {
    for [_, long] in WITH_ID {
        let wide = [&long[..2], "0000000000000001", &long[18..]].concat();
        assert_eq!(turned(shorten, &wide), Err(15));
        let cut = &wide[..wide.len() - 1];
        let more = [&wide, "0"].concat();
        let other_kind = ["08", &wide[2..]].concat();
        for line in [cut, &more, &other_kind, &wide.to_lowercase()] {
            assert_eq!(turned(shorten, line), Err(1), "{line}");
        }
    }
    let clock = "030000000000000001";
    assert_eq!(turned(shorten, clock), Ok(clock.to_string()));
}

#[test]
fn one_more_or_less_is_no_frame() {
    for (name, turn) in TURNS {
        for line in accepted(turn) {
            let size = line.len();
            let longer = ["0", "00", "\r", " ", "\0", "\n"].map(|tail| [line, tail].concat());
            let shorter = [&line[1..], &line[2..], &line[..size - 1], &line[..size - 2]];
            for bad in shorter.into_iter().chain(longer.iter().map(String::as_str)) {
                assert_eq!(turned(turn, bad), Err(1), "{name} {bad:?}");
            }
        }
        assert_eq!(turned(turn, ""), Err(1));
        assert_eq!(turn(&[b'0'; 65_536 + 18]), Err(1));
    }
}

#[test]
fn only_upper_case_digits_are_taken() {
    for (name, turn) in TURNS {
        for line in accepted(turn) {
            assert_eq!(turned(turn, &line.to_lowercase()), Err(1), "{name} {line}");
            for at in 0..line.len() {
                each_foreign_byte(turn, line.as_bytes(), at);
            }
        }
    }
}

fn each_foreign_byte(turn: Turn, line: &[u8], at: usize) {
    for byte in (0..=255).filter(|byte| !b"0123456789ABCDEF".contains(byte)) {
        let mut bad = line.to_vec();
        bad[at] = byte;
        assert_eq!(turn(&bad), Err(1), "{}", bad.escape_ascii());
    }
}

/// Of all kinds and lengths just these are frames.
#[test]
fn each_kind_has_its_length() {
    let short = [(1, 34), (2, 9), (3, 9), (4, 7), (5, 2), (6, 9), (7, 9)];
    let long = [(1, 42), (2, 17), (3, 9), (4, 7), (5, 2), (6, 17), (7, 17)];
    for ((name, turn), frames) in TURNS.into_iter().zip([short, long]) {
        for (kind, digits) in (0..=255).flat_map(|kind| (2..=90).map(move |n| (kind, n))) {
            let line = format!("{kind:02X}{}", "0".repeat(digits - 2));
            let known = digits % 2 == 0 && frames.contains(&(kind, digits / 2));
            assert_eq!(turned(turn, &line).is_ok(), known, "{name} {line}");
        }
    }
}

#[test]
fn a_buffer_too_short_is_13_and_keeps_its_bytes() {
    for (name, turn) in TURNS {
        for line in accepted(turn) {
            let wanted = turn(line.as_bytes()).expect("an accepted line");
            for room in 0..=wanted.len() + 2 {
                let mut out = vec![b'x'; room];
                let returned = turn_into(turn, line.as_bytes(), &mut out);
                match out.split_at_checked(wanted.len()) {
                    Some((front, behind)) => {
                        assert_eq!(returned, Ok(wanted.len()), "{name} {line}");
                        assert_eq!(front, wanted);
                        assert!(behind.iter().all(|&byte| byte == b'x'));
                    }
                    None => {
                        assert_eq!(returned, Err(13), "{name} {line}");
                        assert!(out.iter().all(|&byte| byte == b'x'));
                    }
                }
            }
        }
    }
    let wide = b"0200000000000000010000000000000000";
    assert_eq!(turn_into(shorten, wide, &mut []), Err(15));
    assert_eq!(turn_into(shorten, &wide[1..], &mut []), Err(1));
}

// Both ways, and beside the decoder.

#[test]
fn each_way_undoes_the_other() {
    let mut dice = Dice::new(0);
    let mut undone = 0;
    for _ in 0..100_000 {
        let line = both_kinds::any(&mut dice);
        for [there, back] in [[lengthen, shorten], [shorten, lengthen]] {
            if let Ok(turned) = there(&line) {
                assert_eq!(back(&turned).as_ref(), Ok(&line));
                undone += 1;
            }
        }
    }
    assert!(undone > 50_000, "{undone}");
}

/// The line with the same frame over ids of the other width.
fn by_decoder(from: Width, to: Width, line: &[u8]) -> Result<Vec<u8>, u8> {
    let frame = decode_over(from, line).ok_or(1)?;
    let (Frame::Event(crate::Event { id, .. }) | Frame::Cancel(id) | Frame::Choice(id, _)) = frame
    else {
        return Ok(encode_over(to, &frame));
    };
    match to == Width::Short && id > u64::MAX.into() {
        true => Err(15),
        false => Ok(encode_over(to, &frame)),
    }
}

#[test]
fn a_turned_line_holds_the_same_frame() {
    let mut dice = Dice::new(1);
    let mut numbers = [0; 16];
    for _ in 0..100_000 {
        let line = both_kinds::any(&mut dice);
        let shown = line.escape_ascii();
        let longer = by_decoder(Width::Short, Width::Long, &line);
        let shorter = by_decoder(Width::Long, Width::Short, &line);
        assert_eq!(lengthen(&line), longer, "{shown}");
        assert_eq!(shorten(&line), shorter, "{shown}");
        numbers[usize::from(shorter.err().unwrap_or(0))] += 1;
    }
    for number in [0, 1, 15] {
        assert!(numbers[number] > 1_000, "{numbers:?}");
    }
}

// Whole texts.

#[test]
fn the_example_of_document_01_is_turned() {
    let long = turn_text(lengthen, OLD_EXAMPLE.as_bytes());
    assert_eq!(long, EXAMPLE.as_bytes());
    assert_eq!(turn_text(shorten, &long), OLD_EXAMPLE.as_bytes());
    let mut printed = Vec::new();
    Scheduler::fresh().text_over(Width::Short, OLD_EXAMPLE.as_bytes(), &mut printed);
    assert_eq!(printed, EXAMPLE_OUTPUT.as_bytes());
}

#[test]
fn each_line_gets_a_line_feed() {
    let printed = |text: &str| {
        let printed = turn_text(lengthen, text.as_bytes());
        String::from_utf8(printed).expect("plain text")
    };
    assert_eq!(printed(""), "");
    assert_eq!(printed("\n"), "refused 1\n");
    assert_eq!(printed("\n\n"), "refused 1\nrefused 1\n");
    assert_eq!(printed("0500"), "0500\n");
    assert_eq!(printed("0500\n"), "0500\n");
    assert_eq!(printed("0500\r\n0501"), "refused 1\n0501\n");
    let wide = b"0200000000000000010000000000000000\n0500";
    assert_eq!(turn_text(shorten, wide), b"refused 15\n0500\n");
}

/// Refused lines included: a printed refusal is itself no frame.
#[test]
fn a_turned_list_schedules_as_before() {
    let mut refused = 0;
    for (seed, profile) in (0..65).zip(profile_names().into_iter().cycle()) {
        let text = generate_over(Width::Short, seed, 300, profile).expect("a profile");
        let mut before = Vec::new();
        Scheduler::fresh().text_over(Width::Short, &text, &mut before);
        let long = turn_text(lengthen, &text);
        let (mut by_history, mut by_fast) = (Vec::new(), Vec::new());
        Scheduler::fresh().text(&long, &mut by_history);
        Fast::fresh().text(&long, &mut by_fast);
        assert!(
            by_history == before && by_fast == before,
            "{seed} {profile}"
        );
        refused += lines_of(&text)
            .filter(|line| lengthen(line).is_err())
            .count();
    }
    assert!(refused > 500, "{refused}");
}
