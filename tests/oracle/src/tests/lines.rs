//! Lines, printed output and the program's reading of its input.

use std::io::BufReader;

use crate::generate::generate;
use crate::program::{serve, EXAMPLE, EXAMPLE_OUTPUT};
use crate::{decode, Calls, Fast, Scheduler};

fn printed(text: &[u8]) -> String {
    let mut out = Vec::new();
    Scheduler::fresh().text(text, &mut out);
    let mut fast_out = Vec::new();
    Fast::fresh().text(text, &mut fast_out);
    assert_eq!(out, fast_out);
    for size in [1, 7, 64, 8_192] {
        assert_eq!(out, served(text, size));
    }
    String::from_utf8(out).expect("plain text")
}

/// The program's output if its input comes in pieces of the given size.
fn served(text: &[u8], size: usize) -> Vec<u8> {
    let mut out = Vec::new();
    let mut input = BufReader::with_capacity(size, text);
    serve(&mut Scheduler::fresh(), &mut input, &mut out).expect("no failure");
    out
}

#[test]
fn worked_example() {
    assert_eq!(printed(EXAMPLE.as_bytes()), EXAMPLE_OUTPUT);
    let without_last_feed = EXAMPLE.trim_end().as_bytes();
    assert_eq!(printed(without_last_feed), EXAMPLE_OUTPUT);
}

#[test]
fn empty_input_and_empty_lines() {
    assert_eq!(printed(b""), "");
    assert_eq!(printed(b"\n"), "refused 1\n");
    assert_eq!(printed(b"\n\n"), "refused 1\nrefused 1\n");
    assert_eq!(printed(b"0500"), "0 none\n");
    assert_eq!(printed(b"0500\n\n0501"), "0 none\nrefused 1\n1 none\n");
    assert_eq!(printed(b"\n0500\n"), "refused 1\n0 none\n");
}

#[test]
fn answers_and_codes_print() {
    let text = "\
0400010000000A
030000000000000FA0
01FFFFFFFFFFFFFFFFFFFFFFFFFFFFFFFF0000000001000000640000138800000258000000000000000A
01FFFFFFFFFFFFFFFFFFFFFFFFFFFFFFFF00000000010000006400001388000002580000000000000000
01FFFFFFFFFFFFFFFFFFFFFFFFFFFFFFFF00000000010000006400001388000002580000000000000000
030000000000001388
0500
0501
0502
0520
02FFFFFFFFFFFFFFFFFFFFFFFFFFFFFFFF
02FFFFFFFFFFFFFFFFFFFFFFFFFFFFFFFF
0500
0200000000000000000000000000000000
";
    let expected = "\
refused 7
4000 340282366920938463463374607431768211455 1
5000 340282366920938463463374607431768211455 2
0 event 340282366920938463463374607431768211455
1 default 0
2 none
refused 14
5000 340282366920938463463374607431768211455 6
0 none
refused 11
";
    assert_eq!(printed(text.as_bytes()), expected);
}

#[test]
fn damaged_lines() {
    let sound: [&[u8]; 7] = [
        b"01000000000000000000000000000000010000000001000000640000138800000258000000000000000A",
        b"02000000000000000000000000000000AB",
        b"03000000000000000A",
        b"040701000000FF",
        b"051F",
        b"06000000000000000000000000000000AB",
        b"07000000000000000000000000000000AB",
    ];
    for line in sound {
        assert!(decode(line).is_some());
        damage_each_way(line);
    }
    assert_eq!(decode(b""), None);
    assert_eq!(decode(&[b'0'; 5_000]), None);
}

fn damage_each_way(line: &[u8]) {
    assert_eq!(decode(&line[..line.len() - 1]), None);
    assert_eq!(decode(&line[..line.len() - 2]), None);
    for tail in [&b"0"[..], b"00", b"\r", b" ", b"\0"] {
        assert_eq!(decode(&[line, tail].concat()), None);
    }
    assert_eq!(decode(&line.to_ascii_lowercase()), None);
    for at in 0..line.len() {
        for byte in (0..=255).filter(|b| !b"0123456789ABCDEF".contains(b)) {
            let mut bad = line.to_vec();
            bad[at] = byte;
            assert_eq!(decode(&bad), None);
        }
    }
    for kind in (0..=255u8).filter(|kind| Some(*kind) != kind_of(line)) {
        let other = [format!("{kind:02X}").as_bytes(), &line[2..]].concat();
        let same_length = line.len() == 34 && matches!(kind, 2 | 6 | 7);
        assert_eq!(decode(&other).is_some(), same_length);
    }
}

fn kind_of(line: &[u8]) -> Option<u8> {
    line.get(1).map(|digit| digit - b'0')
}

#[test]
fn every_digit_pair_reads_as_its_value() {
    for value in 0..=255u8 {
        let line = format!("05{value:02X}");
        assert_eq!(decode(line.as_bytes()), Some(crate::Frame::Ask(value)));
    }
}

#[test]
fn a_line_of_any_length_is_one_refusal() {
    let mut text = vec![b'0'; 100_000];
    text.extend_from_slice(b"\n0500\n");
    assert_eq!(printed(&text), "refused 1\n0 none\n");
}

#[test]
fn pieces_of_input_do_not_matter() {
    for seed in 0..10 {
        let text = generate(seed, 400, "mixed").expect("a profile");
        printed(&text);
    }
}
