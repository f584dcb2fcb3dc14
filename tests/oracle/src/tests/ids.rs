//! Ids of 128 bits, document 02, #104: ties, order, frames, printing, and ids that share a half.

use super::support::{each, event, holder, listed, program, rows_to};
use crate::calls::lines_of;
use crate::choice::Choice::{In, Out};
use crate::frame::{encode, Frame};
use crate::generate::{generate, join, profile_names};
use crate::ids::{halves, joined};
use crate::image;
use crate::pair::pair;
use crate::program::{EXAMPLE, EXAMPLE_OUTPUT};
use crate::random::Dice;
use crate::states::random_image;
use crate::story::{Names, Story};
use crate::{decode, Calls, Event, Fast, Row, Scheduler};

const TOP: u64 = 1 << 63;
const MOST: u64 = u64::MAX;

/// Two ids, the smaller first, and what tells them apart.
const PAIRS: [(u128, u128, &str); 16] = [
    (1, 2, "small ones"),
    (joined(0, 5), joined(1, 5), "the upper half alone"),
    (joined(1, 5), joined(2, 5), "the upper half alone"),
    (joined(5, 1), joined(5, 2), "the lower half alone"),
    (joined(5, 0), joined(5, MOST), "the lower half alone"),
    (joined(1, 2), joined(2, 1), "halves exchanged"),
    (joined(0, 7), joined(7, 0), "halves exchanged"),
    (
        joined(1, MOST),
        joined(TOP, 1),
        "the lower halves the other way",
    ),
    (joined(0, MOST), joined(1, 0), "one more than 64 bits hold"),
    (
        joined(5, TOP - 1),
        joined(5, TOP),
        "the lower half's top bit",
    ),
    (joined(5, 0), joined(5, TOP), "the lower half's top bit"),
    (joined(TOP - 1, MOST), joined(TOP, 0), "the top bit"),
    (joined(0, 5), joined(TOP, 5), "the top bit"),
    (joined(1, 5), joined(MOST, 5), "the top bit"),
    (joined(MOST, MOST - 1), joined(MOST, MOST), "the last two"),
    (0, u128::MAX, "the first and the last"),
];

/// Both ways round.
fn each_pair(test: impl Fn(&mut dyn Calls, [u128; 2], [u128; 2], &str)) {
    for (smaller, larger, what) in PAIRS {
        assert!(smaller < larger);
        for arriving in [[smaller, larger], [larger, smaller]] {
            each(|calls| test(calls, arriving, [smaller, larger], what));
        }
    }
}

fn receive(calls: &mut dyn Calls, events: impl IntoIterator<Item = Event>) {
    rows_to(calls, 4_000);
    for event in events {
        assert_eq!(calls.deliver(&event), Ok(1), "{event:?}");
    }
}

fn listed_ids(calls: &mut dyn Calls) -> Vec<u128> {
    let records = calls.list(48).expect("an accepted listing");
    records.iter().map(|record| record.entry.event.id).collect()
}

// Ties and order.

#[test]
fn the_larger_id_breaks_a_tie() {
    each_pair(|calls, arriving, [smaller, larger], what| {
        receive(calls, arriving.map(event));
        let expected = [(5_000, smaller, 7), (5_000, larger, 2), (5_600, larger, 3)];
        assert_eq!(rows_to(calls, 5_000), expected[..2], "{what}");
        assert_eq!(holder(calls, 0), Some(larger), "{what}");
        assert_eq!(rows_to(calls, 5_600), expected[2..], "{what}");
    });
}

/// The larger one starts midway and takes the control.
#[test]
fn a_later_start_of_the_larger_id_supersedes() {
    each_pair(|calls, arriving, [smaller, larger], what| {
        let start = |id| if id == larger { 5_100 } else { 5_000 };
        let started = |id| Event {
            start: start(id),
            ..event(id)
        };
        receive(calls, arriving.map(started));
        let expected = [(5_000, smaller, 2), (5_100, smaller, 7), (5_100, larger, 2)];
        assert_eq!(rows_to(calls, 5_100), expected, "{what}");
    });
}

/// The smaller one starts midway and gets nothing.
#[test]
fn a_later_start_of_the_smaller_id_does_not() {
    each_pair(|calls, arriving, [smaller, larger], what| {
        let start = |id| if id == smaller { 5_100 } else { 5_000 };
        let started = |id| Event {
            start: start(id),
            ..event(id)
        };
        receive(calls, arriving.map(started));
        let expected = [(5_000, larger, 2), (5_100, smaller, 7)];
        assert_eq!(rows_to(calls, 5_100), expected, "{what}");
    });
}

/// Primacy and creation come before the id.
#[test]
fn a_smaller_id_of_better_rank_wins() {
    each_pair(|calls, arriving, [smaller, larger], what| {
        let later = |id| Event {
            creation: if id == smaller { 101 } else { 100 },
            ..event(id)
        };
        receive(calls, arriving.map(later));
        let expected = [(5_000, larger, 7), (5_000, smaller, 2)];
        assert_eq!(rows_to(calls, 5_000), expected, "{what}");
    });
    each_pair(|calls, arriving, [smaller, larger], what| {
        let worse = |id| Event {
            program: u8::from(id == larger),
            ..event(id)
        };
        receive(calls, arriving.map(worse));
        let expected = [(5_000, larger, 7), (5_000, smaller, 2)];
        assert_eq!(rows_to(calls, 5_000), expected, "{what}");
    });
}

/// Starts, ends of all four codes and losses of one moment, and the listing.
#[test]
fn rows_and_listings_go_by_id() {
    each_pair(|calls, arriving, [smaller, larger], what| {
        let on_own_control = |id| Event {
            program: 1,
            controls: if id == larger { 1 } else { 2 },
            ..event(id)
        };
        receive(calls, arriving.map(on_own_control));
        assert_eq!(listed_ids(calls), [smaller, larger], "{what}");
        let starts = [(5_000, smaller, 2), (5_000, larger, 2)];
        assert_eq!(rows_to(calls, 5_000), starts, "{what}");
        assert_eq!(calls.choose(smaller, Out), Ok(4));
        assert_eq!(listed_ids(calls), [smaller, larger], "{what}");
        let ends = [(5_600, smaller, 8), (5_600, larger, 3)];
        assert_eq!(rows_to(calls, 5_600), ends, "{what}");
    });
    each_pair(|calls, arriving, [smaller, larger], what| {
        let worse = |id| Event {
            program: 1,
            controls: if id == larger { 1 } else { 2 },
            ..event(id)
        };
        receive(calls, arriving.map(worse));
        let taker = Event {
            controls: 3,
            start: 5_100,
            ..event(9)
        };
        assert_eq!(calls.deliver(&taker), Ok(1));
        rows_to(calls, 5_099);
        let expected = [(5_100, smaller, 7), (5_100, larger, 7), (5_100, 9, 2)];
        assert_eq!(rows_to(calls, 5_100), expected, "{what}");
    });
}

/// All ids of the table, in any order of arrival.
#[test]
fn many_ids_in_any_order() {
    let mut ids: Vec<u128> = PAIRS.iter().flat_map(|&(a, b, _)| [a, b]).collect();
    ids.sort();
    ids.dedup();
    for seed in 0..50 {
        let mut dice = Dice::new(seed);
        let mut arriving = ids.clone();
        arriving.sort_by_cached_key(|_| dice.roll());
        each(|calls| {
            receive(calls, arriving.iter().map(|&id| event(id)));
            assert_eq!(listed_ids(calls), ids);
            let rows = rows_to(calls, 5_000);
            let (last, others) = ids.split_last().expect("some ids");
            let losses = others.iter().map(|&id| (5_000, id, 7));
            let expected: Vec<_> = losses.chain([(5_000, *last, 2)]).collect();
            assert_eq!(rows, expected);
        });
    }
}

// Two ids that share a half are two events.

#[test]
fn each_id_has_an_event_of_its_own() {
    each_pair(|calls, arriving, ids, what| {
        receive(calls, arriving.map(event));
        for id in ids {
            assert_eq!(calls.deliver(&event(id)), Ok(0), "{what}");
            let other = Event {
                creation: 7,
                ..event(id)
            };
            assert_eq!(calls.deliver(&other), Err(8), "{what}");
        }
        assert_eq!(listed_ids(calls), ids, "{what}");
    });
}

#[test]
fn an_id_that_shares_a_half_with_a_held_one_is_not_held() {
    each_pair(|calls, [held, other], _, what| {
        receive(calls, [event(held)]);
        assert_eq!(calls.cancel(other), Err(11), "{what}");
        assert_eq!(calls.choose(other, Out), Err(11), "{what}");
        assert_eq!(calls.choose(other, In), Err(11), "{what}");
        let entry = listed(calls, held).entry;
        assert!(!entry.cancelled, "{what}");
        assert_eq!(entry.participation.byte(), 0, "{what}");
        assert_eq!(listed_ids(calls), [held], "{what}");
    });
}

/// The named one is cancelled, so the other holds the control at the start.
#[test]
fn a_cancellation_leaves_the_other() {
    each_pair(|calls, [named, other], ids, what| {
        receive(calls, [event(named), event(other)]);
        assert_eq!(calls.cancel(named), Ok(6), "{what}");
        assert!(listed(calls, named).entry.cancelled, "{what}");
        assert!(!listed(calls, other).entry.cancelled, "{what}");
        assert_eq!(listed_ids(calls), ids, "{what}");
        assert_eq!(rows_to(calls, 5_000), [(5_000, other, 2)], "{what}");
        assert_eq!(holder(calls, 0), Some(other), "{what}");
    });
}

#[test]
fn a_choice_leaves_the_other() {
    each_pair(|calls, [named, other], _, what| {
        let on_own_control = |id| Event {
            controls: if id == named { 1 } else { 2 },
            ..event(id)
        };
        receive(calls, [named, other].map(on_own_control));
        assert_eq!(calls.choose(named, Out), Ok(4), "{what}");
        let mut byte = |id| listed(calls, id).entry.participation.byte();
        assert_eq!([byte(named), byte(other)], [1, 0], "{what}");
        rows_to(calls, 5_000);
        assert_eq!([holder(calls, 0), holder(calls, 1)], [None, Some(other)]);
        let mut ends = [(5_600, named, 10), (5_600, other, 3)];
        ends.sort();
        assert_eq!(rows_to(calls, 5_600), ends, "{what}");
    });
}

/// The first has ended when its id shares a half with one that is held.
#[test]
fn an_end_leaves_the_other() {
    each_pair(|calls, [ending, other], _, what| {
        let longer = Event {
            controls: 2,
            duration: 700,
            ..event(other)
        };
        receive(calls, [event(ending), longer]);
        rows_to(calls, 5_600);
        assert_eq!(listed_ids(calls), [other], "{what}");
        assert_eq!(calls.cancel(ending), Err(11), "{what}");
        assert_eq!(rows_to(calls, 5_700), [(5_700, other, 3)], "{what}");
    });
}

// Bytes.

const ID: u128 = 0x0123_4567_89AB_CDEF_FEDC_BA98_7654_3210;

#[test]
fn sixteen_bytes_in_frames_rows_and_images() {
    let id = "0123456789ABCDEFFEDCBA9876543210";
    let fields = "00000000010000006400001388000002580000000000000000";
    let frames = [
        (Frame::Event(event(ID)), ["01", id, fields].concat()),
        (Frame::Cancel(ID), ["02", id].concat()),
        (Frame::Choice(ID, Out), ["06", id].concat()),
        (Frame::Choice(ID, In), ["07", id].concat()),
    ];
    for (frame, line) in frames {
        assert_eq!(encode(&frame), line.as_bytes());
        assert_eq!(decode(line.as_bytes()), Some(frame));
    }
    let row = Row {
        time: 5_000,
        id: ID,
        code: 2,
    };
    let bytes = row.bytes();
    assert_eq!(bytes.len(), 25);
    assert_eq!(bytes[..8], 5_000u64.to_be_bytes());
    assert_eq!(bytes[8..24], ID.to_be_bytes());
    assert_eq!(bytes[24], 2);
    let mut fast = Fast::fresh();
    assert_eq!(fast.add_program(0, program(0, 0)), Ok(()));
    receive(&mut fast, [event(ID)]);
    assert_eq!(fast.to_image()[57..57 + 16], ID.to_be_bytes());
    assert_eq!(listed(&mut fast, ID).bytes()[..16], ID.to_be_bytes());
}

/// The image of the two, and with their entries the other way round, which is refused.
#[test]
fn ids_of_an_image_ascend() {
    for (smaller, larger, what) in PAIRS {
        let mut fast = Fast::fresh();
        assert_eq!(fast.add_program(0, program(0, 0)), Ok(()));
        receive(&mut fast, [smaller, larger].map(event));
        let mut bytes = fast.to_image();
        assert!(Scheduler::from_image(&bytes).is_some(), "{what}");
        let (first, second) = bytes[57..57 + 2 * 55].split_at_mut(55);
        first.swap_with_slice(second);
        assert!(Scheduler::from_image(&bytes).is_none(), "{what}");
        assert!(Fast::from_image(&bytes).is_none(), "{what}");
    }
}

// Lines.

fn printed(text: &[u8]) -> String {
    let (mut out, mut fast_out) = (Vec::new(), Vec::new());
    Scheduler::fresh().text(text, &mut out);
    Fast::fresh().text(text, &mut fast_out);
    assert_eq!(out, fast_out);
    String::from_utf8(out).expect("plain text")
}

/// As document 01 has it, with ids of 64 bits.
const DOCUMENT: &str = "\
04000100000001
030000000000000FA0
01000000000000000100000000010000006400001388000002580000000000000000
0100000000000000020000000001000000C8000014B40000003C0000000000000000
030000000000001770
0500
";

#[test]
fn the_example_with_eight_zero_bytes_before_each_id() {
    let widened = |line: &str| match line.strip_prefix("01") {
        Some(rest) => format!("01{}{rest}\n", "00".repeat(8)),
        None => format!("{line}\n"),
    };
    let text: String = DOCUMENT.lines().map(widened).collect();
    assert_eq!(text, EXAMPLE);
    assert_eq!(printed(text.as_bytes()), EXAMPLE_OUTPUT);
    let refused = "refused 1\nrefused 1\n0 default 0\n";
    assert_eq!(printed(DOCUMENT.as_bytes()), refused);
}

/// An event is held, and each line would name it if ids had 64 bits, or be a new event.
#[test]
fn frames_with_ids_of_64_bits_are_1() {
    let fields = "00000000010000006400001388000002580000000000000000";
    let opening = format!(
        "04000100000001\n030000000000000FA0\n01{:032X}{fields}\n",
        171
    );
    let short = [
        format!("01{:016X}{fields}\n", 171),
        format!("01{:016X}{fields}\n", 172),
        format!("02{:016X}\n", 171),
        format!("06{:016X}\n", 171),
        format!("07{:016X}\n", 171),
        format!("02{:016X}\n", 172),
    ];
    for line in &short {
        let text = format!("{opening}{line}");
        assert_eq!(printed(text.as_bytes()), "4000 171 1\nrefused 1\n");
    }
    let closing = "030000000000001388\n0500\n";
    let text = [&opening, &short.concat(), closing].concat();
    let refused = "refused 1\n".repeat(short.len());
    let expected = format!("4000 171 1\n{refused}5000 171 2\n0 event 171\n");
    assert_eq!(printed(text.as_bytes()), expected);
}

/// Of each frame with an id only the whole length is known, whatever its digits.
#[test]
fn no_other_length_of_an_id_is_known() {
    let fields = "00000000010000006400001388000002580000000000000000";
    for (kind, fields) in [("01", fields), ("02", ""), ("06", ""), ("07", "")] {
        for digits in 0..=64 {
            for digit in ["0", "7", "F"] {
                let line = [kind, &digit.repeat(digits), fields].concat();
                let frame = decode(line.as_bytes());
                assert_eq!(frame.is_some(), digits == 32, "{line}");
            }
        }
    }
    for digits in 0..=64 {
        let line = ["03", &"0".repeat(digits)].concat();
        assert_eq!(decode(line.as_bytes()).is_some(), digits == 16, "{line}");
    }
}

/// In decimal, without zeros in front, up to 39 digits.
#[test]
fn ids_print_in_decimal() {
    let cases = [
        (0, "0"),
        (9, "9"),
        (10, "10"),
        (99_999_999, "99999999"),
        (100_000_000, "100000000"),
        (joined(0, MOST), "18446744073709551615"),
        (joined(1, 0), "18446744073709551616"),
        (10u128.pow(19) - 1, "9999999999999999999"),
        (10u128.pow(19), "10000000000000000000"),
        (10u128.pow(20), "100000000000000000000"),
        (10u128.pow(32), "100000000000000000000000000000000"),
        (
            10u128.pow(38) + 1,
            "100000000000000000000000000000000000001",
        ),
        (joined(TOP, 0), "170141183460469231731687303715884105728"),
        (u128::MAX, "340282366920938463463374607431768211455"),
    ];
    for (id, digits) in cases {
        assert_eq!(id_printed(id), expected_of(digits));
    }
    assert_eq!(cases[13].1.len(), 39);
}

/// Delivered, started, asked for, opted out of and cancelled.
fn id_printed(id: u128) -> String {
    let frames = [
        Frame::Program(0, program(0, 0)),
        Frame::Clock(4_000),
        Frame::Event(event(id)),
        Frame::Clock(5_000),
        Frame::Ask(0),
        Frame::Choice(id, Out),
        Frame::Cancel(id),
    ];
    printed(&join(&frames.map(|frame| encode(&frame))))
}

fn expected_of(digits: &str) -> String {
    [
        format!("4000 {digits} 1\n5000 {digits} 2\n0 event {digits}\n"),
        format!("5000 {digits} 4\n5000 {digits} 6\n"),
    ]
    .concat()
}

/// Both sides of every power of ten and of two.
#[test]
fn ids_of_every_length_print() {
    let tens = (0..39).map(|power| 10u128.pow(power));
    let twos = (0..128).map(|power| 1 << power);
    for border in tens.chain(twos) {
        for id in [border - 1, border] {
            assert_eq!(id_printed(id), expected_of(&id.to_string()));
        }
    }
}

/// The names of a picture.
#[test]
fn names_go_by_the_whole_id() {
    for (smaller, larger, what) in PAIRS {
        let names = format!("{smaller} one\n{larger} two\n");
        let names = Names::read(&names).expect("names");
        let frames = [
            Frame::Program(0, program(0, 0)),
            Frame::Event(event(larger)),
            Frame::Event(event(smaller)),
        ];
        let story = Story::new(&join(&frames.map(|frame| encode(&frame))), &names);
        let labels: Vec<&str> = story.known.iter().map(|k| k.label.as_str()).collect();
        assert_eq!(labels, ["two", "one"], "{what}");
    }
}

// What the generators reach.

/// The ways in which two held ids are alike, or may be taken in the wrong order: the same lower
/// half, the same upper half that is not zero, halves exchanged, lower halves the other way round,
/// the other way round as signed numbers, both small.
const ALIKE: [fn(u128, u128) -> bool; 6] = [
    |a, b| a as u64 == b as u64,
    |a, b| halves(a).0 == halves(b).0 && halves(a).0 != 0,
    |a, b| a == b.rotate_left(64),
    |a, b| (a < b) != ((a as u64) < b as u64),
    |a, b| (a < b) != ((a as i128) < b as i128),
    |a, b| a.max(b) <= MOST.into(),
];

/// How often two held ids are alike in each way, and how often such ids decide a tie.
#[derive(Default, Debug)]
struct Tally {
    held: [usize; ALIKE.len()],
    ties: [usize; ALIKE.len()],
}

impl Tally {
    fn count(&mut self, events: &[Event]) {
        for (at, one) in events.iter().enumerate() {
            for other in &events[..at] {
                self.count_two(one, other);
            }
        }
    }

    fn count_two(&mut self, one: &Event, other: &Event) {
        let is_tie = one.program == other.program
            && one.creation == other.creation
            && one.controls & other.controls != 0;
        for (at, alike) in ALIKE.iter().enumerate() {
            let count = usize::from(alike(one.id, other.id));
            self.held[at] += count;
            self.ties[at] += count * usize::from(is_tie);
        }
    }

    /// Counts what is held after each line.
    fn count_text(&mut self, text: &[u8]) {
        let mut fast = Fast::fresh();
        for line in lines_of(text) {
            fast.line(line, &mut Vec::new());
            let events: Vec<Event> = fast.entries().iter().map(|entry| entry.event).collect();
            self.count(&events);
        }
    }

    /// Whether each of the first so many ways comes often.
    fn is_wide(&self, ways: usize) -> bool {
        let mut counts = self.held[..ways].iter().chain(&self.ties[..ways]);
        counts.all(|&count| count >= 40)
    }
}

#[test]
fn generators_give_ids_that_share_a_half() {
    for profile in profile_names() {
        let mut tally = Tally::default();
        for seed in 0..40 {
            tally.count_text(&generate(seed, 400, profile).expect("a profile"));
        }
        // Ids of any size are hardly ever small.
        let ways = match profile {
            "far" | "busy" => ALIKE.len() - 1,
            _ => ALIKE.len(),
        };
        assert!(tally.is_wide(ways), "{profile}: {tally:?}");
    }
    let mut tally = Tally::default();
    for seed in 0..300 {
        tally.count_text(&pair(seed).0);
    }
    assert!(tally.is_wide(ALIKE.len()), "pairs: {tally:?}");
    let (mut tally, mut dice) = (Tally::default(), Dice::new(12));
    for _ in 0..6_000 {
        let image = random_image(&mut dice);
        let events: Vec<Event> = image.entries.iter().map(|entry| entry.event).collect();
        tally.count(&events);
        assert!(Fast::from_image(&image::write(&image)).is_some());
    }
    assert!(tally.is_wide(ALIKE.len()), "images: {tally:?}");
}

/// Short frames of all four kinds come in the damaged lines.
#[test]
fn generators_give_short_frames() {
    let mut counts = [0; 4];
    for seed in 0..20 {
        let text = generate(seed, 1_000, "damage").expect("a profile");
        for line in lines_of(&text) {
            let short = [(b"01", 68), (b"02", 18), (b"06", 18), (b"07", 18)];
            for (count, (kind, size)) in counts.iter_mut().zip(short) {
                *count += usize::from(line.len() == size && line.starts_with(kind));
            }
        }
    }
    assert!(counts.iter().all(|&count| count >= 40), "{counts:?}");
}
