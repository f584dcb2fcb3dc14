//! The three schedulers against each other, and what the generator reaches.

use std::collections::{BTreeMap, BTreeSet};

use super::naive::Naive;
use super::support::ROOM;
use crate::calls::lines_of;
use crate::generate::{generate, profile_names};
use crate::{Calls, Fast, Scheduler};

/// Runs a text line by line on two schedulers and compares output and listings.
fn compare<A: Calls, B: Calls>(mut a: A, mut b: B, text: &[u8], label: &str) -> Vec<u8> {
    let mut whole = Vec::new();
    for (number, line) in lines_of(text).enumerate() {
        let (mut from_a, mut from_b) = (Vec::new(), Vec::new());
        a.line(line, &mut from_a);
        b.line(line, &mut from_b);
        let shown = |out: &[u8]| String::from_utf8_lossy(out).into_owned();
        assert_eq!(shown(&from_a), shown(&from_b), "{label}, line {number}");
        assert_eq!(a.list(48), b.list(48), "{label}, line {number}");
        whole.extend(from_a);
    }
    whole
}

#[test]
fn intervals_equal_seconds() {
    for profile in profile_names() {
        if profile == "far" {
            continue;
        }
        for seed in 0..400 {
            let text = generate(seed, 150, profile).expect("a profile");
            let label = format!("{profile} {seed}");
            compare(Scheduler::fresh(), Naive::fresh(), &text, &label);
        }
    }
}

#[test]
fn fast_equals_history() {
    for profile in profile_names() {
        for seed in 1_000..1_200 {
            let text = generate(seed, 400, profile).expect("a profile");
            let label = format!("{profile} {seed}");
            compare(Scheduler::fresh(), Fast::fresh(), &text, &label);
        }
    }
}

#[test]
fn long_lists_agree() {
    for profile in profile_names() {
        let text = generate(77, 6_000, profile).expect("a profile");
        compare(Scheduler::fresh(), Fast::fresh(), &text, profile);
    }
}

/// The rows of all clock calls together are those of the schedule of the whole list.
#[test]
fn joined_rows_are_the_schedules_rows() {
    for profile in profile_names() {
        for seed in 500..600 {
            let text = generate(seed, 300, profile).expect("a profile");
            let mut scheduler = Scheduler::fresh();
            let mut joined = Vec::new();
            for line in lines_of(&text) {
                match crate::decode(line) {
                    Some(crate::Frame::Clock(reading)) => {
                        joined.extend_from_slice(scheduler.set_clock(reading, ROOM).unwrap_or(&[]))
                    }
                    _ => scheduler.line(line, &mut Vec::new()),
                }
            }
            assert_eq!(joined, scheduler.rows_so_far(), "{profile} {seed}");
        }
    }
}

/// Buffers of every length around the need, on every clock call.
#[test]
fn short_buffers_agree() {
    for seed in 0..60 {
        let text = generate(seed, 200, "full").expect("a profile");
        let (mut history, mut fast) = (Scheduler::fresh(), Fast::fresh());
        for line in lines_of(&text) {
            if let Some(crate::Frame::Clock(reading)) = crate::decode(line) {
                try_rooms(&history, &fast, reading);
            }
            history.line(line, &mut Vec::new());
            fast.line(line, &mut Vec::new());
        }
    }
}

fn try_rooms(history: &Scheduler, fast: &Fast, reading: u64) {
    let Ok(rows) = history
        .clone()
        .set_clock(reading, usize::MAX)
        .map(<[_]>::len)
    else {
        return;
    };
    let exact = 25 * rows;
    for room in [exact, exact.saturating_sub(1), 0, exact + 1] {
        let (mut a, mut b) = (history.clone(), fast.clone());
        let answer = a.set_clock(reading, room).map(<[_]>::to_vec);
        assert_eq!(answer, b.set_clock(reading, room).map(<[_]>::to_vec));
        assert_eq!(answer.is_ok(), room >= exact);
        assert_eq!(a.to_image(), b.to_image());
        if answer.is_err() {
            assert_eq!(a.to_image(), history.clone().to_image());
        }
    }
}

/// How often each code and refusal comes in the output.
fn tally(out: &[u8]) -> BTreeMap<String, usize> {
    let mut counts = BTreeMap::new();
    for line in String::from_utf8_lossy(out).lines() {
        let words: Vec<&str> = line.split(' ').collect();
        let key = match words[..] {
            ["refused", number] => format!("refused {number}"),
            [_, "event" | "default", _] => words[1].to_string(),
            [_, "none"] => "none".to_string(),
            _ => format!("code {}", words[2]),
        };
        *counts.entry(key).or_default() += 1;
    }
    counts
}

#[test]
fn generator_reaches_everything() {
    for seed in [1, 2, 3] {
        let text = generate(seed, 20_000, "mixed").expect("a profile");
        let mut out = Vec::new();
        Fast::fresh().text(&text, &mut out);
        let counts = tally(&out);
        let refusals = [1, 3, 4, 5, 6, 7, 8, 9, 10, 11, 12, 14];
        let mut expected: BTreeSet<String> =
            refusals.map(|number| format!("refused {number}")).into();
        expected.extend((1..=10).map(|code| format!("code {code}")));
        expected.extend(["event", "default", "none"].map(String::from));
        let reached: BTreeSet<String> = counts.keys().cloned().collect();
        assert_eq!(reached, expected, "{counts:?}");
    }
}

/// In the plain profiles most deliveries are accepted, and much of that runs to its end.
#[test]
fn most_events_are_accepted() {
    for profile in ["tight", "wide", "ties", "late", "busy"] {
        let text = generate(5, 10_000, profile).expect("a profile");
        let mut out = Vec::new();
        Fast::fresh().text(&text, &mut out);
        let delivered = lines_of(&text).filter(|l| l.starts_with(b"01")).count();
        let counts = tally(&out);
        assert!(2 * counts["code 1"] > delivered, "{profile}: {counts:?}");
        let ended: usize = ["code 3", "code 8", "code 9", "code 10"]
            .map(|code| counts.get(code).unwrap_or(&0))
            .into_iter()
            .sum();
        assert!(10 * ended > counts["code 1"], "{profile}: {counts:?}");
    }
}

#[test]
fn a_seed_gives_one_list() {
    for profile in profile_names() {
        let text = generate(9, 300, profile);
        assert_eq!(text, generate(9, 300, profile));
        assert_ne!(text, generate(10, 300, profile));
        assert_eq!(text.map(|t| lines_of(&t).count()), Some(300));
    }
    assert_eq!(generate(9, 300, "none"), None);
}
