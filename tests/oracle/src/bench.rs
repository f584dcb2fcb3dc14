//! Time per line.

use std::hint::black_box;
use std::time::Instant;

use crate::calls::{lines_of, Calls};

const TURNS: usize = 25;

/// Nanoseconds per line of the best turn. Each of the `runs` in a turn begins with a fresh
/// schedule, and the output goes to a buffer that is cleared first.
pub fn best_time<C: Calls>(fresh: impl Fn() -> C, text: &[u8], runs: usize) -> f64 {
    let lines: Vec<&[u8]> = lines_of(text).collect();
    let run = |out: &mut Vec<u8>| {
        let mut calls = fresh();
        for line in &lines {
            calls.line(line, out);
        }
    };
    best_turn(run, runs) / lines.len().max(1) as f64
}

/// The same with the search for line feeds inside the time.
pub fn best_time_of_text<C: Calls>(fresh: impl Fn() -> C, text: &[u8], runs: usize) -> f64 {
    let count = lines_of(text).count();
    let run = |out: &mut Vec<u8>| fresh().text(text, out);
    best_turn(run, runs) / count.max(1) as f64
}

/// Nanoseconds of one run in the best turn.
fn best_turn(run: impl Fn(&mut Vec<u8>), runs: usize) -> f64 {
    let mut out = Vec::new();
    let mut best = f64::INFINITY;
    for _ in 0..TURNS {
        let begin = Instant::now();
        for _ in 0..runs {
            out.clear();
            run(&mut out);
            black_box(&out);
        }
        best = best.min(begin.elapsed().as_nanos() as f64);
    }
    best / runs.max(1) as f64
}
