//! The tool around the scheduler: random lists, pairs of lists, time per line, and `schedule`.

use std::fs;
use std::io::{self, Write};
use std::process::ExitCode;

use oracle::bench::{best_time, best_time_of_text};
use oracle::{generate, pair, program, Fast, Scheduler};

const USAGE: &str = "\
oracle gen SEED COUNT PROFILE   write COUNT random lines
oracle pair SEED A B            write two lists that meet the premise of demand 3
oracle bench FILE N [history]   nanoseconds per line, N runs a turn
oracle schedule [fast]          run lines from standard input";

fn main() -> ExitCode {
    let arguments: Vec<String> = std::env::args().skip(1).collect();
    let words: Vec<&str> = arguments.iter().map(String::as_str).collect();
    let done = match words[..] {
        ["gen", seed, count, profile] => generate(seed, count, profile),
        ["pair", seed, first, second] => pair(seed, first, second),
        ["bench", file, runs] => bench(file, runs, false),
        ["bench", file, runs, "history"] => bench(file, runs, true),
        ["schedule"] => serve(Scheduler::fresh()),
        ["schedule", "fast"] => serve(Fast::fresh()),
        _ => Err(format!(
            "{USAGE}\nprofiles: {}",
            generate::profile_names().join(" ")
        )),
    };
    match done {
        Ok(()) => ExitCode::SUCCESS,
        Err(message) => {
            eprintln!("{message}");
            ExitCode::FAILURE
        }
    }
}

type Done = Result<(), String>;

fn say(error: impl std::fmt::Display) -> String {
    error.to_string()
}

fn generate(seed: &str, count: &str, profile: &str) -> Done {
    let seed = seed.parse().map_err(say)?;
    let count = count.parse().map_err(say)?;
    let text = generate::generate(seed, count, profile).ok_or("no such profile")?;
    io::stdout().write_all(&text).map_err(say)
}

fn pair(seed: &str, first: &str, second: &str) -> Done {
    let texts = pair::pair(seed.parse().map_err(say)?);
    fs::write(first, texts.0).map_err(say)?;
    fs::write(second, texts.1).map_err(say)
}

fn bench(file: &str, runs: &str, history: bool) -> Done {
    let text = fs::read(file).map_err(say)?;
    let runs = runs.parse().map_err(say)?;
    let lines = best_time(Fast::fresh, &text, runs);
    let whole = best_time_of_text(Fast::fresh, &text, runs);
    println!("fast {lines:.1}\nfast-with-splitting {whole:.1}");
    if history {
        let slow = best_time(Scheduler::fresh, &text, runs);
        println!("history {slow:.1}");
    }
    Ok(())
}

fn serve(mut calls: impl oracle::Calls) -> Done {
    program::serve(&mut calls, &mut io::stdin().lock(), &mut io::stdout()).map_err(say)
}
