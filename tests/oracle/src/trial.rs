//! Trials of a program: it runs as a child process, and what it prints is compared and counted.

use std::fs::{self, File};
use std::io::{self, Read, Write};
use std::path::{Path, PathBuf};
use std::process::{Child, ChildStdin, Command, ExitCode, Stdio};
use std::thread;
use std::time::{Duration, Instant};

use crate::program::same;

/// How the input reaches the program.
#[derive(Clone, Copy)]
pub enum Feed {
    /// As a file, so that a read gets as much as it asks for.
    File,
    /// Through a pipe, with a pause after each piece so that the program mostly reads it alone.
    Pipe { piece: usize, pause: Duration },
}

impl Feed {
    pub const WHOLE: Feed = Feed::Pipe {
        piece: usize::MAX,
        pause: Duration::ZERO,
    };
}

pub struct Program {
    path: PathBuf,
    /// Where inputs go that it reads as a file.
    input: PathBuf,
}

impl Drop for Program {
    fn drop(&mut self) {
        // It may never have been written.
        let _ = fs::remove_file(&self.input);
    }
}

impl Program {
    pub fn new(path: impl AsRef<Path>) -> Self {
        let path = path.as_ref();
        let name = path.file_name().unwrap_or_default().display();
        let input = format!("trial-{}-{name}", std::process::id());
        Program {
            path: path.to_path_buf(),
            input: std::env::temp_dir().join(input),
        }
    }

    /// All that the program prints for the text.
    pub fn run(&self, text: &[u8], feed: Feed) -> io::Result<Vec<u8>> {
        match feed {
            Feed::File => {
                fs::write(&self.input, text)?;
                finish(self.spawn(File::open(&self.input)?)?)
            }
            Feed::Pipe { piece, pause } => {
                let mut child = self.spawn(Stdio::piped())?;
                let input = child.stdin.take();
                thread::scope(|scope| {
                    scope.spawn(|| input.map(|input| pour(input, text, piece, pause)));
                    finish(child)
                })
            }
        }
    }

    /// With its output taken up.
    pub fn spawn(&self, input: impl Into<Stdio>) -> io::Result<Child> {
        Command::new(&self.path)
            .stdin(input)
            .stdout(Stdio::piped())
            .spawn()
    }

    /// Whether the program prints just the expected bytes.
    pub fn expect(&self, text: &[u8], feed: Feed, expected: &[u8]) -> Result<(), String> {
        let printed = self.run(text, feed).map_err(|error| error.to_string())?;
        same(expected, &printed)
    }
}

/// What the second program prints if it reads what the first prints for the text.
pub fn run_piped(first: &Program, second: &Program, text: &[u8]) -> io::Result<Vec<u8>> {
    let mut one = first.spawn(Stdio::piped())?;
    let input = one.stdin.take();
    let between = one.stdout.take().ok_or(io::ErrorKind::BrokenPipe)?;
    let other = second.spawn(between)?;
    let printed = thread::scope(|scope| {
        scope.spawn(|| input.map(|input| pour(input, text, usize::MAX, Duration::ZERO)));
        finish(other)
    })?;
    finish(one).map(|_| printed)
}

/// All that the program prints for the piece given so many times, and the most memory that it had
/// had, in kilobytes, when all of that was written to it.
pub fn run_measured(program: &Program, piece: &[u8], times: usize) -> io::Result<(Vec<u8>, u64)> {
    let mut child = program.spawn(Stdio::piped())?;
    let status = format!("/proc/{}/status", child.id());
    let input = child.stdin.take();
    thread::scope(|scope| {
        let peak = scope.spawn(move || {
            let mut input = input.ok_or(io::ErrorKind::BrokenPipe)?;
            for _ in 0..times {
                input.write_all(piece)?;
            }
            // The program waits for more, so it is still there.
            peak_of(&fs::read_to_string(status)?)
        });
        let printed = finish(child)?;
        let peak = peak.join().unwrap_or(Err(io::ErrorKind::Other.into()))?;
        Ok((printed, peak))
    })
}

fn peak_of(status: &str) -> io::Result<u64> {
    let line = status.lines().find_map(|line| line.strip_prefix("VmHWM:"));
    let number = line.and_then(|line| line.trim().strip_suffix(" kB")?.parse().ok());
    number.ok_or_else(|| io::Error::other("the system tells no peak"))
}

/// Gives up at the first error: a program that ends early shows it by its output. Pieces with
/// pauses wait until the program has started, as else it would find several at once.
fn pour(mut input: ChildStdin, text: &[u8], piece: usize, pause: Duration) {
    const START: Duration = Duration::from_millis(20);
    if !pause.is_zero() {
        thread::sleep(START);
    }
    for part in text.chunks(piece) {
        if input.write_all(part).is_err() {
            return;
        }
        if !pause.is_zero() {
            thread::sleep(pause);
        }
    }
}

/// What it printed, if it ended well.
pub fn finish(mut child: Child) -> io::Result<Vec<u8>> {
    let mut out = Vec::new();
    if let Some(mut printed) = child.stdout.take() {
        printed.read_to_end(&mut out)?;
    }
    let status = child.wait()?;
    match status.success() {
        true => Ok(out),
        false => Err(io::Error::other(format!("the program ended by {status}"))),
    }
}

#[derive(Default)]
pub struct Tally {
    passed: usize,
    failed: usize,
}

impl Tally {
    /// One test.
    pub fn count(&mut self, name: &str, outcome: Result<(), String>) {
        match outcome {
            Ok(()) => self.passed += 1,
            Err(reason) => {
                self.failed += 1;
                println!("FAILED {name}: {reason}");
            }
        }
    }

    /// Prints what has been counted since `before`, with the time since.
    pub fn print_since(&self, before: &Mark, name: &str) {
        let (passed, failed) = (self.passed - before.passed, self.failed - before.failed);
        let seconds = before.begin.elapsed().as_secs_f64();
        println!("{name}: {passed} passed, {failed} failed ({seconds:.1} s)");
    }

    pub fn mark(&self) -> Mark {
        Mark {
            passed: self.passed,
            failed: self.failed,
            begin: Instant::now(),
        }
    }

    pub fn close(&self, name: &str) -> ExitCode {
        println!("{name}: {} passed, {} failed", self.passed, self.failed);
        match self.failed {
            0 => ExitCode::SUCCESS,
            _ => ExitCode::FAILURE,
        }
    }
}

/// Where a section of tests began.
pub struct Mark {
    passed: usize,
    failed: usize,
    begin: Instant,
}
