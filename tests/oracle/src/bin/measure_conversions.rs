//! Time of the programs `lengthen` and `shorten` beside that of copying their input, both from a
//! pipe to a file.

use std::fs;
use std::io::{self, Write};
use std::path::{Path, PathBuf};
use std::process::{Command, ExitCode};
use std::time::Instant;

use oracle::calls::lines_of;
use oracle::convert::{lengthen, turn_text, Turn, TURNS};
use oracle::generate::{generate_over, join};
use oracle::program::same;
use oracle::Width;

const USAGE: &str = "measure_conversions LENGTHEN SHORTEN FOLDER   FOLDER is for large files";

const SIZE: usize = 100_000_000;
const ROUNDS: usize = 7;
/// A middle round that takes so many times the best one tells of a busy machine.
const CALM: f64 = 1.2;

fn main() -> ExitCode {
    let arguments: Vec<String> = std::env::args().skip(1).collect();
    let [lengthen, shorten, folder] = &arguments[..] else {
        eprintln!("{USAGE}");
        return ExitCode::from(2);
    };
    match measure([lengthen, shorten], Path::new(folder)) {
        Ok(()) => ExitCode::SUCCESS,
        Err(message) => {
            eprintln!("{message}");
            ExitCode::FAILURE
        }
    }
}

type Done<T = ()> = Result<T, String>;

fn say(error: impl std::fmt::Display) -> String {
    error.to_string()
}

/// The second program gets what the first one wrote.
fn measure(programs: [&str; 2], folder: &Path) -> Done {
    let folder = Folder::new(folder).map_err(say)?;
    fs::write(&folder.input, short_lines()?).map_err(say)?;
    println!(
        "milliseconds of `cat INPUT | cp /dev/stdin OUTPUT` and of `cat INPUT | PROGRAM > OUTPUT`,"
    );
    println!("best of {ROUNDS} rounds, one after the other in each; ratio: program / copy");
    println!("program       bytes in   bytes out     copy  program  ratio");
    for (program, (name, turn)) in programs.into_iter().zip(TURNS) {
        folder.race(name, program, turn)?;
        fs::rename(&folder.output, &folder.input).map_err(say)?;
    }
    Ok(())
}

/// Lines of a generated list that `lengthen` accepts, over and over.
fn short_lines() -> Done<Vec<u8>> {
    const LINES: usize = 100_000;
    let text = generate_over(Width::Short, 1, LINES, "mixed").ok_or("no such profile")?;
    let accepted = lines_of(&text).filter(|line| lengthen(line).is_ok());
    let lines = join(&accepted.map(<[u8]>::to_vec).collect::<Vec<_>>());
    Ok(lines.repeat(SIZE.div_ceil(lines.len())))
}

struct Folder {
    path: PathBuf,
    input: PathBuf,
    output: PathBuf,
}

impl Drop for Folder {
    fn drop(&mut self) {
        // A folder that stays behind does no harm.
        let _ = fs::remove_dir_all(&self.path);
    }
}

impl Folder {
    fn new(folder: &Path) -> io::Result<Self> {
        let path = folder.join(format!("conversions-{}", std::process::id()));
        fs::create_dir_all(&path)?;
        Ok(Folder {
            input: path.join("input"),
            output: path.join("output"),
            path,
        })
    }

    /// Prints the row of a program, which leaves its output behind.
    fn race(&self, name: &str, program: &str, turn: Turn) -> Done {
        let times = self.rounds(program).map_err(say)?;
        let [input, output] = [&self.input, &self.output].map(fs::read);
        let (input, output) = (input.map_err(say)?, output.map_err(say)?);
        same(&turn_text(turn, &input), &output).map_err(|reason| format!("{name}: {reason}"))?;
        let [copy, turned] = [times[0][0], times[1][0]];
        print!("{name:8}  {:12} {:11}", input.len(), output.len());
        println!(
            "  {copy:7.0}  {turned:7.0}  {:5.2}{}",
            turned / copy,
            doubt(&times)
        );
        io::stdout().flush().map_err(say)
    }

    /// Milliseconds of the copy and of the program, the program's run the last. Each one's times
    /// ascend, so the first is its best.
    fn rounds(&self, program: &str) -> io::Result<[Vec<f64>; 2]> {
        const COPY: &str = r#"cat "$1" | cp /dev/stdin "$2""#;
        const TURN: &str = r#"cat "$1" | "$3" > "$2""#;
        let mut times = [vec![], vec![]];
        for _ in 0..ROUNDS {
            for (times, command) in times.iter_mut().zip([COPY, TURN]) {
                times.push(self.time(command, program)?);
            }
        }
        times.iter_mut().for_each(|one| one.sort_by(f64::total_cmp));
        Ok(times)
    }

    /// Milliseconds. The output is a new file each time.
    fn time(&self, command: &str, program: &str) -> io::Result<f64> {
        if self.output.exists() {
            fs::remove_file(&self.output)?;
        }
        let mut shell = Command::new("sh");
        shell.args(["-c", command, "sh"]);
        shell.args([&self.input, &self.output]).arg(program);
        let begin = Instant::now();
        let status = shell.status()?;
        let time = begin.elapsed().as_secs_f64() * 1_000.0;
        match status.success() {
            true => Ok(time),
            false => Err(io::Error::other(format!("{command} ended by {status}"))),
        }
    }
}

fn doubt(times: &[Vec<f64>; 2]) -> &'static str {
    let busy = |one: &Vec<f64>| one[one.len() / 2] > CALM * one[0];
    match times.iter().any(busy) {
        true => "  the machine is busy",
        false => "",
    }
}
