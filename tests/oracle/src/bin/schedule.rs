//! The program `schedule` of document 01, answered from the history.

use std::io;

fn main() -> io::Result<()> {
    let mut schedule = oracle::Scheduler::fresh();
    oracle::program::serve(&mut schedule, &mut io::stdin().lock(), &mut io::stdout())
}
