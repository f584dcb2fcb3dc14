//! An independent scheduler for document 01 with #101, #102 and #104 of document 02, and the
//! converter of #105, made to be compared with proved ones.
//!
//! `Scheduler` works every answer out from the history of accepted calls by intervals. `Fast` keeps
//! only the present state and is the rival in speed. Both speak the calls of `Calls`, which also
//! runs lines and prints their output.

pub mod bench;
#[cfg(feature = "face")]
pub mod beside;
pub mod both_kinds;
pub mod calls;
pub mod choice;
pub mod convert;
pub mod event;
pub mod fast;
pub mod frame;
pub mod generate;
pub mod history;
pub mod ids;
pub mod image;
pub mod pair;
pub mod program;
#[cfg(feature = "face")]
pub mod proved;
pub mod random;
pub mod spread;
pub mod states;
pub mod story;
pub mod svg;
pub mod trial;

pub use calls::{Answer, Calls, Row};
pub use choice::{Choice, Participation};
pub use event::{Event, Program};
pub use fast::Fast;
pub use frame::{decode, Frame, Width};
pub use history::Scheduler;
pub use image::{Entry, Record};

#[cfg(test)]
mod tests;
