//! Second implementation of the flow runner, written from the papers alone: 01, and S-1, S-2, S-4, S-5, S-7, S-9,
//! S-11 and S-12 of 02.
//!
//! `run` takes a job and three buffers, `dispatch` a budget of turns as well; `Runner` steps through a decoded job turn
//! by turn; `tally` counts the messages of each node from what a run handed over.

mod builder;
mod checks;
pub mod command;
pub mod corpus;
pub mod decode;
pub mod dirt;
pub mod dispatch;
pub mod engine;
pub mod generate;
pub mod hex;
pub mod outcome;
pub mod output;
pub mod print;
pub mod program;
pub mod run;
pub mod state;
pub mod table;
pub mod tally;
mod unused;

pub use decode::decode;
pub use dispatch::{dispatch, run_or_dispatch};
pub use outcome::{Answer, Entry, Mode, Outcome, Refusal};
pub use program::Program;
pub use run::{run, Runner, Step};
pub use state::State;
pub use tally::{tally, Tally};
