//! What both programs take: ENGINE MODE CASE RUNS.

use flow_reference::Mode;

use crate::dispatched::Dispatched;
use crate::replies::Form;
use crate::runs::{Bench, Case, Engine};

/// What the four words are.
pub const WORDS: &str = "ENGINE: proved or reference; MODE: monitored or bare; RUNS: how often, above 0;
CASE: turns (4,096 of them), stopped (as many, none of which is made), none,
large (the large job: 3,362 commands, no turns),
spread or single (256 ARG and SPAN commands, of 16 nodes or of one; 4,096 turns),
spread-replies or single-replies (128 REPLY commands, of 32 functions or of one; 4,096 turns),
spread-plain or single-plain (the same without REPLY), each of these four with -none (the same without turns);
dispatched: dispatched (the job of three nodes, 4,096 turns), idle (32 nodes, one of them at work until nobody is ready),
lone (the same node alone), each of these three with -one (a budget of one turn)";

/// Reads the words: what to run, and how often.
pub fn read(words: &[&str]) -> Option<(Bench, u32)> {
    let [engine, mode, case, runs] = words else { return None };
    let engine = Engine::named(engine)?;
    let mode = match *mode {
        "monitored" => Mode::Monitored,
        "bare" => Mode::Unmonitored,
        _ => return None,
    };
    let case = match *case {
        "turns" => Case::Turns,
        "stopped" => Case::Stopped,
        "none" => Case::None,
        "large" => Case::Large,
        "spread" => Case::Spread,
        "single" => Case::Single,
        word => {
            let replies = Form::named(word).map(Case::Replies);
            replies.or_else(|| Dispatched::named(word).map(Case::Dispatched))?
        }
    };
    let runs = runs.parse().ok().filter(|&runs| runs > 0)?;
    Some((Bench::new(engine, mode, case, 0), runs))
}
