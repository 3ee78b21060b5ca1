//! The script: the job with the longest schedule that a job can have, every turn of which completes; and
//! such schedules of other jobs.

use flow_reference::engine::turn;
use flow_reference::outcome::Entry;
use flow_reference::table::MAX_TURNS;
use flow_reference::{decode, Mode, Program, State};

use crate::job;

/// The job's bytes and the entries of its run.
pub struct Script {
    pub job: Vec<u8>,
    pub entries: Vec<Entry>,
}

impl Script {
    /// Finds the schedule by running the job, monitored.
    pub fn new() -> Script {
        let program = decode(&job::without_turns()).expect("a valid job");
        let entries = schedule(&program, MAX_TURNS, Mode::Monitored);
        let nodes: Vec<u8> = entries.iter().map(|entry| entry.node).collect();
        Script { job: job::with_turns(&nodes), entries }
    }

    /// How many entries there are of each kind, 0 to 6.
    pub fn kinds(&self) -> [usize; 7] {
        let mut counts = [0; 7];
        for entry in &self.entries {
            counts[usize::from(entry.kind)] += 1;
        }
        counts
    }
}

impl Default for Script {
    fn default() -> Script {
        Script::new()
    }
}

/// The entries of so many turns, each of which completes: the nodes have them in turn, from node 0 on.
pub fn schedule(program: &Program, turns: usize, mode: Mode) -> Vec<Entry> {
    let mut state = State::new(program);
    let mut last = program.nodes.len() as u8 - 1;
    let mut entries = Vec::with_capacity(turns);
    while entries.len() < turns {
        let entry = next(program, &mut state, last, mode).expect("some node's turn completes");
        last = entry.node;
        entries.push(entry);
    }
    entries
}

/// Gives a turn to the next node after `last` whose turn completes: it is at work or a message waits,
/// no target of a send is full, and if the run is monitored, the access is permitted. A stopped turn
/// changes nothing.
fn next(program: &Program, state: &mut State, last: u8, mode: Mode) -> Option<Entry> {
    let nodes = program.nodes.len() as u8;
    (1..=nodes).find_map(|step| turn(program, state, (last + step) % nodes, mode).ok())
}
