//! The dispatcher (02, S-2): a job without TURN, a budget of turns, and a choice before each turn. That nobody is ready it
//! finds by the ready count (S-4).

use crate::decode::decode;
use crate::outcome::{stop, Mode, Outcome, Refusal};
use crate::program::Program;
use crate::run::{run, test_buffers, Order, Runner};
use crate::state::State;
use crate::table::{self, MAX_TURNS, TURN};

/// Chooses the first ready node after the one served last, going round by number, until the budget is made.
pub struct Dispatcher {
    budget: usize,
    /// The node that is examined first: at the start node 0, later the one after the one served last.
    first: usize,
    examined: usize,
}

impl Dispatcher {
    fn new(budget: usize) -> Dispatcher {
        Dispatcher { budget, first: 0, examined: 0 }
    }

    /// One choice: examines nodes until one is ready, and none if the ready count is 0. The node served last is examined
    /// as the last one.
    fn choose(&mut self, nodes: usize, state: &State) -> Option<u8> {
        if state.ready() == 0 {
            return None;
        }
        for step in 0..nodes {
            let node = (self.first + step) % nodes;
            self.examined += 1;
            if state.is_ready(node as u8) {
                self.first = (node + 1) % nodes;
                return Some(node as u8);
            }
        }
        unreachable!("the ready count is not 0")
    }
}

impl Order for Dispatcher {
    /// With the budget made, no further choice is made.
    fn next(&mut self, program: &Program, state: &State, turns: usize) -> Result<u8, u8> {
        if turns == self.budget {
            return Err(stop::TURNS_OUT);
        }
        self.choose(program.nodes.len(), state).ok_or(stop::NOBODY_READY)
    }

    fn examined(&self) -> Option<usize> {
        Some(self.examined)
    }
}

impl<'p> Runner<'p, Dispatcher> {
    /// A dispatched run.
    pub fn dispatched(program: &'p Program, mode: Mode, budget: usize) -> Runner<'p, Dispatcher> {
        Runner::in_order(program, mode, Dispatcher::new(budget))
    }
}

/// The budget, if it is 1 to 4,096.
fn accepted_budget(budget: u64) -> Option<usize> {
    usize::try_from(budget).ok().filter(|budget| (1..=MAX_TURNS).contains(budget))
}

/// The place of an accepted job's first TURN, if it has one. No group is higher, so the job ends with its turns.
fn first_turn(job: &[u8], program: &Program) -> Option<usize> {
    let bytes = program.turns.len() * table::write(TURN, &[0]).len();
    (bytes > 0).then(|| job.len() - bytes)
}

/// The program and its budget, or a refusal: 13 before all others, 14 after 19, and 10 by the budget.
fn accept(job: &[u8], budget: u64, lengths: [usize; 3]) -> Result<(Program, usize), Refusal> {
    let budget = accepted_budget(budget).ok_or(Refusal { number: 13, place: 0 })?;
    let program = decode(job)?;
    if let Some(place) = first_turn(job, &program) {
        return Err(Refusal { number: 14, place });
    }
    test_buffers(job, budget, lengths)?;
    Ok((program, budget))
}

/// Runs a job without TURN by the dispatcher. What it does with the buffers is what `run` does.
pub fn dispatch(
    job: &[u8],
    budget: u64,
    mode: Mode,
    trace: &mut [u8],
    snapshot: &mut [u8],
    work: &mut [u8],
) -> Outcome {
    match accept(job, budget, [trace.len(), snapshot.len(), work.len()]) {
        Ok((program, budget)) => {
            Outcome::Ran(Runner::dispatched(&program, mode, budget).complete(trace, snapshot, work))
        }
        Err(refusal) => Outcome::Refused(refusal),
    }
}

/// Runs a job by the dispatcher if there is a budget, and with its written turns if there is none.
pub fn run_or_dispatch(
    job: &[u8],
    budget: Option<u64>,
    mode: Mode,
    trace: &mut [u8],
    snapshot: &mut [u8],
    work: &mut [u8],
) -> Outcome {
    match budget {
        Some(budget) => dispatch(job, budget, mode, trace, snapshot, work),
        None => run(job, mode, trace, snapshot, work),
    }
}
