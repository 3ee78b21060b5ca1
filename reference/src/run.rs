//! A whole run with the caller's three buffers, and a runner that is stepped.

use crate::decode::decode;
use crate::engine::{turn, Halt};
use crate::outcome::{stop, Answer, Entry, Mode, Outcome, Refusal};
use crate::output::{entry_bytes, write_snapshot, ENTRY_BYTES, SNAPSHOT_BYTES, WORK_BYTES};
use crate::program::Program;
use crate::state::State;

/// Which node gets the next turn.
pub trait Order {
    /// The node of the next turn, after so many completed ones; or the stop of a run that has no next turn.
    fn next(&mut self, program: &Program, state: &State, turns: usize) -> Result<u8, u8>;

    /// The nodes examined so far, if any are.
    fn examined(&self) -> Option<usize> {
        None
    }
}

/// The job's TURN commands, one after the other.
pub struct Written;

impl Order for Written {
    #[inline]
    fn next(&mut self, program: &Program, _: &State, turns: usize) -> Result<u8, u8> {
        program.turns.get(turns).copied().ok_or(stop::TURNS_OUT)
    }
}

/// A program under way.
pub struct Runner<'p, O = Written> {
    program: &'p Program,
    mode: Mode,
    order: O,
    state: State,
    turns: usize,
}

pub enum Step {
    Completed(Entry),
    Stopped(Halt),
}

impl<'p> Runner<'p> {
    /// A run of the written turns.
    pub fn new(program: &'p Program, mode: Mode) -> Runner<'p> {
        Runner::in_order(program, mode, Written)
    }
}

impl<'p, O: Order> Runner<'p, O> {
    pub fn in_order(program: &'p Program, mode: Mode, order: O) -> Runner<'p, O> {
        Runner { program, mode, order, state: State::new(program), turns: 0 }
    }

    /// The state before the next turn.
    pub fn state(&self) -> &State {
        &self.state
    }

    /// Completed turns.
    pub fn turns(&self) -> usize {
        self.turns
    }

    /// The nodes examined so far, if the order examines any.
    pub fn examined(&self) -> Option<usize> {
        self.order.examined()
    }

    /// The next turn. After a stop the run is over: with written turns every further step stops the same way, but a
    /// dispatcher chooses again.
    #[inline]
    pub fn step(&mut self) -> Step {
        let node = match self.order.next(self.program, &self.state, self.turns) {
            Ok(node) => node,
            Err(stop) => return Step::Stopped(Halt { stop, attempted: Entry::default() }),
        };
        match turn(self.program, &mut self.state, node, self.mode) {
            Ok(entry) => {
                self.turns += 1;
                Step::Completed(entry)
            }
            Err(halt) => Step::Stopped(halt),
        }
    }

    /// Makes turns until a stop; the buffers must be long enough. The handlers lie in the program, so the work
    /// buffer only gets its zeros.
    pub fn complete(mut self, trace: &mut [u8], snapshot: &mut [u8], work: &mut [u8]) -> Answer {
        let mut slots = trace.chunks_exact_mut(ENTRY_BYTES);
        let halt = loop {
            match self.step() {
                Step::Completed(entry) => {
                    let slot = slots.next().expect("7 bytes a turn");
                    slot.copy_from_slice(&entry_bytes(&entry));
                }
                Step::Stopped(halt) => break halt,
            }
        };
        write_snapshot(self.program, &self.state, snapshot);
        work[..WORK_BYTES].fill(0);
        let examined = self.order.examined();
        Answer { stop: halt.stop, turns: self.turns, attempted: halt.attempted, examined }
    }
}

/// Refusals 10 to 12 of a job that gets so many turns; the lengths are those of trace, snapshot and work.
pub(crate) fn test_buffers(job: &[u8], turns: usize, lengths: [usize; 3]) -> Result<(), Refusal> {
    let needed = [ENTRY_BYTES * turns, SNAPSHOT_BYTES, WORK_BYTES];
    let mut pairs = (10..).zip(lengths.into_iter().zip(needed));
    match pairs.find(|(_, (length, needed))| length < needed) {
        Some((number, _)) => Err(Refusal { number, place: job.len() }),
        None => Ok(()),
    }
}

/// Runs a job with its written turns. A refusal changes none of the buffers. After an accepted run the trace holds
/// 7 bytes a completed turn, the snapshot its real length, and the first 4,096 bytes of `work` are 0; every
/// byte beyond is unchanged.
pub fn run(job: &[u8], mode: Mode, trace: &mut [u8], snapshot: &mut [u8], work: &mut [u8]) -> Outcome {
    let program = match decode(job) {
        Ok(program) => program,
        Err(refusal) => return Outcome::Refused(refusal),
    };
    match test_buffers(job, program.turns.len(), [trace.len(), snapshot.len(), work.len()]) {
        Ok(()) => Outcome::Ran(Runner::new(&program, mode).complete(trace, snapshot, work)),
        Err(refusal) => Outcome::Refused(refusal),
    }
}
