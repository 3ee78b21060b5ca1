//! Whether both implementations make the same of each job.

use flow_reference::outcome::stop;
use flow_reference::table::MAX_TURNS;
use flow_reference::Mode;

use crate::dispatched::{Dispatched, Shape};
use crate::groups::{self, Task};
use crate::runs::{self, Bench, Case, Engine};

/// What the buffers hold before.
const BYTE: u8 = 0xA5;

/// Compares answers, whole buffers and tallies of every job in both modes, then the answers to the cases with those
/// that are meant; the error says what is wrong.
pub fn compare() -> Result<(), String> {
    for group in groups::all().map_err(|error| format!("the examples: {error}"))? {
        for (mode, task) in group.runs() {
            agree(mode, task).map_err(|what| format!("{}, {mode:?}: {what}", group.name))?;
        }
    }
    for (mode, case) in runs::all() {
        let answer = Bench::new(Engine::Reference, mode, case, BYTE).run();
        if answer != expected(case) {
            return Err(format!("{mode:?} {case:?}: the answer is {answer:?}"));
        }
    }
    Ok(())
}

/// Stop and completed turns of a run, the attempted node and the examined total.
fn expected(case: Case) -> [u64; 9] {
    let (stop, turns, node, examined) = match case {
        Case::Turns | Case::Spread | Case::Single => (stop::TURNS_OUT, MAX_TURNS, 0, 0),
        Case::Replies(form) if form.turns => (stop::TURNS_OUT, MAX_TURNS, 0, 0),
        Case::Stopped => (stop::NOT_READY, 0, 1, 0),
        Case::None | Case::Large | Case::Replies(_) => (stop::TURNS_OUT, 0, 0, 0),
        Case::Dispatched(dispatched) => expected_dispatched(dispatched),
    };
    [0, 0, stop.into(), turns as u64, node, 0, 0, 0, examined]
}

/// The same of a dispatched run.
fn expected_dispatched(Dispatched { shape, budget }: Dispatched) -> (u8, usize, u64, u64) {
    match (shape, budget) {
        (_, 1) => (stop::TURNS_OUT, 1, 0, 1),
        (Shape::Script, _) => (stop::TURNS_OUT, MAX_TURNS, 0, 5_270),
        (Shape::Idle, _) => (stop::NOBODY_READY, 3_002, 0, 1 + 32 * 3_001),
        (Shape::Lone, _) => (stop::NOBODY_READY, 3_002, 0, 3_002),
    }
}

/// Both accept the job and hand over the same.
fn agree(mode: Mode, Task { job, budget }: &Task) -> Result<(), String> {
    let [mut proved, mut reference] = [Engine::Proved, Engine::Reference]
        .map(|engine| Bench::dispatched(engine, mode, *budget, job.clone(), BYTE));
    let answers = [proved.run(), reference.run()];
    if answers[0] != answers[1] || answers[0][0] != 0 {
        return Err(format!("the answers are {answers:?}"));
    }
    let tallies = [proved.tally(answers[0][3]), reference.tally(answers[0][3])];
    if tallies[0] != tallies[1] || tallies[0][0] != 0 {
        return Err(format!("the answers of the tally are {tallies:?}"));
    }
    if proved.buffers != reference.buffers {
        return Err("the buffers or the counts differ".to_string());
    }
    Ok(())
}
