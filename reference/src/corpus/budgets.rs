//! Budgets of dispatched runs (02, S-2): small and large ones, refusals 13 and 14 beside the others, and buffers that are
//! as long as the budget asks.

use super::buffers::{refused, some_lengths};
use super::run::{Run, Runs};
use super::spans::small_and;
use super::worlds::{body, flow, span, start};
use super::{each_with, worked, Job};
use crate::generate::buffers::{exact, Lengths};
use crate::generate::dispatched::Dispatched;
use crate::table::{self, *};
use crate::Mode;

/// About 1 and 4,096, and with bits above those of 4,096, up to the largest that a stored run can have.
const BUDGETS: [u64; 11] = [0, 1, 2, 4_095, 4_096, 4_097, 4_098, 8_192, 8_193, 32_769, 65_535];

/// K1 with all budgets; an empty job, one of too many flows and one with a turn, with some of them.
pub fn jobs() -> Vec<Dispatched> {
    let refused = [vec![], vec![FLOW; 9], vec![FLOW, NODE, TURN, 0]];
    let k1 = each_with(&[worked::dispatched_k1()], &BUDGETS);
    [k1, each_with(&refused, &[0, 4_096, 4_097, 65_535])].concat()
}

/// Node 0 is never at its end, and node 3, in the last flow, calls function 0 once.
fn endless(permission: &[u8]) -> Job {
    let declared = [flow(2), flow(2), table::write(FUN, &[9])].concat();
    let bodies = [body(0, &[SKIP, JUMP, 0]), body(3, &[CALL, 0])].concat();
    [&declared, permission, &bodies, &start(0), &start(3)].concat()
}

/// So many turns of the only node.
fn turns(count: usize) -> Job {
    [&[FLOW, NODE][..], &[TURN, 0].repeat(count)].concat()
}

/// As many turns as there can be, each mode once: bare beside a call that no list permits, monitored beside one that is
/// permitted. Then jobs of 4,096 and 4,097 TURN commands.
pub fn longest(runs: &mut Runs) -> Vec<Run> {
    let list = [
        (endless(&[]), Mode::Unmonitored, MAX_TURNS),
        (endless(&[ANY, 3, 0]), Mode::Monitored, MAX_TURNS),
        (turns(MAX_TURNS), Mode::Unmonitored, 5),
        (turns(MAX_TURNS + 1), Mode::Monitored, 5),
    ];
    let run = |(job, mode, budget): (Job, Mode, usize)| Run {
        budget: Some(budget as u64),
        ..runs.with(&job, mode, exact(budget))
    };
    list.map(run).to_vec()
}

/// Jobs that are refused, with a budget that is accepted; some of them with one that is not.
pub fn refusals() -> Vec<Dispatched> {
    let all = [refused().to_vec(), with_turns(), with_turns_alone()].concat();
    [each_with(&all, &[5]), each_with(&all[..9], &[0])].concat()
}

/// Jobs with a TURN that are refused by another number: 2 to 9, 15 and 19, and 9 before 19.
fn with_turns() -> Vec<Job> {
    let turn: &[u8] = &[TURN, 0];
    let unused: &[u8] = &[READ, 0, 1, BODY, 0, PUT, 1];
    small_and(&[
        &[turn, &[0x61]],
        &[turn, &[TURN]],
        &[turn, &[START, 0, 1, 0, 0, 0]],
        &[&[BODY, 0], &[SKIP; MAX_BODY_COMMANDS + 1], turn],
        &[turn, &[TURN, 9], turn],
        &[&[WIRE, 0, 0, 2], turn],
        &[&[BODY, 0, BODY, 0], turn],
        &[&span(0, 0, 9, 3), turn],
        &[&[BODY, 0, JUMP, 2], turn],
        &[unused, turn],
        &[unused, &[JUMP, 3], turn],
    ])
}

/// Jobs whose TURN commands are all that is wrong: one, several of several nodes, and behind handlers and a START.
fn with_turns_alone() -> Vec<Job> {
    small_and(&[
        &[&[TURN, 0]],
        &[&[TURN, 2], &[TURN, 1], &[TURN, 2]],
        &[&[READ, 0, 1, BODY, 0, GET, 1, JUMP, 2, START, 0, 7, 0, 0, 0], &[TURN, 0].repeat(9)],
    ])
}

/// Trace buffers that hold the nine turns which K1 makes, or one, but not always as many as are budgeted.
const TRACES: [(u64, usize); 9] =
    [(10, 63), (10, 69), (10, 70), (4_096, 63), (4_096, 28_671), (4_096, 28_672), (1, 6), (1, 7), (1, 0)];

/// K1 with buffers about as long as nine turns ask, and with other budgets; the same jobs refused by 13 and 14.
pub fn beside_buffers(runs: &mut Runs) -> Vec<Run> {
    let (k1, rest) = (worked::jobs().swap_remove(0), worked::dispatched_k1());
    let [_, snapshot, work] = exact(0);
    let nine = some_lengths().map(|lengths| (&rest, 9, lengths));
    let by_budget = TRACES.map(|(budget, trace)| (&rest, budget, [trace, snapshot, work]));
    let refused = [(&rest, 0), (&rest, 4_097), (&k1, 9)]
        .map(|(job, budget)| [3, 4, 5].map(|short| (job, budget, some_lengths()[short])));
    let all = [&nine[..], &by_budget, &refused.concat()].concat();
    let both = |(job, budget, lengths): (&Job, u64, Lengths)| {
        runs.both_dispatched(&Dispatched { job: job.clone(), budget }, lengths)
    };
    all.into_iter().flat_map(both).collect()
}
