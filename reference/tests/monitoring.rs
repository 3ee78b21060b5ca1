//! Demand 3, "Watched beside bare": the monitored run against the unmonitored run's states, with written turns and
//! dispatched with the same budget.

mod common;

use std::collections::BTreeSet;

use common::{run_or_dispatch_dirty, Permissions, Ran};
use flow_reference::engine::Halt;
use flow_reference::generate::buffers::Lengths;
use flow_reference::generate::dispatched::{accepted, any, Dispatched};
use flow_reference::generate::{case, Kind, Random};
use flow_reference::output::{entry_bytes, snapshot};
use flow_reference::run::Order;
use flow_reference::{decode, Answer, Entry, Mode, Outcome, Program, Runner, State, Step};

/// An unmonitored run: entries, the states before each turn and after the last, the nodes examined for each turn and all
/// before it, answer.
struct Unmonitored {
    entries: Vec<Entry>,
    states: Vec<State>,
    examined: Vec<Option<usize>>,
    answer: Answer,
}

/// Dispatched if there is a budget.
fn unmonitored(program: &Program, budget: Option<u64>) -> Unmonitored {
    match budget {
        Some(budget) => complete(Runner::dispatched(program, Mode::Unmonitored, budget as usize)),
        None => complete(Runner::new(program, Mode::Unmonitored)),
    }
}

fn complete<O: Order>(mut runner: Runner<O>) -> Unmonitored {
    let (mut entries, mut examined) = (Vec::new(), Vec::new());
    let mut states = vec![runner.state().clone()];
    loop {
        match runner.step() {
            Step::Completed(entry) => {
                entries.push(entry);
                states.push(runner.state().clone());
                examined.push(runner.examined());
            }
            Step::Stopped(Halt { stop, attempted }) => {
                let answer = Answer { stop, turns: entries.len(), attempted, examined: runner.examined() };
                return Unmonitored { entries, states, examined, answer };
            }
        }
    }
}

fn trace(entries: &[Entry]) -> Vec<u8> {
    entries.iter().flat_map(entry_bytes).collect()
}

/// The run answers so, and the named bytes of trace and snapshot are these.
fn check(ran: &Ran, answer: Answer, trace: &[u8], snapshot: &[u8]) {
    assert_eq!(ran.outcome, Outcome::Ran(answer));
    assert_eq!(&ran.trace[..trace.len()], trace);
    assert_eq!(&ran.snapshot[..snapshot.len()], snapshot);
}

/// Whether messages of several senders wait at one node.
fn has_several_senders(program: &Program, state: &State) -> bool {
    let senders = |node| state.messages(node).map(|message| message.sender).collect::<BTreeSet<u8>>();
    (0..program.nodes.len() as u8).any(|node| senders(node).len() > 1)
}

/// Checks one job, dispatched if there is a budget; gives the kind of the first forbidden entry, and whether several
/// senders' messages wait before it.
fn check_job(job: &[u8], budget: Option<u64>, lengths: Lengths) -> Option<(u8, bool)> {
    let program = decode(job).expect("a valid job");
    let run = |mode, dirt| run_or_dispatch_dirty(job, budget, mode, lengths, dirt);
    let Unmonitored { entries, states, examined, answer } = unmonitored(&program, budget);
    let last = snapshot(&program, &states[entries.len()]);
    check(&run(Mode::Unmonitored, 0x11), answer, &trace(&entries), &last);
    let monitored = run(Mode::Monitored, 0xEE);
    let permissions = Permissions::of(job);
    let forbidden = |e: &Entry| !permissions.permit(e.node, e.kind, e.number, e.value);
    let Some(n) = entries.iter().position(forbidden) else {
        check(&monitored, answer, &trace(&entries), &last);
        return None;
    };
    let mut attempted = entries[n];
    if attempted.kind == 3 {
        attempted.value = 0;
    }
    let answer = Answer { stop: 1, turns: n, attempted, examined: examined[n] };
    check(&monitored, answer, &trace(&entries[..n]), &snapshot(&program, &states[n]));
    Some((attempted.kind, has_several_senders(&program, &states[n])))
}

#[test]
fn monitored_beside_unmonitored() {
    let mut forbidden = [0; 7];
    let (mut permitted, mut several_senders) = (0, 0);
    for index in 0..6_000 {
        let case = case(3, index, Kind::Valid, usize::MAX);
        match check_job(&case.job, None, case.lengths) {
            Some((kind, several)) => {
                forbidden[usize::from(kind)] += 1;
                several_senders += usize::from(several);
            }
            None => permitted += 1,
        }
    }
    assert!(permitted > 1_000, "{permitted}");
    assert_eq!(forbidden[..3], [0; 3]);
    assert!(forbidden[3..6].iter().all(|&count| count > 200), "{forbidden:?}");
    assert_eq!(forbidden[6], 0);
    assert!(several_senders > 50, "{several_senders}");
}

#[test]
fn dispatched_monitored_beside_unmonitored() {
    let (mut forbidden, mut permitted) = ([0; 7], 0);
    for index in 0..4_000 {
        let written = case(5, index, Kind::Valid, usize::MAX).job;
        let Dispatched { job, budget } = accepted(&written, &mut Random::for_case(6, index));
        match check_job(&job, Some(budget), [7 * budget as usize, 3_136, 4_096]) {
            Some((kind, _)) => forbidden[usize::from(kind)] += 1,
            None => permitted += 1,
        }
    }
    assert!(permitted > 2_000, "{permitted}");
    assert!(forbidden[3..6].iter().all(|&count| count > 100), "{forbidden:?}");
}

#[test]
fn both_refuse_alike() {
    let mut refused = [0; 2];
    for index in 0..2_000 {
        let case = case(4, index, Kind::Damaged, usize::MAX);
        let Dispatched { job, budget } = any(&case.job, &mut Random::for_case(7, index));
        for (kind, (job, budget)) in [(&case.job, None), (&job, Some(budget))].into_iter().enumerate() {
            let outcome = |mode| run_or_dispatch_dirty(job, budget, mode, case.lengths, 0x11).outcome;
            match (outcome(Mode::Unmonitored), outcome(Mode::Monitored)) {
                (Outcome::Refused(one), Outcome::Refused(two)) => {
                    assert_eq!(one, two);
                    refused[kind] += 1;
                }
                (Outcome::Ran(_), Outcome::Ran(_)) => {}
                _ => panic!("only one of the runs refuses"),
            }
        }
    }
    assert!(refused.iter().all(|&count| count > 1_500), "{refused:?}");
}
