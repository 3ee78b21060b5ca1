//! What holds of every dispatched run (02, S-2 and S-4), on generated jobs: a plain rule for the choices, how soon a ready
//! node is served, how many nodes are examined, and the choices written out as turns.

mod common;

use std::collections::BTreeMap;

use common::{dispatch_dirty, run_dirty, Ran, MODES};
use flow_reference::generate::dispatched::{accepted, Dispatched};
use flow_reference::generate::{case, Kind, Random};
use flow_reference::output::{snapshot_length, ENTRY_BYTES};
use flow_reference::state::IDLE;
use flow_reference::{decode, Answer, Mode, Outcome, Program, Runner, State, Step};

const LONG: [usize; 3] = [28_672, 3_136, 4_096];

/// A generated job without turns and a budget that is accepted.
fn drawn(seed: u64, index: u64) -> Dispatched {
    let longest = [60, 200, 600, usize::MAX][index as usize % 4];
    accepted(&case(seed, index, Kind::Valid, longest).job, &mut Random::for_case(!seed, index))
}

/// A node is ready unless it is idle with an empty queue.
fn is_ready(state: &State, node: usize) -> bool {
    state.nodes[node].position != IDLE || state.waiting(node as u8) > 0
}

/// Of a run step by step: the states before all choices, the last one without a turn included, the node that each choice
/// served, or was stopped at, and how many nodes it examined.
struct Followed {
    states: Vec<State>,
    choices: Vec<(Option<u8>, usize)>,
    stop: u8,
}

fn follow(program: &Program, budget: usize, mode: Mode) -> Followed {
    let mut runner = Runner::dispatched(program, mode, budget);
    let mut followed = Followed { states: Vec::new(), choices: Vec::new(), stop: 0 };
    loop {
        let before = runner.examined().expect("a dispatched run");
        followed.states.push(runner.state().clone());
        let step = runner.step();
        let examined = runner.examined().expect("a dispatched run") - before;
        match step {
            Step::Completed(entry) => followed.choices.push((Some(entry.node), examined)),
            Step::Stopped(halt) => {
                followed.stop = halt.stop;
                match halt.stop {
                    0 => assert_eq!(examined, 0, "no choice"),
                    4 => followed.choices.push((None, examined)),
                    _ => followed.choices.push((Some(halt.attempted.node), examined)),
                }
                return followed;
            }
        }
    }
}

/// The node that has to be chosen: the ready one that comes first if one counts on from a node; and its place there, 0 if
/// there is none.
fn chosen(state: &State, nodes: usize, from: usize) -> (Option<u8>, usize) {
    let steps = |node: usize| (node + nodes - from) % nodes;
    let first = (0..nodes).filter(|&node| is_ready(state, node)).min_by_key(|&node| steps(node));
    (first.map(|node| node as u8), first.map_or(0, |node| steps(node) + 1))
}

/// The choices by the plain rule; the run ends when the budget is made, nobody is ready or a turn is stopped.
fn check_choices(followed: &Followed, nodes: usize, budget: usize) {
    let mut from = 0;
    for (state, &choice) in followed.states.iter().zip(&followed.choices) {
        assert_eq!(choice, chosen(state, nodes, from));
        from = choice.0.map_or(0, |node| (usize::from(node) + 1) % nodes);
    }
    match followed.stop {
        0 => assert_eq!(followed.choices.len(), budget),
        4 => assert!(followed.choices.len() <= budget && followed.choices.last().unwrap().0.is_none()),
        1 | 3 => assert!(followed.choices.len() <= budget),
        other => panic!("stop {other}"),
    }
}

/// Every ready node is served within as many turns as there are nodes, if the run makes that many; for one choice at most
/// all nodes are examined. It gives how often a node waited for the longest time.
fn check_fairness(followed: &Followed, nodes: usize) -> usize {
    let turns = followed.states.len() - 1;
    let mut longest = 0;
    for (turn, state) in followed.states[..turns].iter().enumerate().filter(|(turn, _)| turn + nodes <= turns)
    {
        for node in (0..nodes).filter(|&node| is_ready(state, node)) {
            let served = |choice: &(Option<u8>, usize)| choice.0 == Some(node as u8);
            let after = followed.choices[turn..turn + nodes].iter().position(served);
            longest += usize::from(after.expect("served within so many turns") + 1 == nodes);
        }
    }
    assert!(followed.choices.iter().all(|&(_, examined)| examined <= nodes));
    longest
}

#[test]
fn choices_and_fairness() {
    let (mut stops, mut longest) = (BTreeMap::new(), 0);
    for (index, mode) in (0..1_500).flat_map(|index| MODES.map(|mode| (index, mode))) {
        let Dispatched { job, budget } = drawn(31, index);
        let program = decode(&job).expect("a valid job");
        let (nodes, budget) = (program.nodes.len(), (budget as usize).min(300));
        let followed = follow(&program, budget, mode);
        check_choices(&followed, nodes, budget);
        longest += usize::from(nodes > 1 && check_fairness(&followed, nodes) > 0);
        *stops.entry((mode, followed.stop)).or_insert(0) += 1;
    }
    assert_eq!(stops.len(), 7, "0, 1, 3 and 4 monitored, 0, 3 and 4 bare: {stops:?}");
    assert!(stops.values().all(|&count| count > 100), "{stops:?}");
    assert!(longest > 300, "{longest}");
}

/// The examined total is the sum over the choices: at most all nodes for each turn and for a stopped choice.
#[test]
fn examined_totals() {
    for (index, mode) in (0..1_500).flat_map(|index| MODES.map(|mode| (index, mode))) {
        let Dispatched { job, budget } = drawn(32, index);
        let program = decode(&job).expect("a valid job");
        let followed = follow(&program, budget as usize, mode);
        let sum: usize = followed.choices.iter().map(|&(_, examined)| examined).sum();
        let Answer { stop, turns, examined, .. } = answer(&dispatch_dirty(&job, budget, mode, LONG, 0x5A));
        assert_eq!(examined, Some(sum));
        let choices = turns + usize::from(matches!(stop, 1 | 3));
        assert!(choices <= sum && sum <= program.nodes.len() * choices);
    }
}

fn answer(ran: &Ran) -> Answer {
    match ran.outcome {
        Outcome::Ran(answer) => answer,
        Outcome::Refused(refusal) => panic!("{refusal:?}"),
    }
}

/// The job with a TURN for each choice that found a node, the stopped one included.
fn written_out(job: &[u8], ran: &Ran) -> Vec<u8> {
    let Answer { stop, turns, attempted, .. } = answer(ran);
    let nodes = ran.trace.chunks(ENTRY_BYTES).take(turns).map(|entry| entry[0]);
    let stopped = matches!(stop, 1 | 3).then_some(attempted.node);
    job.iter().copied().chain(nodes.chain(stopped).flat_map(|node| [0x60, node])).collect()
}

/// Written out, the choices give the same trace and snapshot, and the same answer but for stop 4, which is 0.
#[test]
fn choices_written_out() {
    let (mut written, mut too_long, mut longest) = (BTreeMap::new(), 0, 0);
    for (index, mode) in (0..3_000).flat_map(|index| MODES.map(|mode| (index, mode))) {
        let Dispatched { job, budget } = drawn(33, index);
        let ran = dispatch_dirty(&job, budget, mode, LONG, 0x77);
        let longer = written_out(&job, &ran);
        if longer.len() > 16_384 {
            too_long += 1;
            continue;
        }
        let again = run_dirty(&longer, mode, LONG, 0x77);
        let expected = answer(&ran);
        let stop = if expected.stop == 4 { 0 } else { expected.stop };
        assert_eq!(answer(&again), Answer { stop, examined: None, ..expected });
        assert_eq!((&again.trace, &again.snapshot, &again.work), (&ran.trace, &ran.snapshot, &ran.work));
        *written.entry((mode, expected.stop)).or_insert(0) += 1;
        longest = longest.max(expected.turns);
    }
    assert!(written.len() == 7 && written.values().all(|&count| count > 200), "{written:?}");
    assert!(too_long < 20 && longest == 4_096, "{too_long} {longest}");
}

/// What is handed over does not depend on what the buffers held, and nothing else is changed.
#[test]
fn bytes_of_dispatched_runs() {
    for index in 0..400 {
        let Dispatched { job, budget } = drawn(34, index);
        let lengths = [7 * budget as usize + 9, 3_140, 4_200];
        let [one, two] =
            [0x5A, 0xC3].map(|dirt| dispatch_dirty(&job, budget, Mode::Unmonitored, lengths, dirt));
        let turns = answer(&one).turns;
        let program = decode(&job).expect("a valid job");
        let named = [7 * turns, snapshot_length(&program, &one.snapshot), 4_096];
        for (buffer, one, two) in
            [(0, &one.trace, &two.trace), (1, &one.snapshot, &two.snapshot), (2, &one.work, &two.work)]
        {
            assert_eq!(one[..named[buffer]], two[..named[buffer]]);
            assert!(one[named[buffer]..].iter().all(|&byte| byte == 0x5A));
            assert!(two[named[buffer]..].iter().all(|&byte| byte == 0xC3));
        }
        assert_eq!(one.outcome, two.outcome);
    }
}
