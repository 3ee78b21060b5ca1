//! The ready count (02, S-4): kept in the state, it is the count by S-2's definition at the start and after every turn,
//! completed or stopped, monitored or not, written or dispatched.

mod common;

use std::collections::BTreeMap;

use common::{bytes, job, k1, MODES};
use flow_reference::generate::dispatched::{accepted, Dispatched};
use flow_reference::generate::{case, Kind, Random};
use flow_reference::run::Order;
use flow_reference::state::IDLE;
use flow_reference::{decode, Mode, Program, Runner, State, Step};

/// A node is ready unless it is idle with an empty queue.
fn counted(program: &Program, state: &State) -> usize {
    let is_ready = |node: &usize| !(state.nodes[*node].position == IDLE && state.waiting(*node as u8) == 0);
    (0..program.nodes.len()).filter(is_ready).count()
}

/// The kept counts: at the start, after each turn and, the last, when the run has ended; and its stop.
fn kept<O: Order>(program: &Program, mut runner: Runner<O>) -> (Vec<usize>, u8) {
    let mut counts = Vec::new();
    loop {
        assert_eq!(runner.state().ready(), counted(program, runner.state()));
        counts.push(runner.state().ready());
        if let Step::Stopped(halt) = runner.step() {
            assert_eq!(runner.state().ready(), counted(program, runner.state()));
            counts.push(runner.state().ready());
            return (counts, halt.stop);
        }
    }
}

/// The kept counts of a dispatched run, both modes, and its stop.
fn dispatched(job: &[u8], budget: usize) -> (Vec<usize>, u8) {
    let program = decode(job).expect("a valid job");
    let [one, two] = MODES.map(|mode| kept(&program, Runner::dispatched(&program, mode, budget)));
    assert_eq!(one, two);
    one
}

#[test]
fn k1_by_hand() {
    let (counts, stop) = dispatched(&k1()[..47], 12);
    assert_eq!((counts, stop), (vec![1, 1, 1, 1, 2, 2, 1, 1, 1, 0, 0], 4));
    let program = decode(&k1()).expect("a valid job");
    for mode in MODES {
        let (counts, stop) = kept(&program, Runner::new(&program, mode));
        assert_eq!((counts, stop), (vec![1, 1, 1, 1, 2, 1, 1, 1, 1, 0, 0], 0));
    }
}

/// Nobody, one node of 32 and one in each flow have a first message.
#[test]
fn starts() {
    assert_eq!(dispatched(&bytes("01"), 1), (vec![0, 0], 4));
    assert_eq!(dispatched(&job(&[("01", 1), ("02", 32)]), 1), (vec![0, 0], 4));
    assert_eq!(dispatched(&job(&[("01", 1), ("02", 32), ("50 1F 07 00 00 00", 1)]), 1).0, [1, 1, 1]);
    let starts: Vec<u8> = (0..8).flat_map(|node| [0x50, node, 7, 0, 0, 0]).collect();
    let (counts, stop) = dispatched(&[job(&[("01 02", 8)]), starts].concat(), 17);
    assert_eq!(counts, [8, 8, 8, 8, 8, 8, 8, 8, 8, 7, 6, 5, 4, 3, 2, 1, 0, 0]);
    assert_eq!(stop, 4);
}

/// A SEND wakes all of its targets that are idle with an empty queue, and no other one; over a port without wires, nobody.
#[test]
fn sends() {
    let three = "01 02 02 02 02 20 00 00 01 20 00 00 02 20 00 00 03 40 00 49 00 49 01 50 00 07 00 00 00";
    let (counts, stop) = dispatched(&bytes(three), 20);
    assert_eq!(counts[..4], [1, 1, 4, 4], "node 0 begins and sends, node 1 begins");
    assert_eq!((counts.len(), stop), (1 + 4 + 3 * 2 + 1, 4));
    let twice = "01 02 02 20 00 00 01 40 00 49 00 49 00 40 01 4B 50 00 07 00 00 00";
    let (counts, stop) = dispatched(&bytes(twice), 20);
    assert_eq!(counts, [1, 1, 2, 2, 2, 2, 1, 1, 1, 1, 0, 0], "the second finds node 1 at work");
    assert_eq!(stop, 4);
    let itself = "01 02 20 00 00 00 40 00 49 00 50 00 07 00 00 00";
    assert_eq!(dispatched(&bytes(itself), 6), (vec![1; 8], 0), "finished, and its own message waits");
}

/// A stopped turn changes nothing: not permitted, not ready, and a full queue beside an idle node, which is not waked.
#[test]
fn stopped_turns() {
    let forbidden = bytes("01 02 11 09 00 00 00 40 00 4A 00 50 00 07 00 00 00 60 00 60 00");
    let not_ready = bytes("01 02 02 50 01 07 00 00 00 60 00");
    let head = "01 02 02 02 20 00 00 01 20 00 01 01 20 00 01 02 40 00";
    let full = job(&[(head, 1), ("49 00", 16), ("49 01", 1), ("50 00 07 00 00 00", 1), ("60 00", 18)]);
    let last = [forbidden, not_ready, full].map(|job| {
        let program = decode(&job).expect("a valid job");
        let (counts, stop) = kept(&program, Runner::new(&program, Mode::Monitored));
        (stop, counts[counts.len() - 2..].to_vec())
    });
    assert_eq!(last, [(1, vec![1, 1]), (2, vec![1, 1]), (3, vec![2, 2])]);
}

#[test]
fn every_turn_of_generated_jobs() {
    let mut stops = BTreeMap::new();
    let mut most = 0;
    for (index, mode) in (0..2_000).flat_map(|index| MODES.map(|mode| (index, mode))) {
        let longest = [60, 200, 600, usize::MAX][index as usize % 4];
        let written = case(51, index, Kind::Valid, longest).job;
        let program = decode(&written).expect("a valid job");
        let (counts, stop) = kept(&program, Runner::new(&program, mode));
        *stops.entry((false, mode, stop)).or_insert(0) += 1;
        most = most.max(*counts.iter().max().expect("the start's"));
        let Dispatched { job, budget } = accepted(&written, &mut Random::for_case(52, index));
        let program = decode(&job).expect("a valid job");
        let (counts, stop) = kept(&program, Runner::dispatched(&program, mode, budget as usize));
        *stops.entry((true, mode, stop)).or_insert(0) += 1;
        assert_eq!(stop == 4, counts.len() - 2 < budget as usize && counts[counts.len() - 1] == 0);
    }
    assert!(stops.len() == 7 + 7 && stops.values().all(|&count| count > 30), "{stops:?}");
    assert!(most > 8, "{most}");
}
