//! The dispatched runs of the stored corpus (02, S-2 and S-4).

mod common;

use std::collections::{BTreeMap, BTreeSet};

use common::made::{all, outcome, runs_of, Made};
use flow_reference::corpus::Run;
use flow_reference::{decode, Mode};

/// The families of dispatched runs.
const FAMILIES: [&str; 9] = [
    "dispatched",
    "choices",
    "budgets",
    "longest",
    "dispatched refusals",
    "dispatched buffers",
    "dispatched changes",
    "dispatched pairs",
    "ready counts",
];

fn dispatched() -> Vec<&'static Made> {
    all().iter().filter(|made| made.run.budget.is_some()).collect()
}

/// 7,813 runs of written turns, then the families of dispatched ones, then the tallies, of which 12 are dispatched.
#[test]
fn behind_written_turns() {
    let is_dispatched = |made: &Made| made.run.budget.is_some();
    assert!(!all()[..7_813].iter().any(is_dispatched));
    let (families, rest) = all()[7_813..].split_at(554);
    assert!(families.iter().all(is_dispatched));
    assert_eq!(FAMILIES.map(|family| runs_of(family).len()).iter().sum::<usize>(), families.len());
    assert_eq!(rest.len(), runs_of("tallies").len());
    assert_eq!(rest.iter().position(is_dispatched), Some(20));
    assert!(rest[20..].iter().all(is_dispatched) && rest[20..].len() == 12);
}

/// The line `examined` stands behind all others that a run prints, and in no text of a refusal or of written turns.
#[test]
fn examined_lines() {
    for Made { run, outcome, text } in all() {
        let [refusal, .., examined] = outcome.numbers();
        let lines: Vec<&str> = text.lines().collect();
        let found = lines.iter().position(|line| line.starts_with("examined"));
        match (run.budget, refusal) {
            (Some(_), 0) => {
                assert_eq!(found, Some(lines.len() - 2));
                assert_eq!(lines[lines.len() - 2], format!("examined {examined}"));
            }
            _ => assert_eq!(found, None),
        }
    }
}

/// How the dispatched runs end, by mode: refusal and stop.
#[test]
fn ends() {
    let mut counts: BTreeMap<(Mode, u64, u64), usize> = BTreeMap::new();
    for made in dispatched() {
        let [refusal, _, stop, ..] = made.outcome.numbers();
        *counts.entry((made.run.mode, refusal, stop)).or_default() += 1;
    }
    let refusals = (1..=15).chain([19]).map(|refusal| (refusal, 0));
    let both = [(0, 0), (0, 3), (0, 4)].into_iter().chain(refusals);
    let expected: BTreeSet<_> = both
        .flat_map(|(refusal, stop)| [Mode::Monitored, Mode::Unmonitored].map(|mode| (mode, refusal, stop)))
        .chain([(Mode::Monitored, 0, 1)])
        .collect();
    assert_eq!(counts.keys().copied().collect::<BTreeSet<_>>(), expected);
    let of = |refusal, stop| counts[&(Mode::Monitored, refusal, stop)];
    assert!([of(0, 0), of(0, 4), of(13, 0)].iter().all(|&count| count > 30), "{counts:?}");
    assert!([of(0, 1), of(0, 3), of(14, 0), of(10, 0)].iter().all(|&count| count > 8), "{counts:?}");
}

#[test]
fn budgets_and_nodes() {
    let budgets: BTreeSet<u64> = dispatched().iter().filter_map(|made| made.run.budget).collect();
    let expected = [0, 1, 2, 9, 10, 4_095, 4_096, 4_097, 8_192, 65_535];
    assert!(expected.iter().all(|budget| budgets.contains(budget)), "{budgets:?}");
    let programs = dispatched().into_iter().filter_map(|made| decode(&made.run.job).ok());
    let nodes: BTreeSet<usize> = programs.map(|program| program.nodes.len()).collect();
    assert!([0, 1, 2, 3, 4, 6, 8, 32].iter().all(|count| nodes.contains(count)), "{nodes:?}");
}

/// Stop, completed turns and examined total of a run.
fn end(run: &Run) -> [u64; 3] {
    let [0, _, stop, turns, .., examined] = outcome(run).numbers() else { panic!("refused") };
    [stop, turns, examined]
}

/// K1 with its budgets, K2 monitored and bare, K4, K6 and K7.
#[test]
fn worked_jobs() {
    let runs = runs_of("dispatched");
    let ends: Vec<[u64; 3]> = runs[..40].iter().map(end).collect();
    let [monitored, bare] = [0, 1].map(|mode| ends.iter().skip(mode).step_by(2).copied().collect::<Vec<_>>());
    let k1 = [[0, 1, 1], [0, 2, 3], [0, 4, 7], [0, 5, 8], [0, 8, 12], [0, 9, 14], [4, 9, 14], [4, 9, 14]];
    let k7 = [[0, 33, 33], [3, 33, 34], [3, 33, 34]];
    let stopped = [[0, 7, 10], [1, 7, 12], [1, 7, 12], [1, 7, 12], [0, 2, 3], [1, 2, 5]];
    let bare_too = [[0, 7, 10], [0, 8, 12], [0, 9, 14], [4, 9, 14], [0, 2, 3], [0, 3, 5]];
    let k6 = [[[0, 7, 10], [1, 7, 12], [1, 7, 12]], [[0, 7, 10], [0, 8, 12], [4, 9, 14]]];
    assert_eq!(monitored, [&k1[..], &stopped, &k6[0], &k7].concat());
    assert_eq!(bare, [&k1[..], &bare_too, &k6[1], &k7].concat());
}

/// The only node at work, of 1 to 32: its three or four turns, then nobody is ready and nobody is examined.
#[test]
fn a_lonely_node() {
    let ends: Vec<[u64; 3]> = runs_of("choices").iter().step_by(2).take(15).map(end).collect();
    let few = |nodes: u64, node: u64| {
        [[0, 3, node + 1 + 2 * nodes], [0, 4, node + 1 + 3 * nodes], [4, 4, node + 1 + 3 * nodes]]
    };
    let many = [0, 15, 31].map(|node| [4, 4, node + 1 + 3 * 32]);
    assert_eq!(ends, [&few(1, 0)[..], &few(2, 0), &few(2, 1), &few(3, 1), &many].concat());
}

/// The ready count falls to 0 with the last turn. With one more in the budget the stop is 4, and the total the same.
#[test]
fn ready_counts() {
    let ends: Vec<[u64; 3]> = runs_of("ready counts").iter().step_by(2).map(end).collect();
    let turns = [68, 68, 72, 13, 12, 46, 46, 15, 11, 11, 4, 72];
    assert_eq!(ends.len(), 2 * turns.len());
    for (pair, turns) in ends.chunks(2).zip(turns) {
        assert_eq!(pair, [0, 4].map(|stop| [stop, turns, pair[0][2]]));
    }
    let two_senders = 1 + 4 + 1 + 1 + 2 + 1 + 1 + 1 + 2 + 1 + 1 + 4 + 4;
    assert_eq!(ends[7], [4, 13, two_senders]);
    assert_eq!([ends[11], ends[13]], [[4, 46, 46], [4, 46, 2 + 45 * 3]], "to itself, alone and one of three");
    let three_waiting = 1 + 2 + 1 + 1 + 1 + 1 + 1 + 1 + 1 + 2 + 2;
    assert_eq!(ends[17], [4, 11, three_waiting]);
}

/// As many turns as there can be, bare and monitored, and as many TURN commands, and one more.
#[test]
fn longest_runs() {
    let runs = runs_of("longest");
    let examined = 4 + 3 * 3 + 4_089 * 4; // seven turns with node 3 at work, then all nodes for each
    assert_eq!([&runs[0], &runs[1]].map(end), [[0, 4_096, examined]; 2]);
    let refusals = [&runs[2], &runs[3]].map(|run| run.text());
    assert_eq!(refusals, ["refused 14 2\nkept\n", "refused 5 8194\nkept\n"]);
}
