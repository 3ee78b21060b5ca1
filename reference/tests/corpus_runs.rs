//! How the runs of the stored corpus go.

mod common;

use std::collections::{BTreeMap, BTreeSet};

use common::made::{all, outcome, runs_of, Made};
use common::{commands, run_dirty, MODES};
use flow_reference::corpus::{Change, Run};
use flow_reference::output::{snapshot_length, ENTRY_BYTES};
use flow_reference::print::print_run;
use flow_reference::run::{Runner, Step};
use flow_reference::{decode, Answer, Mode, Outcome, Refusal};

/// The runs of accepted jobs with buffers that are long enough, and their answers.
fn ran() -> impl Iterator<Item = (&'static Run, Answer)> {
    all().iter().filter_map(|Made { run, outcome, .. }| match outcome {
        Outcome::Ran(answer) => Some((run, *answer)),
        Outcome::Refused(_) => None,
    })
}

/// The last line of a run's text.
fn last_line(run: &Run) -> &'static str {
    if run.change == Change::Nothing {
        "kept"
    } else {
        "changed"
    }
}

/// Every run keeps the bytes that it has to keep; where one of them is changed after it, that is said.
#[test]
fn kept_or_changed() {
    for Made { run, text, .. } in all() {
        assert_eq!(text.lines().last(), Some(last_line(run)), "{run:?}");
    }
    assert_eq!(all().iter().filter(|made| made.run.change != Change::Nothing).count(), 56);
    let changes = ["changes", "dispatched changes"].map(runs_of).concat();
    assert!(changes.iter().all(|run| run.change != Change::Nothing));
}

/// The text without its last line is the printing program's, if the buffers are long enough.
#[test]
fn texts_of_the_printing_program() {
    let mut same = 0;
    for Made { run, outcome, text } in all() {
        if !matches!(outcome, Outcome::Refused(Refusal { number: 10..=12, .. })) {
            assert_eq!(*text, print_run(&run.job, run.budget, run.mode) + last_line(run) + "\n");
            same += 1;
        }
    }
    assert!(same > 5_000, "{same}");
}

#[test]
fn refusals_and_places() {
    let mut counts: BTreeMap<(u8, Mode), usize> = BTreeMap::new();
    let mut places: BTreeMap<u8, BTreeSet<usize>> = BTreeMap::new();
    for Made { run, outcome, .. } in all() {
        if let Outcome::Refused(Refusal { number, place }) = *outcome {
            *counts.entry((number, run.mode)).or_default() += 1;
            places.entry(number).or_default().insert(place);
        }
    }
    assert_eq!(counts.len(), 32, "1 to 15 and 19 in both modes: {counts:?}");
    let least = |number| match number {
        1 | 14 => 8,
        13 | 15 => 15,
        _ => 60,
    };
    assert!(counts.iter().all(|(&(number, _), &count)| count >= least(number)), "{counts:?}");
    assert_eq!([&places[&1], &places[&13]], [&BTreeSet::from([0]); 2]);
    assert!(places.range(2..=12).all(|(_, places)| places.len() >= 35), "{places:?}");
    assert!(places[&15].len() >= 5 && places[&19].len() >= 35, "{places:?}");
}

/// How often the runs stop so, by mode, stop and kind of the attempted entry.
fn stops() -> BTreeMap<(Mode, u8, u8), usize> {
    let mut counts = BTreeMap::new();
    for (run, answer) in ran() {
        *counts.entry((run.mode, answer.stop, answer.attempted.kind)).or_default() += 1;
    }
    counts
}

#[test]
fn stops_and_attempted_kinds() {
    let counts = stops();
    let monitored =
        [(0, 0), (1, 3), (1, 4), (1, 5), (2, 0), (3, 6), (4, 0)].map(|(s, k)| (Mode::Monitored, s, k));
    let unmonitored = [(0, 0), (2, 0), (3, 6), (4, 0)].map(|(s, k)| (Mode::Unmonitored, s, k));
    assert_eq!(counts.keys().copied().collect::<Vec<_>>(), [&monitored[..], &unmonitored].concat());
    let least = |stop| if stop == 4 { 40 } else { 60 };
    assert!(counts.iter().all(|(&(_, stop, _), &count)| count >= least(stop)), "{counts:?}");
}

/// The monitored runs of a family: stop and completed turns.
fn monitored_ends(family: &str) -> Vec<(u8, usize)> {
    let end = |run: &Run| match outcome(run) {
        Outcome::Ran(answer) => (answer.stop, answer.turns),
        Outcome::Refused(refusal) => panic!("{refusal:?}"),
    };
    runs_of(family).iter().filter(|run| run.mode == Mode::Monitored).map(end).collect()
}

/// Of 256 arguments, the listed ones are permitted; of the last node, each missing permission stops its access.
#[test]
fn ends_of_the_lists() {
    let (listed, other) = ((0, 4), (1, 2));
    assert_eq!(monitored_ends("long lists"), [other, listed, listed, listed, listed, listed, listed, other]);
    let (all, calls) = ((0, 13), (1, 6));
    assert_eq!(monitored_ends("last numbers"), [all, (1, 2), (1, 3), (1, 5), calls, all, calls, calls]);
}

/// Beside ranges, calls in the order of the jobs: `+` is made, `-` stops the run. They are with 7; with others; beside
/// several permissions; a read, a write and two calls; in a long list; of the last node.
#[test]
fn calls_beside_ranges() {
    let expected = ["+++++-----", "---", "+-+-+-+++-+-", "++++--+-+-+++", "--+-", "++-", "+---"];
    let signs: String =
        monitored_ends("ranges").iter().map(|&(stop, _)| if stop == 1 { '-' } else { '+' }).collect();
    assert_eq!(signs, expected.concat());
}

/// The entries of a run.
fn entries(run: &Run) -> Vec<Vec<u32>> {
    let text = run.text();
    let entries = text.lines().take_while(|line| !line.starts_with("end"));
    entries.map(|line| line.split(' ').map(|word| word.parse().unwrap()).collect()).collect()
}

/// What a run sends, in order.
fn sent(run: &Run) -> Vec<u32> {
    entries(run).into_iter().filter(|entry| entry[1] == 6).map(|entry| entry[3]).collect()
}

/// What the runs of this family and mode send: of each the first, none if it stops before.
fn first_sent(family: &str, mode: Mode) -> Vec<Option<u32>> {
    let runs = runs_of(family).into_iter().filter(|run| run.mode == mode);
    runs.map(|run| sent(&run).first().copied()).collect()
}

/// Beside replies, the answers that the unmonitored runs send, in the order of the jobs: one reply; extreme arguments;
/// several; two functions, two nodes; lists; chains; loops; long lists; all functions; the last function. FUN's
/// answer is 8; of function 1 it is 256, of the last one 31.
#[test]
fn answers_beside_replies() {
    const MAX: u32 = u32::MAX;
    let single = [&[5, 0, MAX, 7, 8, 0x0102_0304][..], &[8; 9]].concat();
    let several = [[30, 70, 110].repeat(3), vec![8]].concat();
    let short = [single, [5, 8].repeat(4), several, vec![1, 2, 8, 2, 7], vec![5; 6], vec![8; 4]].concat();
    let loops = [20, 20, 1, 1, 0];
    let long = [1_000, 1_063, 1_127, 8, 1_000, 1_127, 1_127, 8, 8];
    let expected = [&short[..], &loops, &long, &[1; 3], &[MAX, 31, 31, 31]].concat();
    let expected: Vec<Option<u32>> = expected.into_iter().map(Some).collect();
    assert_eq!(first_sent("answers", Mode::Unmonitored), expected);
    let monitored = first_sent("answers", Mode::Monitored);
    let stopped: Vec<usize> = (0..monitored.len()).filter(|&job| monitored[job].is_none()).collect();
    assert_eq!(stopped, [38, 40, 42, 43, 46, 47, 61]);
    assert!(monitored.iter().zip(expected).all(|(sent, expected)| sent.is_none() || *sent == expected));
}

/// All answers of two loops, of two nodes, and of all functions.
#[test]
fn answers_of_many_calls() {
    let runs = runs_of("answers");
    let bare = |job: usize| sent(&runs[2 * job + 1]);
    assert_eq!(bare(37), [7, 5, 5]);
    assert_eq!(bare(48), [20, 8, 40, 8, 60, 8, 80, 8, 8, 8]);
    assert_eq!(sent(&runs[2 * 49]), [20, 8, 40, 8, 60, 8]);
    assert_eq!(bare(50)[..7], [1, 2, 7, 1, 2, 7, 1]);
    let of_function = |function: u32| {
        [[1, 11, 21, 31].map(|more| 1000 * function + more).to_vec(), vec![function]].concat()
    };
    let all: Vec<u32> = (0..32).flat_map(of_function).collect();
    assert_eq!([62, 63, 64].map(bare), [all.clone(), all.clone(), all.clone()]);
    assert_eq!(sent(&runs[2 * 64]), all[..159], "monitored, the last call stops");
}

/// The senders of the messages that a node takes in a run.
fn senders(run: &Run, node: u32) -> Vec<u32> {
    entries(run).into_iter().filter(|entry| entry[..2] == [node, 1]).map(|entry| entry[2]).collect()
}

/// The messages that wait at a node after a run, with their senders.
fn waiting(run: &Run, node: u8) -> Vec<(u32, u8)> {
    let program = decode(&run.job).unwrap();
    let mut runner = Runner::new(&program, run.mode);
    while let Step::Completed(_) = runner.step() {}
    runner.state().messages(node).map(|message| (message.value, message.sender)).collect()
}

/// Two and three senders in every order; then one order with 0, 1 and 2 of the messages taken.
#[test]
fn orders_of_senders() {
    let runs = runs_of("senders");
    let order = |job: usize| senders(&runs[2 * job], if job < 2 { 3 } else { 4 });
    let all: [&[u32]; 8] =
        [&[1, 2], &[2, 1], &[1, 2, 3], &[1, 3, 2], &[2, 1, 3], &[2, 3, 1], &[3, 1, 2], &[3, 2, 1]];
    assert!((0..8).map(order).eq(all));
    assert_eq!([8, 9, 10].map(order), [vec![], vec![3], vec![3, 1]]);
    assert_eq!(waiting(&runs[16], 4), [(7, 3), (7, 1), (7, 2)]);
    assert_eq!(waiting(&runs[18], 4), [(7, 1), (7, 2)]);
    assert_eq!(waiting(&runs[20], 4), [(7, 2)]);
}

/// What is taken and what waits at some nodes: of itself, in full queues, in moving ones, of the last node.
#[test]
fn messages_of_senders() {
    let runs = runs_of("senders");
    assert_eq!(senders(&runs[24], 31), [255, 31, 31, 31]);
    assert_eq!(senders(&runs[26], 1), [0, 0, 1, 1]);
    let full: Vec<_> = (25..33).map(|job| waiting(&runs[2 * job], 3)).collect();
    assert!(full.iter().all(|queue| queue.len() == 16 && queue.iter().all(|message| message.0 == 0)));
    assert_eq!([3, 7].map(|job: usize| full[job][15].1), [3, 3], "its own message behind the others");
    let order = [0, 1, 1, 2, 0, 2, 1].repeat(6);
    for (job, count) in [(33, 1), (34, 9), (35, 16)] {
        assert_eq!(senders(&runs[2 * job], 3), order[..24]);
        let left: Vec<u32> = waiting(&runs[2 * job], 3).iter().map(|message| message.1.into()).collect();
        assert_eq!(left, order[24..24 + count]);
    }
    assert_eq!(senders(&runs[72], 0), [16, 1, 31, 8]);
    assert_eq!(senders(&runs[78], 3), [2], "monitored");
    assert_eq!(senders(&runs[79], 3), [2, 1], "bare");
}

/// Snapshot buffers that are too short, one of them by a byte; then the longest snapshot, of two senders at every node.
#[test]
fn senders_beside_buffers() {
    let runs = runs_of("sender buffers");
    let is_refused = |run: &Run| run.text().starts_with("refused 11 ");
    let lengths = runs.iter().step_by(2).map(|run| (run.lengths[1], is_refused(run)));
    let few = [(2_624, true), (3_135, true), (3_136, false), (3_137, false)];
    assert!(lengths.eq(few.into_iter().chain([(3_135, true), (3_136, false)])));
    for node in 0..32 {
        let senders: Vec<u8> = waiting(&runs[10], node).iter().map(|message| message.1).collect();
        let (first, before) = (node / 4 * 4, node / 4 * 4 + (node + 3) % 4);
        assert_eq!(senders, [[first].repeat(7), [before].repeat(9)].concat());
    }
}

/// Sends that found a queue full, by their number of targets.
#[test]
fn full_queues_of_one_and_several_targets() {
    let mut counts: BTreeMap<u32, usize> = BTreeMap::new();
    for (run, answer) in ran().filter(|(_, answer)| answer.stop == 3) {
        let (node, port) = (usize::from(answer.attempted.node), usize::from(answer.attempted.number));
        let targets = decode(&run.job).unwrap().nodes[node].wires[port];
        *counts.entry(targets.count_ones()).or_default() += 1;
    }
    assert!((1..=4).all(|targets| counts[&targets] >= 10), "{counts:?}");
}

/// Families of pairs, and how many pairs each has at least.
const PAIRED: [(&str, usize); 27] = [
    ("worked", 15),
    ("accesses", 200),
    ("full queues", 80),
    ("long runs", 3),
    ("pairs", 350),
    ("work", 89),
    ("spans", 50),
    ("ranges", 40),
    ("span pairs", 12),
    ("replies", 50),
    ("reply buffers", 16),
    ("answers", 60),
    ("reply pairs", 12),
    ("unused", 100),
    ("unused buffers", 18),
    ("used pairs", 24),
    ("senders", 40),
    ("sender buffers", 6),
    ("sender pairs", 8),
    ("dispatched", 30),
    ("choices", 90),
    ("budgets", 20),
    ("dispatched refusals", 30),
    ("dispatched buffers", 20),
    ("dispatched pairs", 32),
    ("ready counts", 24),
    ("tallies", 16),
];

#[test]
fn modes_seeds_and_pairs() {
    for mode in MODES {
        let seeds: Vec<u8> =
            all().iter().filter(|made| made.run.mode == mode).map(|made| made.run.seed).collect();
        assert!(seeds.len() > 2_500);
        assert_eq!(seeds.iter().collect::<BTreeSet<_>>().len(), 256);
    }
    let task = |run: &Run| (run.job.clone(), run.budget);
    let both = |pair: &[Run]| task(&pair[0]) == task(&pair[1]) && pair[0].mode != pair[1].mode;
    for (family, count) in PAIRED {
        let runs = runs_of(family);
        assert!(runs.chunks(2).all(both), "{family}");
        assert!(runs.len() >= 2 * count, "{family}");
    }
}

/// Each buffer short by one, shorter, exact, longer by one and longer, while the two others suffice.
#[test]
fn buffer_lengths() {
    let mut seen: BTreeMap<(usize, isize), usize> = BTreeMap::new();
    for Made { run, .. } in all() {
        let Ok(program) = decode(&run.job) else { continue };
        let turns = run.budget.map_or(program.turns.len(), |budget| budget as usize);
        let needed = [ENTRY_BYTES * turns, 3_136, 4_096];
        let more = [0, 1, 2].map(|buffer| run.lengths[buffer] as isize - needed[buffer] as isize);
        for buffer in (0..3).filter(|&buffer| (0..3).all(|other| other == buffer || more[other] >= 0)) {
            *seen.entry((buffer, more[buffer].clamp(-2, 2))).or_default() += 1;
        }
    }
    let expected: Vec<_> = (0..3).flat_map(|buffer| (-2..=2).map(move |more| (buffer, more))).collect();
    assert_eq!(seen.keys().copied().collect::<Vec<_>>(), expected);
    assert!(seen.values().all(|&count| count >= 20), "{seen:?}");
}

/// How the runs of the family end, by the length of the work buffer: refusal (0: none) and stop.
fn ends_by_work_length() -> BTreeMap<usize, BTreeSet<(u8, u8)>> {
    let mut ends: BTreeMap<usize, BTreeSet<(u8, u8)>> = BTreeMap::new();
    for run in runs_of("work") {
        let end = match outcome(&run) {
            Outcome::Ran(answer) => (0, answer.stop),
            Outcome::Refused(refusal) => (refusal.number, 0),
        };
        ends.entry(run.lengths[2]).or_default().insert(end);
    }
    ends
}

/// Each length from 4,096 on has runs with each stop, a shorter one has none.
#[test]
fn work_lengths() {
    let refused = [(6, 0), (10, 0), (11, 0)];
    let [short, long] = [&[(12, 0)][..], &[(0, 0), (0, 1), (0, 2), (0, 3)]];
    let lengths = [4_095, 4_096, 4_097, 5_000, 8_192, 16_383, 16_384, 16_385, 16_500];
    let expected = lengths.map(|length| {
        let others = if length < 4_096 { short } else { long };
        (length, refused.into_iter().chain(others.iter().copied()).collect())
    });
    assert_eq!(ends_by_work_length(), BTreeMap::from(expected));
}

/// The last byte that is cleared, the first that is kept, and later ones are changed after some runs.
#[test]
fn changed_work_lengths() {
    let changed = runs_of("work").into_iter().filter(|run| run.change == Change::LastOfWork);
    let lengths: BTreeSet<usize> = changed.map(|run| run.lengths[2]).collect();
    assert_eq!(lengths, BTreeSet::from([4_096, 4_097, 16_384, 16_500]));
}

/// The places of a job's handler commands, by node.
fn places(job: &[u8]) -> BTreeMap<u8, Vec<usize>> {
    let mut places: BTreeMap<u8, Vec<usize>> = BTreeMap::new();
    let (mut node, mut place) = (0, 0);
    for command in commands(job) {
        match *command {
            [0x40, opened] => node = opened,
            [0x41..=0x4B, ..] => places.entry(node).or_default().push(place),
            _ => {}
        }
        place += command.len();
    }
    places
}

/// Node, position and place of each handler command that a run makes.
fn made_commands(run: &Run) -> BTreeSet<(u8, usize, usize)> {
    let (program, places) = (decode(&run.job).unwrap(), places(&run.job));
    let mut runner = Runner::new(&program, run.mode);
    let mut made = BTreeSet::new();
    for &node in &program.turns {
        let position = usize::from(runner.state().nodes[usize::from(node)].position);
        let Step::Completed(_) = runner.step() else { break };
        made.extend(places[&node].get(position).map(|&place| (node, position, place)));
    }
    made
}

/// All handler commands that a job can have are made, and those of a handler at the end of a long job.
#[test]
fn handler_commands() {
    let made: Vec<_> = runs_of("handlers").iter().map(made_commands).collect();
    assert_eq!(made.iter().map(BTreeSet::len).collect::<Vec<_>>(), [32 * 64, 32 * 64, 64, 64]);
    assert!(made[2..].iter().flatten().all(|&(node, _, place)| node == 31 && place > 16_000));
}

#[test]
fn lengths_of_runs() {
    let mut turns: BTreeMap<usize, usize> = BTreeMap::new();
    for (_, answer) in ran() {
        *turns.entry(answer.turns).or_default() += 1;
    }
    assert!(turns[&0] > 500);
    assert!(turns.range(10..=60).map(|(_, count)| count).sum::<usize>() > 700, "{turns:?}");
    assert_eq!((turns[&4_096], turns[&4_095], turns[&4_094]), (5, 1, 2));
}

/// The longest snapshot: 16 messages at each of 32 nodes, 64 variables.
#[test]
fn fullest_snapshot() {
    let is_fullest = |run: &&Run| {
        let ran = run_dirty(&run.job, run.mode, run.lengths, run.seed);
        matches!(ran.outcome, Outcome::Ran(_))
            && snapshot_length(&decode(&run.job).unwrap(), &ran.snapshot) == 3_136
    };
    assert_eq!(runs_of("largest states").iter().filter(is_fullest).count(), 2);
}
