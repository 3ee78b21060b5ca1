//! The tally of each node (02, S-12): worked by hand, by its definition, and added up after every turn.

mod common;

use std::collections::BTreeMap;

use common::{bytes, commands, job, k1, run_or_dispatch_dirty, Ran, MODES};
use flow_reference::generate::dispatched::{accepted, without_turns, Dispatched};
use flow_reference::generate::{case, Kind, Random};
use flow_reference::output::entry_from_bytes;
use flow_reference::print::{print_run, text};
use flow_reference::run::Order;
use flow_reference::tally::tallies;
use flow_reference::Mode::{self, Monitored, Unmonitored};
use flow_reference::{decode, tally, Entry, Outcome, Program, Runner, State, Step};

/// Started, received, taken, waiting.
type Counts = [u64; 4];

/// The tally lines of a text, which are those of nodes 0, 1 and so on.
fn lines(text: &str) -> Vec<Counts> {
    let lines = text.lines().filter_map(|line| line.strip_prefix("tally "));
    let numbers = |line: &str| line.split(' ').map(|word| word.parse().unwrap()).collect::<Vec<u64>>();
    let counts = |(node, line)| {
        let [number, counts @ ..] = &numbers(line)[..] else { panic!("{line}") };
        assert_eq!(*number, node);
        counts.try_into().expect("four counts")
    };
    (0..).zip(lines).map(counts).collect()
}

/// What is printed of a run, both modes alike.
fn both(job: &[u8], budget: Option<u64>) -> Vec<Counts> {
    let [one, two] = MODES.map(|mode| lines(&print_run(job, budget, mode)));
    assert_eq!(one, two);
    one
}

/// K1 with this byte at this place.
fn k1_with(place: usize, byte: u8) -> Vec<u8> {
    let mut job = k1();
    job[place] = byte;
    job
}

/// K1 to K7, and K11, which has no turns. In K5 the first message is never taken; in K7 the 17th SEND counts nowhere.
#[test]
fn worked_jobs() {
    let (k2, k4) = (k1_with(43, 3), [&k1()[..19], &k1()[22..]].concat());
    let k7 = job(&[("01 02 20 00 00 00 40 00 49 00 48 00 50 00 01 00 00 00", 1), ("60 00", 34)]);
    let (both_taken, untaken) = ([[1, 0, 1, 0], [0, 1, 1, 0]], [[1, 0, 0, 1], [0; 4]]);
    assert_eq!(both(&k1(), None), both_taken);
    assert_eq!(both(&k2, None), both_taken, "K2 and K3");
    assert_eq!(lines(&print_run(&k4, None, Monitored)), [[1, 0, 1, 0], [0; 4]]);
    assert_eq!(both(&k1_with(48, 1), None), untaken, "K5");
    assert_eq!(both(&[&k1()[..43], &[254, 255, 255, 255], &k1()[47..]].concat(), None), both_taken, "K6");
    assert_eq!(both(&k7, None), [[1, 16, 1, 16]]);
    assert_eq!(both(&bytes("01 02 40 00 48 01"), None), [[0; 4]]);
    let k1_budgets = [(1, [[1, 0, 1, 0], [0; 4]]), (4, [[1, 0, 1, 0], [0, 1, 0, 1]]), (5, both_taken)];
    for (budget, expected) in k1_budgets.into_iter().chain([(9, both_taken), (10, both_taken)]) {
        assert_eq!(both(&k1()[..47], Some(budget)), expected, "{budget}");
    }
}

/// After the variables, and before the line `examined`; of a refusal nothing.
#[test]
fn where_they_are_printed() {
    for mode in MODES {
        let tallies = "var 0 5\ntally 0 1 0 1 0\ntally 1 0 1 1 0\n";
        assert!(print_run(&k1(), None, mode).ends_with(tallies));
        assert!(print_run(&k1()[..47], Some(9), mode).ends_with(&[tallies, "examined 14\n"].concat()));
        assert_eq!(print_run(&bytes("01"), None, mode), "end 0 0 0 0 0 0\n");
        assert_eq!(print_run(&bytes("01"), Some(1), mode), "end 4 0 0 0 0 0\nexamined 0\n");
        for (job, budget) in [(bytes("02"), None), (k1(), Some(9)), (k1(), Some(0))] {
            assert!(print_run(&job, budget, mode).starts_with("refused ") && both(&job, budget).is_empty());
        }
    }
}

/// One entry counts once for each target, in whatever order the wires stand, for the sender as well.
#[test]
fn several_targets() {
    for wires in ["20 01 02 00 20 01 02 01 20 01 02 03", "20 01 02 03 20 01 02 00 20 01 02 01"] {
        let head = format!("01 02 02 02 02 {wires} 40 01 49 02 49 03 50 01 07 00 00 00");
        let job = job(&[(&head, 1), ("60 01", 5), ("60 00", 1)]);
        assert_eq!(both(&job, None), [[0, 1, 1, 0], [1, 1, 2, 0], [0; 4], [0, 1, 0, 1]]);
    }
}

/// A target wired to two ports gets an entry of each, and each counts once; a port without a wire reaches nobody.
#[test]
fn two_ports_to_one_target() {
    let head =
        "01 02 02 02 20 00 00 02 20 00 03 02 20 00 01 01 40 00 49 00 49 03 49 03 49 02 50 00 07 00 00 00";
    assert_eq!(
        both(&job(&[(head, 1), ("60 00", 6), ("60 02", 3)]), None),
        [[1, 0, 1, 0], [0; 4], [0, 3, 2, 1]]
    );
}

#[test]
fn to_itself() {
    let head = "01 02 20 00 00 00 40 00 49 00 50 00 07 00 00 00";
    let expected = [[1, 0, 0, 1], [1, 0, 1, 0], [1, 1, 1, 1], [1, 1, 1, 1], [1, 1, 2, 0], [1, 2, 2, 1]];
    for (turns, counts) in expected.into_iter().enumerate() {
        assert_eq!(both(&job(&[(head, 1), ("60 00", turns)]), None), [counts]);
        if turns > 0 {
            assert_eq!(both(&bytes(head), Some(turns as u64)), [counts]);
        }
    }
}

/// First messages that wait to the end: no turns, stop 2 at another node, stop 1 and a budget before their turn.
#[test]
fn first_messages_never_taken() {
    let two = "01 02 01 02 02 50 02 07 00 00 00 50 00 08 00 00 00";
    let untaken = [[1, 0, 0, 1], [0; 4], [1, 0, 0, 1]];
    assert_eq!(both(&bytes(two), None), untaken);
    assert_eq!(both(&job(&[(two, 1), ("60 01 60 02", 1)]), None), untaken, "stop 2");
    assert_eq!(both(&bytes(two), Some(1)), [[1, 0, 1, 0], [0; 4], [1, 0, 0, 1]]);
    let calls =
        "01 02 01 02 11 09 00 00 00 40 00 4A 00 50 01 07 00 00 00 50 00 08 00 00 00 60 00 60 00 60 01";
    assert_eq!(lines(&print_run(&bytes(calls), None, Monitored)), [[1, 0, 1, 0], [1, 0, 0, 1]]);
    assert_eq!(lines(&print_run(&bytes(calls), None, Unmonitored)), [[1, 0, 1, 0], [1, 0, 1, 0]]);
}

/// A SEND that finds one of its targets full counts nowhere, not even at the one that is empty.
#[test]
fn stopped_sends() {
    let head = "01 02 02 02 20 00 00 01 20 00 00 02 20 00 01 02 40 00";
    let pieces = [(head, 1), ("49 01", 16), ("49 00 50 00 07 00 00 00", 1), ("60 00", 18)];
    assert_eq!(both(&job(&pieces), None), [[1, 0, 1, 0], [0; 4], [0, 16, 0, 16]]);
    let head = "01 02 02 02 20 00 00 01 20 00 00 02 40 00 49 00 48 00 40 01 48 00 50 00 07 00 00 00";
    assert_eq!(both(&bytes(head), Some(200)), [[1, 0, 1, 0], [0, 17, 1, 16], [0, 17, 17, 0]], "dispatched");
}

/// The counts of each node word by word, from the commands of the job, the entries and the waiting counts.
fn defined(job: &[u8], entries: &[Entry], waiting: &[u64]) -> Vec<Counts> {
    let commands = commands(job);
    let count = |node: u8| {
        let is_wired = |entry: &Entry| commands.contains(&&[0x20, entry.node, entry.number, node][..]);
        let started = commands.iter().filter(|command| command.starts_with(&[0x50, node])).count() as u64;
        let received = entries.iter().filter(|entry| entry.kind == 6 && is_wired(entry)).count() as u64;
        let taken = entries.iter().filter(|entry| entry.kind == 1 && entry.node == node).count() as u64;
        [started, received, taken, waiting[usize::from(node)]]
    };
    (0..waiting.len() as u8).map(count).collect()
}

fn adds_up([started, received, taken, waiting]: &Counts) -> bool {
    started + received == taken + waiting
}

/// Runs a job in buffers that are long enough, and checks its tallies: the bytes', the printed ones, the definition's.
fn check_run(job: &[u8], budget: Option<u64>, mode: Mode) -> u8 {
    let ran = run_or_dispatch_dirty(job, budget, mode, [28_672, 3_136, 4_096], 0xA5);
    let Ran { outcome, trace, snapshot, .. } = &ran;
    let Outcome::Ran(answer) = outcome else { panic!("refused") };
    let found = tally(job, answer.turns as u64, trace, snapshot).expect("accepted");
    let found: Vec<Counts> = found.iter().map(|tally| tally.numbers()).collect();
    assert!(found.iter().all(adds_up), "{found:?}");
    let printed = text(job, outcome, trace, snapshot);
    assert_eq!(lines(&printed), found);
    let waits = |line: &str| line.split(' ').nth(5).unwrap().parse().unwrap();
    let waiting: Vec<u64> = printed.lines().filter(|line| line.starts_with("node ")).map(waits).collect();
    let entries: Vec<Entry> = trace.chunks(7).take(answer.turns).map(entry_from_bytes).collect();
    assert_eq!(found, defined(job, &entries, &waiting));
    answer.stop
}

/// Generated jobs, with their written turns, and dispatched without them.
fn generated(seed: u64, index: u64, longest: usize) -> (Vec<u8>, Dispatched) {
    let written = case(seed, index, Kind::Valid, longest).job;
    let dispatched = accepted(&written, &mut Random::for_case(seed + 1, index));
    (written, dispatched)
}

#[test]
fn generated_runs_add_up_at_every_stop() {
    let mut stops = BTreeMap::new();
    for (index, mode) in (0..1_200).flat_map(|index| MODES.map(|mode| (index, mode))) {
        let (written, Dispatched { job, budget }) =
            generated(61, index, [200, 600, 2_000][index as usize % 3]);
        *stops.entry((false, mode, check_run(&written, None, mode))).or_insert(0) += 1;
        *stops.entry((true, mode, check_run(&job, Some(budget), mode))).or_insert(0) += 1;
    }
    assert!(stops.len() == 7 + 7 && stops.values().all(|&count| count > 20), "{stops:?}");
}

/// What waits at each node.
fn waiting(program: &Program, state: &State) -> Vec<u8> {
    (0..program.nodes.len() as u8).map(|node| state.waiting(node) as u8).collect()
}

/// Messages by sender: those taken at each node, those sent to it, those of START, which has the sender 255.
#[derive(Default)]
struct Pairs {
    taken: BTreeMap<(u8, u8), u64>,
    sent: BTreeMap<(u8, u8), u64>,
}

impl Pairs {
    /// Before the first turn.
    fn new(commands: &[&[u8]]) -> Pairs {
        let mut pairs = Pairs::default();
        for start in commands.iter().filter(|command| command[0] == 0x50) {
            *pairs.sent.entry((255, start[1])).or_default() += 1;
        }
        pairs
    }

    fn note(&mut self, commands: &[&[u8]], entry: &Entry) {
        if entry.kind == 1 {
            *self.taken.entry((entry.number, entry.node)).or_default() += 1;
        }
        let wired = commands.iter().filter(|command| command.starts_with(&[0x20, entry.node, entry.number]));
        for wire in wired.filter(|_| entry.kind == 6) {
            *self.sent.entry((entry.node, wire[3])).or_default() += 1;
        }
    }

    /// Taken and waiting together are what was sent, for each sender and node.
    fn check(&self, nodes: u8, state: &State) {
        let mut sum = self.taken.clone();
        for (node, message) in (0..nodes).flat_map(|node| state.messages(node).map(move |own| (node, own))) {
            *sum.entry((message.sender, node)).or_default() += 1;
        }
        assert_eq!(sum, self.sent);
    }
}

/// Follows a run: after every completed turn, and when it has stopped, the tallies of the entries so far add up, and so do
/// the messages of each sender alone.
fn follow<O: Order>(job: &[u8], program: &Program, mut runner: Runner<O>) {
    let (commands, mut entries) = (commands(job), Vec::new());
    let mut pairs = Pairs::new(&commands);
    loop {
        let waiting = waiting(program, runner.state());
        let found = tallies(program, entries.iter().copied(), waiting.iter().copied());
        assert!(found.iter().map(|tally| tally.numbers()).all(|counts| adds_up(&counts)), "{found:?}");
        pairs.check(program.nodes.len() as u8, runner.state());
        let Step::Completed(entry) = runner.step() else {
            return assert_eq!(waiting, self::waiting(program, runner.state()));
        };
        pairs.note(&commands, &entry);
        entries.push(entry);
    }
}

#[test]
fn generated_runs_add_up_after_every_turn() {
    for (index, mode) in (0..300).flat_map(|index| MODES.map(|mode| (index, mode))) {
        let (written, Dispatched { job, budget }) = generated(63, index, 700);
        let program = decode(&written).expect("a valid job");
        follow(&written, &program, Runner::new(&program, mode));
        let program = decode(&job).expect("a valid job");
        follow(&job, &program, Runner::dispatched(&program, mode, budget.min(300) as usize));
    }
}

/// Dispatched and with its choices written out, a job has the same tallies; so has a monitored run that nothing stops.
#[test]
fn written_choices() {
    for index in 0..200 {
        let (_, Dispatched { job, budget }) = generated(65, index, 600);
        let [monitored, bare] = MODES.map(|mode| print_run(&job, Some(budget), mode));
        let entries = bare.lines().take_while(|line| !line.starts_with("end "));
        let node = |entry: &str| entry.split(' ').next().unwrap().parse().unwrap();
        let turns: Vec<u8> = entries.flat_map(|entry| [0x60, node(entry)]).collect();
        let written = [&job[..], &turns].concat();
        assert_eq!(without_turns(&written), job);
        assert_eq!(lines(&print_run(&written, None, Unmonitored)), lines(&bare));
        if !monitored.contains("\nend 1 ") && !monitored.starts_with("end 1 ") {
            assert_eq!(lines(&monitored), lines(&bare));
        }
    }
}
