//! A variable nobody may read (02, S-13): two jobs that differ in its start alone, monitored with equal buffers, leave
//! the same but for its four bytes in the snapshot; and what S-13 does not say.

mod common;

use common::{bytes, commands, number, run_or_dispatch_dirty, Ran};
use flow_reference::generate::buffers;
use flow_reference::generate::dispatched::any;
use flow_reference::generate::secret::{draw, is_secret, variables, OtherStart};
use flow_reference::generate::{case, Kind, Random};
use flow_reference::output::{entry_from_bytes, variables_place};
use flow_reference::Mode::{self, Monitored, Unmonitored};
use flow_reference::{decode, tally, Answer, Outcome, Refusal, Tally};

/// A job, how it is run, and the second job by the start that a variable has there.
struct Pair {
    job: Vec<u8>,
    budget: Option<u64>,
    lengths: [usize; 3],
    other: OtherStart,
}

/// What a run left: its buffers with zeros for the variable's four bytes, these as a number, and the tally.
#[derive(Debug, PartialEq)]
struct Left {
    ran: Ran,
    number: Option<u32>,
    tally: Result<Vec<Tally>, Refusal>,
}

impl Left {
    fn of(pair: &Pair, job: &[u8], mode: Mode) -> Left {
        let mut ran = run_or_dispatch_dirty(job, pair.budget, mode, pair.lengths, 0xA5);
        let turns = answer(&ran).map_or(0, |answer| answer.turns);
        let tally = tally(job, turns as u64, &ran.trace, &ran.snapshot);
        let number = answer(&ran).map(|_| {
            let nodes = decode(job).expect("an accepted job").nodes.len();
            let place = variables_place(nodes, &ran.snapshot) + 4 * pair.other.variable;
            let four = ran.snapshot[place..].first_chunk_mut().expect("four bytes of the variable");
            u32::from_le_bytes(std::mem::take(four))
        });
        Left { ran, number, tally }
    }

    /// Whether the run wrote the variable.
    fn has_written(&self, variable: usize) -> bool {
        let turns = answer(&self.ran).map_or(0, |answer| answer.turns);
        let mut entries = self.ran.trace.chunks_exact(7).take(turns).map(entry_from_bytes);
        entries.any(|entry| entry.kind == 4 && usize::from(entry.number) == variable)
    }

    /// Whether it was stopped at a read of the variable.
    fn is_at_read(&self, variable: usize) -> bool {
        answer(&self.ran).is_some_and(|Answer { stop, attempted, .. }| {
            let number = usize::from(attempted.number);
            (stop, attempted.kind, number, attempted.value) == (1, 3, variable, 0)
        })
    }
}

fn answer(ran: &Ran) -> Option<Answer> {
    match ran.outcome {
        Outcome::Ran(answer) => Some(answer),
        Outcome::Refused(_) => None,
    }
}

impl Pair {
    /// What both runs leave.
    fn run(&self, mode: Mode) -> [Left; 2] {
        let second = self.other.second(&self.job).expect("a variable of the job");
        [Left::of(self, &self.job, mode), Left::of(self, &second, mode)]
    }

    /// Whether both leave the same but for the variable's four bytes.
    fn is_alike(&self, mode: Mode) -> bool {
        let [first, second] = self.run(mode);
        (first.ran, first.tally) == (second.ran, second.tally)
    }
}

/// The pairs of generated jobs, `count` in all: with written turns, and dispatched.
fn generated(kind: Kind, count: usize) -> Vec<Pair> {
    let both = |index| {
        let case = case(13, index, kind, usize::MAX);
        let mut random = Random::for_case(14, index);
        let (job, other) = draw(&case.job, &mut random)?;
        let drawn = any(&job, &mut random);
        let lengths = buffers::any(&mut random, drawn.turns());
        let dispatched = Pair { job: drawn.job, budget: Some(drawn.budget), lengths, other };
        Some([Pair { job, budget: None, lengths: case.lengths, other }, dispatched])
    };
    (0..).filter_map(both).flatten().take(count).collect()
}

#[test]
fn generated_pairs_are_alike() {
    // Accepted, refused, stopped at a read of the variable, wrote it, differ when unmonitored.
    let mut counts = [0; 5];
    for pair in generated(Kind::Valid, 1_000).iter().chain(&generated(Kind::Damaged, 200)) {
        let variable = pair.other.variable;
        let starts = [variables(&pair.job)[variable].start, pair.other.start];
        assert!(is_secret(&pair.job, variable) && starts[0] != starts[1]);
        let [first, second] = pair.run(Monitored);
        assert_eq!((&first.ran, &first.tally), (&second.ran, &second.tally));
        let is_written = first.has_written(variable);
        match [first.number, second.number] {
            [None, None] => {}
            [one, two] if is_written => assert_eq!(one, two),
            numbers => assert_eq!(numbers, starts.map(Some)),
        }
        let is_accepted = first.number.is_some();
        let differs_unmonitored = !pair.is_alike(Unmonitored);
        let facts = [is_accepted, !is_accepted, first.is_at_read(variable), is_written, differs_unmonitored];
        counts.iter_mut().zip(facts).for_each(|(count, fact)| *count += usize::from(fact));
    }
    assert!(counts.iter().all(|&count| count > 100), "{counts:?}");
}

/// Scope, start and the start's place of each VAR, with the lengths of commands written down once more; and no other byte
/// of the job is changed.
#[test]
fn starts_are_where_they_stand() {
    for Pair { job, other, .. } in generated(Kind::Valid, 100) {
        let mut place = 0;
        let mut found = Vec::new();
        for command in commands(&job) {
            place += command.len();
            if command[0] == 0x10 {
                found.push((command[1] != 0, number(command), place - 4));
            }
        }
        let variables = variables(&job);
        let said = variables.iter().map(|variable| (variable.is_shared, variable.start, variable.place));
        assert_eq!(said.collect::<Vec<_>>(), found);
        let (at, second) = (variables[other.variable].place, other.second(&job).unwrap());
        assert_eq!(second, [&job[..at], &other.start.to_le_bytes(), &job[at + 4..]].concat());
    }
}

/// Node 0 with a first message and a wire to node 1, variable 0 with the start 7, and 8 in the second job; four turns of
/// node 0, then three of node 1.
fn pair(variable: &str, rest: &str) -> Pair {
    let head = format!("01 02 02 {variable} 07 00 00 00 20 00 00 01 {rest} 50 00 01 00 00 00");
    let job = [bytes(&head), bytes("60 00").repeat(4), bytes("60 01").repeat(3)].concat();
    Pair { job, budget: None, lengths: [49, 3_136, 4_096], other: OtherStart { variable: 0, start: 8 } }
}

const FLOW_VARIABLE: &str = "10 01 00";
const GLOBAL_VARIABLE: &str = "10 02 00";
/// Scope 0, of node 0.
const OWN_VARIABLE: &str = "10 00 00";

/// Node 0 reads the variable, by GET or PLUS, and sends what it has.
const READERS: [&str; 2] = ["40 00 43 00 49 00", "40 00 46 00 49 00"];

/// Node 0 may not read: monitored alike, with the attempted read and no value; bare, node 1 gets the variable.
#[test]
fn unmonitored_runs_differ() {
    for variable in [FLOW_VARIABLE, GLOBAL_VARIABLE] {
        for pair in READERS.map(|reader| pair(variable, reader)) {
            assert!(is_secret(&pair.job, 0) && pair.is_alike(Monitored) && !pair.is_alike(Unmonitored));
            let [first, second] = pair.run(Monitored);
            assert!(first.is_at_read(0) && [first.number, second.number] == [Some(7), Some(8)]);
        }
    }
}

/// The node that has a variable of its own reads it without a permission.
#[test]
fn variables_of_nodes_differ() {
    for pair in READERS.map(|reader| pair(OWN_VARIABLE, reader)) {
        assert!(!is_secret(&pair.job, 0) && !pair.is_alike(Monitored));
    }
}

/// One node with READ is enough, whichever it is: node 0, which sends what it reads, or node 1 alone.
#[test]
fn variables_that_one_node_may_read_differ() {
    for variable in [FLOW_VARIABLE, GLOBAL_VARIABLE] {
        let own = READERS.map(|reader| format!("32 00 00 {reader}"));
        let other = String::from("32 01 00 40 00 42 49 00 40 01 43 00 49 00");
        for pair in own.iter().chain([&other]).map(|rest| pair(variable, rest)) {
            assert!(!is_secret(&pair.job, 0) && !pair.is_alike(Monitored));
        }
    }
}

/// A value that is written is the same in both runs, and stands in the place of both starts.
#[test]
fn a_written_value_is_no_secret() {
    let writer = pair(FLOW_VARIABLE, "33 00 00 40 00 42 44 00");
    assert!(is_secret(&writer.job, 0));
    for mode in [Monitored, Unmonitored] {
        let [first, second] = writer.run(mode);
        assert_eq!(first, second);
        assert!(first.number == Some(1) && first.has_written(0));
    }
}

/// Bare, a start can also tell how the run goes on: with 7 node 0 sends, with 0 it does not, and node 1 gets no message.
#[test]
fn unmonitored_answers_differ() {
    let mut pair = pair(GLOBAL_VARIABLE, "40 00 43 00 47 03 49 00");
    pair.other.start = 0;
    assert!(pair.is_alike(Monitored));
    let ends = pair.run(Unmonitored).map(|left| answer(&left.ran).map(|answer| (answer.stop, answer.turns)));
    assert_eq!(ends, [Some((2, 6)), Some((2, 4))]);
}
