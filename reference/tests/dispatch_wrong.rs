//! Wrong dispatchers (02, S-2 and S-4): the stored runs tell each of them from the right one.

mod common;

use common::made::{all, Made};
use flow_reference::corpus::Run;
use flow_reference::engine::turn;
use flow_reference::state::IDLE;
use flow_reference::{decode, Entry, Outcome, Program, Refusal, State};

/// What a dispatcher does otherwise.
#[derive(Clone, Copy, Debug, PartialEq, Eq)]
enum Fault {
    Nothing,
    // Which node is served.
    StartsAtNode1,
    StartsAgainAtNode0,
    LastServedFirst,
    LastServedNever,
    GoesDown,
    ServesUnready,
    AtWorkWithEmptyQueueUnready,
    IdleWithMessageUnready,
    // What is counted.
    ChosenNotCounted,
    StoppedNotCounted,
    FruitlessCounted,
    FruitlessCountsOne,
    FruitlessTotalIs0,
    CountsAfterTheBudget,
    CountsAllNodes,
    // How the ready count is kept.
    StartCountsOne,
    StartCountsNobody,
    BeginWithLastMessageEnds,
    BeginWakes,
    FinishAlwaysEnds,
    FinishNeverEnds,
    SendWakesNobody,
    SendWakesOneAtMost,
    SendWakesAllTargets,
    WaitingTargetWakes,
    TargetAtWorkWakes,
    OwnMessageWakes,
    SendToNobodyWakes,
    // How it ends.
    NobodyReadyIsStop0,
    NobodyReadyIsStop2,
    MadeBudgetIsStop4,
    OneTurnMore,
    OneTurnLess,
    // What is refused.
    Budget0Accepted,
    Budget4097Accepted,
    Budget4096Refused,
    BudgetOf13Bits,
    BudgetAfter1,
    BudgetLast,
    TurnBefore1To9,
    TurnBefore9,
    TurnBefore19,
    TurnAfterBuffers,
    TurnAtLast,
    TurnAccepted,
    TraceOfTurnsMade,
}

use Fault::*;

const FAULTS: [Fault; 46] = [
    StartsAtNode1,
    StartsAgainAtNode0,
    LastServedFirst,
    LastServedNever,
    GoesDown,
    ServesUnready,
    AtWorkWithEmptyQueueUnready,
    IdleWithMessageUnready,
    ChosenNotCounted,
    StoppedNotCounted,
    FruitlessCounted,
    FruitlessCountsOne,
    FruitlessTotalIs0,
    CountsAfterTheBudget,
    CountsAllNodes,
    StartCountsOne,
    StartCountsNobody,
    BeginWithLastMessageEnds,
    BeginWakes,
    FinishAlwaysEnds,
    FinishNeverEnds,
    SendWakesNobody,
    SendWakesOneAtMost,
    SendWakesAllTargets,
    WaitingTargetWakes,
    TargetAtWorkWakes,
    OwnMessageWakes,
    SendToNobodyWakes,
    NobodyReadyIsStop0,
    NobodyReadyIsStop2,
    MadeBudgetIsStop4,
    OneTurnMore,
    OneTurnLess,
    Budget0Accepted,
    Budget4097Accepted,
    Budget4096Refused,
    BudgetOf13Bits,
    BudgetAfter1,
    BudgetLast,
    TurnBefore1To9,
    TurnBefore9,
    TurnBefore19,
    TurnAfterBuffers,
    TurnAtLast,
    TurnAccepted,
    TraceOfTurnsMade,
];

/// The nine numbers of the answer, and the entries.
type Left = ([u64; 9], Vec<Entry>);

/// A dispatcher on a program, with a fault.
struct Wrong<'p> {
    fault: Fault,
    program: &'p Program,
    state: State,
    last: Option<usize>,
    examined: usize,
    /// How many nodes are ready, kept here once more.
    ready: i64,
}

impl<'p> Wrong<'p> {
    fn new(program: &'p Program, fault: Fault) -> Wrong<'p> {
        let state = State::new(program);
        let starts = program.starts.len() as i64;
        let ready = match fault {
            StartCountsOne => starts.min(1),
            StartCountsNobody => 0,
            _ => starts,
        };
        Wrong { fault, program, state, last: None, examined: 0, ready }
    }

    fn is_at_work(&self, node: usize) -> bool {
        self.state.nodes[node].position != IDLE
    }

    fn waits(&self, node: usize) -> bool {
        self.state.waiting(node as u8) > 0
    }

    fn is_ready(&self, node: usize) -> bool {
        let (at_work, waits) = (self.is_at_work(node), self.waits(node));
        match self.fault {
            AtWorkWithEmptyQueueUnready => waits,
            IdleWithMessageUnready => at_work,
            ServesUnready => true,
            _ => at_work || waits,
        }
    }

    /// The nodes in the order in which they are examined.
    fn order(&self) -> Vec<usize> {
        let nodes = self.program.nodes.len();
        let first = match (self.fault, self.last) {
            (StartsAtNode1, None) => 1,
            (StartsAgainAtNode0, _) | (_, None) => 0,
            (LastServedFirst, Some(last)) => last,
            (_, Some(last)) => last + 1,
        };
        let node = |step: usize| match self.fault {
            GoesDown => (first + nodes * nodes - step) % nodes,
            _ => (first + step) % nodes,
        };
        let most = if self.fault == LastServedNever && self.last.is_some() { nodes - 1 } else { nodes };
        (0..most).map(node).collect()
    }

    /// One choice, counted. If nobody is ready by the kept count, nobody is examined; if that is wrong, all are in vain.
    fn choose(&mut self) -> Option<u8> {
        let order = self.order();
        let found = order.iter().position(|&node| self.is_ready(node)).filter(|_| self.ready != 0);
        self.examined += match (self.fault, found) {
            (CountsAllNodes, Some(_)) | (FruitlessCounted, None) => order.len(),
            (ChosenNotCounted, Some(place)) => place,
            (FruitlessCountsOne, None) => 1,
            (_, Some(place)) => place + 1,
            (_, None) if self.ready != 0 => order.len(),
            (_, None) => 0,
        };
        if self.fault == FruitlessTotalIs0 && found.is_none() {
            self.examined = 0;
        }
        self.last = found.map(|place| order[place]);
        self.last.map(|node| node as u8)
    }

    /// The targets of a node's port.
    fn targets(&self, node: usize, port: u8) -> Vec<usize> {
        let set = self.program.nodes[node].wires[usize::from(port)];
        (0..self.program.nodes.len()).filter(|&target| set >> target & 1 == 1).collect()
    }

    /// How many nodes a SEND wakes, asked after it: the targets at which one message waits now and which are not at work.
    fn waked(&self, node: usize, port: u8) -> i64 {
        let targets = self.targets(node, port);
        let is_waked = |target: &usize| {
            let (at_work, waiting) = (self.is_at_work(*target), self.state.waiting(*target as u8));
            match self.fault {
                SendWakesNobody => false,
                SendWakesAllTargets => true,
                WaitingTargetWakes => !at_work,
                TargetAtWorkWakes => waiting == 1,
                OwnMessageWakes => *target == node || !at_work && waiting == 1,
                _ => !at_work && waiting == 1,
            }
        };
        let waked = targets.iter().filter(|&target| is_waked(target)).count() as i64;
        match self.fault {
            SendWakesOneAtMost => waked.min(1),
            SendToNobodyWakes if targets.is_empty() => 1,
            _ => waked,
        }
    }

    /// Keeps the ready count, by the entry of the turn that was made.
    fn keep(&mut self, entry: &Entry) {
        let node = usize::from(entry.node);
        self.ready += match (entry.kind, self.fault) {
            (1, BeginWakes) => 1,
            (1, BeginWithLastMessageEnds) if !self.waits(node) => -1,
            (2, FinishNeverEnds) => 0,
            (2, FinishAlwaysEnds) => -1,
            (2, _) if !self.waits(node) => -1,
            (6, _) => self.waked(node, entry.number),
            _ => 0,
        };
    }

    /// What nobody ready and a budget that is made are answered by.
    fn ended(&self, is_made: bool) -> u64 {
        match (self.fault, is_made) {
            (MadeBudgetIsStop4, true) if self.order().iter().all(|&node| !self.is_ready(node)) => 4,
            (NobodyReadyIsStop0, false) | (_, true) => 0,
            (NobodyReadyIsStop2, false) => 2,
            _ => 4,
        }
    }

    /// Makes turns until a stop: stop, attempted entry and the entries made.
    fn run(&mut self, run: &Run, budget: usize) -> (u64, Entry, Vec<Entry>) {
        let mut entries = Vec::new();
        let budget = match self.fault {
            OneTurnMore => budget + 1,
            OneTurnLess => budget - 1,
            _ => budget,
        };
        while entries.len() < budget {
            let before = self.examined;
            let Some(node) = self.choose() else { return (self.ended(false), Entry::default(), entries) };
            match turn(self.program, &mut self.state, node, run.mode) {
                Ok(entry) => {
                    self.keep(&entry);
                    entries.push(entry);
                }
                Err(halt) => {
                    if self.fault == StoppedNotCounted {
                        self.examined = before;
                    }
                    return (halt.stop.into(), halt.attempted, entries);
                }
            }
        }
        if self.fault == CountsAfterTheBudget {
            self.choose();
        }
        (self.ended(true), Entry::default(), entries)
    }
}

/// The budget, if it is accepted.
fn accepted_budget(budget: u64, fault: Fault) -> Option<usize> {
    let budget = if fault == BudgetOf13Bits { budget % 8_192 } else { budget } as usize;
    let accepted = match fault {
        Budget0Accepted => 0..=4_096,
        Budget4097Accepted => 1..=4_097,
        Budget4096Refused => 1..=4_095,
        _ => 1..=4_096,
    };
    accepted.contains(&budget).then_some(budget)
}

/// The place of the first TURN, among commands that are read without tests; of the last, with that fault.
fn turn_place(job: &[u8], fault: Fault) -> Option<usize> {
    let mut turns = Vec::new();
    let mut place = 0;
    while let Some(&byte) = job.get(place) {
        let Some(row) = flow_reference::table::row(byte) else { break };
        if byte == 0x60 {
            turns.push(place);
        }
        place += 1 + row.width;
    }
    if fault == TurnAtLast {
        turns.pop()
    } else {
        turns.first().copied()
    }
}

/// The first refusal; where a fault changes the order of the tests, by its order.
fn refusal(run: &Run, turns_needed: usize, fault: Fault) -> Option<Refusal> {
    let budget = run.budget.expect("a dispatched run");
    let thirteen = accepted_budget(budget, fault).is_none().then_some(Refusal { number: 13, place: 0 });
    let decoded = decode(&run.job).err();
    let fourteen = turn_place(&run.job, fault).map(|place| Refusal { number: 14, place });
    let fourteen = fourteen.filter(|_| fault != TurnAccepted);
    let needed = [7 * turns_needed, 3_136, 4_096];
    let short = (0..3).find(|&buffer| run.lengths[buffer] < needed[buffer]);
    let short = short.map(|buffer| Refusal { number: 10 + buffer as u8, place: run.job.len() });
    let only = |refusal: Option<Refusal>, numbers: &[u8]| refusal.filter(|r| numbers.contains(&r.number));
    let tests = match fault {
        BudgetAfter1 => [only(decoded, &[1]), thirteen, decoded, fourteen, short],
        BudgetLast => [decoded, fourteen, thirteen, short, None],
        TurnBefore1To9 => [thirteen, fourteen, decoded, short, None],
        TurnBefore9 => [thirteen, decoded.filter(|r| !matches!(r.number, 9 | 19)), fourteen, decoded, short],
        TurnBefore19 => [thirteen, decoded.filter(|r| r.number != 19), fourteen, decoded, short],
        TurnAfterBuffers => [thirteen, decoded, short, fourteen, None],
        _ => [thirteen, decoded, fourteen, short, None],
    };
    tests.into_iter().flatten().next()
}

/// What a dispatcher with this fault leaves.
fn left(run: &Run, fault: Fault) -> Left {
    let budget = accepted_budget(run.budget.expect("a dispatched run"), fault).unwrap_or(0);
    let refused =
        |Refusal { number, place }| ([number.into(), place as u64, 0, 0, 0, 0, 0, 0, 0], Vec::new());
    let asked = if fault == TraceOfTurnsMade { 0 } else { budget };
    if let Some(refusal) = refusal(run, asked, fault) {
        return refused(refusal);
    }
    let program = decode(&run.job).expect("an accepted job");
    let mut wrong = Wrong::new(&program, fault);
    let (stop, attempted, entries) = wrong.run(run, budget);
    if let Some(refusal) = refusal(run, entries.len(), fault).filter(|_| fault == TraceOfTurnsMade) {
        return refused(refusal);
    }
    let [node, kind, number] = [attempted.node, attempted.kind, attempted.number].map(u64::from);
    let (turns, examined) = (entries.len() as u64, wrong.examined as u64);
    ([0, 0, stop, turns, node, kind, number, attempted.value.into(), examined], entries)
}

/// The same of the stored run.
fn stored(made: &Made) -> Left {
    let lines = made.text.lines().take_while(|line| !line.starts_with("end"));
    let entry = |line: &str| {
        let words: Vec<u32> = line.split(' ').map(|word| word.parse().expect("a number")).collect();
        Entry { node: words[0] as u8, kind: words[1] as u8, number: words[2] as u8, value: words[3] }
    };
    let ran = matches!(made.outcome, Outcome::Ran(_));
    let entries = if ran { lines.map(entry).collect() } else { Vec::new() };
    (made.outcome.numbers(), entries)
}

/// The dispatched runs that a dispatcher with this fault leaves otherwise.
fn told_apart(fault: Fault) -> usize {
    let dispatched = all().iter().filter(|made| made.run.budget.is_some());
    dispatched.filter(|made| left(&made.run, fault) != stored(made)).count()
}

#[test]
fn the_right_one() {
    assert_eq!(told_apart(Nothing), 0);
}

#[test]
fn every_wrong_one() {
    for fault in FAULTS {
        assert!(told_apart(fault) >= 2, "{fault:?}");
    }
}
