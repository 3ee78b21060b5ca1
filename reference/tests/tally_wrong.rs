//! Tallies that are plausible and wrong: the stored family tells each of them from the right one.

mod common;

use common::commands;
use common::made::runs_of;
use flow_reference::corpus::Run;
use flow_reference::dirt::dirty;
use flow_reference::output::entry_from_bytes;
use flow_reference::{tally, Entry, Outcome};

/// Started, received, taken, waiting.
type Counts = [u64; 4];

/// What a tally can be made from: the wires, the nodes of the START commands, the entries and the attempted one, the
/// waiting counts.
struct Left {
    wires: Vec<[u8; 3]>,
    starts: Vec<u8>,
    entries: Vec<Entry>,
    attempted: Entry,
    waiting: Vec<u64>,
    right: Vec<Counts>,
}

fn left(run: &Run) -> Left {
    let mut buffers = dirty(run.seed, run.lengths);
    let outcome = run.run_in(&mut buffers);
    let ([trace, snapshot, _], Outcome::Ran(answer)) = (buffers, outcome) else { panic!("refused") };
    let found = tally(&run.job, answer.turns as u64, &trace, &snapshot).expect("accepted");
    let right: Vec<Counts> = found.iter().map(|tally| tally.numbers()).collect();
    let commands = commands(&run.job);
    let of = |byte: u8| commands.iter().filter(move |command| command[0] == byte);
    Left {
        wires: of(0x20).map(|wire| [wire[1], wire[2], wire[3]]).collect(),
        starts: of(0x50).map(|start| start[1]).collect(),
        entries: trace.chunks(7).take(answer.turns).map(entry_from_bytes).collect(),
        attempted: answer.attempted,
        waiting: right.iter().map(|counts| counts[3]).collect(),
        right,
    }
}

/// How many entries of a kind there are for which this holds.
fn of_kind(left: &Left, kind: u8, holds: impl Fn(&Entry) -> bool) -> u64 {
    left.entries.iter().filter(|entry| entry.kind == kind && holds(entry)).count() as u64
}

/// Entries of kind 6, and for each the wires of which this holds.
fn wires(left: &Left, node: u8, holds: fn(&Entry, &[u8; 3], u8) -> bool) -> u64 {
    let sends = left.entries.iter().filter(|entry| entry.kind == 6);
    sends.flat_map(|entry| left.wires.iter().filter(move |wire| holds(entry, wire, node))).count() as u64
}

fn is_wired(left: &Left, entry: &Entry, node: u8) -> bool {
    left.wires.contains(&[entry.node, entry.number, node])
}

/// The targets of an entry, as the wires stand.
fn targets(left: &Left, entry: &Entry) -> Vec<u8> {
    let own = left.wires.iter().filter(|wire| wire[..2] == [entry.node, entry.number]);
    own.map(|wire| wire[2]).collect()
}

/// One count of a node, which stands at this place.
type Wrong = (&'static str, usize, fn(&Left, u8) -> u64);

const WRONG: [Wrong; 18] = [
    ("started only when it is taken", 0, |left, node| {
        of_kind(left, 1, |e| e.node == node && e.number == 255)
    }),
    ("started only if it waits", 0, |left, node| {
        left.waiting[usize::from(node)].min(left.starts.iter().filter(|&&start| start == node).count() as u64)
    }),
    ("every START", 0, |left, _| left.starts.len() as u64),
    ("received over any port", 1, |left, node| wires(left, node, |e, w, n| w[0] == e.node && w[2] == n)),
    ("received over any node's port", 1, |left, node| {
        wires(left, node, |e, w, n| w[1] == e.number && w[2] == n)
    }),
    ("wires the other way", 1, |left, node| {
        wires(left, node, |e, w, n| w[1] == e.number && w[2] == e.node && w[0] == n)
    }),
    ("counted at the sender", 1, |left, node| of_kind(left, 6, |e| e.node == node)),
    ("port 0 alone", 1, |left, node| of_kind(left, 6, |e| e.number == 0 && is_wired(left, e, node))),
    ("the first target alone", 1, |left, node| of_kind(left, 6, |e| targets(left, e).first() == Some(&node))),
    ("the last target alone", 1, |left, node| of_kind(left, 6, |e| targets(left, e).last() == Some(&node))),
    ("the sender left out", 1, |left, node| of_kind(left, 6, |e| e.node != node && is_wired(left, e, node))),
    ("calls received too", 1, |left, node| {
        of_kind(left, 6, |e| is_wired(left, e, node)) + of_kind(left, 5, |e| is_wired(left, e, node))
    }),
    ("the attempted entry too", 1, |left, node| {
        let stopped = left.attempted.kind == 6 && is_wired(left, &left.attempted, node);
        of_kind(left, 6, |e| is_wired(left, e, node)) + u64::from(stopped)
    }),
    ("what is taken from others", 1, |left, node| of_kind(left, 1, |e| e.node == node && e.number != 255)),
    ("taken when it finishes", 2, |left, node| of_kind(left, 2, |e| e.node == node)),
    ("taken of others alone", 2, |left, node| of_kind(left, 1, |e| e.node == node && e.number != node)),
    ("taken of nodes alone", 2, |left, node| of_kind(left, 1, |e| e.node == node && e.number != 255)),
    ("counted at the sender of what is taken", 2, |left, node| of_kind(left, 1, |e| e.number == node)),
];

#[test]
fn the_family_tells_them() {
    let left: Vec<Left> = runs_of("tallies").iter().map(left).collect();
    for (name, place, wrong) in WRONG {
        let differs =
            |left: &&Left| (0..).zip(&left.right).any(|(node, right)| wrong(left, node) != right[place]);
        let found = left.iter().filter(differs).count();
        assert!(found >= 2, "{name}: {found}");
    }
}
