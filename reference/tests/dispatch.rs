//! The dispatcher (02, S-2 and S-4), worked by hand: choices, examined nodes, stops, refusals 13 and 14.

mod common;

use common::{bytes, dispatch_dirty, job, k1, run_dirty, MODES};
use flow_reference::generate::dispatched::without_turns;
use flow_reference::print::print_dispatched;
use flow_reference::{Mode, Outcome, Refusal};

/// Long enough for every job and budget.
const LONG: [usize; 3] = [28_672, 3_136, 4_096];

/// K1 without its turns, 47 bytes.
fn k1_dispatched() -> Vec<u8> {
    without_turns(&k1())
}

/// The entries of K1's nine turns: node 1 begins before node 0 has finished.
const ENTRIES: [&str; 9] =
    ["0 1 255 2", "0 0 0 0", "0 3 0 5", "0 6 0 7", "1 1 0 7", "0 2 0 0", "1 0 0 0", "1 5 0 7", "1 2 0 0"];

/// How many nodes are examined for each of them: one or both, the chosen one as the last.
const EXAMINED: [usize; 9] = [1, 2, 2, 2, 1, 1, 1, 2, 2];

/// What is printed of K1 with a budget of so many turns. For the choice behind the ninth nobody is examined.
fn printed(budget: usize, rest: &str) -> String {
    let turns = budget.min(9);
    let examined: usize = EXAMINED[..turns].iter().sum();
    format!("{}\n{rest}examined {examined}\n", ENTRIES[..turns].join("\n"))
}

#[test]
fn k1_with_several_budgets() {
    assert_eq!(k1_dispatched(), k1()[..47]);
    let tallies = "tally 0 1 0 1 0\ntally 1 0 1 1 0\n";
    let idle = format!("node 0 255 0 0 0\nnode 1 255 0 0 0\nvar 0 5\n{tallies}");
    let begun =
        "end 0 1 0 0 0 0\nnode 0 0 0 2 0\nnode 1 255 0 0 0\nvar 0 5\ntally 0 1 0 1 0\ntally 1 0 0 0 0\n";
    let eight = format!("end 0 8 0 0 0 0\nnode 0 255 0 0 0\nnode 1 2 9 7 0\nvar 0 5\n{tallies}");
    for mode in MODES {
        let print = |budget| print_dispatched(&k1_dispatched(), budget, mode);
        assert_eq!(print(1), printed(1, begun));
        assert_eq!(print(8), printed(8, &eight));
        assert_eq!(print(9), printed(9, &format!("end 0 9 0 0 0 0\n{idle}")), "made, nobody ready: stop 0");
        assert_eq!(print(10), printed(10, &format!("end 4 9 0 0 0 0\n{idle}")), "one turn left: stop 4");
        assert_eq!([print(12), print(4_096)], [print(10), print(10)]);
        assert!(print(9).ends_with("\nexamined 14\n") && print(12).ends_with("\nexamined 14\n"));
    }
}

/// Stop, completed turns, node, kind and examined total of a dispatched run.
fn end(job: &[u8], budget: u64, mode: Mode) -> [u64; 5] {
    let [0, 0, stop, turns, node, kind, _, _, examined] =
        dispatch_dirty(job, budget, mode, LONG, 0x5A).outcome.numbers()
    else {
        panic!("refused")
    };
    [stop, turns, node, kind, examined]
}

/// The stopped choice counts, unlike the fruitless one, and a budget for the turns before it does not come to it.
#[test]
fn stopped_choices() {
    let mut k2 = k1_dispatched();
    k2[43] = 3; // the START value: node 1 may not call with 8
    assert_eq!(end(&k2, 7, Mode::Monitored), [0, 7, 0, 0, 10]);
    assert_eq!(end(&k2, 8, Mode::Monitored), [1, 7, 1, 5, 12]);
    assert_eq!(end(&k2, 9, Mode::Monitored), [1, 7, 1, 5, 12]);
    assert_eq!(end(&k2, 9, Mode::Unmonitored), [0, 9, 0, 0, 14]);
    assert_eq!(end(&k2, 10, Mode::Unmonitored), [4, 9, 0, 0, 14]);
    let k7 = bytes("01 02 20 00 00 00 40 00 49 00 48 00 50 00 01 00 00 00");
    for mode in MODES {
        assert_eq!(end(&k7, 33, mode), [0, 33, 0, 0, 33]);
        assert_eq!(end(&k7, 34, mode), [3, 33, 0, 6, 34]);
    }
}

/// No nodes, one that is idle, and 32 of them: nobody is examined.
#[test]
fn nobody_ready_at_once() {
    for job in [bytes("01"), bytes("01 02"), job(&[("01", 1), ("02", 32)])] {
        for (mode, budget) in MODES.into_iter().flat_map(|mode| [1, 4_096].map(|budget| (mode, budget))) {
            assert_eq!(end(&job, budget, mode), [4, 0, 0, 0, 0]);
        }
    }
}

/// A node at work is ready though its queue is empty: 2 turns without a handler, 66 with the longest one. The other nodes
/// are examined before it each time but the first, when those before it are.
#[test]
fn at_work_with_an_empty_queue() {
    let start = |node: u8| [0x50, node, 7, 0, 0, 0];
    for (nodes, node, commands) in [(1, 0, 0), (2, 1, 0), (3, 1, 5), (32, 0, 64), (32, 31, 64), (32, 17, 1)] {
        let head = job(&[("01", 1), ("02", nodes)]);
        let job = [&head[..], &[0x40, node], &[0x4B].repeat(commands), &start(node)].concat();
        let (turns, nodes, first) = (commands as u64 + 2, nodes as u64, u64::from(node) + 1);
        let made = first + nodes * (turns - 1);
        for mode in MODES {
            assert_eq!(end(&job, turns, mode), [0, turns, 0, 0, made]);
            assert_eq!(end(&job, turns + 1, mode), [4, turns, 0, 0, made]);
            assert_eq!(end(&job, turns - 1, mode), [0, turns - 1, 0, 0, made - nodes]);
        }
    }
}

/// The nodes of the entries that are made.
fn served(job: &[u8], budget: u64) -> Vec<u8> {
    let ran = dispatch_dirty(job, budget, Mode::Monitored, LONG, 0);
    let Outcome::Ran(answer) = ran.outcome else { panic!("refused") };
    ran.trace.chunks(7).take(answer.turns).map(|entry| entry[0]).collect()
}

/// Three flows whose nodes never end: each is served in turn, from node 0 on, whichever START stands first. Without a
/// message at node 0 the first choice goes on to node 1.
#[test]
fn round_by_number() {
    let head = "01 02 01 02 01 02 40 00 48 00 40 01 48 00 40 02 48 00";
    let starts = ["50 02 01 00 00 00", "50 00 01 00 00 00", "50 01 01 00 00 00"];
    let all = bytes(&[head, &starts.concat()].concat());
    assert_eq!(served(&all, 8), [0, 1, 2, 0, 1, 2, 0, 1]);
    assert_eq!(end(&all, 8, Mode::Monitored), [0, 8, 0, 0, 8]);
    let two = bytes(&[head, starts[0], starts[2]].concat());
    assert_eq!(served(&two, 5), [1, 2, 1, 2, 1]);
    assert_eq!(end(&two, 5, Mode::Monitored), [0, 5, 0, 0, 2 + 1 + 2 + 1 + 2]);
}

/// Refusal and place.
fn refusal(job: &[u8], budget: u64, lengths: [usize; 3]) -> Option<(u8, usize)> {
    let both = MODES.map(|mode| {
        let ran = dispatch_dirty(job, budget, mode, lengths, 0xC3);
        let Outcome::Refused(Refusal { number, place }) = ran.outcome else { return None };
        let kept = [(ran.trace, lengths[0]), (ran.snapshot, lengths[1]), (ran.work, lengths[2])];
        assert!(kept.iter().all(|(bytes, length)| *bytes == vec![0xC3; *length]));
        Some((number, place))
    });
    assert_eq!(both[0], both[1]);
    both[0]
}

/// 13 before everything else: an empty job, one that is too long, one with turns, short buffers.
#[test]
fn budgets() {
    let jobs = [k1_dispatched(), vec![], vec![1; 16_385], bytes("02"), k1()];
    for job in &jobs {
        for budget in [0, 4_097, 4_098, 65_536, 65_537, 1 << 32, (1 << 32) + 9, 1 << 63, u64::MAX] {
            for lengths in [LONG, [0; 3]] {
                assert_eq!(refusal(job, budget, lengths), Some((13, 0)), "{budget}");
            }
        }
    }
    for budget in [1, 9, 4_095, 4_096] {
        let found = jobs.each_ref().map(|job| refusal(job, budget, LONG));
        assert_eq!(found, [None, Some((1, 0)), Some((1, 0)), Some((6, 0)), Some((14, 47))]);
    }
}

/// 14 after all other tests of the job, and at its first TURN.
#[test]
fn turns_of_a_dispatched_job() {
    for (text, number, place) in [
        ("01 02 60 00", 14, 2),
        ("01 02 02 40 01 4B 50 01 07 00 00 00 60 01 60 00 60 01", 14, 12),
        ("01 02 60 00 60 01", 6, 4),
        ("01 02 60 00 60", 3, 4),
        ("01 02 60 00 61", 2, 4),
        ("01 02 60 00 50 00 07 00 00 00", 4, 4),
        ("01 02 01 02 20 00 00 01 60 00", 7, 4),
        ("01 02 40 00 40 00 60 00", 8, 4),
        ("01 02 11 00 00 00 00 34 00 00 02 00 00 00 01 00 00 00 60 00", 15, 7),
        ("01 02 40 00 48 02 60 00", 9, 4),
        ("01 02 11 00 00 00 00 30 00 00 60 00", 19, 7),
        ("01 02 11 00 00 00 00 30 00 00 40 00 48 02 60 00", 9, 12),
    ] {
        for lengths in [LONG, [0; 3]] {
            assert_eq!(refusal(&bytes(text), 5, lengths), Some((number, place)), "{text}");
        }
    }
    let turns = |count| job(&[("01 02", 1), ("60 00", count)]);
    assert_eq!(refusal(&turns(4_096), 5, LONG), Some((14, 2)));
    assert_eq!(refusal(&turns(4_097), 5, LONG), Some((5, 8_194)));
}

/// 10 asks for the budget, though fewer turns are made; then come 11 and 12. Run with its written turns, of which it has
/// none, the same job needs no trace.
#[test]
fn buffers_by_the_budget() {
    let job = k1_dispatched();
    for (budget, trace) in [(1, 7), (9, 63), (10, 70), (4_096, 28_672)] {
        let lengths = [trace, 3_136, 4_096];
        assert_eq!(refusal(&job, budget, lengths), None);
        for short in [0, trace - 1] {
            assert_eq!(refusal(&job, budget, [short, 3_136, 4_096]), Some((10, 47)));
            assert_eq!(refusal(&job, budget, [short, 0, 0]), Some((10, 47)));
        }
        assert_eq!(refusal(&job, budget, [trace, 3_135, 4_095]), Some((11, 47)));
        assert_eq!(refusal(&job, budget, [trace, 3_136, 4_095]), Some((12, 47)));
    }
    assert_eq!(refusal(&bytes("01"), 1, [6, 3_136, 4_096]), Some((10, 1)), "no turn is made");
    let written = run_dirty(&job, Mode::Monitored, [0, 3_136, 4_096], 0).outcome;
    assert_eq!(written.numbers(), [0; 9]);
}

/// The bytes that a run hands over, and none beyond them.
#[test]
fn bytes_of_k1() {
    let written = run_dirty(&k1(), Mode::Monitored, [63, 3_136, 4_096], 0x11);
    let ran = dispatch_dirty(&k1_dispatched(), 12, Mode::Monitored, [90, 3_140, 4_100], 0xA5);
    let order = [0, 1, 2, 3, 5, 4, 6, 7, 8].map(|turn| &written.trace[7 * turn..7 * turn + 7]);
    assert_eq!(ran.trace, [order.concat(), vec![0xA5; 27]].concat());
    assert_eq!(ran.snapshot, [&written.snapshot[..24], &[0xA5; 3_116]].concat());
    assert_eq!(ran.work, [[0; 4_096].as_slice(), &[0xA5; 4]].concat());
}
