//! Buffers: refusals 10 to 12, and which bytes a run changes.

mod common;

use std::collections::BTreeSet;

use common::{bytes, job, k1, run_dirty, Ran, MODES};
use flow_reference::generate::{case, Kind};
use flow_reference::output::snapshot_length;
use flow_reference::{decode, Mode, Outcome, Refusal};

/// K1 has 9 turns and 65 bytes.
const EXACT: [usize; 3] = [63, 3_136, 4_096];

fn refusal(job: &[u8], lengths: [usize; 3]) -> Option<(u8, usize)> {
    match run_dirty(job, Mode::Monitored, lengths, 0).outcome {
        Outcome::Refused(Refusal { number, place }) => Some((number, place)),
        Outcome::Ran(_) => None,
    }
}

#[test]
fn short_exact_and_longer() {
    let job = k1();
    assert_eq!(refusal(&job, EXACT), None);
    assert_eq!(refusal(&job, EXACT.map(|length| length + 1)), None);
    assert_eq!(refusal(&job, [62, 3_136, 4_096]), Some((10, 65)));
    assert_eq!(refusal(&job, [63, 3_135, 4_096]), Some((11, 65)));
    assert_eq!(refusal(&job, [63, 3_136, 4_095]), Some((12, 65)));
}

#[test]
fn refusals_by_number() {
    let job = k1();
    assert_eq!(refusal(&job, [62, 3_135, 4_095]), Some((10, 65)));
    assert_eq!(refusal(&job, [0, 0, 0]), Some((10, 65)));
    assert_eq!(refusal(&job, [63, 0, 0]), Some((11, 65)));
    // The job's own refusals come first.
    assert_eq!(refusal(&bytes("02"), [0, 0, 0]), Some((6, 0)));
    assert_eq!(refusal(&bytes("01 02 40 00 48 02"), [0, 0, 0]), Some((9, 4)));
    // No turns, no trace; the other two are always asked for in full.
    assert_eq!(refusal(&bytes("01"), [0, 3_136, 4_096]), None);
    assert_eq!(refusal(&bytes("01"), [0, 3_135, 4_096]), Some((11, 1)));
    assert_eq!(refusal(&bytes("01"), [0, 3_136, 4_095]), Some((12, 1)));
}

#[test]
fn trace_and_snapshot_bytes_of_k1() {
    let ran = run_dirty(&k1(), Mode::Monitored, EXACT, 0xA5);
    let trace = bytes(
        "00 01 FF 02 00 00 00  00 00 00 00 00 00 00  00 03 00 05 00 00 00  00 06 00 07 00 00 00
         00 02 00 00 00 00 00  01 01 00 07 00 00 00  01 00 00 00 00 00 00  01 05 00 07 00 00 00
         01 02 00 00 00 00 00",
    );
    assert_eq!(ran.trace, trace);
    let snapshot = bytes("FF 00 00 00 00 00 00 00 00 00  FF 00 00 00 00 00 00 00 00 00  05 00 00 00");
    assert_eq!(ran.snapshot[..24], snapshot);
}

#[test]
fn longest_snapshot() {
    // Every one of 32 nodes sends itself 16 messages; one flow a START needs 8 flows of 4 nodes,
    // so the first node of each flow sends to all four.
    let mut job = bytes(&"01 02 02 02 02".repeat(8));
    (0..64).for_each(|value| job.extend([0x10, 2, 0, value, 1, 2, 3]));
    for node in 0..32 {
        job.extend([0x20, node / 4 * 4, 0, node]);
    }
    for flow in 0..8 {
        job.extend([0x40, flow * 4]);
        job.extend([0x49, 0].repeat(16));
    }
    (0..8).for_each(|flow| job.extend([0x50, flow * 4, 1, 0, 0, 0]));
    (0..8).for_each(|flow| job.extend([0x60, flow * 4].repeat(17)));
    let ran = run_dirty(&job, Mode::Monitored, [7 * 8 * 17, 3_136, 4_096], 0x77);
    let Outcome::Ran(answer) = ran.outcome else { panic!("refused") };
    assert_eq!((answer.stop, answer.turns), (0, 8 * 17));
    assert_eq!(snapshot_length(&decode(&job).unwrap(), &ran.snapshot), 3_136);
    assert_eq!(ran.snapshot[..15], [16, 0, 0, 0, 0, 1, 0, 0, 0, 16, 0, 0, 0, 0, 0]);
    assert_eq!(
        ran.snapshot[2_880 - 5..2_880],
        [0, 0, 0, 0, 28],
        "the last message of node 31, sent by node 28"
    );
    assert_eq!(ran.snapshot[3_132..], [63, 1, 2, 3]);
}

fn unchanged(bytes: &[u8], from: usize, dirt: u8) -> bool {
    bytes[from..] == vec![dirt; bytes.len() - from]
}

/// Every byte beyond what the paper names is as it was; gives the named bytes.
fn check_bytes<'a>(job: &[u8], ran: &'a Ran, dirt: u8) -> Option<(&'a [u8], &'a [u8])> {
    let Outcome::Ran(answer) = ran.outcome else {
        assert!(unchanged(&ran.trace, 0, dirt));
        assert!(unchanged(&ran.snapshot, 0, dirt));
        assert!(unchanged(&ran.work, 0, dirt));
        return None;
    };
    let trace = 7 * answer.turns;
    let snapshot = snapshot_length(&decode(job).unwrap(), &ran.snapshot);
    assert!(unchanged(&ran.trace, trace, dirt));
    assert!(unchanged(&ran.snapshot, snapshot, dirt));
    assert_eq!(ran.work[..4_096], [0; 4_096]);
    assert!(unchanged(&ran.work, 4_096, dirt));
    Some((&ran.trace[..trace], &ran.snapshot[..snapshot]))
}

/// Lengths of work buffers, exact and longer.
const LONG_WORK: [usize; 6] = [4_096, 4_097, 8_192, 16_383, 16_384, 16_385];

/// Jobs whose runs end with stop 0, 1 (monitored), 2 and 3: K1, K2, K5 and K7; and one without turns.
fn ending_with_each_stop() -> [Vec<u8>; 5] {
    let [mut k2, mut k5] = [k1(), k1()];
    k2[43] = 3; // the START value
    k5[48] = 1; // the first turn's node
    let k7 = job(&[("01 02 20 00 00 00 40 00 49 00 48 00 50 00 01 00 00 00", 1), ("60 00", 34)]);
    [k1(), k2, k5, k7, bytes("01")]
}

/// Of a longer work buffer, exactly the first 4,096 bytes are cleared, with every stop.
#[test]
fn longer_work_buffers() {
    let mut stops = BTreeSet::new();
    for (job, mode) in ending_with_each_stop().iter().flat_map(|job| MODES.map(|mode| (job, mode))) {
        for (work, dirt) in LONG_WORK.into_iter().flat_map(|work| [0x5A, 0xC3].map(|dirt| (work, dirt))) {
            let ran = run_dirty(job, mode, [7 * 34, 3_136, work], dirt);
            let Outcome::Ran(answer) = ran.outcome else { panic!("refused") };
            stops.insert(answer.stop);
            assert_eq!(ran.work, [vec![0; 4_096], vec![dirt; work - 4_096]].concat(), "{work}");
        }
    }
    assert!(stops.into_iter().eq(0..=3));
}

/// Fewer than 4,096 bytes are refused by 12, at the job's length, and no byte is changed.
#[test]
fn shorter_work_buffers() {
    for (job, mode) in ending_with_each_stop().iter().flat_map(|job| MODES.map(|mode| (job, mode))) {
        for work in [0, 1, 2_048, 4_095] {
            let ran = run_dirty(job, mode, [7 * 34, 3_136, work], 0x5A);
            assert_eq!(ran.outcome, Outcome::Refused(Refusal { number: 12, place: job.len() }));
            assert_eq!(check_bytes(job, &ran, 0x5A), None);
        }
    }
}

#[test]
fn bytes_of_generated_cases() {
    let (mut accepted, mut refused) = (0, 0);
    for index in 0..1_000 {
        let case = case(11, index, Kind::Mixed, usize::MAX);
        for mode in MODES {
            let one = run_dirty(&case.job, mode, case.lengths, 0x5A);
            let two = run_dirty(&case.job, mode, case.lengths, 0xC3);
            assert_eq!(one.outcome, two.outcome);
            let (first, second) = (check_bytes(&case.job, &one, 0x5A), check_bytes(&case.job, &two, 0xC3));
            assert_eq!(first, second, "the buffers' old bytes do not matter");
            match first {
                Some(_) => accepted += 1,
                None => refused += 1,
            }
        }
    }
    assert!(accepted > 500 && refused > 300, "{accepted} accepted, {refused} refused");
}
