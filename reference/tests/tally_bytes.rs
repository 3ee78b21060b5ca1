//! The tally from bytes (02, S-12): any job, any number of turns, any bytes for trace and snapshot.

mod common;

use common::{bytes, commands, k1, run_dirty, MODES};
use flow_reference::generate::{case, Kind, Random};
use flow_reference::{decode, tally, Mode, Outcome, Refusal};

/// Started, received, taken, waiting.
type Counts = [u64; 4];

fn counts(job: &[u8], turns: u64, trace: &[u8], snapshot: &[u8]) -> Vec<Counts> {
    tally(job, turns, trace, snapshot).expect("a valid job").iter().map(|tally| tally.numbers()).collect()
}

/// The trace and the snapshot of K1, with nothing behind them.
fn k1_bytes() -> (Vec<u8>, Vec<u8>) {
    let ran = run_dirty(&k1(), Mode::Monitored, [63, 3_136, 4_096], 0);
    (ran.trace, ran.snapshot[..24].to_vec())
}

/// The first turns count, as many as are asked for and as are there in full.
#[test]
fn turns_and_short_traces() {
    let (trace, snapshot) = k1_bytes();
    let after = |turns: usize| {
        let taken = [u64::from(turns > 0), u64::from(turns > 5)];
        [[1, 0, taken[0], 0], [0, u64::from(turns > 3), taken[1], 0]]
    };
    for turns in 0..=9 {
        assert_eq!(counts(&k1(), turns as u64, &trace, &snapshot), after(turns));
        for more in [0, 1, 6].into_iter().filter(|more| 7 * turns + more <= 63) {
            let short = &trace[..7 * turns + more];
            for asked in [turns as u64, 9, 10, 1 << 32, 1 << 61, 1 << 63, u64::MAX] {
                assert_eq!(counts(&k1(), asked, short, &snapshot), after(turns), "{turns} {more} {asked}");
            }
        }
    }
    let longer = [trace, [0, 1, 0, 0, 0, 0, 0].repeat(3)].concat();
    let taken = |turns| counts(&k1(), turns, &longer, &snapshot)[0][2];
    assert_eq!([8, 9, 10, 12, 13].map(taken), [1, 1, 2, 4, 4]);
}

/// Five nodes with different queues: a byte that a snapshot does not have reads as 0.
#[test]
fn short_snapshots() {
    let sends = "49 01 49 03 49 02 49 01 49 01 49 03";
    let head =
        format!("01 02 02 02 02 02 20 00 01 01 20 00 02 02 20 00 03 03 40 00 {sends} 50 00 07 00 00 00");
    let job = [bytes(&head), [0x60, 0].repeat(8)].concat();
    let ran = run_dirty(&job, Mode::Unmonitored, [56, 3_136, 4_096], 0xA5);
    let places = [9, 19, 10 + 25 + 9, 10 + 25 + 15 + 9, 10 + 25 + 15 + 20 + 9];
    let full = counts(&job, 8, &ran.trace, &ran.snapshot);
    assert_eq!(full, [[1, 0, 1, 0], [0, 3, 0, 3], [0, 1, 0, 1], [0, 2, 0, 2], [0; 4]]);
    for length in 0..=80 {
        let found = counts(&job, 8, &ran.trace, &ran.snapshot[..length]);
        for ((found, full), place) in found.iter().zip(&full).zip(places) {
            assert_eq!(found[..3], full[..3]);
            assert_eq!(found[3], if place < length { full[3] } else { 0 }, "{length}");
        }
    }
}

/// The largest waiting counts lead far beyond the bytes.
#[test]
fn wrong_waiting_counts() {
    let job = bytes("01 02 02 02");
    assert_eq!(counts(&job, 0, &[], &[255; 3_136]), [[0, 0, 0, 255]; 3]);
    assert_eq!(counts(&job, 0, &[], &[255; 1_294]), [[0, 0, 0, 255], [0; 4], [0; 4]]);
    assert_eq!(counts(&job, 0, &[], &[255; 1_295]), [[0, 0, 0, 255], [0, 0, 0, 255], [0; 4]]);
    assert_eq!(counts(&job, 0, &[], &[17; 3_136]), [[0, 0, 0, 17]; 3]);
}

/// Nodes that the job does not have, ports that no node has, and kinds that there are not count nowhere.
#[test]
fn wrong_entries() {
    let job = bytes("01 02 02 20 00 00 01 20 01 03 00");
    let none = [[0; 4]; 2];
    for [node, kind, number] in [[2, 1, 0], [31, 1, 0], [32, 1, 0], [255, 1, 255], [2, 6, 0], [32, 6, 0]] {
        assert_eq!(counts(&job, 1, &[node, kind, number, 1, 1, 1, 1], &[]), none);
    }
    for number in (1..=255).filter(|&number| number != 3) {
        for node in 0..2 {
            assert_eq!(counts(&job, 1, &[node, 6, number, 0, 0, 0, 0], &[]), none, "{number}");
        }
    }
    for kind in (0..=255).filter(|kind| ![1, 6].contains(kind)) {
        assert_eq!(counts(&job, 1, &[0, kind, 0, 0, 0, 0, 0], &[]), none, "{kind}");
    }
    assert_eq!(counts(&job, 1, &[0, 6, 0, 9, 9, 9, 9], &[]), [[0; 4], [0, 1, 0, 0]]);
    assert_eq!(counts(&job, 1, &[1, 6, 3, 9, 9, 9, 9], &[]), [[0, 1, 0, 0], [0; 4]]);
    assert_eq!(counts(&job, 1, &[1, 1, 77, 9, 9, 9, 9], &[]), [[0; 4], [0, 0, 1, 0]], "any sender");
}

/// The same, read from the bytes place by place.
fn plain(job: &[u8], turns: u64, trace: &[u8], snapshot: &[u8]) -> Vec<Counts> {
    let commands = commands(job);
    let nodes = commands.iter().filter(|command| command[0] == 2).count();
    let mut list = vec![[0; 4]; nodes];
    for start in commands.iter().filter(|command| command[0] == 0x50) {
        list[usize::from(start[1])][0] += 1;
    }
    for at in (0..(trace.len() / 7) as u64).take_while(|&at| at < turns).map(|at| 7 * at as usize) {
        let (node, kind, number) = (trace[at], trace[at + 1], trace[at + 2]);
        let wires = commands.iter().filter(|command| command.starts_with(&[0x20, node, number]));
        wires.filter(|_| kind == 6).for_each(|wire| list[usize::from(wire[3])][1] += 1);
        if kind == 1 && usize::from(node) < nodes {
            list[usize::from(node)][2] += 1;
        }
    }
    let mut part = 0;
    for own in &mut list {
        own[3] = if part + 9 < snapshot.len() { snapshot[part + 9].into() } else { 0 };
        part += 10 + 5 * own[3] as usize;
    }
    list
}

/// Bytes of any kind; in most of them every value is small, so that nodes, kinds and ports are often right.
fn garbage(random: &mut Random) -> Vec<u8> {
    let limit = random.pick(&[2, 7, 7, 8, 34, 256]);
    let length = random.pick(&[0, 6, 8, 69, 70, 700, 700, 3_136]);
    (0..length).map(|_| random.below(limit) as u8).collect()
}

#[test]
fn any_bytes() {
    let (mut counted, mut received) = (0, 0);
    for index in 0..3_000 {
        let job = case(67, index, Kind::Valid, 600).job;
        let mut random = Random::for_case(68, index);
        let turns = random.pick(&[0, 1, 9, 10, 99, 100, 101, 448, u64::MAX]);
        let (trace, snapshot) = (garbage(&mut random), garbage(&mut random));
        let found = counts(&job, turns, &trace, &snapshot);
        assert_eq!(found, plain(&job, turns, &trace, &snapshot), "{index}");
        counted += usize::from(found.iter().any(|counts| counts[2] > 0));
        received += usize::from(found.iter().any(|counts| counts[1] > 0));
    }
    assert!(counted > 700 && received > 150, "{counted} {received}");
}

/// What every run refuses, with the same number and place; no buffer and no TURN is a reason.
#[test]
fn refusals() {
    let mut numbers = [0; 20];
    for index in 0..4_000 {
        let case = case(69, index, Kind::Damaged, 600);
        let found = tally(&case.job, 9, &[1; 70], &[1; 70]).err();
        assert_eq!(found, decode(&case.job).err());
        let ran = run_dirty(&case.job, case.mode, [28_672, 3_136, 4_096], 0).outcome;
        match found {
            Some(refusal) => assert_eq!(ran, Outcome::Refused(refusal)),
            None => assert!(matches!(ran, Outcome::Ran(_))),
        }
        numbers[found.map_or(0, |refusal| usize::from(refusal.number))] += 1;
    }
    assert!(numbers[10..=14].iter().all(|&count| count == 0), "{numbers:?}");
    assert!((1..=9).chain([15, 19]).all(|number| numbers[number] > 0), "{numbers:?}");
    assert_eq!(tally(&[], 0, &[], &[]), Err(Refusal { number: 1, place: 0 }));
    assert_eq!(tally(&[1; 16_385], 0, &[], &[]), Err(Refusal { number: 1, place: 0 }));
    assert_eq!(tally(&bytes("01"), 0, &[], &[]), Ok(vec![]));
    assert_eq!(counts(&k1(), 0, &[], &[]), [[1, 0, 0, 0], [0; 4]]);
}

/// A run's bytes with other bytes behind them, as in a buffer that is longer, give the same.
#[test]
fn bytes_behind() {
    for (index, mode) in (0..200).flat_map(|index| MODES.map(|mode| (index, mode))) {
        let job = case(70, index, Kind::Valid, 600).job;
        let [one, two] = [0, 0x06].map(|dirt| {
            let ran = run_dirty(&job, mode, [28_672, 3_136, 4_096], dirt);
            let Outcome::Ran(answer) = ran.outcome else { panic!("refused") };
            let filed = counts(&job, u64::MAX, &ran.trace[..7 * answer.turns], &ran.snapshot);
            assert_eq!(filed, counts(&job, answer.turns as u64, &ran.trace, &ran.snapshot));
            filed
        });
        assert_eq!(one, two);
    }
}
