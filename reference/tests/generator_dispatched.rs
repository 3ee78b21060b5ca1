//! What the generator reaches with dispatched runs (02, S-2).

mod common;

use std::collections::BTreeMap;

use common::{commands, dispatch_dirty, MODES};
use flow_reference::generate::dispatched::{accepted, any, without_turns, Dispatched};
use flow_reference::generate::{case, Kind, Random};
use flow_reference::{decode, Mode};

const LONG: [usize; 3] = [28_672, 3_136, 4_096];

/// How often runs end so: mode, refusal and stop.
fn ends(kind: Kind) -> BTreeMap<(Mode, u64, u64), usize> {
    let mut counts = BTreeMap::new();
    for index in 0..4_000 {
        let job = case(41, index, kind, usize::MAX).job;
        let Dispatched { job, budget } = any(&job, &mut Random::for_case(42, index));
        for mode in MODES {
            let [refusal, _, stop, ..] = dispatch_dirty(&job, budget, mode, LONG, 0).outcome.numbers();
            *counts.entry((mode, refusal, stop)).or_default() += 1;
        }
    }
    counts
}

#[test]
fn stops_of_valid_jobs() {
    let counts = ends(Kind::Valid);
    let monitored = [(0, 0), (0, 1), (0, 3), (0, 4), (13, 0), (14, 0)].map(|end| (Mode::Monitored, end));
    let bare = [(0, 0), (0, 3), (0, 4), (13, 0), (14, 0)].map(|end| (Mode::Unmonitored, end));
    let expected = monitored.into_iter().chain(bare).map(|(mode, (refusal, stop))| (mode, refusal, stop));
    assert!(counts.keys().copied().eq(expected), "{counts:?}");
    assert!(counts.values().all(|&count| count > 100), "{counts:?}");
}

/// Most damage is found as it is with written turns; what it did to a turn is not there.
#[test]
fn refusals_of_damaged_jobs() {
    let counts = ends(Kind::Damaged);
    for number in (1..=9).chain([13, 14, 15, 19]) {
        assert!(counts[&(Mode::Monitored, number, 0)] >= 15, "{number}: {counts:?}");
    }
}

/// What is left is the job's other commands; a broken one and all behind it stay.
#[test]
fn jobs_without_turns() {
    let broken = [0x01, 0x02, 0x60, 0, 0x02, 0x60, 0, 0xFF, 0x60, 0];
    assert_eq!(without_turns(&broken), [0x01, 0x02, 0x02, 0xFF, 0x60, 0]);
    assert_eq!(without_turns(&[0x01, 0x02, 0x60]), [0x01, 0x02, 0x60]);
    for index in 0..500 {
        let job = case(43, index, Kind::Valid, usize::MAX).job;
        let others: Vec<&[u8]> = commands(&job).into_iter().filter(|command| command[0] != 0x60).collect();
        assert_eq!(without_turns(&job), others.concat());
        assert!(decode(&without_turns(&job)).is_ok());
    }
}

/// Small and large budgets, all accepted; and those that are not, with low bits that would be.
#[test]
fn budgets() {
    let job = case(44, 0, Kind::Valid, 600).job;
    let drawn = |index, draw: fn(&[u8], &mut Random) -> Dispatched| {
        draw(&job, &mut Random::for_case(45, index)).budget
    };
    let right: Vec<u64> = (0..4_000).map(|index| drawn(index, accepted)).collect();
    assert!(right.iter().all(|budget| (1..=4_096).contains(budget)));
    let share = |from, to| right.iter().filter(|&&budget| from <= budget && budget <= to).count();
    assert!(
        share(1, 8) > 500 && share(400, 4_094) > 60 && share(4_095, 4_095) > 20 && share(4_096, 4_096) > 20
    );
    let wrong: Vec<u64> =
        (0..20_000).map(|index| drawn(index, any)).filter(|budget| !(1..=4_096).contains(budget)).collect();
    let count = |is: fn(u64) -> bool| wrong.iter().filter(|&&budget| is(budget)).count();
    assert!(count(|budget| budget == 0) > 100 && count(|budget| budget == 4_097) > 30);
    assert!(count(|budget| budget > 1 << 32 && (1..=4_096).contains(&(budget % (1 << 32)))) > 100);
    assert!(count(|budget| budget < 1 << 32 && budget > 65_536 && budget % 65_536 <= 4_096) > 30);
}
