//! Refusals in the families of the stored corpus that are about them, in the order of the jobs.

mod common;

use common::made::{outcome, runs_of};
use flow_reference::corpus::Run;
use flow_reference::{decode, Program, Refusal};

/// What the decoder says to the jobs of a family.
fn verdicts(name: &str) -> Vec<Result<Program, Refusal>> {
    runs_of(name).iter().map(|run| decode(&run.job)).collect()
}

/// `accepted` or refusal and place, of the jobs of a family.
fn verdicts_of(name: &str) -> Vec<String> {
    let line = |verdict| match verdict {
        Ok(_) => String::from("accepted"),
        Err(Refusal { number, place }) => format!("refused {number} {place}"),
    };
    verdicts(name).into_iter().map(line).collect()
}

/// The largest places that refusals have in the longest jobs.
#[test]
fn ends_of_the_longest_jobs() {
    let expected = [
        "accepted",
        "refused 1 0",
        "refused 1 0",
        "refused 1 0",
        "refused 1 0",
        "refused 5 8",
        "refused 2 16383",
        "refused 3 16383",
        "refused 4 16383",
        "refused 5 16382",
        "refused 6 16382",
    ];
    assert_eq!(verdicts_of("lengths"), expected);
}

#[test]
fn the_lowest_of_several_tests() {
    for number in 2..=6 {
        let mut lines = verdicts_of(&format!("{number} before others"));
        if number == 2 {
            // No commands of 01: a REPLY and a SPAN without operands now.
            assert_eq!([lines.remove(4), lines.remove(2)], ["refused 3 52"; 2]);
        }
        let start = format!("refused {number} ");
        assert!(lines.iter().all(|line| line.starts_with(&start)), "{number}: {lines:?}");
    }
}

/// Early refusals by late ones; the early jump too far gives way to every late refusal.
#[test]
fn the_first_of_several_commands() {
    let numbers: Vec<char> =
        verdicts_of("first goes").iter().filter_map(|line| line.chars().nth(8)).collect();
    let expected: Vec<String> =
        ["2", "4", "5", "6", "7", "8"].map(|number| number.repeat(8)).into_iter().collect();
    assert_eq!(numbers.into_iter().collect::<String>(), expected.concat() + "23456789");
}

/// The refusals of the jobs of a family, one after another; 0 for accepted ones.
fn numbers_of(name: &str) -> Vec<u8> {
    verdicts(name).iter().map(|verdict| verdict.as_ref().map_or_else(|r| r.number, |_| 0)).collect()
}

/// Jobs about SPAN. Once: cut, with the most of ARG and SPAN, damaged. In both modes: groups, names, repeats, low and
/// high, first goes.
#[test]
fn refusals_at_spans() {
    let limits = [0, 5, 5, 5, 5, 5, 3, 8, 15, 5];
    let damaged = [6, 6, 6, 6, 8, 8, 15, 15, 15, 15];
    assert_eq!(numbers_of("spans once"), [&[3; 12][..], &limits, &damaged].concat());
    let groups = [4, 4, 4, 4, 4, 4, 0];
    let names = [0, 6, 6, 0, 6, 6, 6, 6, 6, 6, 6];
    let repeats = [8, 8, 8, 8, 0, 0, 0, 0, 0, 0, 0, 0, 8];
    let low_and_high = [0, 15].repeat(7);
    let first_goes = [15, 15, 15, 15, 15, 15, 15, 15, 15, 7, 6, 8];
    let jobs = [&groups[..], &names, &repeats, &low_and_high, &first_goes].concat();
    assert_eq!(numbers_of("spans"), jobs.iter().flat_map(|&number| [number; 2]).collect::<Vec<u8>>());
}

/// Jobs about REPLY. Once: cut, with the most of them, beside other counts, damaged. In both modes: groups, between
/// others, names, repeats, close by, first goes.
#[test]
fn refusals_at_replies() {
    let limits = [0, 5, 5, 5, 5, 3, 4, 8, 6, 0, 5, 0, 5];
    let beside = [0, 5, 5, 5, 0, 5];
    let damaged = [3, 3, 5, 5, 5, 5, 5, 5, 6, 6, 6, 6, 8, 8, 8, 8];
    assert_eq!(numbers_of("replies once"), [&[3; 11][..], &limits, &beside, &damaged].concat());
    let groups = [4, 4, 4, 4, 4, 4, 4, 4, 4, 4, 0];
    let between = [6, 0, 6, 6, 6, 0, 0, 0];
    let names = [0, 6, 6, 0, 6, 6];
    let [repeats, close_by] = [&[8; 11][..], &[0; 8]];
    let first_goes = [6, 8, 8, 8, 6, 8, 8, 9, 6, 6, 15];
    let jobs = [&groups[..], &between, &names, repeats, close_by, &first_goes].concat();
    assert_eq!(numbers_of("replies"), jobs.iter().flat_map(|&number| [number; 2]).collect::<Vec<u8>>());
}

/// The numbers of the jobs of a family that has each in both modes.
fn numbers_of_pairs(name: &str) -> Vec<u8> {
    let numbers = numbers_of(name);
    assert!(numbers.chunks(2).all(|pair| pair[0] == pair[1]), "{name}");
    numbers.into_iter().step_by(2).collect()
}

/// Jobs about unused permissions in both modes: each sort beside each command; bodies; ANY beside others; two sorts; order;
/// the largest numbers; K1 with one more.
#[test]
fn refusals_at_unused_permissions() {
    // GET, PUT, PLUS, CALL of the same, then of others, in its node, then in another.
    let with = |uses: [usize; 4]| (0..16).map(move |index| if uses.contains(&index) { 0 } else { 19 });
    let [call, read, write] = [[3; 4], [0, 2, 2, 2], [1; 4]];
    let sorts: Vec<u8> = [call, call, read, write, call].into_iter().flat_map(with).collect();
    let bodies = [19, 19, 19, 19, 19, 0, 0, 0].repeat(5);
    let beside_any = [0, 19, 0, 19, 0, 19, 0, 19, 19, 19, 0];
    // With the first used, the second is unused too, unless both are of the same call.
    let several: Vec<u8> = [[0, 19, 19, 0], [0, 19, 19, 0], [19; 4], [19; 4], [0, 0, 19, 19]]
        .concat()
        .into_iter()
        .flat_map(|second| [19, second])
        .collect();
    let order = [2, 3, 4, 5, 6, 7, 7, 8, 8, 15, 15, 9, 9, 9, 0];
    let [calls, accesses] = [&[0, 19, 19, 19][..], &[0, 19, 19, 19, 19]];
    let largest = [calls, calls, accesses, accesses, calls].concat();
    let worked = [19, 19, 19, 19, 0, 19, 19, 0];
    let expected = [&sorts[..], &bodies, &beside_any, &several, &order, &largest, &worked].concat();
    assert_eq!(numbers_of_pairs("unused"), expected);
}

/// The places of 19 in jobs that are run once: in long lists, at the end of the longest job.
#[test]
fn places_of_unused_permissions() {
    let lines = verdicts_of("unused once");
    let place = |first: usize, index: usize| format!("refused 19 {}", first + 3 * index);
    let world = 2 + 7 * 64 + 5 * 32;
    let of = |count: usize| [count - 1, 0, count / 2].map(|index| place(world, index));
    let args = 128 * 7 + 127 * 11;
    let mixed = [args, 0, args + 11].map(|offset| format!("refused 19 {}", 50 + offset));
    let expected = [&of(64)[..], &of(64), &of(32), &mixed, &["accepted".to_string()]].concat();
    assert_eq!(lines[..13], expected);
    assert_eq!(lines[13], "refused 19 16013");
}

/// The refusals of the runs of a family, each job and lengths in both modes; 0 for accepted ones.
fn numbers_of_runs(name: &str) -> Vec<u64> {
    let number = |run: &Run| outcome(run).numbers()[0];
    let pairs = runs_of(name);
    let pairs = pairs.chunks(2).map(|pair| [&pair[0], &pair[1]].map(number));
    pairs.inspect(|[one, other]| assert_eq!(one, other, "{name}")).map(|[one, _]| one).collect()
}

/// A refusal at a REPLY, by 5, 6 and 8, goes before short buffers, by which the last job is refused.
#[test]
fn replies_beside_short_buffers() {
    assert_eq!(numbers_of_runs("reply buffers"), [[5; 4], [6; 4], [8; 4], [0, 10, 11, 12]].concat());
}

/// An unused permission goes before short buffers, by which the second job is refused, and behind a far jump.
#[test]
fn unused_beside_short_buffers() {
    assert_eq!(numbers_of_runs("unused buffers"), [[19; 6], [10, 10, 0, 10, 11, 12], [9; 6]].concat());
}

/// Refused for something else than the budget and turns, then with turns and for something else, then for the turns; then
/// for the budget before all.
#[test]
fn refusals_of_dispatched_jobs() {
    let alone = [1, 2, 3, 4, 5, 6, 7, 8, 9];
    let with_turns = [2, 3, 4, 5, 6, 7, 8, 15, 9, 19, 9];
    let expected = [&alone[..], &with_turns, &[14; 3], &[13; 9]].concat();
    assert_eq!(numbers_of_runs("dispatched refusals"), expected);
    let k1 = [13, 0, 0, 0, 0, 13, 13, 13, 13, 13, 13];
    let others = [1, 5, 14].map(|number| [13, number, 13, 13]).concat();
    assert_eq!(numbers_of_runs("budgets"), [&k1[..], &others].concat());
}

/// The trace buffer by the budget, then both others; 13 and 14 go before them.
#[test]
fn dispatched_beside_short_buffers() {
    let nine = [10, 10, 0, 10, 11, 12];
    let by_budget = [10, 10, 0, 10, 10, 0, 10, 0, 10];
    let expected = [&nine[..], &by_budget, &[13; 6], &[14; 3]].concat();
    assert_eq!(numbers_of_runs("dispatched buffers"), expected);
}
