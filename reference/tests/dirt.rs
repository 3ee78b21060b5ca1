//! Dirty buffers, and whether a run kept what it has to keep.

mod common;

use common::k1;
use flow_reference::dirt::{dirt, dirty, handed_over, is_kept, Buffers};
use flow_reference::generate::buffers::Lengths;
use flow_reference::{run, Mode};

#[test]
fn bytes() {
    for (seed, length) in [(0, 0), (7, 1), (255, 256), (200, 1_000)] {
        let formula: Vec<u8> = (0..length).map(|i| ((usize::from(seed) + 31 * i) % 256) as u8).collect();
        assert_eq!(dirt(seed, length), formula);
    }
}

/// Buffers before and after a run of a job, and how many bytes it handed over.
fn ran(job: &[u8], lengths: Lengths) -> (Buffers, Buffers, Lengths) {
    let before = dirty(77, lengths);
    let mut after = before.clone();
    let [trace, snapshot, work] = &mut after;
    let outcome = run(job, Mode::Monitored, trace, snapshot, work);
    let handed_over = handed_over(job, &outcome, &after[1]);
    (before, after, handed_over)
}

/// The bytes whose change is found, of each buffer: the first and the last.
fn found(job: &[u8], lengths: Lengths) -> [Option<(usize, usize)>; 3] {
    let (before, after, handed_over) = ran(job, lengths);
    assert!(is_kept(&before, &after, handed_over));
    [0, 1, 2].map(|buffer| {
        let is_found = |&at: &usize| {
            let mut changed = after.clone();
            changed[buffer][at] ^= 1;
            !is_kept(&before, &changed, handed_over)
        };
        let places: Vec<usize> = (0..lengths[buffer]).filter(is_found).collect();
        let (first, last) = (*places.first()?, *places.last()?);
        assert_eq!(places.len(), last - first + 1, "one stretch of bytes");
        Some((first, last))
    })
}

/// K1 hands over 9 entries, two idle nodes and a variable.
#[test]
fn changes_of_a_run() {
    let expected = [Some((63, 69)), Some((24, 3_141)), Some((0, 4_101))];
    assert_eq!(found(&k1(), [70, 3_142, 4_102]), expected);
    assert_eq!(found(&k1(), [63, 3_136, 4_096]), [None, Some((24, 3_135)), Some((0, 4_095))]);
    assert_eq!(found(&k1(), [63, 3_136, 16_385]), [None, Some((24, 3_135)), Some((0, 16_384))]);
}

#[test]
fn changes_of_a_refusal() {
    let expected = [Some((0, 62)), Some((0, 3_134)), Some((0, 99))];
    assert_eq!(found(&k1(), [63, 3_135, 100]), expected);
    assert_eq!(found(&[], [3, 2, 1]), [Some((0, 2)), Some((0, 1)), Some((0, 0))]);
}
