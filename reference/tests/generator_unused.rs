//! What the generator reaches with unused and used permissions (02, S-7).

mod common;

use std::collections::{BTreeMap, BTreeSet};

use common::{commands, run_dirty};
use flow_reference::generate::{case, draw_case, Kind, Random};
use flow_reference::table::{ANY, ARG, READ, SPAN, WRITE};
use flow_reference::{decode, Mode, Outcome, Refusal};

/// The permissions of a job with their places; those without a use by their own node's handler are unused.
fn unused(job: &[u8]) -> Vec<(usize, u8)> {
    let (mut place, mut node) = (0, 0);
    let (mut permissions, mut uses) = (Vec::new(), BTreeSet::new());
    for command in commands(job) {
        match *command {
            [0x30..=0x34, ..] => permissions.push((place, command)),
            [0x40, opened] => node = opened,
            [0x43 | 0x46, variable] => drop(uses.insert((READ, node, variable))),
            [0x44, variable] => drop(uses.insert((WRITE, node, variable))),
            [0x4A, function] => drop(uses.extend([ANY, ARG, SPAN].map(|sort| (sort, node, function)))),
            _ => {}
        }
        place += command.len();
    }
    permissions.retain(|(_, one)| !uses.contains(&(one[0], one[1], one[2])));
    permissions.into_iter().map(|(place, one)| (place, one[0])).collect()
}

/// Of mixed cases an eighth and some more are refused by 19: at many places, for each sort, with and without short
/// buffers, with one unused permission and with several, behind used ones; always at the first unused one.
#[test]
fn unused_permissions_of_mixed_cases() {
    let (mut places, mut numbers) = (BTreeSet::new(), BTreeMap::new());
    let (mut count, mut short, mut several, mut later) = (0, 0, 0, 0);
    for index in 0..4_000 {
        let case = case(21, index, Kind::Mixed, usize::MAX);
        let Outcome::Refused(Refusal { number: 19, place }) =
            run_dirty(&case.job, case.mode, case.lengths, 0).outcome
        else {
            continue;
        };
        let unused = unused(&case.job);
        assert_eq!(unused[0].0, place);
        count += 1;
        places.insert(place);
        *numbers.entry(unused[0].1).or_insert(0) += 1;
        short += usize::from(case.lengths[1] < 3_136 || case.lengths[2] < 4_096);
        several += usize::from(unused.len() > 1);
        later += usize::from(commands(&case.job[..place]).iter().any(|one| one[0] / 16 == 3));
    }
    assert!((400..650).contains(&count), "{count}");
    assert!(places.len() > 150, "{places:?}");
    assert!(numbers.len() == 5 && numbers.values().all(|&count| count >= 50), "{numbers:?}");
    assert!(short > 40 && several > 60 && later > 150, "{short} {several} {later}");
}

/// Damaged jobs that are refused for something else have unused permissions as well, often enough for every number.
#[test]
fn other_refusals_of_jobs_with_unused_permissions() {
    let mut counts: BTreeMap<u8, usize> = BTreeMap::new();
    for index in 0..6_000 {
        let case = case(22, index, Kind::Damaged, usize::MAX);
        let Some((_, refusal)) = case.damage else { continue };
        let is_whole = matches!(refusal.number, 6..=9 | 15);
        if is_whole && !unused(&case.job).is_empty() {
            *counts.entry(refusal.number).or_default() += 1;
        }
    }
    assert!([6, 7, 8, 9, 15].iter().all(|number| counts[number] > 50), "{counts:?}");
}

/// Valid jobs have no unused permission, and every sort is there in many of them; the runs end with every stop.
#[test]
fn valid_jobs_use_their_permissions() {
    let (mut sorts, mut stops) = (BTreeMap::new(), BTreeMap::new());
    for index in 0..2_000 {
        let job = case(23, index, Kind::Valid, usize::MAX).job;
        assert!(unused(&job).is_empty() && decode(&job).is_ok());
        let of_job: BTreeSet<u8> =
            commands(&job).iter().map(|one| one[0]).filter(|byte| byte / 16 == 3).collect();
        of_job.into_iter().for_each(|sort| *sorts.entry(sort).or_insert(0) += 1);
        let Outcome::Ran(answer) = run_dirty(&job, Mode::Monitored, [28_672, 3_136, 4_096], 0).outcome else {
            panic!("{job:?}")
        };
        *stops.entry(answer.stop).or_insert(0) += 1;
    }
    assert!(sorts.len() == 5 && sorts.values().all(|&count| count > 400), "{sorts:?}");
    assert!(stops.len() == 4 && stops.values().all(|&count| count > 150), "{stops:?}");
}

/// As they were drawn before, valid jobs have no unused permissions either, and no reason is one.
#[test]
fn jobs_without_unused_permissions() {
    for index in 0..300 {
        let mut random = Random::for_case(24, index).without_unused();
        assert!(unused(&draw_case(&mut random, Kind::Valid, usize::MAX).job).is_empty());
        let damage = draw_case(&mut random, Kind::Damaged, usize::MAX).damage;
        assert!(damage.is_none_or(|(reason, _)| !reason.needs_unused()));
    }
}
