//! The stored corpus: runs in families, and what is printed of each.

mod answers;
mod budgets;
mod buffers;
mod bytes;
mod changes;
mod choices;
mod edits;
mod full;
mod groups;
mod handlers;
mod jumps;
mod lengths;
mod limits;
mod lists;
mod mend;
mod names;
mod order;
mod pairs;
mod random;
mod ranges;
mod ready;
mod repeats;
mod replies;
mod run;
mod senders;
mod sight;
mod spans;
mod stops;
mod tallies;
mod unused;
mod work;
mod worked;
mod worlds;

use std::collections::BTreeSet;

use crate::generate::dispatched::Dispatched;
use mend::all_mended;
use run::Runs;
pub use run::{Change, Run};

pub type Job = Vec<u8>;

/// Each of the jobs with each of the budgets.
fn each_with(jobs: &[Job], budgets: &[u64]) -> Vec<Dispatched> {
    let with = |job: &Job, budget| Dispatched { job: job.clone(), budget };
    jobs.iter().flat_map(|job| budgets.iter().map(move |&budget| with(job, budget))).collect()
}

/// Runs of one kind, with a name.
pub struct Family {
    pub name: &'static str,
    pub runs: Vec<Run>,
}

/// Jobs by what they are about, the hand-made ones in the order of the refusals.
fn jobs() -> Vec<(&'static str, Vec<Job>)> {
    vec![
        ("lengths", lengths::jobs()),
        ("bytes", bytes::jobs()),
        ("groups", groups::jobs()),
        ("limits", limits::jobs()),
        ("names", names::jobs()),
        ("sight", sight::jobs()),
        ("repeats", repeats::jobs()),
        ("jumps", jumps::jobs()),
        ("2 before others", order::several(2)),
        ("3 before others", order::several(3)),
        ("4 before others", order::several(4)),
        ("5 before others", order::several(5)),
        ("6 before others", order::several(6)),
        ("first goes", order::first_goes()),
        ("edits", edits::jobs()),
        ("random", random::jobs()),
    ]
}

/// Of these, the families in which permissions may be unused.
const WITH_UNUSED: [&str; 2] = ["groups", "random"];

/// All families: the worked jobs in both modes, each of the jobs above once, then what is about runs, then SPAN,
/// then REPLY, then unused permissions, then senders, then dispatched runs, then tallies. A new family goes behind all
/// others, so that the stored runs before it stay the same.
pub fn families() -> Vec<Family> {
    let mut runs = Runs::new();
    let mut list = vec![Family { name: "worked", runs: runs.pairs(&worked::jobs()) }];
    let mut seen: BTreeSet<Job> = worked::jobs().into_iter().collect();
    for (name, mut jobs) in jobs() {
        jobs.retain(|job| seen.insert(job.clone()));
        if !WITH_UNUSED.contains(&name) {
            jobs = all_mended(jobs);
        }
        list.push(Family { name, runs: jobs.iter().map(|job| runs.any(job)).collect() });
    }
    list.push(Family { name: "buffers", runs: buffers::runs(&mut runs) });
    let pairs = [
        ("accesses", stops::accesses()),
        ("long lists", lists::long_lists()),
        ("last numbers", lists::last_numbers()),
        ("not ready", stops::not_ready()),
        ("full queues", stops::full_queues()),
        ("largest states", full::states()),
        ("long runs", full::long_runs()),
        ("pairs", pairs::jobs(350)),
    ];
    list.extend(pairs.map(|(name, jobs)| Family { name, runs: runs.pairs(&jobs) }));
    list.push(Family { name: "changes", runs: changes::runs(&mut runs) });
    list.push(Family { name: "handlers", runs: runs.pairs(&handlers::jobs()) });
    list.push(Family { name: "work", runs: work::runs(&mut runs) });
    list.extend(with_spans(&mut runs));
    list.extend(with_replies(&mut runs));
    list.extend(about_unused(&mut runs));
    list.extend(about_senders(&mut runs));
    list.extend(dispatched(&mut runs));
    list.push(Family { name: "tallies", runs: tallies::runs(&mut runs) });
    list
}

/// What is about SPAN, which no job before has: some jobs once, in either mode, then pairs.
fn with_spans(runs: &mut Runs) -> [Family; 4] {
    let once = [spans::cuts(), all_mended(spans::limits()), random::damaged_by_span(2)].concat();
    [
        Family { name: "spans once", runs: once.iter().map(|job| runs.any(job)).collect() },
        Family { name: "spans", runs: runs.pairs(&all_mended(spans::jobs())) },
        Family { name: "ranges", runs: runs.pairs(&ranges::jobs()) },
        Family { name: "span pairs", runs: runs.pairs(&pairs::with_spans(12)) },
    ]
}

/// What is about REPLY, which no job before has: some jobs once, in either mode, then pairs.
fn with_replies(runs: &mut Runs) -> [Family; 5] {
    let once = [replies::cuts(), all_mended(replies::limits()), random::damaged_by_reply(2)].concat();
    [
        Family { name: "replies once", runs: once.iter().map(|job| runs.any(job)).collect() },
        Family { name: "replies", runs: runs.pairs(&all_mended(replies::jobs())) },
        Family { name: "reply buffers", runs: replies::beside_buffers(runs) },
        Family { name: "answers", runs: runs.pairs(&answers::jobs()) },
        Family { name: "reply pairs", runs: runs.pairs(&pairs::with_replies(12)) },
    ]
}

/// What is about unused permissions: some jobs once, in either mode, then pairs; and jobs with permissions for what their
/// runs do not reach.
fn about_unused(runs: &mut Runs) -> [Family; 4] {
    let once = [unused::once(), random::damaged_by_unused(4)].concat();
    [
        Family { name: "unused once", runs: once.iter().map(|job| runs.any(job)).collect() },
        Family { name: "unused", runs: runs.pairs(&unused::jobs()) },
        Family { name: "unused buffers", runs: unused::beside_buffers(runs) },
        Family { name: "used pairs", runs: runs.pairs(&pairs::with_unreached(24)) },
    ]
}

/// What is about senders: pairs alone.
fn about_senders(runs: &mut Runs) -> [Family; 3] {
    [
        Family { name: "senders", runs: runs.pairs(&senders::jobs()) },
        Family { name: "sender buffers", runs: senders::beside_buffers(runs) },
        Family { name: "sender pairs", runs: runs.pairs(&pairs::with_senders(8)) },
    ]
}

/// Dispatched runs: pairs alone, but for the longest. The last family is about the ready count.
fn dispatched(runs: &mut Runs) -> [Family; 9] {
    [
        Family { name: "dispatched", runs: runs.dispatched(&worked::dispatched()) },
        Family { name: "choices", runs: runs.dispatched(&choices::jobs()) },
        Family { name: "budgets", runs: runs.dispatched(&budgets::jobs()) },
        Family { name: "longest", runs: budgets::longest(runs) },
        Family { name: "dispatched refusals", runs: runs.dispatched(&budgets::refusals()) },
        Family { name: "dispatched buffers", runs: budgets::beside_buffers(runs) },
        Family { name: "dispatched changes", runs: changes::dispatched(runs) },
        Family { name: "dispatched pairs", runs: runs.dispatched(&pairs::dispatched(8)) },
        Family { name: "ready counts", runs: runs.dispatched(&ready::jobs()) },
    ]
}

/// The runs of all families.
pub fn runs() -> Vec<Run> {
    families().into_iter().flat_map(|family| family.runs).collect()
}

/// All records in one file.
pub fn records(runs: &[Run]) -> Vec<u8> {
    runs.iter().flat_map(Run::record).collect()
}

/// The texts of all runs in one file.
pub fn texts(runs: &[Run]) -> String {
    runs.iter().map(Run::text).collect()
}
