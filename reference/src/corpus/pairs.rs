//! The generator's valid jobs with runs of 10 to 60 turns, for both modes: of 01's commands alone, with SPAN, with
//! REPLY, with permissions that the run does not need, with several senders at one node; and dispatched ones.

use super::Job;
use crate::generate::dispatched::{without_turns, Dispatched};
use crate::generate::{draw_case, Kind, Random};
use crate::outcome::{kind, stop};
use crate::state::FROM_START;
use crate::table::MAX_NODES;
use crate::{decode, Entry, Mode, Program, Runner, Step};

const SEED: u64 = 0x0A1B_0C2D;

/// So many jobs of 01's commands alone whose unmonitored run completes 10 to 60 turns.
pub fn jobs(count: usize) -> Vec<Job> {
    let random = |index| Random::for_case(SEED, index).of_01();
    drawn(random).take(count).collect()
}

/// So many jobs with a call whose node and function have a SPAN.
pub fn with_spans(count: usize) -> Vec<Job> {
    let jobs = drawn(|index| Random::for_case(!SEED, index).without_replies());
    jobs.filter(|job| job.len() < 400 && has_call_by_span(job)).take(count).collect()
}

/// So many jobs with a call that gets another answer than FUN's.
pub fn with_replies(count: usize) -> Vec<Job> {
    let jobs = drawn(|index| Random::for_case(SEED + 1, index).without_unused());
    jobs.filter(|job| job.len() < 400 && has_call_by_reply(job)).take(count).collect()
}

/// So many jobs with READ or WRITE for what the run does not reach.
pub fn with_unreached(count: usize) -> Vec<Job> {
    let jobs = drawn(|index| Random::for_case(SEED + 2, index).without_senders());
    jobs.filter(|job| job.len() < 400 && has_unreached(job)).take(count).collect()
}

/// So many jobs with a node that takes messages of three senders, itself among them or not, START not.
pub fn with_senders(count: usize) -> Vec<Job> {
    let jobs = drawn(|index| Random::for_case(SEED + 3, index));
    jobs.filter(|job| job.len() < 400 && has_senders(job)).take(count).collect()
}

/// So many dispatched jobs for each stop of the monitored run; it completes at least 8 turns, the unmonitored one at most 60.
pub fn dispatched(count: usize) -> Vec<Dispatched> {
    let job = |index: u64| {
        let mut random = Random::for_case(SEED + 4, index);
        let job = without_turns(&draw_case(&mut random, Kind::Valid, 500).job);
        Dispatched { job, budget: random.between(8, 60) as u64 }
    };
    let mut jobs = Vec::new();
    for stop in [stop::TURNS_OUT, stop::FORBIDDEN, stop::QUEUE_FULL, stop::NOBODY_READY] {
        let is_wanted = |job: &Dispatched| matches!(ending(job), (found, 8..) if found == stop);
        jobs.extend((0..).map(job).filter(is_wanted).take(count));
    }
    jobs
}

/// Stop and completed turns of the monitored dispatched run.
fn ending(job: &Dispatched) -> (u8, usize) {
    let program = decode(&job.job).expect("a valid job");
    let mut runner = Runner::dispatched(&program, Mode::Monitored, job.turns());
    loop {
        if let Step::Stopped(halt) = runner.step() {
            return (halt.stop, runner.turns());
        }
    }
}

/// Whether a node of the unmonitored run takes messages of three senders.
fn has_senders(job: &[u8]) -> bool {
    let mut senders = [0u32; MAX_NODES];
    for entry in entries(&decode(job).expect("a valid job")) {
        if entry.kind == kind::BEGIN && entry.number != FROM_START {
            senders[usize::from(entry.node)] |= 1 << entry.number;
        }
    }
    senders.iter().any(|senders| senders.count_ones() > 2)
}

/// Whether some READ or WRITE permits no entry of the unmonitored run.
fn has_unreached(job: &[u8]) -> bool {
    let program = decode(job).expect("a valid job");
    let mut nodes = program.nodes.clone();
    for entry in entries(&program) {
        let node = &mut nodes[usize::from(entry.node)];
        match entry.kind {
            kind::READ => node.readable &= !(1 << entry.number),
            kind::WRITE => node.writable &= !(1 << entry.number),
            _ => {}
        }
    }
    nodes.iter().any(|node| node.readable | node.writable != 0)
}

/// Whether a call of the unmonitored run gets another answer than FUN's.
fn has_call_by_reply(job: &[u8]) -> bool {
    let program = decode(job).expect("a valid job");
    let is_other =
        |call: &Entry| program.answer(call.number, call.value) != program.functions[usize::from(call.number)];
    entries(&program).iter().any(|entry| entry.kind == kind::CALL && is_other(entry))
}

/// Whether a call of the unmonitored run is of the node and function of a SPAN.
fn has_call_by_span(job: &[u8]) -> bool {
    let program = decode(job).expect("a valid job");
    let spans: Vec<(u8, u8)> = program.spans.iter().map(|span| (span.node, span.function)).collect();
    let is_call = |entry: &Entry| entry.kind == kind::CALL && spans.contains(&(entry.node, entry.number));
    entries(&program).iter().any(is_call)
}

/// Jobs whose unmonitored run completes 10 to 60 turns, by the generators of the indices.
fn drawn(random: impl Fn(u64) -> Random) -> impl Iterator<Item = Job> {
    let longest = [150, 450, 900, 1_400];
    let job = move |index: u64| {
        draw_case(&mut random(index), Kind::Valid, longest[index as usize % longest.len()]).job
    };
    (0..).map(job).filter(|job| (10..=60).contains(&turns(job)))
}

/// Completed turns of the unmonitored run.
fn turns(job: &[u8]) -> usize {
    entries(&decode(job).expect("a valid job")).len()
}

/// The entries of the unmonitored run.
fn entries(program: &Program) -> Vec<Entry> {
    let mut runner = Runner::new(program, Mode::Unmonitored);
    let mut list = Vec::new();
    while let Step::Completed(entry) = runner.step() {
        list.push(entry);
    }
    list
}
