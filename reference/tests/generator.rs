//! What the generator reaches.

mod common;

use std::collections::{BTreeMap, BTreeSet};

use common::run_dirty;
use flow_reference::generate::count::{fill, pad, Count, COUNTS};
use flow_reference::generate::damage::damage;
use flow_reference::generate::{case, draw_case, valid, Kind, Random, Reason};
use flow_reference::program::{arg_key, Instruction, Span};
use flow_reference::table::{REPLY, SPAN};
use flow_reference::{decode, Entry, Mode, Outcome, Program, Runner, State, Step};

#[test]
fn every_reason_brings_its_refusal() {
    let mut random = Random::new(5);
    for reason in Reason::all() {
        let mut places = BTreeSet::new();
        for _ in 0..400 {
            let mut plan = valid::medium(&mut random);
            let Some(damaged) = damage(reason, &mut plan, &mut random) else { continue };
            assert_eq!(damaged.refusal.number, reason.number());
            assert_eq!(decode(&damaged.job).err(), Some(damaged.refusal), "{reason:?}");
            places.insert(damaged.refusal.place);
            if places.len() == 8 {
                break;
            }
        }
        let least = match reason {
            Reason::Empty | Reason::TooLong | Reason::TooLongAndBroken | Reason::NodeBeforeFlow => 1,
            Reason::OverCount(Count::Nodes) => 3,
            _ => 8,
        };
        assert!(places.len() >= least, "{reason:?} at {places:?}");
    }
}

#[test]
fn full_counts_are_accepted() {
    let mut random = Random::new(6);
    for count in COUNTS {
        let mut filled = 0;
        while filled < 5 {
            let mut plan = valid::medium(&mut random);
            plan.drop_unused();
            if fill(&mut plan, &mut random, count).is_some() {
                assert_eq!(decode(&plan.bytes()).err(), None, "{count:?}");
                filled += 1;
            }
        }
    }
    let mut plan = valid::medium(&mut random);
    plan.drop_unused();
    pad(&mut plan, &mut random, 16_384).unwrap();
    assert_eq!(plan.bytes().len(), 16_384);
    assert_eq!(decode(&plan.bytes()).err(), None);
}

#[test]
fn stops_and_refusals_of_mixed_cases() {
    let mut stops = BTreeMap::new();
    let mut refusals = BTreeMap::new();
    let mut reasons = BTreeSet::new();
    for index in 0..7_000 {
        let case = case(19, index, Kind::Mixed, usize::MAX);
        let outcome = run_dirty(&case.job, case.mode, case.lengths, 0).outcome;
        if let Some((reason, refusal)) = case.damage {
            assert_eq!(outcome, Outcome::Refused(refusal), "{reason:?}");
            reasons.insert(reason);
        }
        match outcome {
            Outcome::Ran(answer) => {
                *stops.entry((case.mode == Mode::Monitored, answer.stop)).or_insert(0) += 1
            }
            Outcome::Refused(refusal) => *refusals.entry(refusal.number).or_insert(0) += 1,
        }
    }
    let monitored = [0, 1, 2, 3].map(|stop| (true, stop));
    let unmonitored = [0, 2, 3].map(|stop| (false, stop));
    let expected: BTreeSet<(bool, u8)> = monitored.into_iter().chain(unmonitored).collect();
    assert_eq!(stops.keys().copied().collect::<BTreeSet<_>>(), expected);
    assert!(stops.values().all(|&count| count >= 100), "{stops:?}");
    assert!(refusals.keys().copied().eq((1..=12).chain([15, 19])), "{refusals:?}");
    assert!(refusals.values().all(|&count| count >= 30), "{refusals:?}");
    let missing: Vec<Reason> = Reason::all().into_iter().filter(|reason| !reasons.contains(reason)).collect();
    assert!(missing.is_empty(), "{missing:?}");
}

/// How often valid jobs show a trait.
#[derive(Debug, Default)]
struct Traits {
    long_runs: usize,
    full_schedules: usize,
    some_targets_full: usize,
    lower_target_not_full: usize,
    wraparounds: usize,
    taken_jumps: usize,
    args_beside_any: usize,
    entry_kinds: [usize; 7],
}

impl Traits {
    fn note_entry(&mut self, program: &Program, before: &State, after: &State, entry: &Entry) {
        self.entry_kinds[usize::from(entry.kind)] += 1;
        let node = usize::from(entry.node);
        let (before, after) = (&before.nodes[node], &after.nodes[node]);
        match program.instruction(entry.node, before.position) {
            Some(Instruction::Add(_) | Instruction::Plus(_)) => {
                self.wraparounds += usize::from(after.accumulator < before.accumulator);
            }
            Some(Instruction::JumpZ(_)) => {
                self.taken_jumps += usize::from(after.position != before.position + 1);
            }
            _ => {}
        }
        let any = program.nodes[node].any >> (entry.number % 32) & 1 == 1;
        let beside = |key: &&u64| **key >> 32 == u64::from(entry.node) << 8 | u64::from(entry.number);
        if entry.kind == 5 && any && program.args.iter().find(beside).is_some() {
            self.args_beside_any += 1;
        }
    }

    fn note_full(&mut self, program: &Program, state: &State, attempted: &Entry) {
        let targets = program.nodes[usize::from(attempted.node)].wires[usize::from(attempted.number)];
        let targets: Vec<u8> = (0..32).filter(|target| targets >> target & 1 == 1).collect();
        if targets.iter().any(|&target| !state.is_full(target)) {
            self.some_targets_full += 1;
            self.lower_target_not_full += usize::from(!state.is_full(targets[0]));
        }
    }

    fn note_run(&mut self, program: &Program) {
        let mut runner = Runner::new(program, Mode::Unmonitored);
        loop {
            let before = runner.state().clone();
            match runner.step() {
                Step::Completed(entry) => self.note_entry(program, &before, runner.state(), &entry),
                Step::Stopped(halt) => {
                    if halt.stop == 3 {
                        self.note_full(program, runner.state(), &halt.attempted);
                    }
                    break;
                }
            }
        }
        self.long_runs += usize::from(runner.turns() >= 100);
        self.full_schedules += usize::from(runner.turns() == 4_096);
    }
}

#[test]
fn traits_of_valid_jobs() {
    let mut traits = Traits::default();
    for index in 0..2_000 {
        let case = case(8, index, Kind::Valid, usize::MAX);
        traits.note_run(&decode(&case.job).expect("a valid job"));
    }
    assert!(traits.long_runs > 300, "{traits:?}");
    assert!(traits.full_schedules > 5, "{traits:?}");
    assert!(traits.some_targets_full > 50, "{traits:?}");
    assert!(traits.lower_target_not_full > 20, "{traits:?}");
    assert!(traits.wraparounds > 500, "{traits:?}");
    assert!(traits.taken_jumps > 500, "{traits:?}");
    assert!(traits.args_beside_any > 50, "{traits:?}");
    assert!(traits.entry_kinds.iter().all(|&count| count > 2_000), "{traits:?}");
}

/// How often a call that ANY and ARG do not permit meets a SPAN of its node and function so: it is made with the
/// argument at an end, inside or alone there; the run stops at it with the argument one below or one above.
#[derive(Debug, Default)]
struct Meetings {
    low_end: usize,
    high_end: usize,
    inside: usize,
    one_argument: usize,
    one_below: usize,
    one_above: usize,
}

/// The SPAN permissions of a call's node and function.
fn spans_of<'p>(program: &'p Program, call: &Entry) -> impl Iterator<Item = Span> + 'p {
    let call = (call.node, call.number);
    program.spans.iter().copied().filter(move |span| (span.node, span.function) == call)
}

impl Meetings {
    fn note_call(&mut self, program: &Program, call: &Entry) {
        let has_any = program.nodes[usize::from(call.node)].any >> call.number & 1 == 1;
        if has_any || program.args.contains(&arg_key(call.node, call.number, call.value)) {
            return;
        }
        for Span { low, high, .. } in spans_of(program, call) {
            let value = call.value;
            self.low_end += usize::from(low == value && value < high);
            self.high_end += usize::from(low < value && value == high);
            self.inside += usize::from(low < value && value < high);
            self.one_argument += usize::from(low == value && value == high);
        }
    }

    fn note_stop(&mut self, program: &Program, call: &Entry) {
        for Span { low, high, .. } in spans_of(program, call) {
            self.one_below += usize::from(call.value.checked_add(1) == Some(low));
            self.one_above += usize::from(call.value.checked_sub(1) == Some(high));
        }
    }

    fn note_run(&mut self, program: &Program) {
        let mut runner = Runner::new(program, Mode::Monitored);
        loop {
            match runner.step() {
                Step::Completed(entry) if entry.kind == 5 => self.note_call(program, &entry),
                Step::Completed(_) => {}
                Step::Stopped(halt) if halt.attempted.kind == 5 => {
                    return self.note_stop(program, &halt.attempted)
                }
                Step::Stopped(_) => return,
            }
        }
    }
}

#[test]
fn calls_beside_spans() {
    let mut meetings = Meetings::default();
    for index in 0..2_000 {
        meetings.note_run(&decode(&case(13, index, Kind::Valid, usize::MAX).job).expect("a valid job"));
    }
    let Meetings { low_end, high_end, inside, one_argument, one_below, one_above } = meetings;
    assert!([low_end, high_end, inside, one_argument].iter().all(|&count| count > 200), "{meetings:?}");
    assert!([one_below, one_above].iter().all(|&count| count > 15), "{meetings:?}");
}

/// How often a call meets a REPLY so: it gets its answer, which is another than FUN's or FUN's own; or FUN's answer,
/// where its function has a REPLY to another argument, to the next one, or another function has one to this.
#[derive(Debug, Default)]
struct Replies {
    other_answer: usize,
    own_answer: usize,
    other_argument: usize,
    next_argument: usize,
    other_function: usize,
}

impl Replies {
    fn note_call(&mut self, program: &Program, call: &Entry) {
        let (function, argument) = (call.number, call.value);
        let own = program.functions[usize::from(function)];
        if let Some(reply) = program.replies.iter().find(|reply| reply.call() == (function, argument)) {
            self.other_answer += usize::from(reply.answer != own);
            self.own_answer += usize::from(reply.answer == own);
            return;
        }
        let has = |other: u32| program.replies.iter().any(|reply| reply.call() == (function, other));
        let of_function = program.replies.iter().any(|reply| reply.function == function);
        let to_argument = program.replies.iter().any(|reply| reply.argument == argument);
        self.other_argument += usize::from(of_function);
        self.next_argument += usize::from(has(argument.wrapping_add(1)) || has(argument.wrapping_sub(1)));
        self.other_function += usize::from(to_argument);
    }
}

/// How often a job's replies are so: two of one function, two functions with one argument, in falling order, between
/// functions, the most that there can be.
#[derive(Debug, Default)]
struct Lists {
    of_one_function: usize,
    of_one_argument: usize,
    falling: usize,
    between: usize,
    most: usize,
}

impl Lists {
    fn note(&mut self, job: &[u8]) {
        let declarations: Vec<&[u8]> =
            common::commands(job).into_iter().filter(|command| command[0] / 16 == 1).collect();
        let calls: Vec<(u8, u32)> = declarations
            .iter()
            .filter(|command| command[0] == REPLY)
            .map(|reply| (reply[1], common::number(&reply[..6])))
            .collect();
        let distinct = |key: fn(&(u8, u32)) -> u32| calls.iter().map(key).collect::<BTreeSet<u32>>().len();
        self.of_one_function += usize::from(distinct(|call| call.0.into()) < calls.len());
        self.of_one_argument += usize::from(distinct(|call| call.1) < calls.len());
        self.falling += usize::from(calls.windows(2).any(|pair| pair[0] > pair[1]));
        let is_before = |pair: &[&[u8]]| pair[0][0] == REPLY && pair[1][0] != REPLY;
        self.between += usize::from(declarations.windows(2).any(is_before));
        self.most += usize::from(calls.len() == 128);
    }
}

#[test]
fn calls_beside_replies() {
    let (mut replies, mut lists) = (Replies::default(), Lists::default());
    for index in 0..2_000 {
        let job = case(15, index, Kind::Valid, usize::MAX).job;
        let program = decode(&job).expect("a valid job");
        lists.note(&job);
        let mut runner = Runner::new(&program, Mode::Unmonitored);
        while let Step::Completed(entry) = runner.step() {
            if entry.kind == 5 {
                replies.note_call(&program, &entry);
            }
        }
    }
    let Replies { other_answer, own_answer, other_argument, next_argument, other_function } = replies;
    assert!(other_answer > 2_000 && own_answer > 400, "{replies:?}");
    assert!([other_argument, next_argument, other_function].iter().all(|&count| count > 200), "{replies:?}");
    let Lists { of_one_function, of_one_argument, falling, between, most } = lists;
    let often = [of_one_function, of_one_argument, falling, between];
    assert!(often.iter().all(|&count| count > 100) && most > 2, "{lists:?}");
}

/// Of 01's commands alone, no job has SPAN or REPLY but by blind damage; without REPLY it may have SPAN.
#[test]
fn jobs_without_newer_commands() {
    let missing = |random: &Random| Reason::all().len() - Reason::drawn_with(random).len();
    let bytes = |random: &mut Random| -> BTreeSet<u8> {
        let job = draw_case(random, Kind::Valid, usize::MAX).job;
        common::commands(&job).iter().map(|command| command[0]).collect()
    };
    let random = |index| Random::for_case(14, index);
    assert_eq!([random(0).of_01(), random(0).without_replies(), random(0)].map(|r| missing(&r)), [26, 21, 0]);
    let mut spans = 0;
    for index in 0..300 {
        let [of_01, without] =
            [random(index).of_01(), random(index).without_replies()].map(|mut r| bytes(&mut r));
        assert!(!of_01.contains(&SPAN) && !of_01.contains(&REPLY) && !without.contains(&REPLY));
        spans += usize::from(without.contains(&SPAN));
    }
    assert!(spans > 50, "{spans}");
}

#[test]
fn length_limit() {
    for max_bytes in [1, 10, 60, 300, 2_000] {
        for index in 0..60 {
            for kind in [Kind::Valid, Kind::Damaged] {
                let case = case(9, index, kind, max_bytes);
                assert!(case.job.len() <= max_bytes);
            }
        }
    }
}
