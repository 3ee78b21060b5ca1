//! What the stored corpus holds.

mod common;

use std::collections::{BTreeMap, BTreeSet};
use std::process::Command;

use common::made::{all, runs_of, Made};
use flow_reference::corpus::{records, runs, Change, Run};
use flow_reference::table::*;
use flow_reference::{decode, Mode, Program, Refusal};

/// All runs without what became of them.
fn all_runs() -> Vec<Run> {
    all().iter().map(|made| made.run.clone()).collect()
}

/// All texts in one.
fn all_texts() -> String {
    all().iter().map(|made| made.text.as_str()).collect()
}

/// What the decoder says to each run's job.
fn verdicts(runs: &[Run]) -> Vec<Result<Program, Refusal>> {
    runs.iter().map(|run| decode(&run.job)).collect()
}

/// The bytes at the places of each refusal.
fn bytes_at_places(runs: &[Run]) -> BTreeMap<u8, BTreeSet<u8>> {
    let mut bytes: BTreeMap<u8, BTreeSet<u8>> = BTreeMap::new();
    for run in runs {
        if let Err(Refusal { number: number @ 2.., place }) = decode(&run.job) {
            bytes.entry(number).or_default().insert(run.job[place]);
        }
    }
    bytes
}

/// The command bytes of which this holds.
fn commands(holds: impl Fn(&Row) -> bool) -> BTreeSet<u8> {
    COMMANDS.iter().filter(|row| holds(row)).map(|row| row.byte).collect()
}

#[test]
fn sizes() {
    let runs = all_runs();
    assert_eq!(runs.len(), 8_399);
    assert!(records(&runs).len() < 1_750_000);
    assert!(all_texts().len() < 2_050_000);
    assert!(runs.iter().all(|run| run.job.len() <= 16_400));
    let [trace, snapshot, work] = [0, 1, 2].map(|buffer| runs.iter().map(|run| run.lengths[buffer]).max());
    assert!(trace <= Some(28_800) && snapshot <= Some(3_200) && work <= Some(16_500));
}

#[test]
fn the_same_every_time() {
    assert_eq!(all_runs(), runs());
}

#[test]
fn every_command_of_each_refusal() {
    let bytes = bytes_at_places(&all_runs());
    let names = |row: &Row| {
        use Operand::*;
        row.operands.iter().any(|operand| !matches!(operand, Number | Position))
    };
    assert_eq!(bytes[&2], (0..=255).filter(|&byte| row(byte).is_none()).collect());
    assert_eq!(bytes[&3], commands(|row| row.width > 0));
    assert_eq!(bytes[&4], commands(|row| row.byte != TURN));
    let counted = |byte| [FLOW, NODE, VAR, FUN, REPLY, ARG, SPAN, TURN].contains(&byte) || is_handler(byte);
    assert_eq!(bytes[&5], commands(|row| counted(row.byte)));
    assert_eq!(bytes[&6], commands(|row| names(row) || row.byte == NODE || is_handler(row.byte)));
    assert_eq!(bytes[&7], BTreeSet::from([WIRE, READ, WRITE, GET, PUT, PLUS]));
    assert_eq!(bytes[&8], BTreeSet::from([REPLY, WIRE, ANY, ARG, READ, WRITE, SPAN, BODY, START]));
    assert_eq!(bytes[&9], BTreeSet::from([JUMP, JUMPZ]));
    assert_eq!(bytes[&15], BTreeSet::from([SPAN]));
    assert_eq!(bytes[&19], BTreeSet::from([ANY, ARG, READ, WRITE, SPAN]));
}

#[test]
fn largest_counts_reached() {
    let accepted: Vec<Program> = verdicts(&all_runs()).into_iter().flatten().collect();
    let most = |count: fn(&Program) -> usize| accepted.iter().map(count).max();
    assert_eq!(most(|program| program.flows), Some(8));
    assert_eq!(most(|program| program.nodes.len()), Some(32));
    assert_eq!(most(|program| program.variables.len()), Some(64));
    assert_eq!(most(|program| program.functions.len()), Some(32));
    assert_eq!(most(|program| program.replies.len()), Some(128));
    assert_eq!(most(|program| program.args.len()), Some(256));
    assert_eq!(most(|program| program.args.len().min(program.spans.len())), Some(128));
    assert_eq!(most(|program| program.turns.len()), Some(4_096));
    let full_bodies = |program: &Program| program.nodes.iter().filter(|node| node.length == 64).count();
    assert!(accepted.iter().any(|program| full_bodies(program) == 1));
    assert!(accepted.iter().any(|program| full_bodies(program) == 2));
    let jobs = || all().iter().map(|Made { run, .. }| &run.job);
    assert_eq!(jobs().filter(|job| decode(job).is_ok()).map(Vec::len).max(), Some(16_384));
    assert!(jobs().any(|job| job.len() == 16_385));
}

/// K1, K2 (K3 is its other mode), K4 to K11, then turns and nodes: each in both modes.
#[test]
fn worked_jobs() {
    let runs = runs_of("worked");
    let k1 =
        "0 1 255 2\n0 0 0 0\n0 3 0 5\n0 6 0 7\n0 2 0 0\n1 1 0 7\n1 0 0 0\n1 5 0 7\n1 2 0 0\nend 0 9 0 0 0 0\n\
              node 0 255 0 0 0\nnode 1 255 0 0 0\nvar 0 5\ntally 0 1 0 1 0\ntally 1 0 1 1 0\nkept\n";
    assert_eq!((&runs[0].job, runs[0].mode), (&common::k1(), Mode::Monitored));
    assert_eq!(runs[0].text(), k1);
    let is_end = |line: &&str| line.starts_with("end") || line.starts_with("refused");
    let end = |run: &Run| run.text().lines().find(is_end).map(String::from).unwrap();
    let monitored: Vec<String> = runs.iter().step_by(2).map(end).collect();
    let ran = ["end 0 9 0 0 0 0", "end 1 7 1 5 0 8", "end 1 2 0 3 0 0", "end 2 0 1 0 0 0", "end 1 7 1 5 0 3"];
    let refused =
        ["end 3 33 0 6 0 0", "refused 1 0", "refused 6 0", "refused 3 1", "end 0 0 0 0 0 0", "refused 9 4"];
    let counts = ["end 2 0 0 0 0 0", "refused 5 8194", "end 0 0 0 0 0 0", "refused 5 33"];
    assert_eq!(monitored, [&ran[..], &refused, &counts].concat());
    assert_eq!(end(&runs[3]), "end 0 9 0 0 0 0", "K3");
}

/// The changes in the order of their numbers.
const CHANGES: [Change; 5] =
    [Change::Nothing, Change::FirstOfWork, Change::LastOfWork, Change::LastOfTrace, Change::LastOfSnapshot];

/// The runs of a file of records.
fn read_back(mut file: &[u8]) -> Vec<Run> {
    let mut runs = Vec::new();
    while let [flags, seed, rest @ ..] = file {
        let (head, rest) = rest.split_at(10);
        let number = |at: usize| usize::from(head[at]) + 256 * usize::from(head[at + 1]);
        let (job, rest) = rest.split_at(number(0));
        let (mode, change) = (common::MODES[usize::from(flags % 2)], CHANGES[usize::from(flags % 16 / 2)]);
        let lengths = [number(2), number(4), number(6)];
        let budget = (flags / 16 == 1).then(|| number(8) as u64);
        assert!(flags / 16 < 2 && (budget.is_some() || number(8) == 0));
        runs.push(Run { mode, budget, change, seed: *seed, lengths, job: job.to_vec() });
        file = rest;
    }
    assert!(file.is_empty());
    runs
}

#[test]
fn files_of_the_program() {
    let folder = std::path::Path::new(env!("CARGO_TARGET_TMPDIR"));
    let corpus = |arguments: &[&std::path::Path]| {
        Command::new(env!("CARGO_BIN_EXE_corpus")).args(arguments).output().unwrap().status
    };
    assert!(corpus(&[folder]).success());
    assert_eq!(read_back(&std::fs::read(folder.join("stdin")).unwrap()), all_runs());
    assert_eq!(std::fs::read_to_string(folder.join("stdout")).unwrap(), all_texts());
    assert!(!corpus(&[]).success());
    assert!(!corpus(&[folder, folder]).success());
    assert!(!corpus(&[&folder.join("no such folder")]).success());
}

#[test]
fn stored() {
    let folder = concat!(env!("CARGO_MANIFEST_DIR"), "/../crates/conformance/");
    assert!(std::fs::read(folder.to_owned() + "stdin").unwrap() == records(&all_runs()));
    assert!(std::fs::read_to_string(folder.to_owned() + "stdout").unwrap() == all_texts());
}
