//! Runs a job, counts its messages, takes the time, compares both implementations, or tells what the script is, how many calls the
//! jobs with long lists or replies make, how many nodes the dispatched ones examine, how many instructions of a trace
//! write a snapshot and how much stack the runs take.

use std::fs::File;
use std::io::BufReader;
use std::process::ExitCode;

use flow_bench::compare::compare;
use flow_bench::dispatched::Dispatched;
use flow_bench::groups::{self, Group};
use flow_bench::replies::FORMS;
use flow_bench::runs::{Bench, Case, Engine};
use flow_bench::script::Script;
use flow_bench::snapshots::{self, Queues};
use flow_bench::tallies::Tallied;
use flow_bench::{arguments, lists, stack, window};
use flow_reference::Mode;

const USAGE: &str = "usage: bench ENGINE MODE CASE RUNS | bench time ENGINE MODE CASE RUNS |
    bench compare | bench mix | bench calls | bench examined CASE | bench stack |
    bench tally ENGINE entries|no-entries|nodes|node RUNS |
    bench snapshot ENGINE NODES empty|full | bench window MARK SNAPSHOT BYTES TRACE";

/// The completed turns of all runs.
fn print_turns(words: &[&str]) -> Option<()> {
    let (mut bench, runs) = arguments::read(words)?;
    println!("{}", bench.runs(runs));
    Some(())
}

/// Nanoseconds of the quickest run.
fn print_time(words: &[&str]) -> Option<()> {
    let (mut bench, runs) = arguments::read(words)?;
    println!("{}", bench.quickest(runs).as_nanos());
    Some(())
}

/// How many turns, and how many entries of each kind.
fn print_mix() {
    let script = Script::new();
    let kinds = ["other", "begin", "finish", "read", "write", "call", "send"];
    print!("{} turns, entries:", script.entries.len());
    for (kind, count) in kinds.iter().zip(script.kinds()) {
        print!(" {kind} {count}");
    }
    println!();
}

/// How many calls the jobs with long lists make, spread and single, then those with replies.
fn print_calls() {
    let replies =
        FORMS.into_iter().filter(|(_, form)| form.replies && form.turns).map(|(_, form)| form.job());
    let jobs = [lists::spread(), lists::single()].into_iter().chain(replies);
    println!("{}", jobs.map(|job| lists::calls(&job).to_string()).collect::<Vec<_>>().join(" "));
}

/// Stop, completed turns and examined total of a dispatched run, monitored.
fn print_examined(word: &str) -> Option<()> {
    let case = Case::Dispatched(Dispatched::named(word)?);
    let [_, _, stop, turns, .., examined] = Bench::new(Engine::Reference, Mode::Monitored, case, 0).run();
    println!("{stop} {turns} {examined}");
    Some(())
}

/// The nodes of all tallies, as many as are asked for.
fn print_tallies(words: &[&str]) -> Option<()> {
    let [engine, case, count] = words else { return None };
    let (engine, tallied) = (Engine::named(engine)?, Tallied::named(case)?);
    let count = count.parse().ok().filter(|&count| count > 0)?;
    println!("{}", tallied.after_run(engine).tallies(tallied.turns, count));
    Some(())
}

/// Runs a job of the snapshots: the addresses of mark and snapshot, in hexadecimal, and the snapshot's bytes.
fn print_snapshot(words: &[&str]) -> Option<()> {
    let [engine, nodes, word] = words else { return None };
    let nodes = nodes.parse().ok().filter(|nodes| snapshots::NODES.contains(nodes))?;
    let (_, queues) = Queues::ALL.into_iter().find(|(name, _)| name == word)?;
    let addresses = snapshots::run_marked(Engine::named(engine)?, nodes, queues);
    println!("{:x} {:x} {}", addresses.mark, addresses.snapshot, snapshots::bytes(nodes, queues));
    Some(())
}

/// The instructions that write the snapshot, by the numbers of `snapshot` and its trace.
fn print_window(words: &[&str]) -> Option<ExitCode> {
    let [mark, snapshot, bytes, trace] = words else { return None };
    let [mark, snapshot] = [mark, snapshot].map(|word| usize::from_str_radix(word, 16).ok());
    let (mark, snapshot, bytes): (_, _, usize) = (mark?, snapshot?, bytes.parse().ok()?);
    let counted = File::open(trace)
        .and_then(|file| window::instructions(BufReader::new(file), mark, snapshot..snapshot + bytes));
    Some(match counted {
        Ok(Some(count)) => {
            println!("{count}");
            ExitCode::SUCCESS
        }
        other => {
            eprintln!("bench: {trace}: {other:?}");
            ExitCode::FAILURE
        }
    })
}

/// Bytes of stack that a run by an engine takes: the most of all jobs, and of each group.
fn stack_of(engine: Engine, groups: &[Group]) -> String {
    let bytes: Vec<usize> = groups.iter().map(|group| stack::most(engine, group, stack::run)).collect();
    let each = groups.iter().zip(&bytes).map(|(group, bytes)| format!("{} {bytes}", group.name));
    format!("{} ({})", bytes.iter().max().unwrap_or(&0), each.collect::<Vec<_>>().join(", "))
}

/// Bytes of stack that a tally takes, the most of all jobs.
fn stack_of_tally(engine: Engine, groups: &[Group]) -> usize {
    groups.iter().map(|group| stack::most(engine, group, stack::tally)).max().unwrap_or_default()
}

fn print_stack() -> ExitCode {
    let groups = match groups::all() {
        Ok(groups) => groups,
        Err(error) => {
            eprintln!("bench: the examples: {error}");
            return ExitCode::FAILURE;
        }
    };
    let engines = [Engine::Proved, Engine::Reference];
    let [proved, reference] = engines.map(|engine| stack_of(engine, &groups));
    println!("bytes of stack: proved {proved}, reference {reference}");
    let [proved, reference] = engines.map(|engine| stack_of_tally(engine, &groups));
    println!("bytes of stack of a tally: proved {proved}, reference {reference}");
    ExitCode::SUCCESS
}

fn print_comparison() -> ExitCode {
    match compare() {
        Ok(()) => {
            println!("both have the same answers, buffers and tallies for every job, monitored and bare");
            ExitCode::SUCCESS
        }
        Err(difference) => {
            println!("{difference}");
            ExitCode::FAILURE
        }
    }
}

/// Does what the words ask for; none if they ask for nothing.
fn execute(words: &[&str]) -> Option<ExitCode> {
    match words {
        ["compare"] => return Some(print_comparison()),
        ["mix"] => print_mix(),
        ["calls"] => print_calls(),
        ["examined", word] => print_examined(word)?,
        ["stack"] => return Some(print_stack()),
        ["time", words @ ..] => print_time(words)?,
        ["tally", words @ ..] => print_tallies(words)?,
        ["snapshot", words @ ..] => print_snapshot(words)?,
        ["window", words @ ..] => return print_window(words),
        _ => print_turns(words)?,
    }
    Some(ExitCode::SUCCESS)
}

fn main() -> ExitCode {
    let words: Vec<String> = std::env::args().skip(1).collect();
    let words: Vec<&str> = words.iter().map(String::as_str).collect();
    execute(&words).unwrap_or_else(|| {
        eprintln!("{USAGE}\n{}", arguments::WORDS);
        ExitCode::from(2)
    })
}
