//! The jobs in `examples/`: each is the bytes of its text and prints the lines stored beside it.

mod common;

use std::collections::BTreeSet;
use std::path::PathBuf;

use common::{bytes, commands};
use flow_reference::generate::dispatched::without_turns;
use flow_reference::generate::secret::{is_secret, variables};
use flow_reference::print::print_run;
use flow_reference::Mode::{Monitored, Unmonitored};

/// Flows of the papers and that of request S-5, each as a benign and as a malicious job.
const FLOWS: [&str; 6] = ["email", "water", "earthquake", "lowercase", "speed", "baby"];

/// Those of them that are dispatched, in which form, and with which budget.
const DISPATCHED: [(&str, &str, u64); 4] = [
    ("lowercase", "benign", 11),
    ("email", "malicious", 12),
    ("earthquake", "benign", 100),
    ("water", "malicious", 100),
];

/// Pairs of jobs that differ in the start of one variable: one pair with written turns, one dispatched.
const CARDS: [[&str; 2]; 2] = [["cards", "cards-other"], ["cards-paid", "cards-paid-other"]];

fn folder() -> PathBuf {
    PathBuf::from(env!("CARGO_MANIFEST_DIR")).join("../examples")
}

fn read(file: &str) -> Vec<u8> {
    std::fs::read(folder().join(file)).unwrap_or_else(|error| panic!("{file}: {error}"))
}

fn text(file: &str) -> String {
    String::from_utf8(read(file)).expect("UTF-8")
}

/// The names of the files with this ending.
fn names(ending: &str) -> BTreeSet<String> {
    let files = std::fs::read_dir(folder()).expect("the folder of examples");
    let files = files.map(|file| file.unwrap().file_name().into_string().unwrap());
    files.filter_map(|file| file.strip_suffix(ending).map(str::to_string)).collect()
}

/// The bytes of a text: what stands before `#` on its lines.
fn made(name: &str) -> Vec<u8> {
    let text = text(&format!("{name}.txt"));
    let lines = text.lines().map(|line| line.split('#').next().unwrap_or_default());
    lines.flat_map(bytes).collect()
}

/// The entries printed, and the line `end` behind them.
fn printed(file: &str) -> (Vec<String>, String) {
    let lines: Vec<String> = text(file).lines().map(str::to_string).collect();
    let end = lines.iter().position(|line| line.starts_with("end ")).expect("a line `end`");
    (lines[..end].to_vec(), lines[end].clone())
}

#[test]
fn every_job_has_its_text_and_its_lines() {
    let dispatched = DISPATCHED.map(|(flow, ..)| flow);
    let expected: BTreeSet<String> = ["k1", "k2", "k4", "k5", "k6", "k7", "unused", "senders"]
        .map(str::to_string)
        .into_iter()
        .chain(FLOWS.iter().flat_map(|flow| [format!("{flow}-benign"), format!("{flow}-malicious")]))
        .chain(dispatched.iter().flat_map(|flow| [format!("{flow}-dispatched"), format!("{flow}-written")]))
        .chain(CARDS.concat().into_iter().map(str::to_string))
        .collect();
    for ending in [".txt", ".job", ".watched", ".bare"] {
        assert_eq!(names(ending), expected, "{ending}");
    }
    let budgets = dispatched.iter().map(|flow| format!("{flow}-dispatched"));
    assert_eq!(names(".budget"), budgets.chain(CARDS[1].map(str::to_string)).collect());
}

/// The budget of a job that is dispatched.
fn budget(name: &str) -> Option<u64> {
    let has_budget = names(".budget").contains(name);
    has_budget.then(|| text(&format!("{name}.budget")).trim_end().parse().expect("a number"))
}

#[test]
fn jobs_are_their_texts() {
    for name in names(".txt") {
        assert_eq!(read(&format!("{name}.job")), made(&name), "{name}: run examples/make");
    }
}

#[test]
fn jobs_print_the_stored_lines() {
    for name in names(".job") {
        let (job, budget) = (read(&format!("{name}.job")), budget(&name));
        assert_eq!(print_run(&job, budget, Monitored), text(&format!("{name}.watched")), "{name}");
        assert_eq!(print_run(&job, budget, Unmonitored), text(&format!("{name}.bare")), "{name}");
    }
}

/// The paper's words on K1 to K7; K3 is K2 bare.
#[test]
fn worked_jobs_end_as_the_paper_says() {
    for (file, end) in [
        ("k1.watched", "end 0 9 0 0 0 0"),
        ("k2.watched", "end 1 7 1 5 0 8"),
        ("k2.bare", "end 0 9 0 0 0 0"),
        ("k4.watched", "end 1 2 0 3 0 0"),
        ("k5.watched", "end 2 0 1 0 0 0"),
        ("k6.watched", "end 1 7 1 5 0 3"),
        ("k7.watched", "end 3 33 0 6 0 0"),
    ] {
        assert_eq!(printed(file).1, end, "{file}");
    }
}

/// The commands of a job but those of handlers and the turns: declarations, wires, lists, first messages.
fn frame(job: &[u8]) -> Vec<&[u8]> {
    commands(job).into_iter().filter(|command| !matches!(command[0] / 16, 4 | 6)).collect()
}

#[test]
fn an_attack_changes_the_handlers_and_the_turns_alone() {
    for flow in FLOWS {
        let [benign, malicious] = ["benign", "malicious"].map(|kind| read(&format!("{flow}-{kind}.job")));
        assert_eq!(frame(&benign), frame(&malicious), "{flow}");
    }
}

#[test]
fn benign_flows_complete_and_run_alike() {
    for flow in FLOWS {
        let (entries, end) = printed(&format!("{flow}-benign.watched"));
        assert_eq!(end, format!("end 0 {} 0 0 0 0", entries.len()), "{flow}");
        assert_eq!(text(&format!("{flow}-benign.watched")), text(&format!("{flow}-benign.bare")), "{flow}");
    }
}

#[test]
fn malicious_flows_part_at_the_forbidden_turn() {
    for flow in FLOWS {
        let (monitored, end) = printed(&format!("{flow}-malicious.watched"));
        let (bare, bare_end) = printed(&format!("{flow}-malicious.bare"));
        let turns = monitored.len();
        assert_eq!(monitored, bare[..turns], "{flow}");
        assert_eq!(end, format!("end 1 {turns} {}", bare[turns]), "{flow}");
        assert_eq!(bare_end, format!("end 0 {} 0 0 0 0", bare.len()), "{flow}");
    }
}

/// K1 with one more permission, in front of its handlers.
#[test]
fn an_unused_permission_is_refused() {
    let (k1, unused) = (read("k1.job"), read("unused.job"));
    assert_eq!(unused, [&k1[..29], &[0x33, 0, 0], &k1[29..]].concat());
    assert_eq!([text("unused.watched"), text("unused.bare")], ["refused 19 29\n"; 2]);
}

/// Messages of START, of two nodes and of the node itself, each with its sender, taken and waiting.
#[test]
fn each_message_names_its_sender() {
    let (entries, end) = printed("senders.watched");
    let taken: Vec<&String> = entries.iter().filter(|entry| entry[2..].starts_with("1 ")).collect();
    assert_eq!(taken, ["0 1 255 90", "2 1 0 90", "1 1 0 90", "2 1 2 90", "2 1 1 91"]);
    assert_eq!(end, "end 1 23 2 5 0 91");
    let tallies = "tally 0 1 0 1 0\ntally 1 0 1 1 0\n";
    let [last, bare_last] = ["node 2 2 91 91 3 90 2 90 0 91 2\n", "node 2 0 0 90 2 90 0 91 2\n"];
    assert!(text("senders.watched").ends_with(&format!("\n{last}{tallies}tally 2 0 6 3 3\n")));
    assert_eq!(printed("senders.bare").0[..23], entries);
    let idle = "end 0 26 0 0 0 0\nnode 0 255 0 0 0\nnode 1 255 0 0 0\n";
    assert!(text("senders.bare").ends_with(&format!("{idle}{bare_last}{tallies}tally 2 0 6 4 2\n")));
}

/// The start of variable 1, of which no node has READ, holds the only bytes in which the jobs differ; one budget for both.
#[test]
fn cards_differ_in_one_start() {
    for pair in CARDS {
        let [job, other] = pair.map(|name| read(&format!("{name}.job")));
        let place = variables(&job)[1].place;
        assert!(is_secret(&job, 1) && job.len() == other.len(), "{pair:?}");
        let differing: Vec<usize> = (0..job.len()).filter(|&at| job[at] != other[at]).collect();
        assert_eq!(differing, [place, place + 1, place + 2, place + 3], "{pair:?}");
        assert_eq!(budget(pair[0]), budget(pair[1]), "{pair:?}");
    }
}

/// The lines in which the files of a pair differ.
fn differing([one, other]: [&str; 2], ending: &str) -> Vec<[String; 2]> {
    let [one, other] = [one, other].map(|name| text(&format!("{name}.{ending}")));
    assert_eq!(one.lines().count(), other.lines().count());
    let pairs = one.lines().zip(other.lines()).filter(|(one, other)| one != other);
    pairs.map(|(one, other)| [one, other].map(str::to_string)).collect()
}

/// Monitored, the start shows in the variable's own line alone; bare, also in the read and in what is sent on. In the other
/// pair it is written over and nobody tries to read it.
#[test]
fn cards_are_not_read() {
    let both = |line| [40012345, 55509876].map(|card| format!("{line} {card}"));
    assert_eq!(differing(CARDS[0], "watched"), ["var 1"].map(both));
    assert_eq!(printed("cards.watched").1, "end 1 15 3 3 1 0");
    assert_eq!(differing(CARDS[0], "bare"), ["3 3 1", "3 6 1", "var 1"].map(both));
    for ending in ["watched", "bare"] {
        assert!(differing(CARDS[1], ending).is_empty());
        assert!(text(&format!("cards-paid.{ending}")).contains("\n1 4 1 51112222\n"));
    }
}

/// A dispatched job is its flow's without turns, and the written one has the bare run's choices behind it.
#[test]
fn dispatched_jobs_and_their_choices() {
    for (flow, form, expected) in DISPATCHED {
        let job = read(&format!("{flow}-dispatched.job"));
        assert_eq!(job, without_turns(&read(&format!("{flow}-{form}.job"))), "{flow}");
        assert_eq!(budget(&format!("{flow}-dispatched")), Some(expected), "{flow}");
        let nodes = printed(&format!("{flow}-dispatched.bare")).0;
        let node = |entry: &String| entry.split(' ').next().unwrap().parse::<u8>().expect("a node");
        let turns = nodes.iter().flat_map(|entry| [0x60, node(entry)]);
        assert_eq!(read(&format!("{flow}-written.job")), [job, turns.collect()].concat(), "{flow}");
    }
}

/// Written out, the choices print the same lines but for the last one, and stop 4 is stop 0.
#[test]
fn written_choices_print_the_same() {
    let mut stops = BTreeSet::new();
    for (flow, ending) in DISPATCHED.iter().flat_map(|&(flow, ..)| [(flow, "watched"), (flow, "bare")]) {
        let dispatched = text(&format!("{flow}-dispatched.{ending}"));
        let (rest, last) = dispatched.trim_end().rsplit_once('\n').expect("several lines");
        assert!(last.starts_with("examined "));
        let written = text(&format!("{flow}-written.{ending}"));
        assert_eq!(rest.replace("\nend 4 ", "\nend 0 ") + "\n", written, "{flow}.{ending}");
        stops.insert(printed(&format!("{flow}-dispatched.{ending}")).1[..5].to_string());
    }
    assert_eq!(stops, BTreeSet::from(["end 0", "end 1", "end 4"].map(str::to_string)));
}

/// Whether words are an entry, or a line `end`, `node`, `var`, `tally`, `refused` or `examined`, with its numbers.
fn is_printed_line(words: &[&str]) -> bool {
    let numbers = match words {
        ["end" | "node" | "var" | "tally" | "refused", numbers @ ..] if numbers.len() > 1 => numbers,
        ["examined", _] => &words[1..],
        [_, _, _, _] => words,
        _ => return false,
    };
    numbers.iter().all(|word| word.parse::<u32>().is_ok())
}

/// The page quotes printed lines between backticks; each is a line of some stored file.
#[test]
fn lines_on_the_page_are_printed() {
    let page = text("README.md");
    let quoted = page.lines().flat_map(|line| line.split('`').skip(1).step_by(2));
    let quoted: Vec<&str> =
        quoted.filter(|quote| is_printed_line(&quote.split(' ').collect::<Vec<_>>())).collect();
    assert!(quoted.len() > 60, "{} lines found", quoted.len());
    let files =
        names(".job").into_iter().flat_map(|name| [format!("{name}.watched"), format!("{name}.bare")]);
    let stored: Vec<String> = files.map(|file| text(&file)).collect();
    let printed: BTreeSet<&str> = stored.iter().flat_map(|text| text.lines()).collect();
    for quote in quoted {
        assert!(printed.contains(quote), "no file has the line {quote}");
    }
}
