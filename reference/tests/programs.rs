//! The programs `flowref` and `jobs` as they are called.

mod common;

use std::io::Write;
use std::process::{Command, Output, Stdio};

use common::{bytes, k1, run_dirty};
use flow_reference::print::{print, print_dispatched};
use flow_reference::{hex, Mode, Outcome};

fn flowref(arguments: &[&str], job: &[u8]) -> Output {
    let mut child = Command::new(env!("CARGO_BIN_EXE_flowref"))
        .args(arguments)
        .stdin(Stdio::piped())
        .stdout(Stdio::piped())
        .stderr(Stdio::piped())
        .spawn()
        .unwrap();
    // With a wrong argument the program may end before it has read anything.
    let _ = child.stdin.take().unwrap().write_all(job);
    child.wait_with_output().unwrap()
}

fn prints(arguments: &[&str], job: &[u8], expected: &str) {
    let output = flowref(arguments, job);
    assert!(output.status.success());
    assert_eq!(String::from_utf8(output.stdout).unwrap(), expected);
    assert!(output.stderr.is_empty());
}

#[test]
fn flowref_prints() {
    let mut job = k1();
    prints(&[], &job, &print(&job, Mode::Monitored));
    job[43] = 3; // the START value: K2 and K3
    assert!(print(&job, Mode::Monitored).contains("end 1 7 1 5 0 8\n"));
    prints(&[], &job, &print(&job, Mode::Monitored));
    prints(&["bare"], &job, &print(&job, Mode::Unmonitored));
}

#[test]
fn flowref_refuses() {
    prints(&[], &[], "refused 1 0\n");
    prints(&["bare"], &[], "refused 1 0\n");
    prints(&[], &bytes("01 10"), "refused 3 1\n");
    prints(&[], &[1; 16_385], "refused 1 0\n");
    prints(&[], &[1; 60_000], "refused 1 0\n");
    prints(&[], &[1; 16_384], "refused 5 8\n");
}

/// Budgets of up to 9 digits, zeros in front included.
#[test]
fn flowref_dispatches() {
    let job = &k1()[..47];
    let [monitored, bare] = [Mode::Monitored, Mode::Unmonitored].map(|mode| print_dispatched(job, 10, mode));
    assert!(monitored.ends_with("\nvar 0 5\ntally 0 1 0 1 0\ntally 1 0 1 1 0\nexamined 14\n"));
    prints(&["dispatch", "10"], job, &monitored);
    prints(&["dispatch", "000000010"], job, &monitored);
    prints(&["dispatch", "10", "bare"], job, &bare);
    for budget in ["0", "000000000", "4097", "999999999"] {
        prints(&["dispatch", budget], job, "refused 13 0\n");
        prints(&["dispatch", budget, "bare"], &[], "refused 13 0\n");
    }
    prints(&["dispatch", "4096"], &[], "refused 1 0\n");
    prints(&["dispatch", "9"], &k1(), "refused 14 47\n");
}

#[test]
fn flowref_usage() {
    let bare = [&["watched"][..], &[""], &["bare", "bare"], &["--help"], &["BARE"]];
    let dispatch =
        [&["dispatch"][..], &["dispatch", "bare"], &["DISPATCH", "9"], &["9"], &["bare", "dispatch", "9"]];
    let more = [&["dispatch", "9", ""][..], &["dispatch", "9", "bare", "bare"], &["dispatch", "9", "9"]];
    let budgets = ["", "+9", "-9", "9 ", " 9", "9.0", "0x9", "1e3", "4,096", "0000000009", "1000000000"];
    let budgets = budgets.map(|budget| ["dispatch", budget]);
    let all = bare.into_iter().chain(dispatch).chain(more).chain(budgets.iter().map(|words| &words[..]));
    for arguments in all {
        let output = flowref(arguments, &k1());
        assert!(!output.status.success());
        assert!(output.stdout.is_empty());
        assert_eq!(output.stderr, b"usage: flowref [dispatch BUDGET] [bare]\n", "{arguments:?}");
    }
}

fn jobs(arguments: &[&str]) -> Output {
    Command::new(env!("CARGO_BIN_EXE_jobs")).args(arguments).output().unwrap()
}

/// Runs a line's case again and compares it with the line's outcome.
fn check_line(line: &str) {
    let (left, right) = line.split_once(" -> ").unwrap();
    let left: Vec<&str> = left.split(' ').collect();
    let mode = match left[0] {
        "monitored" => Mode::Monitored,
        "unmonitored" => Mode::Unmonitored,
        other => panic!("{other}"),
    };
    let lengths = [1, 2, 3].map(|field| left[field].parse().unwrap());
    let ran = run_dirty(&hex::decode(left[4]).unwrap(), mode, lengths, 0);
    let expected = match ran.outcome {
        Outcome::Refused(refusal) => format!("refused {} {}", refusal.number, refusal.place),
        Outcome::Ran(answer) => {
            let entry = answer.attempted;
            let trace = hex::encode(&ran.trace[..7 * answer.turns]);
            let snapshot = right.rsplit(' ').next().unwrap();
            let bytes = hex::decode(snapshot).unwrap();
            assert_eq!(bytes, ran.snapshot[..bytes.len()]);
            let fields = format!("{} {} {} {}", entry.node, entry.kind, entry.number, entry.value);
            format!("ran {} {} {fields} {trace} {snapshot}", answer.stop, answer.turns)
        }
    };
    assert_eq!(right, expected);
}

#[test]
fn jobs_lines() {
    for (arguments, count) in [
        (&["1", "120"][..], 120),
        (&["2", "40", "--kind", "damaged", "--max-bytes", "80"], 40),
        (&["18446744073709551615", "5", "--max-bytes", "500", "--kind", "valid"], 5),
    ] {
        let output = jobs(arguments);
        assert!(output.status.success());
        assert_eq!(output.stdout, jobs(arguments).stdout, "the same lines every time");
        let text = String::from_utf8(output.stdout).unwrap();
        assert_eq!(text.lines().count(), count);
        text.lines().for_each(check_line);
    }
}

#[test]
fn jobs_usage() {
    for arguments in [&[][..], &["1"], &["1", "x"], &["1", "1", "--kind"], &["1", "1", "--max-bytes", "0"]] {
        let output = jobs(arguments);
        assert!(!output.status.success());
        assert!(output.stdout.is_empty());
    }
}
