//! Refusal 19 (02, S-7): which commands use a permission, which of several unused ones is named, and its place among
//! the tests.

mod common;

use common::{bytes, k1, refusal, run_dirty, MODES};
use flow_reference::{Outcome, Refusal};

/// One flow with nodes 0 and 1, global variables 0 and 1, functions 0 and 1: 27 bytes.
const BASE: &str = "01 02 02  10 02 00 05 00 00 00  10 02 00 06 00 00 00  11 08 00 00 00  11 09 00 00 00";
const LENGTH: usize = 27;

/// A permission of each sort: of node 0 with variable 0 or function 0.
const ANY: &str = "30 00 00";
const ARG: &str = "31 00 00 07 00 00 00";
const READ: &str = "32 00 00";
const WRITE: &str = "33 00 00";
const SPAN: &str = "34 00 00 03 00 00 00 09 00 00 00";
const SORTS: [&str; 5] = [ANY, ARG, READ, WRITE, SPAN];

/// The handler commands that use a permission of each sort.
const USES: [&[&str]; 5] = [&["4A 00"], &["4A 00"], &["43 00", "46 00"], &["44 00"], &["4A 00"]];

/// The handler commands that name a variable or a function: the same and another.
const COMMANDS: [&str; 8] = ["43 00", "46 00", "44 00", "4A 00", "43 01", "46 01", "44 01", "4A 01"];

fn behind_base(rest: &str) -> Vec<u8> {
    [bytes(BASE), bytes(rest)].concat()
}

fn refused(rest: &str, number: u8, offset: usize) {
    assert_eq!(refusal(&behind_base(rest)), Some((number, LENGTH + offset)), "{rest}");
}

fn accepted(rest: &str) {
    assert_eq!(refusal(&behind_base(rest)), None, "{rest}");
}

#[test]
fn base_is_accepted() {
    assert_eq!(bytes(BASE).len(), LENGTH);
    accepted("");
}

/// Every sort beside every single command: used by GET and PLUS, PUT, or CALL, of the same variable or function.
#[test]
fn each_sort_beside_each_command() {
    for (permission, uses) in SORTS.iter().zip(USES) {
        for command in COMMANDS {
            let rest = format!("{permission} 40 00 {command}");
            if uses.contains(&command) {
                accepted(&rest);
            } else {
                refused(&rest, 19, 0);
            }
        }
        refused(&format!("{permission} 40 00 42 41 00 00 00 00 45 00 00 00 00 47 00 48 00 49 00 4B"), 19, 0);
    }
}

#[test]
fn in_the_handler_of_the_very_node() {
    let all = COMMANDS.join(" ");
    for permission in SORTS {
        refused(&format!("{permission} 40 01 {all}"), 19, 0);
        refused(&format!("{permission} 40 01 {all} 40 00 4B"), 19, 0);
        accepted(&format!("{permission} 40 01 40 00 {all}"));
    }
}

#[test]
fn without_a_body_or_with_an_empty_one() {
    for permission in SORTS {
        refused(permission, 19, 0);
        refused(&format!("{permission} 40 00"), 19, 0);
        refused(&format!("{permission} 40 00 40 01"), 19, 0);
        refused(&format!("{permission} 50 00 01 00 00 00 60 00"), 19, 0);
    }
}

/// Behind a jump to the end, behind an endless loop, and in a node that never gets a message.
#[test]
fn unreachable_uses_count() {
    for (permission, uses) in SORTS.iter().zip(USES) {
        for command in uses {
            accepted(&format!("{permission} 40 00 48 02 {command} 50 00 01 00 00 00 60 00 60 00 60 00"));
            accepted(&format!("{permission} 40 00 48 00 {command} 60 00"));
            accepted(&format!("{permission} 40 00 {command} 60 01"));
        }
    }
    accepted("31 00 00 07 00 00 00 40 00 41 08 00 00 00 4A 00");
}

#[test]
fn args_and_spans_beside_any() {
    let lists = [[ANY, ARG, SPAN], [ARG, SPAN, ANY], [SPAN, ANY, ARG]];
    for list in lists.map(|list| list.join(" ")) {
        accepted(&format!("{list} 40 00 4A 00"));
        refused(&format!("{list} 40 00 4A 01"), 19, 0);
        refused(&list, 19, 0);
    }
}

#[test]
fn the_first_unused_one_is_named() {
    let other = "30 00 01";
    for first in SORTS {
        let length = bytes(first).len();
        refused(&format!("{first} {other} 40 00 4B"), 19, 0);
        refused(&format!("{other} {first} 40 00 4A 01"), 19, 3);
        refused(&format!("{first} {other} 40 00 4A 00 43 00 44 00"), 19, length);
        refused(&format!("{first} 30 01 00 {other} 40 00 4A 00 43 00 44 00 40 01 4A 00"), 19, length + 3);
    }
    refused(&format!("{READ} {WRITE} 40 00 44 00"), 19, 0);
    refused(&format!("{READ} {WRITE} 40 00 46 00"), 19, 3);
    refused("33 01 01 32 00 01 32 01 01 40 00 43 01 40 01 44 01 4A 01", 19, 6);
}

/// A sort of permission with the command that uses it.
const PAIRS: [(u8, u8); 3] = [(0x32, 0x43), (0x33, 0x44), (0x30, 0x4A)];

/// Every READ, WRITE and ANY of node 0, all used but one: that one is named, wherever it stands.
#[test]
fn one_unused_among_many() {
    let pairs: Vec<([u8; 3], [u8; 2])> = PAIRS
        .iter()
        .flat_map(|&(sort, command)| [0, 1].map(|number| ([sort, 0, number], [command, number])))
        .collect();
    for unused in 0..pairs.len() {
        let permissions: Vec<u8> = pairs.iter().flat_map(|(permission, _)| *permission).collect();
        let others = pairs.iter().enumerate().filter(|(index, _)| *index != unused);
        let handler: Vec<u8> = others.flat_map(|(_, (_, command))| *command).collect();
        let job = [&bytes(BASE), &permissions[..], &[0x40, 0], &handler].concat();
        assert_eq!(refusal(&job), Some((19, LENGTH + 3 * unused)));
    }
}

/// 2 to 8, 15 and 9 come first, wherever they stand; so does the far jump of another node.
#[test]
fn behind_all_tests_of_commands() {
    for permission in SORTS {
        let length = bytes(permission).len();
        for (rest, number) in [("FF", 2), ("60", 3), ("01", 4), ("30 00 09", 6), ("40 02", 6), ("60 09", 6)] {
            refused(&format!("{permission} {rest}"), number, length);
        }
        refused(&format!("{permission} {permission}"), 8, length);
        refused(&format!("{permission} 40 00 40 00"), 8, length + 2);
        refused(&format!("{permission} 34 01 01 09 00 00 00 03 00 00 00"), 15, length);
        refused(&format!("{permission} 40 00 48 02"), 9, length + 2);
        refused(&format!("{permission} 40 01 4B 47 09 50 00 01 00 00 00"), 9, length + 3);
    }
}

#[test]
fn before_short_buffers() {
    let job = behind_base(&format!("{READ} 40 00 44 00 60 00"));
    for lengths in [[0; 3], [6, 3_136, 4_096], [7, 3_135, 4_096], [7, 3_136, 4_095], [7, 3_136, 4_096]] {
        for mode in MODES {
            let ran = run_dirty(&job, mode, lengths, 0xA5);
            assert_eq!(ran.outcome, Outcome::Refused(Refusal { number: 19, place: LENGTH }));
            assert!([ran.trace, ran.snapshot, ran.work].concat().iter().all(|&byte| byte == 0xA5));
        }
    }
}

/// The largest numbers: node 31, variable 63, function 31.
#[test]
fn largest_numbers() {
    let head =
        [vec![1], vec![2; 32], bytes("10 02 00 00 00 00 00").repeat(64), bytes("11 00 00 00 00").repeat(32)];
    let head = head.concat();
    for (permission, uses, close) in [
        ("30 1F 1F", "4A 1F", ["4A 1E", "4A 0F"]),
        ("31 1F 1F FF FF FF FF", "4A 1F", ["4A 00", "4A 0F"]),
        ("32 1F 3F", "46 3F", ["43 3E", "43 1F"]),
        ("33 1F 3F", "44 3F", ["44 3E", "44 1F"]),
        ("34 1F 1F FF FF FF FF FF FF FF FF", "4A 1F", ["4A 1E", "4A 17"]),
    ] {
        let with = |node: u8, command: &str| {
            refusal(&[&head[..], &bytes(permission), &[0x40, node], &bytes(command)].concat())
        };
        assert_eq!(with(31, uses), None, "{permission}");
        for said in [with(30, uses), with(31, close[0]), with(31, close[1])] {
            assert_eq!(said, Some((19, head.len())), "{permission}");
        }
    }
}

/// K1 with one more permission of node 1, whose handler calls function 0 alone.
#[test]
fn k1_with_one_more() {
    assert_eq!(refusal(&k1()), None);
    let with = |permission: &str| [&k1()[..29], &bytes(permission), &k1()[29..]].concat();
    assert_eq!(refusal(&with("32 01 00")), Some((19, 29)));
    assert_eq!(refusal(&with("33 00 00")), Some((19, 29)));
    assert_eq!(refusal(&with("30 00 00")), Some((19, 29)));
    assert_eq!(refusal(&with("30 01 00")), None);
    assert_eq!(refusal(&with("31 01 00 08 00 00 00")), None);
}
