//! The large job stays what it is, and is a valid job.

use flow_bench::large;
use flow_reference::table::{self, *};
use flow_reference::{decode, Program};

/// The command bytes of a job, front to back.
fn command_bytes(job: &[u8]) -> Vec<u8> {
    let mut bytes = Vec::new();
    let mut place = 0;
    while let Some(&byte) = job.get(place) {
        bytes.push(byte);
        place += 1 + table::row(byte).expect("a byte of the table").width;
    }
    assert_eq!(place, job.len(), "the last command is whole");
    bytes
}

/// FNV-1a: a number that almost every change of the bytes changes.
fn fingerprint(job: &[u8]) -> u64 {
    job.iter()
        .fold(0xcbf2_9ce4_8422_2325, |hash, &byte| (hash ^ u64::from(byte)).wrapping_mul(0x100_0000_01b3))
}

#[test]
fn its_bytes_are_fixed() {
    let job = large::job();
    assert_eq!(job.len(), 9_447);
    assert_eq!(fingerprint(&job), 0xb46d_820c_bd0b_2f1e);
}

#[test]
fn it_has_3362_commands() {
    let bytes = command_bytes(&large::job());
    assert_eq!(bytes.len(), 3_362);
    let counts = [
        (FLOW, 1),
        (NODE, 32),
        (VAR, 64),
        (FUN, 32),
        (WIRE, 128),
        (ANY, 128),
        (ARG, 64),
        (READ, 416),
        (WRITE, 416),
        (BODY, 32),
        (START, 1),
        (TURN, 0),
    ];
    for (byte, count) in counts {
        assert_eq!(bytes.iter().filter(|&&other| other == byte).count(), count, "{byte:02x}");
    }
}

#[test]
fn every_handler_has_64_commands_of_all_kinds() {
    let bytes = command_bytes(&large::job());
    let handlers: Vec<&[u8]> = bytes.split(|&byte| byte == BODY).skip(1).collect();
    assert_eq!(handlers.len(), 32);
    for handler in handlers {
        let commands: Vec<u8> = handler.iter().copied().filter(|&byte| is_handler(byte)).collect();
        assert_eq!(commands.len(), 64);
        assert!((SET..=SKIP).all(|byte| commands.contains(&byte)));
    }
}

/// So that every permission is used.
#[test]
fn the_reference_accepts_it() {
    let Program { flows, nodes, variables, functions, turns, .. } =
        decode(&large::job()).expect("a valid job");
    assert_eq!((flows, nodes.len(), variables.len(), functions.len(), turns.len()), (1, 32, 64, 32, 0));
}
