//! Largest counts: reached is accepted, one past is refused with 5 (the job's length: 1).

mod common;

use common::{bytes, job};
use flow_reference::{decode, Refusal};

fn refused(job: &[u8], number: u8, place: usize) {
    assert_eq!(decode(job).err(), Some(Refusal { number, place }));
}

/// `head` once and `piece` so often is accepted; once more is refused with 5 at that place.
fn check(head: &str, piece: &str, most: usize) {
    let full = job(&[(head, 1), (piece, most)]);
    assert!(decode(&full).is_ok(), "{piece} {most} times");
    refused(&job(&[(head, 1), (piece, most + 1)]), 5, full.len());
}

#[test]
fn flows_and_nodes() {
    check("01", "01", 7);
    check("01", "02", 32);
    check("01 02 01 02", "02", 30);
}

#[test]
fn variables_and_functions() {
    check("01", "10 02 00 01 02 03 04", 64);
    check("01 02 10 00 00 01 00 00 00", "10 01 00 01 02 03 04", 63);
    check("01", "11 01 02 03 04", 32);
}

#[test]
fn commands_of_a_body() {
    check("01 02 40 00", "4B", 64);
    check("01 02 40 00", "41 01 02 03 04", 64);
    check("01 02 40 00", "48 40", 64);
    // Each body has its own count, and BODY does not count.
    let head = format!("01 02 02 40 00 {} 40 01", "4B".repeat(64));
    check(&head, "4B", 64);
}

#[test]
fn args() {
    let mut full = bytes("01 02 11 00 00 00 00 30 00 00");
    for value in 0..256u32 {
        full.extend([0x31, 0, 0]);
        full.extend(value.to_le_bytes());
    }
    let program = decode(&[&full[..], &[0x40, 0, 0x4A, 0]].concat()).unwrap();
    assert_eq!(program.args.len(), 256);
    let place = full.len();
    full.extend([0x31, 0, 0, 0xFF, 0xFF, 0, 0]);
    refused(&full, 5, place);
}

#[test]
fn turns() {
    check("01 02", "60 00", 4_096);
}

#[test]
fn job_bytes() {
    let body = |node: usize, commands: String| format!("40 {node:02x} {commands}");
    let mut text = format!("01 {}", "02".repeat(32));
    for node in 0..25 {
        text += &body(node, "41 01 02 03 04".repeat(64));
    }
    text += &body(25, "41 01 02 03 04".repeat(21));
    text += "4B 4B";
    let full = job(&[(&text, 1), ("60 00", 4_096)]);
    assert_eq!(full.len(), 16_384);
    assert!(decode(&full).is_ok());
    let over = job(&[(&text, 1), ("4B", 1), ("60 00", 4_096)]);
    assert_eq!(over.len(), 16_385);
    refused(&over, 1, 0);
}

#[test]
fn ports_are_not_counted() {
    for (port, number) in [("00", None), ("03", None), ("04", Some(6)), ("FF", Some(6))] {
        let wire = decode(&bytes(&format!("01 02 20 00 {port} 00")));
        let send = decode(&bytes(&format!("01 02 40 00 49 {port}")));
        assert_eq!(wire.err().map(|refusal| refusal.number), number);
        assert_eq!(send.err().map(|refusal| refusal.number), number);
    }
}

#[test]
fn several_counts_at_once() {
    let text = format!(
        "{} {} {} {}",
        "01".repeat(8),
        "02".repeat(32),
        "10 02 00 00 00 00 00".repeat(64),
        "11 00 00 00 00".repeat(32)
    );
    let program = decode(&bytes(&text)).unwrap();
    let counts = (program.flows, program.nodes.len(), program.variables.len(), program.functions.len());
    assert_eq!(counts, (8, 32, 64, 32));
}

/// BODY has no largest count: behind 32 of them the next names no node, or one that has a body.
#[test]
fn thirty_third_body() {
    let mut full = job(&[("01", 1), ("02", 32)]);
    full.extend((0..32).flat_map(|node| [0x40, node]));
    assert!(decode(&full).is_ok());
    let with = |node| [&full[..], &[0x40, node]].concat();
    refused(&with(0), 8, full.len());
    refused(&with(32), 6, full.len());
}
