//! Refusals 1 to 9 by hand: number and place. `spans.rs` and `replies.rs` have those at SPAN and REPLY, `unused.rs` has 19.

mod common;

use common::{bytes, job};
use flow_reference::{decode, Refusal};

fn refused(text: &str, number: u8, place: usize) {
    assert_eq!(decode(&bytes(text)).err(), Some(Refusal { number, place }), "{text}");
}

fn accepted(text: &str) {
    assert_eq!(decode(&bytes(text)).err(), None, "{text}");
}

/// Two flows; nodes 0 and 1 in flow 0, node 2 in flow 1; variables: 0 of node 0, 1 of flow 0,
/// 2 of flow 1, 3 global; one function.
const BASE: &str = "01 02 02 01 02  10 00 00 00 00 00 00  10 01 00 00 00 00 00
    10 01 01 00 00 00 00  10 02 00 00 00 00 00  11 09 00 00 00";
const LENGTH: usize = 38;

fn refused_after_base(rest: &str, number: u8, offset: usize) {
    refused(&format!("{BASE} {rest}"), number, LENGTH + offset);
}

fn accepted_after_base(rest: &str) {
    accepted(&format!("{BASE} {rest}"));
}

#[test]
fn base_is_accepted() {
    assert_eq!(bytes(BASE).len(), LENGTH);
    accepted(BASE);
}

#[test]
fn small_jobs() {
    accepted("01");
    accepted("01 01 02");
    accepted("10 02 00 05 00 00 00");
    accepted("11 05 00 00 00");
    accepted("01 10 01 00 05 00 00 00");
    accepted("01 02 40 00");
}

#[test]
fn number_2() {
    for byte in ["00", "03", "0F", "13", "21", "35", "3F", "4C", "51", "61", "70", "FF"] {
        refused(byte, 2, 0);
        refused(&format!("01 02 60 00 {byte}"), 2, 4);
    }
}

#[test]
fn number_3_before_4_5_and_6() {
    refused("60", 3, 0);
    refused("01 02 50 00 01 00 00", 3, 2);
    refused("01 02 60 00 10 02", 3, 4);
    refused("50 FF", 3, 0);
    let turns = job(&[("01 02", 1), ("60 00", 4_096), ("60", 1)]);
    assert_eq!(decode(&turns).err(), Some(Refusal { number: 3, place: 8_194 }));
}

#[test]
fn number_4_before_5_and_6() {
    refused("10 02 00 00 00 00 00 01", 4, 7);
    refused("01 02 60 00 50 00 00 00 00 00", 4, 4);
    refused("01 02 40 00 4B 32 FF FF", 4, 5);
    refused("01 01 01 01 01 01 01 01 02 40 00 01", 4, 11);
    refused("01 02 60 00 02", 4, 4);
    accepted("01 02 01 02");
    accepted("11 00 00 00 00 10 02 00 00 00 00 00");
}

#[test]
fn number_5_before_6_and_8() {
    let turns = job(&[("01 02", 1), ("60 00", 4_096), ("60 01", 1)]);
    assert_eq!(decode(&turns).err(), Some(Refusal { number: 5, place: 8_194 }));
    let variables = job(&[("10 02 00 00 00 00 00", 64), ("10 09 09 00 00 00 00", 1)]);
    assert_eq!(decode(&variables).err(), Some(Refusal { number: 5, place: 448 }));
    let commands = job(&[("01 02 40 00", 1), ("4B", 64), ("43 FF", 1)]);
    assert_eq!(decode(&commands).err(), Some(Refusal { number: 5, place: 68 }));
}

#[test]
fn number_6_order_and_scopes() {
    refused("02", 6, 0);
    for command in ["41 00 00 00 00", "42", "43 00", "45 00 00 00 00", "47 00", "48 00", "49 00", "4B"] {
        refused(command, 6, 0);
        refused(&format!("01 02 {command}"), 6, 2);
    }
    refused("10 00 00 00 00 00 00", 6, 0);
    refused("10 01 00 00 00 00 00", 6, 0);
    refused("10 02 01 00 00 00 00", 6, 0);
    refused("10 03 00 00 00 00 00", 6, 0);
    refused("01 02 10 FF 00 00 00 00 00", 6, 2);
    refused("01 02 10 00 01 00 00 00 00", 6, 2);
    refused("01 02 10 01 01 00 00 00 00", 6, 2);
}

#[test]
fn number_6_operands() {
    for command in [
        "20 03 00 00",
        "20 00 04 00",
        "20 00 00 03",
        "30 03 00",
        "30 00 01",
        "31 03 00 00 00 00 00",
        "31 00 01 00 00 00 00",
        "32 03 01",
        "32 00 04",
        "33 03 01",
        "33 00 04",
        "40 03",
        "50 03 00 00 00 00",
        "60 03",
    ] {
        refused_after_base(command, 6, 0);
    }
    for command in ["43 04", "44 04", "46 04", "49 04", "4A 01"] {
        refused_after_base(&format!("40 00 {command}"), 6, 2);
    }
}

#[test]
fn number_7() {
    refused_after_base("20 00 00 02", 7, 0);
    refused_after_base("20 02 03 01", 7, 0);
    for (permission, access) in [("32", "43"), ("33", "44")] {
        refused_after_base(&format!("{permission} 00 00"), 7, 0);
        refused_after_base(&format!("{permission} 01 00"), 7, 0);
        refused_after_base(&format!("{permission} 00 02"), 7, 0);
        refused_after_base(&format!("{permission} 02 01"), 7, 0);
        let bodies = format!("40 00 {access} 01 {access} 03 40 01 {access} 01 40 02 {access} 02 {access} 03");
        accepted_after_base(&format!("{permission} 00 01 {permission} 01 01 {permission} 02 02 {bodies}"));
        accepted_after_base(&format!("{permission} 00 03 {permission} 02 03 {bodies}"));
    }
    for access in ["43", "44", "46"] {
        refused_after_base(&format!("40 01 {access} 00"), 7, 2);
        refused_after_base(&format!("40 01 {access} 02"), 7, 2);
        refused_after_base(&format!("40 00 {access} 00 40 02 {access} 01"), 7, 6);
        accepted_after_base(&format!("40 00 {access} 00 {access} 01 {access} 03 40 02 {access} 02"));
    }
}

#[test]
fn number_8() {
    refused_after_base("20 00 00 01 20 00 00 01", 8, 4);
    accepted_after_base("20 00 00 01 20 00 01 01 20 00 00 00 20 01 00 01");
    refused_after_base("30 00 00 30 00 00", 8, 3);
    refused_after_base("31 00 00 05 00 00 00 30 00 00 31 00 00 05 00 00 00", 8, 10);
    let args = "31 00 00 05 00 00 00 31 00 00 06 00 00 00 31 01 00 05 00 00 00";
    accepted_after_base(&format!("{args} 30 00 00 40 00 4A 00 40 01 4A 00"));
    refused_after_base("32 00 01 32 00 01", 8, 3);
    refused_after_base("33 00 01 32 00 01 33 00 01", 8, 6);
    accepted_after_base("32 00 01 33 00 01 40 00 43 01 44 01");
    refused_after_base("40 00 40 01 40 00", 8, 4);
    refused_after_base("50 00 01 00 00 00 50 00 02 00 00 00", 8, 6);
    refused_after_base("50 00 01 00 00 00 50 01 01 00 00 00", 8, 6);
    accepted_after_base("50 00 01 00 00 00 50 02 01 00 00 00");
}

#[test]
fn number_9_comes_last() {
    accepted("01 02 40 00 47 01");
    refused("01 02 40 00 47 02", 9, 4);
    accepted("01 02 40 00 47 02 4B");
    refused("01 02 02 40 00 48 00 40 01 48 02 40", 3, 11);
    refused("01 02 02 40 01 48 02 40 00 47 FF", 9, 5);
    refused("01 02 02 40 01 48 02 40 00 47 FF 60 00 60 02", 6, 13);
    refused("01 02 40 00 48 02 60 00 FF", 2, 8);
}
