//! The command table against that of the papers.

use flow_reference::table::{commands_of_01, group, row, write, COMMANDS};

/// Byte, name, operand bytes.
const PAPER: [(u8, &str, usize); 25] = [
    (0x01, "FLOW", 0),
    (0x02, "NODE", 0),
    (0x10, "VAR", 6),
    (0x11, "FUN", 4),
    (0x12, "REPLY", 9),
    (0x20, "WIRE", 3),
    (0x30, "ANY", 2),
    (0x31, "ARG", 6),
    (0x32, "READ", 2),
    (0x33, "WRITE", 2),
    (0x34, "SPAN", 10),
    (0x40, "BODY", 1),
    (0x41, "SET", 4),
    (0x42, "TAKE", 0),
    (0x43, "GET", 1),
    (0x44, "PUT", 1),
    (0x45, "ADD", 4),
    (0x46, "PLUS", 1),
    (0x47, "JUMPZ", 1),
    (0x48, "JUMP", 1),
    (0x49, "SEND", 1),
    (0x4A, "CALL", 1),
    (0x4B, "SKIP", 0),
    (0x50, "START", 5),
    (0x60, "TURN", 1),
];

#[test]
fn rows() {
    let rows: Vec<_> = COMMANDS.iter().map(|row| (row.byte, row.name, row.width)).collect();
    assert_eq!(rows, PAPER);
}

#[test]
fn rows_of_01() {
    let bytes: Vec<u8> =
        PAPER.iter().map(|line| line.0).filter(|byte| ![0x12, 0x34].contains(byte)).collect();
    assert_eq!(bytes.len(), 23);
    assert!(commands_of_01().map(|row| row.byte).eq(bytes));
}

#[test]
fn bytes_outside_the_table() {
    for byte in 0..=255 {
        let expected = PAPER.iter().find(|line| line.0 == byte).map(|line| line.1);
        assert_eq!(row(byte).map(|row| row.name), expected);
    }
}

#[test]
fn groups() {
    assert_eq!([0x02, 0x12, 0x20, 0x34, 0x4B, 0x50, 0x60].map(group), [0, 1, 2, 3, 4, 5, 6]);
}

#[test]
fn operands_lowest_byte_first() {
    assert_eq!(write(0x31, &[1, 2, 0x0A0B_0C0D]), [0x31, 1, 2, 0x0D, 0x0C, 0x0B, 0x0A]);
    let span = [0x34, 1, 2, 0x04, 0x03, 0x02, 0x01, 0x08, 0x07, 0x06, 0x05];
    assert_eq!(write(0x34, &[1, 2, 0x0102_0304, 0x0506_0708]), span);
    assert_eq!(write(0x12, &[1, 0x0102_0304, 0x0506_0708]), [0x12, 1, 4, 3, 2, 1, 8, 7, 6, 5]);
}
