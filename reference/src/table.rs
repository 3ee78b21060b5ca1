//! The 25 commands: byte, name and operands. Widths and groups follow from them.

pub const FLOW: u8 = 0x01;
pub const NODE: u8 = 0x02;
pub const VAR: u8 = 0x10;
pub const FUN: u8 = 0x11;
pub const REPLY: u8 = 0x12;
pub const WIRE: u8 = 0x20;
pub const ANY: u8 = 0x30;
pub const ARG: u8 = 0x31;
pub const READ: u8 = 0x32;
pub const WRITE: u8 = 0x33;
pub const SPAN: u8 = 0x34;
pub const BODY: u8 = 0x40;
pub const SET: u8 = 0x41;
pub const TAKE: u8 = 0x42;
pub const GET: u8 = 0x43;
pub const PUT: u8 = 0x44;
pub const ADD: u8 = 0x45;
pub const PLUS: u8 = 0x46;
pub const JUMPZ: u8 = 0x47;
pub const JUMP: u8 = 0x48;
pub const SEND: u8 = 0x49;
pub const CALL: u8 = 0x4A;
pub const SKIP: u8 = 0x4B;
pub const START: u8 = 0x50;
pub const TURN: u8 = 0x60;

/// Largest counts.
pub const MAX_JOB_BYTES: usize = 16_384;
pub const MAX_FLOWS: usize = 8;
pub const MAX_NODES: usize = 32;
pub const MAX_VARIABLES: usize = 64;
pub const MAX_FUNCTIONS: usize = 32;
pub const MAX_REPLIES: usize = 128;
pub const PORTS: usize = 4;
pub const MAX_BODY_COMMANDS: usize = 64;
/// ARG and SPAN commands together.
pub const MAX_ARGS: usize = 256;
pub const MAX_TURNS: usize = 4_096;
pub const QUEUE_CAPACITY: usize = 16;

/// What an operand names.
#[derive(Clone, Copy, Debug, PartialEq, Eq)]
pub enum Operand {
    Scope,
    Owner,
    Node,
    Port,
    /// The target node of a wire.
    TargetNode,
    Function,
    Variable,
    /// A position in a body (01: `target` of a jump).
    Position,
    /// `value`, `start`, `answer`, `argument`, `low` or `high`: 32 bits.
    Number,
}

impl Operand {
    pub const fn width(self) -> usize {
        match self {
            Operand::Number => 4,
            _ => 1,
        }
    }
}

/// One line of the command table.
#[derive(Clone, Copy, Debug)]
pub struct Row {
    pub byte: u8,
    pub name: &'static str,
    pub operands: &'static [Operand],
    /// Operand bytes of the command.
    pub width: usize,
}

impl Row {
    const fn new(byte: u8, name: &'static str, operands: &'static [Operand]) -> Row {
        let mut width = 0;
        let mut i = 0;
        while i < operands.len() {
            width += operands[i].width();
            i += 1;
        }
        Row { byte, name, operands, width }
    }
}

use Operand::*;

pub const COMMANDS: [Row; 25] = [
    Row::new(FLOW, "FLOW", &[]),
    Row::new(NODE, "NODE", &[]),
    Row::new(VAR, "VAR", &[Scope, Owner, Number]),
    Row::new(FUN, "FUN", &[Number]),
    Row::new(REPLY, "REPLY", &[Function, Number, Number]),
    Row::new(WIRE, "WIRE", &[Node, Port, TargetNode]),
    Row::new(ANY, "ANY", &[Node, Function]),
    Row::new(ARG, "ARG", &[Node, Function, Number]),
    Row::new(READ, "READ", &[Node, Variable]),
    Row::new(WRITE, "WRITE", &[Node, Variable]),
    Row::new(SPAN, "SPAN", &[Node, Function, Number, Number]),
    Row::new(BODY, "BODY", &[Node]),
    Row::new(SET, "SET", &[Number]),
    Row::new(TAKE, "TAKE", &[]),
    Row::new(GET, "GET", &[Variable]),
    Row::new(PUT, "PUT", &[Variable]),
    Row::new(ADD, "ADD", &[Number]),
    Row::new(PLUS, "PLUS", &[Variable]),
    Row::new(JUMPZ, "JUMPZ", &[Position]),
    Row::new(JUMP, "JUMP", &[Position]),
    Row::new(SEND, "SEND", &[Port]),
    Row::new(CALL, "CALL", &[Function]),
    Row::new(SKIP, "SKIP", &[]),
    Row::new(START, "START", &[Node, Number]),
    Row::new(TURN, "TURN", &[Node]),
];

const NO_ROW: u8 = u8::MAX;

const fn row_index() -> [u8; 256] {
    let mut index = [NO_ROW; 256];
    let mut i = 0;
    while i < COMMANDS.len() {
        index[COMMANDS[i].byte as usize] = i as u8;
        i += 1;
    }
    index
}

static ROW_INDEX: [u8; 256] = row_index();
static ROWS: [Row; 25] = COMMANDS;

/// The command with this byte, if the table has one.
pub fn row(byte: u8) -> Option<&'static Row> {
    ROWS.get(usize::from(ROW_INDEX[usize::from(byte)]))
}

/// The commands of 01 itself: all but SPAN and REPLY, which requests S-5 and S-1 added.
pub fn commands_of_01() -> impl Iterator<Item = &'static Row> {
    ROWS.iter().filter(|row| !matches!(row.byte, SPAN | REPLY))
}

/// A command's group: its byte divided by 16, rounded down.
pub const fn group(byte: u8) -> u8 {
    byte / 16
}

/// A handler command: one that stands in a body. BODY itself only opens one.
pub const fn is_handler(byte: u8) -> bool {
    group(byte) == group(BODY) && byte != BODY
}

/// The bytes of a command with these operands.
pub fn write(byte: u8, operands: &[u32]) -> Vec<u8> {
    let row = row(byte).expect("a byte of the table");
    assert_eq!(row.operands.len(), operands.len(), "{}", row.name);
    let mut bytes = vec![byte];
    for (operand, value) in row.operands.iter().zip(operands) {
        bytes.extend_from_slice(&value.to_le_bytes()[..operand.width()]);
    }
    bytes
}
