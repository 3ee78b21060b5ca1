//! One command with its operands, as it stands in the job.

use crate::program::{Reply, Span};
use crate::table::{self, *};

#[derive(Clone, Copy, Debug, PartialEq, Eq)]
pub enum Command {
    Flow,
    Node,
    Var { scope: u8, owner: u8, start: u32 },
    Fun { answer: u32 },
    Reply(Reply),
    Wire { node: u8, port: u8, target: u8 },
    Any { node: u8, function: u8 },
    Arg { node: u8, function: u8, value: u32 },
    Read { node: u8, variable: u8 },
    Write { node: u8, variable: u8 },
    Span(Span),
    Body { node: u8 },
    Handler(HandlerCommand),
    Start { node: u8, value: u32 },
    Turn { node: u8 },
}

impl Command {
    /// Whether it permits something: ANY, ARG, READ, WRITE or SPAN.
    pub fn is_permission(&self) -> bool {
        use Command::*;
        matches!(self, Any { .. } | Arg { .. } | Read { .. } | Write { .. } | Span(_))
    }
}

#[derive(Clone, Copy, Debug, PartialEq, Eq)]
pub enum HandlerCommand {
    Set(u32),
    Take,
    Get(u8),
    Put(u8),
    Add(u32),
    Plus(u8),
    JumpZ(u8),
    Jump(u8),
    Send(u8),
    Call(u8),
    Skip,
}

/// Reads the command at `place` and gives it with its group and the place after it.
/// The error is the refusal's number: 2 or 3.
pub fn read(job: &[u8], place: usize) -> Result<(Command, u8, usize), u8> {
    let byte = job[place];
    let row = table::row(byte).ok_or(2)?;
    let end = place + 1 + row.width;
    let operands = job.get(place + 1..end).ok_or(3)?;
    let command = if is_handler(byte) {
        Command::Handler(parse_handler(byte, operands))
    } else {
        parse(byte, operands)
    };
    Ok((command, group(byte), end))
}

fn number(bytes: &[u8]) -> u32 {
    u32::from_le_bytes([bytes[0], bytes[1], bytes[2], bytes[3]])
}

fn parse(byte: u8, o: &[u8]) -> Command {
    match byte {
        FLOW => Command::Flow,
        NODE => Command::Node,
        VAR => Command::Var { scope: o[0], owner: o[1], start: number(&o[2..]) },
        FUN => Command::Fun { answer: number(o) },
        REPLY => Command::Reply(Reply { function: o[0], argument: number(&o[1..]), answer: number(&o[5..]) }),
        WIRE => Command::Wire { node: o[0], port: o[1], target: o[2] },
        ANY => Command::Any { node: o[0], function: o[1] },
        ARG => Command::Arg { node: o[0], function: o[1], value: number(&o[2..]) },
        READ => Command::Read { node: o[0], variable: o[1] },
        WRITE => Command::Write { node: o[0], variable: o[1] },
        SPAN => {
            Command::Span(Span { node: o[0], function: o[1], low: number(&o[2..]), high: number(&o[6..]) })
        }
        BODY => Command::Body { node: o[0] },
        START => Command::Start { node: o[0], value: number(&o[1..]) },
        TURN => Command::Turn { node: o[0] },
        _ => unreachable!("byte {byte:02x} is no command of the table"),
    }
}

fn parse_handler(byte: u8, o: &[u8]) -> HandlerCommand {
    match byte {
        SET => HandlerCommand::Set(number(o)),
        TAKE => HandlerCommand::Take,
        GET => HandlerCommand::Get(o[0]),
        PUT => HandlerCommand::Put(o[0]),
        ADD => HandlerCommand::Add(number(o)),
        PLUS => HandlerCommand::Plus(o[0]),
        JUMPZ => HandlerCommand::JumpZ(o[0]),
        JUMP => HandlerCommand::Jump(o[0]),
        SEND => HandlerCommand::Send(o[0]),
        CALL => HandlerCommand::Call(o[0]),
        SKIP => HandlerCommand::Skip,
        _ => unreachable!("byte {byte:02x} is no handler command"),
    }
}
