//! What an accepted job fixes.

use crate::outcome::{kind, Entry};
use crate::table::PORTS;

/// Where a variable lives.
#[derive(Clone, Copy, Debug, PartialEq, Eq)]
pub enum Scope {
    Node(u8),
    Flow(u8),
    Global,
}

#[derive(Clone, Copy, Debug)]
pub struct Variable {
    pub scope: Scope,
    pub start: u32,
}

/// A node with its handler's place in the code, its wires and its permissions as bit sets.
#[derive(Clone, Copy, Debug)]
pub struct Node {
    pub flow: u8,
    /// Commands of the handler.
    pub length: u8,
    /// The handler's first instruction.
    pub first: u16,
    /// Target nodes by port.
    pub wires: [u32; PORTS],
    /// Functions with ANY.
    pub any: u32,
    /// Variables with READ.
    pub readable: u64,
    /// Variables with WRITE.
    pub writable: u64,
}

impl Node {
    pub const fn new(flow: u8) -> Node {
        Node { flow, length: 0, first: 0, wires: [0; PORTS], any: 0, readable: 0, writable: 0 }
    }
}

/// The recorded answer to one argument of a function. The order is that of the fields.
#[derive(Clone, Copy, Debug, PartialEq, Eq, PartialOrd, Ord)]
pub struct Reply {
    pub function: u8,
    pub argument: u32,
    pub answer: u32,
}

impl Reply {
    /// What has to be called for this answer: function and argument.
    pub fn call(&self) -> (u8, u32) {
        (self.function, self.argument)
    }
}

/// A permission for the arguments from `low` to `high`, both included. The order is that of the fields.
#[derive(Clone, Copy, Debug, PartialEq, Eq, PartialOrd, Ord)]
pub struct Span {
    pub node: u8,
    pub function: u8,
    pub low: u32,
    pub high: u32,
}

impl Span {
    fn call(&self) -> (u8, u8) {
        (self.node, self.function)
    }
}

/// A variable as an instruction names it.
#[derive(Clone, Copy, Debug, PartialEq, Eq)]
pub struct Reference {
    pub variable: u8,
    pub shared: bool,
}

/// A decoded handler command.
#[derive(Clone, Copy, Debug, PartialEq, Eq)]
pub enum Instruction {
    Set(u32),
    Take,
    Get(Reference),
    Put(Reference),
    Add(u32),
    Plus(Reference),
    JumpZ(u8),
    Jump(u8),
    Send(u8),
    Call(u8),
    Skip,
}

#[derive(Clone, Debug, Default)]
pub struct Program {
    pub flows: usize,
    pub nodes: Vec<Node>,
    pub variables: Vec<Variable>,
    /// Answers by function, to all arguments that have no REPLY.
    pub functions: Vec<u32>,
    /// REPLY commands, sorted.
    pub replies: Vec<Reply>,
    /// ARG permissions as `arg_key`, sorted.
    pub args: Vec<u64>,
    /// SPAN permissions, sorted.
    pub spans: Vec<Span>,
    /// All handlers, one after another.
    pub code: Vec<Instruction>,
    /// First messages: node and value.
    pub starts: Vec<(u8, u32)>,
    /// The schedule.
    pub turns: Vec<u8>,
}

/// Node, function and argument of an ARG permission in one number.
pub const fn arg_key(node: u8, function: u8, value: u32) -> u64 {
    (node as u64) << 40 | (function as u64) << 32 | value as u64
}

impl Program {
    /// Flow and global variables are shared.
    pub fn is_shared(&self, variable: u8) -> bool {
        !matches!(self.variables[usize::from(variable)].scope, Scope::Node(_))
    }

    /// A node sees its own variables, its flow's and the global ones.
    pub fn sees(&self, node: u8, variable: u8) -> bool {
        match self.variables[usize::from(variable)].scope {
            Scope::Node(owner) => owner == node,
            Scope::Flow(owner) => owner == self.nodes[usize::from(node)].flow,
            Scope::Global => true,
        }
    }

    /// The instruction at a node's position; none at the handler's end.
    #[inline]
    pub fn instruction(&self, node: u8, position: u8) -> Option<Instruction> {
        let node = &self.nodes[usize::from(node)];
        if position >= node.length {
            return None;
        }
        Some(self.code[usize::from(node.first) + usize::from(position)])
    }

    /// What a call gets: the answer of the REPLY for its function and argument, or else that of FUN.
    #[inline]
    pub fn answer(&self, function: u8, argument: u32) -> u32 {
        match self.replies.binary_search_by_key(&(function, argument), Reply::call) {
            Ok(index) => self.replies[index].answer,
            Err(_) => self.functions[usize::from(function)],
        }
    }

    /// Whether the permissions allow this entry.
    #[inline]
    pub fn permits(&self, entry: &Entry) -> bool {
        let node = &self.nodes[usize::from(entry.node)];
        match entry.kind {
            kind::READ => node.readable >> entry.number & 1 == 1,
            kind::WRITE => node.writable >> entry.number & 1 == 1,
            kind::CALL => {
                node.any >> entry.number & 1 == 1
                    || self.args.binary_search(&arg_key(entry.node, entry.number, entry.value)).is_ok()
                    || self.spans_of(entry).any(|span| span.low <= entry.value && entry.value <= span.high)
            }
            _ => true,
        }
    }

    /// The SPAN permissions of a call's node and function, which stand side by side.
    #[inline]
    fn spans_of(&self, call: &Entry) -> impl Iterator<Item = &Span> {
        let call = (call.node, call.number);
        let first = self.spans.partition_point(|span| span.call() < call);
        self.spans[first..].iter().take_while(move |span| span.call() == call)
    }
}
