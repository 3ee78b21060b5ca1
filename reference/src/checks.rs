//! Refusals 4 to 8 and 15: the tests of one command, mostly against those before it.

use crate::builder::Builder;
use crate::command::{Command, HandlerCommand};
use crate::program::{arg_key, Reply, Span};
use crate::table::*;

/// A SPAN whose low is above its high.
fn is_upside_down(command: &Command) -> bool {
    matches!(command, Command::Span(span) if span.low > span.high)
}

impl Builder {
    /// The number of the first test that the command fails.
    pub fn refusal(&self, command: &Command, group: u8) -> Option<u8> {
        if group < self.group {
            Some(4)
        } else if self.passes_a_count(command) {
            Some(5)
        } else if self.is_undeclared(command) {
            Some(6)
        } else if self.is_out_of_sight(command) {
            Some(7)
        } else if self.is_repeated(command) {
            Some(8)
        } else if is_upside_down(command) {
            Some(15)
        } else {
            None
        }
    }

    fn passes_a_count(&self, command: &Command) -> bool {
        let p = &self.program;
        match command {
            Command::Flow => p.flows == MAX_FLOWS,
            Command::Node => p.nodes.len() == MAX_NODES,
            Command::Var { .. } => p.variables.len() == MAX_VARIABLES,
            Command::Fun { .. } => p.functions.len() == MAX_FUNCTIONS,
            Command::Reply(_) => p.replies.len() == MAX_REPLIES,
            Command::Arg { .. } | Command::Span(_) => p.args.len() + p.spans.len() == MAX_ARGS,
            Command::Turn { .. } => p.turns.len() == MAX_TURNS,
            Command::Handler(_) => match self.body {
                Some(node) => usize::from(p.nodes[usize::from(node)].length) == MAX_BODY_COMMANDS,
                None => false,
            },
            _ => false,
        }
    }

    fn has_node(&self, node: u8) -> bool {
        usize::from(node) < self.program.nodes.len()
    }

    fn has_flow(&self, flow: u8) -> bool {
        usize::from(flow) < self.program.flows
    }

    fn has_variable(&self, variable: u8) -> bool {
        usize::from(variable) < self.program.variables.len()
    }

    fn has_function(&self, function: u8) -> bool {
        usize::from(function) < self.program.functions.len()
    }

    fn is_undeclared(&self, command: &Command) -> bool {
        let is_port = |port: u8| usize::from(port) < PORTS;
        match *command {
            Command::Flow | Command::Fun { .. } => false,
            Command::Node => self.program.flows == 0,
            Command::Var { scope: 0, owner, .. } => !self.has_node(owner),
            Command::Var { scope: 1, owner, .. } => !self.has_flow(owner),
            Command::Var { scope: 2, owner, .. } => owner != 0,
            Command::Var { .. } => true,
            Command::Reply(Reply { function, .. }) => !self.has_function(function),
            Command::Wire { node, port, target } => {
                !self.has_node(node) || !is_port(port) || !self.has_node(target)
            }
            Command::Any { node, function }
            | Command::Arg { node, function, .. }
            | Command::Span(Span { node, function, .. }) => {
                !self.has_node(node) || !self.has_function(function)
            }
            Command::Read { node, variable } | Command::Write { node, variable } => {
                !self.has_node(node) || !self.has_variable(variable)
            }
            Command::Body { node } | Command::Start { node, .. } | Command::Turn { node } => {
                !self.has_node(node)
            }
            Command::Handler(_) if self.body.is_none() => true,
            Command::Handler(handler) => match handler {
                HandlerCommand::Get(v) | HandlerCommand::Put(v) | HandlerCommand::Plus(v) => {
                    !self.has_variable(v)
                }
                HandlerCommand::Send(port) => !is_port(port),
                HandlerCommand::Call(function) => !self.has_function(function),
                _ => false,
            },
        }
    }

    fn is_out_of_sight(&self, command: &Command) -> bool {
        let p = &self.program;
        match *command {
            Command::Wire { node, target, .. } => {
                p.nodes[usize::from(node)].flow != p.nodes[usize::from(target)].flow
            }
            Command::Read { node, variable } | Command::Write { node, variable } => {
                !p.sees(node, variable) || !p.is_shared(variable)
            }
            Command::Handler(
                HandlerCommand::Get(variable)
                | HandlerCommand::Put(variable)
                | HandlerCommand::Plus(variable),
            ) => self.body.is_some_and(|node| !p.sees(node, variable)),
            _ => false,
        }
    }

    fn is_repeated(&self, command: &Command) -> bool {
        let p = &self.program;
        let at = |node: u8| &p.nodes[usize::from(node)];
        match *command {
            Command::Reply(reply) => p.replies.iter().any(|other| other.call() == reply.call()),
            Command::Wire { node, port, target } => at(node).wires[usize::from(port)] >> target & 1 == 1,
            Command::Any { node, function } => at(node).any >> function & 1 == 1,
            Command::Arg { node, function, value } => p.args.contains(&arg_key(node, function, value)),
            Command::Read { node, variable } => at(node).readable >> variable & 1 == 1,
            Command::Write { node, variable } => at(node).writable >> variable & 1 == 1,
            Command::Span(span) => p.spans.contains(&span),
            Command::Body { node } => self.bodies >> node & 1 == 1,
            Command::Start { node, .. } => self.started >> at(node).flow & 1 == 1,
            _ => false,
        }
    }
}
