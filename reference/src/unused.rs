//! Refusal 19 (02, S-7): a permission that its node's handler has no command for.

use crate::command::{Command, HandlerCommand};
use crate::program::Span;
use crate::table::MAX_NODES;

/// What a handler has commands for, reached or not, as bit sets.
#[derive(Clone, Copy, Default)]
struct Uses {
    /// Variables with GET or PLUS.
    reads: u64,
    /// Variables with PUT.
    writes: u64,
    /// Functions with CALL.
    calls: u32,
}

impl Uses {
    /// Takes in a command of the handler.
    fn add(&mut self, command: HandlerCommand) {
        match command {
            HandlerCommand::Get(variable) | HandlerCommand::Plus(variable) => self.reads |= 1 << variable,
            HandlerCommand::Put(variable) => self.writes |= 1 << variable,
            HandlerCommand::Call(function) => self.calls |= 1 << function,
            _ => {}
        }
    }
}

/// The permissions of a job with their places, front to back, and the uses of each node.
#[derive(Default)]
pub(crate) struct Lists {
    permissions: Vec<(Command, usize)>,
    uses: [Uses; MAX_NODES],
}

impl Lists {
    /// Takes in a command at a place, in the body that is open there.
    pub fn note(&mut self, command: Command, body: Option<u8>, place: usize) {
        match (command, body) {
            (Command::Handler(command), Some(node)) => self.uses[usize::from(node)].add(command),
            _ if command.is_permission() => self.permissions.push((command, place)),
            _ => {}
        }
    }

    /// Whether the handler of a permission's node has a command for it.
    fn is_used(&self, permission: &Command) -> bool {
        let of = |node: u8| &self.uses[usize::from(node)];
        match *permission {
            Command::Read { node, variable } => of(node).reads >> variable & 1 == 1,
            Command::Write { node, variable } => of(node).writes >> variable & 1 == 1,
            Command::Any { node, function }
            | Command::Arg { node, function, .. }
            | Command::Span(Span { node, function, .. }) => of(node).calls >> function & 1 == 1,
            _ => true,
        }
    }

    /// The place of the first permission that is not used.
    pub fn first_unused(&self) -> Option<usize> {
        self.permissions.iter().find(|(permission, _)| !self.is_used(permission)).map(|&(_, place)| place)
    }
}
