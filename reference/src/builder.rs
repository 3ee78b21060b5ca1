//! The program so far, while a job is read front to back.

use crate::command::{Command, HandlerCommand};
use crate::program::{arg_key, Instruction, Node, Program, Reference, Scope, Variable};
use crate::unused::Lists;

/// A jump, tested once all bodies are complete.
struct Jump {
    place: usize,
    node: u8,
    target: u8,
}

#[derive(Default)]
pub(crate) struct Builder {
    pub program: Program,
    /// The highest group so far.
    pub group: u8,
    /// The node whose body is open.
    pub body: Option<u8>,
    /// Nodes that have a BODY.
    pub bodies: u32,
    /// Flows that have a START.
    pub started: u8,
    pub lists: Lists,
    jumps: Vec<Jump>,
}

impl Builder {
    /// Takes in a command that passed every test.
    pub fn apply(&mut self, command: Command, place: usize) {
        self.lists.note(command, self.body, place);
        let p = &mut self.program;
        match command {
            Command::Flow => p.flows += 1,
            Command::Node => p.nodes.push(Node::new(p.flows as u8 - 1)),
            Command::Var { scope, owner, start } => {
                let scope = match scope {
                    0 => Scope::Node(owner),
                    1 => Scope::Flow(owner),
                    _ => Scope::Global,
                };
                p.variables.push(Variable { scope, start });
            }
            Command::Fun { answer } => p.functions.push(answer),
            Command::Reply(reply) => p.replies.push(reply),
            Command::Wire { node, port, target } => {
                p.nodes[usize::from(node)].wires[usize::from(port)] |= 1 << target;
            }
            Command::Any { node, function } => p.nodes[usize::from(node)].any |= 1 << function,
            Command::Arg { node, function, value } => p.args.push(arg_key(node, function, value)),
            Command::Read { node, variable } => p.nodes[usize::from(node)].readable |= 1 << variable,
            Command::Write { node, variable } => p.nodes[usize::from(node)].writable |= 1 << variable,
            Command::Span(span) => p.spans.push(span),
            Command::Body { node } => self.open_body(node),
            Command::Handler(command) => self.append(command, place),
            Command::Start { node, value } => {
                self.started |= 1 << p.nodes[usize::from(node)].flow;
                p.starts.push((node, value));
            }
            Command::Turn { node } => p.turns.push(node),
        }
    }

    fn open_body(&mut self, node: u8) {
        self.body = Some(node);
        self.bodies |= 1 << node;
        self.program.nodes[usize::from(node)].first = self.program.code.len() as u16;
    }

    fn append(&mut self, command: HandlerCommand, place: usize) {
        let Some(node) = self.body else { return };
        if let HandlerCommand::JumpZ(target) | HandlerCommand::Jump(target) = command {
            self.jumps.push(Jump { place, node, target });
        }
        let instruction = self.instruction(command);
        self.program.code.push(instruction);
        self.program.nodes[usize::from(node)].length += 1;
    }

    fn instruction(&self, command: HandlerCommand) -> Instruction {
        let reference = |variable| Reference { variable, shared: self.program.is_shared(variable) };
        match command {
            HandlerCommand::Set(value) => Instruction::Set(value),
            HandlerCommand::Take => Instruction::Take,
            HandlerCommand::Get(variable) => Instruction::Get(reference(variable)),
            HandlerCommand::Put(variable) => Instruction::Put(reference(variable)),
            HandlerCommand::Add(value) => Instruction::Add(value),
            HandlerCommand::Plus(variable) => Instruction::Plus(reference(variable)),
            HandlerCommand::JumpZ(target) => Instruction::JumpZ(target),
            HandlerCommand::Jump(target) => Instruction::Jump(target),
            HandlerCommand::Send(port) => Instruction::Send(port),
            HandlerCommand::Call(function) => Instruction::Call(function),
            HandlerCommand::Skip => Instruction::Skip,
        }
    }

    /// The place of the first jump past its body's end.
    pub fn first_bad_jump(&self) -> Option<usize> {
        let past_end = |jump: &&Jump| jump.target > self.program.nodes[usize::from(jump.node)].length;
        self.jumps.iter().find(past_end).map(|jump| jump.place)
    }

    pub fn finish(mut self) -> Program {
        self.program.replies.sort_unstable();
        self.program.args.sort_unstable();
        self.program.spans.sort_unstable();
        self.program
    }
}
