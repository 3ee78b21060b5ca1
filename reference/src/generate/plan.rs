//! A job in the making: its commands by group, and what they declare.

use super::uses::{use_of, used};
use crate::command::{self, Command};
use crate::table::{self, group, ARG, BODY, CALL, FLOW, FUN, NODE, REPLY, SPAN, TURN, VAR};

pub const GROUPS: usize = 7;
/// The group of permissions.
pub const PERMISSIONS: usize = group(ARG) as usize;
/// The group of handler commands.
pub const HANDLERS: usize = group(BODY) as usize;

#[derive(Clone, Debug, Default)]
pub struct Plan {
    pub flows: usize,
    /// The flow of each node.
    pub flow_of: Vec<u8>,
    /// Scope and owner of each variable.
    pub variables: Vec<(u8, u8)>,
    pub functions: usize,
    /// The bytes of each command, by group.
    pub groups: [Vec<Vec<u8>>; GROUPS],
}

impl Plan {
    /// The commands of a job, as far as they are whole, by group. What they declare is not noted.
    pub fn split(mut job: &[u8]) -> Plan {
        let mut plan = Plan::default();
        while !job.is_empty() {
            let Ok((_, group, length)) = command::read(job, 0) else { break };
            let (command, rest) = job.split_at(length);
            plan.groups[usize::from(group)].push(command.to_vec());
            job = rest;
        }
        plan
    }

    pub fn nodes(&self) -> usize {
        self.flow_of.len()
    }

    /// Adds a command at the end of its group.
    pub fn push(&mut self, byte: u8, operands: &[u32]) {
        self.groups[usize::from(group(byte))].push(table::write(byte, operands));
    }

    pub fn add_flow(&mut self) -> u8 {
        self.push(FLOW, &[]);
        self.flows += 1;
        self.flows as u8 - 1
    }

    /// Adds a node to the last flow.
    pub fn add_node(&mut self) -> u8 {
        self.push(NODE, &[]);
        self.flow_of.push(self.flows as u8 - 1);
        self.nodes() as u8 - 1
    }

    pub fn add_variable(&mut self, scope: u8, owner: u8, start: u32) -> u8 {
        self.push(VAR, &[scope.into(), owner.into(), start]);
        self.variables.push((scope, owner));
        self.variables.len() as u8 - 1
    }

    pub fn add_function(&mut self, answer: u32) -> u8 {
        self.push(FUN, &[answer]);
        self.functions += 1;
        self.functions as u8 - 1
    }

    /// The replies so far: function and argument of each.
    pub fn replies(&self) -> Vec<(u8, u32)> {
        let commands = self.groups[usize::from(group(REPLY))].iter();
        let read = |command: &Vec<u8>| match command::read(command, 0) {
            Ok((Command::Reply(reply), ..)) => Some(reply.call()),
            _ => None,
        };
        commands.filter_map(read).collect()
    }

    pub fn add_turn(&mut self, node: u8) {
        self.push(TURN, &[node.into()]);
    }

    pub fn is_shared(&self, variable: u8) -> bool {
        self.variables[usize::from(variable)].0 != 0
    }

    pub fn sees(&self, node: u8, variable: u8) -> bool {
        match self.variables[usize::from(variable)] {
            (0, owner) => owner == node,
            (1, owner) => owner == self.flow_of[usize::from(node)],
            _ => true,
        }
    }

    pub fn nodes_of(&self, flow: u8) -> Vec<u8> {
        (0..self.nodes() as u8).filter(|&node| self.flow_of[usize::from(node)] == flow).collect()
    }

    /// The commands of a group that have this byte: their indices.
    pub fn indices(&self, byte: u8) -> Vec<usize> {
        self.indices_of(group(byte), |other| other == byte)
    }

    /// The indices of the ARG and SPAN commands, which share a largest count.
    pub fn arguments(&self) -> Vec<usize> {
        self.indices_of(group(ARG), |byte| matches!(byte, ARG | SPAN))
    }

    /// The commands of a group whose bytes are like this: their indices.
    fn indices_of(&self, group: u8, is_like_this: impl Fn(u8) -> bool) -> Vec<usize> {
        let commands = self.groups[usize::from(group)].iter().enumerate();
        commands.filter(|(_, command)| is_like_this(command[0])).map(|(index, _)| index).collect()
    }

    /// The node whose body is open before the handler group's command `index`.
    pub fn body_at(&self, index: usize) -> Option<u8> {
        self.groups[HANDLERS][..index].iter().rev().find(|command| command[0] == BODY).map(|body| body[1])
    }

    /// The bodies: the index range of each one's commands, without BODY.
    pub fn bodies(&self) -> Vec<std::ops::Range<usize>> {
        let mut starts = self.indices(BODY);
        starts.push(self.groups[HANDLERS].len());
        starts.windows(2).map(|pair| pair[0] + 1..pair[1]).collect()
    }

    /// The body of a node, if it has one.
    pub fn body(&self, node: u8) -> Option<std::ops::Range<usize>> {
        self.bodies().into_iter().find(|body| self.groups[HANDLERS][body.start - 1] == [BODY, node])
    }

    /// The commands of a node's handler.
    pub fn handler(&self, node: u8) -> &[Vec<u8>] {
        self.body(node).map_or(&[], |body| &self.groups[HANDLERS][body])
    }

    /// Whether the handler of a permission's node has a command for it.
    pub fn is_used(&self, permission: &[u8]) -> bool {
        self.handler(permission[1]).iter().any(|command| used(command) == Some(use_of(permission)))
    }

    /// Node and function of each CALL.
    pub fn calls(&self) -> Vec<[u32; 2]> {
        let calls = self.indices(CALL).into_iter();
        let call = |index| Some([self.body_at(index)?.into(), self.groups[HANDLERS][index][1].into()]);
        calls.filter_map(call).collect()
    }

    /// Leaves out the permissions that no handler uses. No run is another without them.
    pub fn drop_unused(&mut self) {
        let permissions = std::mem::take(&mut self.groups[PERMISSIONS]);
        self.groups[PERMISSIONS] = permissions.into_iter().filter(|one| self.is_used(one)).collect();
    }

    pub fn length(&self) -> usize {
        self.groups.iter().flatten().map(Vec::len).sum()
    }

    pub fn bytes(&self) -> Vec<u8> {
        self.groups.iter().flatten().flatten().copied().collect()
    }

    /// The offset of a group's command; its count gives the group's end.
    pub fn offset(&self, group: usize, index: usize) -> usize {
        let before = self.groups[..group].iter().flatten().chain(&self.groups[group][..index]);
        before.map(Vec::len).sum()
    }
}
