//! Jobs whose handlers lie late: with more declarations, wires, permissions and handlers in front of them.

use flow_reference::generate::plan::Plan;
use flow_reference::generate::uses::use_of;
use flow_reference::generate::Random;
use flow_reference::table::{self, *};
use flow_reference::{decode, Program};

/// An accepted job with as many nodes, variables, functions and replies as can be. Before its own handlers stand those
/// of the added nodes, which use added variables and functions, with the permissions for it, and wires between the added
/// nodes: its own nodes do the same as before, from later places. A refused job stays what it is, and so does one that would get too long.
pub fn moved(job: &[u8], random: &mut Random) -> Vec<u8> {
    let Some(program) = decode(job).ok().filter(|program| program.flows > 0) else { return job.to_vec() };
    let mut parts = Plan::split(job).groups.map(|commands| commands.concat());
    let [nodes, values, _, permissions, handlers, ..] = &mut parts;
    nodes.extend((program.nodes.len()..MAX_NODES).map(|_| NODE));
    values.extend((program.variables.len()..MAX_VARIABLES).flat_map(|_| [VAR, 2, 0, 7, 0, 0, 0]));
    values.extend((program.functions.len()..MAX_FUNCTIONS).flat_map(|_| [FUN, 7, 0, 0, 0]));
    values.extend(added_replies(&program));
    let lists = added_lists(&program, random);
    permissions.extend(lists.iter().flatten().flatten());
    handlers.splice(..0, lists.iter().flat_map(|list| handler(list)));
    let Some(room) = MAX_JOB_BYTES.checked_sub(parts.concat().len()) else { return job.to_vec() };
    parts[usize::from(group(WIRE))].extend(added_wires(&program, room, random));
    parts.concat()
}

/// Replies of the added functions in turn, until there are as many as can be.
fn added_replies(program: &Program) -> Vec<u8> {
    let functions = program.functions.len() as u32..MAX_FUNCTIONS as u32;
    let numbers = program.replies.len() as u32..MAX_REPLIES as u32;
    let replies = numbers.zip(functions.cycle());
    replies.flat_map(|(number, function)| table::write(REPLY, &[function, number, 7])).collect()
}

/// Wires between the added nodes, which are all in the last flow: as many as there is room for, or fewer.
fn added_wires(program: &Program, room: usize, random: &mut Random) -> Vec<u8> {
    let nodes = program.nodes.len() as u8..MAX_NODES as u8;
    let ports = nodes.clone().flat_map(|node| (0..PORTS as u8).map(move |port| [node, port]));
    let wires = ports.flat_map(|[node, port]| nodes.clone().map(move |target| [WIRE, node, port, target]));
    let most = room / table::write(WIRE, &[0; 3]).len();
    let count = if random.chance(50) { most } else { random.below(most + 1) };
    wires.take(count).flatten().collect()
}

/// A node's permissions.
type List = Vec<[u8; 3]>;

/// The permissions of each added node: some of all that there can be for the added variables and functions.
fn added_lists(program: &Program, random: &mut Random) -> Vec<List> {
    let nodes = program.nodes.len() as u8..MAX_NODES as u8;
    nodes.map(|node| some(added_permissions(program, node), random)).collect()
}

/// READ and WRITE of each added variable by a node, ANY of each added function.
fn added_permissions(program: &Program, node: u8) -> List {
    let variables = program.variables.len() as u8..MAX_VARIABLES as u8;
    let functions = program.functions.len() as u8..MAX_FUNCTIONS as u8;
    let accesses = variables.flat_map(|variable| [[READ, node, variable], [WRITE, node, variable]]);
    accesses.chain(functions.map(|function| [ANY, node, function])).collect()
}

/// Some of these permissions, in any order; as often as not as many as one handler can use.
fn some(mut list: List, random: &mut Random) -> List {
    random.shuffle(&mut list);
    list.truncate(MAX_BODY_COMMANDS);
    if random.chance(50) {
        list.truncate(random.below(list.len() + 1));
    }
    list
}

/// A handler that uses all permissions of a list; none if there are none.
fn handler(list: &[[u8; 3]]) -> Vec<u8> {
    let body = list.first().map(|&[_, node, _]| [BODY, node]);
    body.into_iter().chain(list.iter().map(|permission| use_of(permission))).flatten().collect()
}
