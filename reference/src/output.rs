//! Trace and snapshot as bytes, numbers lowest byte first.

use crate::outcome::Entry;
use crate::program::Program;
use crate::state::State;

/// Bytes of a trace entry: node 1, kind 1, number 1, value 4.
pub const ENTRY_BYTES: usize = 7;
/// The longest snapshot: 32 nodes with full queues and 64 variables.
pub const SNAPSHOT_BYTES: usize = 3_136;
/// What a run asks of the work buffer, and clears: two bytes for each of 64 commands of 32 nodes.
pub const WORK_BYTES: usize = 4_096;

pub fn entry_bytes(entry: &Entry) -> [u8; ENTRY_BYTES] {
    let [a, b, c, d] = entry.value.to_le_bytes();
    [entry.node, entry.kind, entry.number, a, b, c, d]
}

pub fn entry_from_bytes(bytes: &[u8]) -> Entry {
    let value = u32::from_le_bytes([bytes[3], bytes[4], bytes[5], bytes[6]]);
    Entry { node: bytes[0], kind: bytes[1], number: bytes[2], value }
}

/// Writes bytes one after another into a buffer.
struct Writer<'a> {
    buffer: &'a mut [u8],
    length: usize,
}

impl Writer<'_> {
    fn byte(&mut self, value: u8) {
        self.buffer[self.length] = value;
        self.length += 1;
    }

    fn number(&mut self, value: u32) {
        self.buffer[self.length..self.length + 4].copy_from_slice(&value.to_le_bytes());
        self.length += 4;
    }
}

/// Writes the snapshot (01: end picture) and gives its length.
pub fn write_snapshot(program: &Program, state: &State, buffer: &mut [u8]) -> usize {
    let mut writer = Writer { buffer, length: 0 };
    for node in 0..program.nodes.len() as u8 {
        let own = &state.nodes[usize::from(node)];
        writer.byte(own.position);
        writer.number(own.accumulator);
        writer.number(own.message);
        writer.byte(state.waiting(node) as u8);
        for message in state.messages(node) {
            writer.number(message.value);
            writer.byte(message.sender);
        }
    }
    for &value in &state.variables[..program.variables.len()] {
        writer.number(value);
    }
    writer.length
}

/// The waiting counts of the parts that lie one behind the other in a snapshot, without end: a count that it is too short
/// for is 0.
pub fn waiting_counts(bytes: &[u8]) -> impl Iterator<Item = u8> + '_ {
    let mut part = 0;
    std::iter::from_fn(move || {
        let waiting = bytes.get(part + 9).copied().unwrap_or(0);
        part += part_length(waiting);
        Some(waiting)
    })
}

/// The bytes of a node's part with so many waiting messages.
fn part_length(waiting: u8) -> usize {
    10 + 5 * usize::from(waiting)
}

/// Where the variables stand in a written snapshot: behind the parts of so many nodes.
pub fn variables_place(nodes: usize, bytes: &[u8]) -> usize {
    waiting_counts(bytes).take(nodes).map(part_length).sum()
}

/// The real length of a written snapshot.
pub fn snapshot_length(program: &Program, bytes: &[u8]) -> usize {
    variables_place(program.nodes.len(), bytes) + 4 * program.variables.len()
}

/// The snapshot in a vector of its own.
pub fn snapshot(program: &Program, state: &State) -> Vec<u8> {
    let mut bytes = vec![0; SNAPSHOT_BYTES];
    let length = write_snapshot(program, state, &mut bytes);
    bytes.truncate(length);
    bytes
}
