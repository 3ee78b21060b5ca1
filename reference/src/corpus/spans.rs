//! SPAN: refusals 3 to 6, 8 and 15 at it, by number and place, and what only looks wrong.

use super::names::edges;
use super::worlds::{behind, command, full, small, span};
use super::Job;
use crate::table::{self, *};

/// Refusals 4, 6, 8 and 15 at a SPAN, and jobs that are close to them.
pub fn jobs() -> Vec<Job> {
    [groups(), names(), repeats(), upside_down(), first_goes()].concat()
}

/// A SPAN that is cut.
pub fn cuts() -> Vec<Job> {
    cut(&span(0, 0, 3, 9), &span(9, 9, 9, 3))
}

/// A command cut at each of its operand bytes: behind declarations, behind a higher group; an undeclared one as far
/// as it goes.
pub fn cut(whole: &[u8], undeclared: &[u8]) -> Vec<Job> {
    let last = whole.len() - 1;
    let mut jobs = Vec::new();
    for length in 1..=last {
        jobs.push(behind(&small(), &whole[..length]));
    }
    jobs.push(behind(&small(), &[&[TURN, 0], &whole[..last]].concat()));
    jobs.push(behind(&small(), &undeclared[..last]));
    jobs
}

/// Behind small declarations.
pub fn small_and(tails: &[&[&[u8]]]) -> Vec<Job> {
    tails.iter().map(|tail| behind(&small(), &tail.concat())).collect()
}

/// Behind higher groups, where nothing else is wrong, it is undeclared, repeated or its low above its high; and
/// between the other permissions, where it may stand.
fn groups() -> Vec<Job> {
    let fine: &[u8] = &span(0, 0, 3, 9);
    let [any, arg, read, write] = &[ANY, ARG, READ, WRITE].map(|byte| command(&small(), byte));
    small_and(&[
        &[&[BODY, 0], fine],
        &[&[START, 0, 1, 0, 0, 0], fine],
        &[&[TURN, 0], fine],
        &[&[TURN, 0], &span(9, 9, 3, 9)],
        &[fine, &[TURN, 0], fine],
        &[&[TURN, 0], &span(0, 0, 9, 3)],
        &[fine, any, &span(0, 1, 3, 9), arg, read, &span(1, 1, 3, 9), write, &span(2, 0, 3, 9)],
    ])
}

/// As many ARG and SPAN commands as may be, in turn.
pub fn mixed() -> Vec<u8> {
    let permission = |number: u32| match number % 2 {
        0 => table::write(ARG, &[0, 0, 4 * number]),
        _ => span(0, 0, 4 * number, 4 * number + 1),
    };
    (0..MAX_ARGS as u32).flat_map(permission).collect()
}

/// The most ARG and SPAN commands; one more of either, undeclared, repeated, with its low above its high, or cut;
/// the last of them repeated or with its low above its high; and one more than the most SPAN commands.
pub fn limits() -> Vec<Job> {
    let most: &[u8] = &mixed();
    let but_last = &most[..most.len() - span(0, 0, 0, 0).len()];
    let spans: Vec<u8> = (0..MAX_ARGS as u32).flat_map(|number| span(1, 1, number, 300)).collect();
    small_and(&[
        &[most],
        &[most, &command(&small(), ARG)],
        &[most, &span(0, 0, 1, 2)],
        &[most, &span(9, 0, 1, 2)],
        &[most, &span(0, 0, 4, 5)],
        &[most, &span(0, 0, 2, 1)],
        &[most, &span(0, 0, 1, 2)[..10]],
        &[but_last, &span(0, 0, 4, 5)],
        &[but_last, &span(0, 0, 2, 1)],
        &[&spans, &span(1, 1, 300, 300)],
    ])
}

/// Nodes and functions that are declared and that are not; undeclared with its low above its high.
fn names() -> Vec<Job> {
    let row = table::row(SPAN).expect("a byte of the table");
    let wrong = small_and(&[
        &[&span(9, 9, 3, 9)],
        &[&span(3, 0, 9, 3)],
        &[&span(0, 2, 9, 3)],
        &[&span(3, 2, u32::MAX, 0)],
        &[&span(0, 0, 3, 9), &span(3, 0, 3, 9)],
    ]);
    [edges(&full(), row), wrong].concat()
}

/// All four operands again: at once, later, of the last node and function; then each operand another, and ARG or
/// ANY beside it.
fn repeats() -> Vec<Job> {
    let one: &[u8] = &span(0, 0, 3, 9);
    let point: &[u8] = &span(0, 0, 7, 7);
    let arg: &[u8] = &command(&small(), ARG);
    let last = span(31, 31, 0, u32::MAX).repeat(2);
    let mut jobs = small_and(&[
        &[one, one],
        &[one, &span(0, 0, 3, 10), arg, &[ANY, 0, 0], one],
        &[point, arg, point],
        &[point, arg, arg],
        &[one, &span(1, 0, 3, 9)],
        &[one, &span(0, 1, 3, 9)],
        &[one, &span(0, 0, 4, 9)],
        &[one, &span(0, 0, 3, 8)],
        &[one, &span(0, 0, 3 << 8, 9 << 8), &span(0, 0, 3, 9 << 24)],
        &[arg, point],
        &[point, arg],
        &[&[ANY, 0, 0], one, arg],
    ]);
    jobs.push(behind(&full(), &last));
    jobs
}

/// Ends in either order: close together, far apart, on both sides of where a byte or the sign would change. Of each
/// two the second has its low above its high.
fn upside_down() -> Vec<Job> {
    let ends = [(0, 1), (0, u32::MAX), (255, 256), (0x00FF_FFFF, 0x0100_0000), (0x0102_0304, 0x0403_0201)];
    let signs = [(0x7FFF_FFFF, 0x8000_0000), (u32::MAX - 1, u32::MAX)];
    let both = |&(low, high): &(u32, u32)| [span(0, 0, low, high), span(0, 0, high, low)];
    let spans = ends.iter().chain(&signs).flat_map(both);
    spans.map(|command| behind(&small(), &command)).collect()
}

/// A SPAN with its low above its high before and behind something else that is refused: the first goes, but a jump
/// too far waits for all others.
fn first_goes() -> Vec<Job> {
    let wrong: &[u8] = &span(0, 0, 9, 3);
    let fine: &[u8] = &span(0, 0, 3, 9);
    small_and(&[
        &[fine, wrong],
        &[wrong, wrong],
        &[wrong, fine, fine],
        &[wrong, &[0xFF]],
        &[wrong, &[TURN]],
        &[wrong, &[FLOW]],
        &[wrong, &[TURN, 9]],
        &[wrong, &[READ, 0, 0]],
        &[wrong, &[BODY, 0, JUMP, 255]],
        &[&[WIRE, 0, 0, 2], wrong],
        &[&[ANY, 0, 9], wrong],
        &[fine, fine, wrong],
    ])
}
