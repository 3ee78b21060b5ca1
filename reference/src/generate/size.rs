//! How large a job gets.

use super::random::Random;

/// Upper bounds of the random counts.
#[derive(Clone, Copy, Debug)]
pub struct Size {
    pub flows: usize,
    pub nodes: usize,
    pub variables: usize,
    pub functions: usize,
    pub wires: usize,
    pub handler: usize,
    pub turns: usize,
}

const MINUTE: Size = Size { flows: 1, nodes: 1, variables: 0, functions: 0, wires: 0, handler: 1, turns: 4 };
const TINY: Size = Size { flows: 1, nodes: 2, variables: 2, functions: 1, wires: 3, handler: 4, turns: 48 };
const SMALL: Size =
    Size { flows: 3, nodes: 6, variables: 6, functions: 3, wires: 12, handler: 8, turns: 150 };
const WIDE: Size =
    Size { flows: 8, nodes: 32, variables: 64, functions: 32, wires: 80, handler: 10, turns: 500 };
const DEEP: Size =
    Size { flows: 2, nodes: 4, variables: 8, functions: 4, wires: 10, handler: 64, turns: 400 };
const LONG: Size =
    Size { flows: 3, nodes: 6, variables: 5, functions: 3, wires: 12, handler: 8, turns: 4_096 };
/// With room for damage: far below every largest count, and rich.
pub const MEDIUM: Size =
    Size { flows: 4, nodes: 8, variables: 10, functions: 6, wires: 14, handler: 10, turns: 60 };

/// A size that has a chance to fit into `max_bytes`.
pub fn draw(random: &mut Random, max_bytes: usize) -> Size {
    match max_bytes {
        0..=20 => MINUTE,
        21..=40 => random.pick(&[MINUTE, TINY, TINY]),
        41..=120 => TINY,
        121..=600 => random.pick(&[TINY, TINY, SMALL]),
        _ => [TINY, SMALL, WIDE, DEEP, LONG][random.weighted(&[12, 56, 12, 13, 7])],
    }
}
