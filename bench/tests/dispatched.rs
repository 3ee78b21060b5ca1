//! The dispatched runs make the turns that are meant.

use flow_bench::dispatched::{Dispatched, Shape, MOST};
use flow_bench::runs::{Bench, Case, Engine};
use flow_bench::script::Script;
use flow_reference::output::{entry_bytes, ENTRY_BYTES};
use flow_reference::Mode;

fn bench(shape: Shape, budget: u64, mode: Mode) -> Bench {
    Bench::new(Engine::Reference, mode, Case::Dispatched(Dispatched { shape, budget }), 0xA5)
}

/// The dispatcher chooses the script's own turns, so that they can be compared with written ones.
#[test]
fn the_script_is_dispatched() {
    let trace: Vec<u8> = Script::new().entries.iter().flat_map(entry_bytes).collect();
    let written = {
        let mut bench = Bench::new(Engine::Reference, Mode::Monitored, Case::Turns, 0xA5);
        bench.run();
        bench.buffers
    };
    for mode in [Mode::Monitored, Mode::Unmonitored] {
        let mut bench = bench(Shape::Script, MOST, mode);
        assert_eq!(bench.run()[..8], [0, 0, 0, 4_096, 0, 0, 0, 0]);
        assert_eq!(bench.buffers.trace[..4_096 * ENTRY_BYTES], trace);
        assert!(bench.buffers == written);
    }
}

/// The node at work is alone or has 31 idle ones beside it, which are examined for every choice but the first and the
/// fruitless one, for which nobody is.
#[test]
fn idle_nodes_are_examined() {
    for mode in [Mode::Monitored, Mode::Unmonitored] {
        let mut idle = bench(Shape::Idle, MOST, mode);
        let mut lone = bench(Shape::Lone, MOST, mode);
        assert_eq!(idle.run(), [0, 0, 4, 3_002, 0, 0, 0, 0, 96_033]);
        assert_eq!(lone.run(), [0, 0, 4, 3_002, 0, 0, 0, 0, 3_002]);
        assert!(idle.buffers.trace == lone.buffers.trace);
    }
}
