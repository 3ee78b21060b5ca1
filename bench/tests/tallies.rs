//! The tallies count what is meant.

use flow_bench::runs::Engine;
use flow_bench::tallies::Tallied;

/// Nodes, and the counts of the first three.
fn tallied(word: &str) -> (u64, Vec<u64>) {
    let tallied = Tallied::named(word).expect("a word of the table");
    let mut bench = tallied.after_run(Engine::Reference);
    let [0, 0, nodes] = bench.tally(tallied.turns) else { panic!("refused") };
    (nodes, bench.buffers.counts[..12].to_vec())
}

/// Node 0 sends to both others and node 2 back to it; all of the 4,096 entries count, or none.
#[test]
fn the_script() {
    assert_eq!(tallied("entries"), (3, vec![1, 146, 147, 0, 0, 147, 147, 0, 0, 147, 147, 0]));
    assert_eq!(tallied("no-entries"), (3, vec![1, 0, 0, 0, 0, 0, 0, 0, 0, 0, 0, 0]));
}

/// One node with a first message, and 31 others or none. What lies behind the last node stays 0.
#[test]
fn one_node_and_idle_ones() {
    let first = [&[1][..], &[0; 11]].concat();
    assert_eq!(tallied("nodes"), (32, first.clone()));
    assert_eq!(tallied("node"), (1, first));
}
