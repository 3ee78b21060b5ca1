//! The jobs of the snapshots leave the snapshots that are meant, and a trace is read as lackey writes it.

use flow_bench::snapshots::{bytes, job, Queues, NODES};
use flow_bench::window::instructions;
use flow_reference::outcome::stop;
use flow_reference::output::snapshot;
use flow_reference::{decode, Mode, Runner, Step};

/// The stop, the turns and the snapshot of a run.
fn run(job: &[u8]) -> (u8, usize, Vec<u8>) {
    let program = decode(job).expect("a valid job");
    let mut runner = Runner::new(&program, Mode::Unmonitored);
    loop {
        if let Step::Stopped(halt) = runner.step() {
            return (halt.stop, runner.turns(), snapshot(&program, runner.state()));
        }
    }
}

#[test]
fn queues_are_empty_or_full() {
    for nodes in NODES {
        for (word, queues) in Queues::ALL {
            let (stop, turns, bytes_left) = run(&job(nodes, queues));
            assert_eq!(stop, stop::TURNS_OUT, "{nodes} {word}");
            assert_eq!(turns, if queues == Queues::Full { 32 } else { 0 }, "{nodes} {word}");
            assert_eq!(bytes_left.len(), bytes(nodes, queues), "{nodes} {word}");
        }
    }
    assert_eq!((bytes(32, Queues::Empty), bytes(32, Queues::Full)), (320, 2_880));
}

const TRACE: &str = "==1== Lackey
I  0010,3
 S 2000,1
I  0013,4
 S 1000,1
I  0017,2
 L 2000,4
I  0019,4
 S 2001,4
I  001d,1
I  001e,4
 M 2009,1
I  0022,2
 S 3000,8
I  0024,2
 S 1000,1
I  0026,2
 S 2002,1
";

#[test]
fn a_window_of_a_trace() {
    let count = |mark, addresses| instructions(TRACE.as_bytes(), mark, addresses).expect("a trace in memory");
    assert_eq!(count(0x1000, 0x2000..0x200A), Some(3));
    assert_eq!(count(0x1000, 0x2000..0x2009), Some(1));
    assert_eq!(count(0x1000, 0x2002..0x2009), None);
    assert_eq!(count(0x2009, 0x2000..0x200A), None);
}
