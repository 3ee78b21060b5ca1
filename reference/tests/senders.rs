//! Who sent it (02, S-11): the number of an entry of kind 1, and the byte behind each waiting message.

mod common;

use std::collections::BTreeSet;

use common::{bytes, job, k1, print_untallied, run_dirty, MODES};
use flow_reference::generate::{case, Kind};
use flow_reference::output::entry_from_bytes;
use flow_reference::state::Message;
use flow_reference::Mode::{Monitored, Unmonitored};
use flow_reference::{decode, Entry, Outcome, Program, Refusal, Runner, State, Step};

/// Node 0 sends its message, 5, to nodes 1 and 2; these send it on to node 3, which has no handler.
const TWO_SENDERS: &str = "01 02 02 02 02  20 00 00 01  20 00 00 02  20 01 00 03  20 02 00 03
    40 00 42 49 00  40 01 42 49 00  40 02 42 49 00  50 00 05 00 00 00";

/// Four turns each of nodes 0, 1 and 2 in two orders.
const ONE_THEN_TWO: &[(&str, usize)] = &[(TWO_SENDERS, 1), ("60 00", 4), ("60 01", 4), ("60 02", 4)];
const TWO_THEN_ONE: &[(&str, usize)] = &[(TWO_SENDERS, 1), ("60 00", 4), ("60 02", 4), ("60 01", 4)];

/// The lines from `end` on.
fn ending(text: &str) -> &str {
    &text[text.find("end").expect("an accepted job")..]
}

/// The senders of the messages that a node takes.
fn senders(text: &str, node: u8) -> Vec<u8> {
    let begins = format!("{node} 1 ");
    let taken = text.lines().filter_map(|line| line.strip_prefix(&begins));
    taken.map(|rest| rest.split(' ').next().unwrap().parse().unwrap()).collect()
}

#[test]
fn two_senders_printed() {
    let expected = "0 1 255 5\n0 0 0 0\n0 6 0 5\n0 2 0 0\n2 1 0 5\n2 0 0 0\n2 6 0 5\n2 2 0 0\n\
                    1 1 0 5\n1 0 0 0\n1 6 0 5\n1 2 0 0\n3 1 2 5\n3 2 0 0\n3 1 1 5\nend 0 15 0 0 0 0\n\
                    node 0 255 0 0 0\nnode 1 255 0 0 0\nnode 2 255 0 0 0\nnode 3 0 0 5 0\n";
    for mode in MODES {
        assert_eq!(print_untallied(&job(&[TWO_THEN_ONE, &[("60 03", 3)]].concat()), mode), expected);
    }
}

/// The order of the sends is that of the messages; nothing else tells them apart.
#[test]
fn two_senders_taken_in_order() {
    for (pieces, order) in [(ONE_THEN_TWO, [1, 2]), (TWO_THEN_ONE, [2, 1])] {
        let text = print_untallied(&job(&[pieces, &[("60 03", 3)]].concat()), Monitored);
        assert_eq!(senders(&text, 3), order);
        let waiting = print_untallied(&job(pieces), Monitored);
        let [first, second] = order;
        assert!(waiting.ends_with(&format!("node 3 255 0 0 2 5 {first} 5 {second}\n")));
        let one_taken = print_untallied(&job(&[pieces, &[("60 03", 1)]].concat()), Monitored);
        assert!(one_taken.ends_with(&format!("node 3 0 0 5 1 5 {second}\n")));
    }
}

#[test]
fn a_node_that_sends_to_itself() {
    let head = "01 02 20 00 00 00 40 00 42 45 01 00 00 00 49 00 50 00 05 00 00 00";
    let expected = "0 1 255 5\n0 0 0 0\n0 0 0 0\n0 6 0 6\n0 2 0 0\n0 1 0 6\n0 0 0 0\n0 0 0 0\n0 6 0 7\n\
                    end 0 9 0 0 0 0\nnode 0 3 7 6 1 7 0\n";
    assert_eq!(print_untallied(&job(&[(head, 1), ("60 00", 9)]), Monitored), expected);
}

/// Node 1 gets two messages of node 0 and then its own.
#[test]
fn own_messages_behind_those_of_another() {
    let head = "01 02 02  20 00 00 01  20 01 00 01  40 00 49 00 49 00  40 01 42 49 00  50 00 05 00 00 00";
    let text = print_untallied(&job(&[(head, 1), ("60 00", 3), ("60 01", 16)]), Monitored);
    assert_eq!(senders(&text, 1), [0, 0, 1, 1]);
}

/// Two flows: the first message of node 2 waits, while node 0 has sent to itself and to node 1.
const BESIDE_START: &str = "01 02 02 01 02  20 00 00 00  20 00 00 01  40 00 42 49 00
    50 00 05 00 00 00  50 02 05 00 00 00  60 00 60 00 60 00";

#[test]
fn start_and_sent_messages_in_one_snapshot() {
    let text = print_untallied(&bytes(BESIDE_START), Monitored);
    let expected = "end 0 3 0 0 0 0\nnode 0 2 5 5 1 5 0\nnode 1 255 0 0 1 5 0\nnode 2 255 0 0 1 5 255\n";
    assert_eq!(ending(&text), expected);
    let ran = run_dirty(&bytes(BESIDE_START), Monitored, [21, 3_136, 4_096], 0xA5);
    let expected = bytes(
        "02 05 00 00 00 05 00 00 00 01  05 00 00 00 00
         FF 00 00 00 00 00 00 00 00 01  05 00 00 00 00
         FF 00 00 00 00 00 00 00 00 01  05 00 00 00 FF",
    );
    assert_eq!(ran.snapshot[..45], expected);
    assert_eq!(ran.snapshot[45..], [0xA5; 3_136 - 45]);
    assert_eq!(ran.trace[..7], [0, 1, 255, 5, 0, 0, 0]);
}

#[test]
fn one_send_to_several_targets() {
    let head = "01 02 02 02  20 01 03 02  20 01 03 01  20 01 03 00  40 01 42 49 03  50 01 09 00 00 00";
    let text = print_untallied(&job(&[(head, 1), ("60 01", 3), ("60 00", 1)]), Monitored);
    assert_eq!(ending(&text), "end 0 4 0 0 0 0\nnode 0 0 0 9 0\nnode 1 2 9 9 1 9 1\nnode 2 255 0 0 1 9 1\n");
    assert_eq!(senders(&text, 0), [1]);
}

/// Nodes 0 and 1 send to node 2 again and again: SEND and JUMP. Node 0 has made node 1 begin.
const FILLING: &str = "01 02 02 02  20 00 01 01  20 00 00 02  20 01 00 02
    40 00 49 01 49 00 48 01  40 01 49 00 48 00  50 00 07 00 00 00  60 00 60 00 60 01";

#[test]
fn a_full_queue_of_two_senders() {
    for (last, attempted) in [("60 00", "0 6 0 0"), ("60 01", "1 6 0 0")] {
        let pieces = [(FILLING, 1), ("60 01 60 01 60 00 60 00", 5), ("60 00 60 00", 6), (last, 1)];
        let waiting = [" 0 1 0 0".repeat(5), " 0 0".repeat(6)].concat();
        let expected =
            format!("end 3 35 {attempted}\nnode 0 1 0 7 0\nnode 1 0 0 0 0\nnode 2 255 0 0 16{waiting}\n");
        for mode in MODES {
            assert_eq!(ending(&print_untallied(&job(&pieces), mode)), expected);
        }
    }
}

/// A queue of 16 whose oldest message goes, 24 times: the senders move along with their messages.
#[test]
fn senders_move_along() {
    let order: Vec<u8> = (0..40).map(|sent| u8::from(sent * sent % 7 < 3)).collect();
    let mut job = bytes(FILLING);
    for (sent, &sender) in order.iter().enumerate() {
        job.extend([0x60, 2].repeat(if sent < 16 { 0 } else { 2 }));
        job.extend([0x60, sender].repeat(2));
    }
    let text = print_untallied(&job, Monitored);
    assert_eq!(senders(&text, 2), order[..24]);
    let waiting: String = order[24..].iter().map(|sender| format!(" 0 {sender}")).collect();
    assert!(text.ends_with(&format!("\nnode 2 255 0 0 16{waiting}\n")));
}

#[test]
fn the_last_node_as_sender() {
    let wires = "20 1F 00 1F 20 1F 00 1E";
    let pieces =
        [("01", 1), ("02", 32), (wires, 1), ("40 1F 49 00 50 1F 05 00 00 00", 1), ("60 1F", 4), ("60 1E", 1)];
    let text = print_untallied(&job(&pieces), Monitored);
    let expected = "31 1 255 5\n31 6 0 0\n31 2 0 0\n31 1 31 0\n30 1 31 0\nend 0 5 0 0 0 0\n";
    assert!(text.starts_with(expected));
}

#[test]
fn the_message_being_handled_has_no_sender() {
    let text = print_untallied(&job(&[(TWO_SENDERS, 1), ("60 00", 2)]), Monitored);
    assert!(ending(&text).starts_with("end 0 2 0 0 0 0\nnode 0 1 5 5 0\n"));
}

/// The snapshot buffer has to hold 3,136 bytes, whether anything waits or not; its old size is too short.
#[test]
fn refusal_11() {
    for job in [k1(), bytes("01"), bytes(BESIDE_START)] {
        for mode in MODES {
            for short in [0, 2_624, 3_135] {
                let ran = run_dirty(&job, mode, [63, short, 4_096], 0xA5);
                assert_eq!(ran.outcome, Outcome::Refused(Refusal { number: 11, place: job.len() }));
                assert_eq!(ran.snapshot, vec![0xA5; short]);
            }
            for enough in [3_136, 3_137] {
                assert!(matches!(run_dirty(&job, mode, [63, enough, 4_096], 0).outcome, Outcome::Ran(_)));
            }
        }
    }
}

/// Nodes 1 and 2 send their own numbers to node 3, which may call with 1 alone: the monitored run stops with the state
/// before the bare run's call, senders included.
#[test]
fn monitored_beside_bare() {
    let head = "01 02 02 02 02  11 09 00 00 00  20 00 00 01  20 00 00 02  20 01 00 03  20 02 00 03
        31 03 00 01 00 00 00  40 00 49 00  40 01 41 01 00 00 00 49 00  40 02 41 02 00 00 00 49 00
        40 03 42 4A 00  50 00 05 00 00 00";
    let pieces = [(head, 1), ("60 00", 3), ("60 02", 4), ("60 01", 4), ("60 03", 8)];
    let [monitored, bare] = MODES.map(|mode| print_untallied(&job(&pieces), mode));
    assert_eq!(senders(&monitored, 3), [2]);
    assert_eq!(senders(&bare, 3), [2, 1]);
    assert!(bare.starts_with(&monitored[..monitored.find("end").unwrap()]));
    let nodes = "node 0 255 0 0 0\nnode 1 255 0 0 0\nnode 2 255 0 0 0\nnode 3 1 2 2 1 1 1\n";
    assert_eq!(ending(&monitored), format!("end 1 13 3 5 0 2\n{nodes}"));
    let before = [&pieces[..4], &[("60 03", 2)]].concat();
    assert_eq!(ending(&print_untallied(&job(&before), Unmonitored)), format!("end 0 13 0 0 0 0\n{nodes}"));
}

/// The queues of all nodes, as the entries tell it.
struct Queues(Vec<Vec<Message>>);

impl Queues {
    /// First messages alone.
    fn new(program: &Program) -> Queues {
        let mut queues = vec![Vec::new(); program.nodes.len()];
        for &(node, value) in &program.starts {
            queues[usize::from(node)].push(Message { value, sender: 255 });
        }
        Queues(queues)
    }

    /// The oldest message goes when it is taken; what is sent goes behind all others, with its node as sender.
    fn follow(&mut self, program: &Program, entry: &Entry) {
        let (node, number) = (usize::from(entry.node), usize::from(entry.number));
        match entry.kind {
            1 => {
                let oldest = self.0[node].remove(0);
                assert_eq!((oldest.value, oldest.sender), (entry.value, entry.number));
            }
            6 => {
                let message = Message { value: entry.value, sender: entry.node };
                let targets = program.nodes[node].wires[number];
                let reached = self.0.iter_mut().enumerate().filter(|(target, _)| targets >> target & 1 == 1);
                reached.for_each(|(_, queue)| queue.push(message));
            }
            _ => {}
        }
    }

    /// Those of a state.
    fn of(state: &State, nodes: usize) -> Vec<Vec<Message>> {
        (0..nodes as u8).map(|node| state.messages(node).collect()).collect()
    }

    /// A first message and a sent one never wait at the same node: nobody in its flow sends before it is taken.
    fn has_firsts_alone(&self) -> bool {
        let has_first = |queue: &&Vec<Message>| queue.iter().any(|message| message.sender == 255);
        self.0.iter().filter(has_first).all(|queue| queue.len() == 1)
    }
}

/// Both modes of generated jobs, turn by turn.
#[test]
fn queues_of_generated_runs() {
    for (index, mode) in (0..600).flat_map(|index| MODES.map(|mode| (index, mode))) {
        let program = decode(&case(21, index, Kind::Valid, 2_000).job).expect("a valid job");
        let mut runner = Runner::new(&program, mode);
        let mut queues = Queues::new(&program);
        while let Step::Completed(entry) = runner.step() {
            queues.follow(&program, &entry);
            assert_eq!(Queues::of(runner.state(), program.nodes.len()), queues.0);
            assert!(queues.has_firsts_alone());
        }
    }
}

/// What valid jobs show of senders in an unmonitored run.
#[derive(Debug, Default)]
struct Traits {
    /// A node takes messages of two nodes, of three, of itself.
    two: usize,
    three: usize,
    own: usize,
    /// Messages of two nodes wait at one node, or fill its queue.
    two_wait: usize,
    full_of_two: usize,
}

impl Traits {
    fn note(&mut self, program: &Program) {
        let mut runner = Runner::new(program, Unmonitored);
        let mut taken = vec![BTreeSet::new(); program.nodes.len()];
        while let Step::Completed(entry) = runner.step() {
            if entry.kind == 1 && entry.number != 255 {
                taken[usize::from(entry.node)].insert(entry.number);
            }
        }
        self.two += usize::from(taken.iter().any(|senders| senders.len() >= 2));
        self.three += usize::from(taken.iter().any(|senders| senders.len() >= 3));
        self.own += usize::from(taken.iter().zip(0..).any(|(senders, node)| senders.contains(&node)));
        let queues = Queues::of(runner.state(), program.nodes.len());
        let differ = |queue: &[Message]| queue.windows(2).any(|two| two[0].sender != two[1].sender);
        self.two_wait += usize::from(queues.iter().any(|queue| differ(queue)));
        self.full_of_two += usize::from(queues.iter().any(|queue| queue.len() == 16 && differ(queue)));
    }
}

#[test]
fn traits_of_valid_jobs() {
    let mut traits = Traits::default();
    for index in 0..2_000 {
        traits.note(&decode(&case(23, index, Kind::Valid, usize::MAX).job).expect("a valid job"));
    }
    let Traits { two, three, own, two_wait, full_of_two } = traits;
    assert!(two > 300 && three > 40 && own > 800 && two_wait > 350 && full_of_two > 150, "{traits:?}");
}

/// Of the entries in a trace, those of kind 1 alone have a sender, and it is a node of the job or 255.
#[test]
fn senders_in_generated_traces() {
    for index in 0..300 {
        let case = case(22, index, Kind::Valid, 2_000);
        let nodes = decode(&case.job).expect("a valid job").nodes.len();
        let ran = run_dirty(&case.job, case.mode, case.lengths, 0x5A);
        let Outcome::Ran(answer) = ran.outcome else { panic!("refused") };
        for entry in ran.trace[..7 * answer.turns].chunks(7).map(entry_from_bytes) {
            match entry.kind {
                1 => assert!(entry.number == 255 || usize::from(entry.number) < nodes),
                0 | 2 => assert_eq!(entry.number, 0),
                _ => {}
            }
        }
        assert!(answer.attempted.kind != 1, "no stop attempts to take a message");
    }
}
