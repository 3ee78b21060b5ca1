//! Single rules of a turn, worked by hand.

mod common;

use common::{job, print_untallied};
use flow_reference::Mode::{self, Monitored, Unmonitored};

/// The lines from `end` on.
fn ending(text: &str) -> &str {
    &text[text.find("end").expect("an accepted job")..]
}

fn check(pieces: &[(&str, usize)], mode: Mode, expected: &str) {
    assert_eq!(print_untallied(&job(pieces), mode), expected);
}

#[test]
fn oldest_message_first_and_around_the_ring() {
    // Node 0 sends 1, 2, 3 and so on to node 1, whose handler is empty.
    let pieces = [
        ("01 02 02 20 00 00 01 40 00 45 01 00 00 00 49 00 48 00 50 00 00 00 00 00", 1),
        ("60 00", 1 + 16 * 3),
        ("60 01 60 01 60 01 60 01", 1),
        ("60 00 60 00 60 00 60 00 60 00 60 00", 1),
    ];
    let text = print_untallied(&job(&pieces), Monitored);
    assert!(text.contains("\n1 1 0 1\n1 2 0 0\n1 1 0 2\n1 2 0 0\n"));
    let expected = "end 0 59 0 0 0 0\nnode 0 0 18 0 0\n\
                    node 1 255 0 0 16 3 0 4 0 5 0 6 0 7 0 8 0 9 0 10 0 11 0 12 0 13 0 14 0 15 0 16 0 17 0 18 0\n";
    assert_eq!(ending(&text), expected);
}

#[test]
fn many_messages_through_one_queue() {
    // Nine messages wait while another 40 go through.
    let head = "01 02 02 20 00 00 01 40 00 45 01 00 00 00 49 00 48 00 50 00 00 00 00 00";
    let pieces = [(head, 1), ("60 00", 1 + 9 * 3), ("60 01 60 01 60 00 60 00 60 00", 40)];
    let text = print_untallied(&job(&pieces), Monitored);
    let taken: Vec<&str> = text.lines().filter(|line| line.starts_with("1 1 0 ")).collect();
    let expected: Vec<String> = (1..=40).map(|value| format!("1 1 0 {value}")).collect();
    assert_eq!(taken, expected);
    assert!(text.ends_with("node 1 255 0 0 9 41 0 42 0 43 0 44 0 45 0 46 0 47 0 48 0 49 0\n"));
}

#[test]
fn one_full_target_keeps_all_targets_from_the_message() {
    // Port 1 leads to one node only and fills its queue; port 0 leads to nodes 1 and 2.
    for full in [1, 2] {
        let head = format!("01 02 02 02 20 00 00 02 20 00 00 01 20 00 01 0{full} 40 00");
        let pieces =
            [(head.as_str(), 1), ("49 01", 16), ("41 09 00 00 00 49 00 50 00 07 00 00 00", 1), ("60 00", 20)];
        let waiting =
            |node| if node == full { format!("16{}", " 0 0".repeat(16)) } else { String::from("0") };
        let expected = format!(
            "end 3 18 0 6 0 9\nnode 0 17 9 7 0\nnode 1 255 0 0 {}\nnode 2 255 0 0 {}\n",
            waiting(1),
            waiting(2)
        );
        assert_eq!(ending(&print_untallied(&job(&pieces), Unmonitored)), expected);
        assert_eq!(ending(&print_untallied(&job(&pieces), Monitored)), expected);
    }
}

#[test]
fn fan_out_and_unwired_port() {
    let head = "01 02 02 02 20 00 02 02 20 00 02 00 40 00 41 05 00 00 00 49 02 49 03 50 00 07 00 00 00";
    let expected = "0 1 255 7\n0 0 0 0\n0 6 2 5\n0 6 3 5\n0 2 0 0\n0 1 0 5\n\
                    end 0 6 0 0 0 0\nnode 0 0 0 5 0\nnode 1 255 0 0 0\nnode 2 255 0 0 1 5 0\n";
    check(&[(head, 1), ("60 00", 6)], Monitored, expected);
}

#[test]
fn forbidden_write_leaves_the_variable_and_shows_the_value() {
    let head = "01 02 10 01 00 01 00 00 00 32 00 00 40 00 42 44 00 43 00 50 00 07 00 00 00";
    let stopped = "0 1 255 7\n0 0 0 0\nend 1 2 0 4 0 7\nnode 0 1 7 7 0\nvar 0 1\n";
    check(&[(head, 1), ("60 00", 5)], Monitored, stopped);
    let ran = "0 1 255 7\n0 0 0 0\n0 4 0 7\n0 3 0 7\n0 2 0 0\nend 0 5 0 0 0 0\nnode 0 255 0 0 0\nvar 0 7\n";
    check(&[(head, 1), ("60 00", 5)], Unmonitored, ran);
    check(&[(&head.replace("32 00 00", "32 00 00 33 00 00"), 1), ("60 00", 5)], Monitored, ran);
}

#[test]
fn plus_shows_the_variable_and_own_variables_show_nothing() {
    // Variable 0 is node 0's own, variable 1 the flow's.
    let head = "01 02 10 00 00 FF FF FF FF 10 01 00 03 00 00 00 32 00 01
                40 00 42 46 00 44 00 46 01 43 00 50 00 02 00 00 00";
    let expected = "0 1 255 2\n0 0 0 0\n0 0 0 0\n0 0 0 0\n0 3 1 3\n0 0 0 0\n0 2 0 0\n\
                    end 0 7 0 0 0 0\nnode 0 255 0 0 0\nvar 0 1\nvar 1 3\n";
    check(&[(head, 1), ("60 00", 7)], Monitored, expected);
}

#[test]
fn a_call_is_judged_by_function_and_argument() {
    // The last two calls are not made; they use permissions that the first does not.
    let head = |permissions: &str| {
        format!(
            "01 02 02 11 08 00 00 00 11 09 00 00 00 {permissions}
             40 00 42 4A 01 4A 00 40 01 4A 01 50 00 07 00 00 00 60 00 60 00 60 00"
        )
    };
    let permitted = "0 1 255 7\n0 0 0 0\n0 5 1 7\nend 0 3 0 0 0 0\nnode 0 2 9 7 0\nnode 1 255 0 0 0\n";
    let stopped = "0 1 255 7\n0 0 0 0\nend 1 2 0 5 1 7\nnode 0 1 7 7 0\nnode 1 255 0 0 0\n";
    for permissions in
        ["30 00 01", "31 00 01 07 00 00 00", "31 00 01 08 00 00 00 30 00 01", "30 00 01 31 00 01 07 00 00 00"]
    {
        check(&[(&head(permissions), 1)], Monitored, permitted);
    }
    for permissions in [
        "",
        "31 00 01 08 00 00 00",
        "31 00 01 07 00 00 01",
        "31 00 00 07 00 00 00",
        "31 01 01 07 00 00 00",
        "30 00 00 30 01 01",
    ] {
        check(&[(&head(permissions), 1)], Monitored, stopped);
        check(&[(&head(permissions), 1)], Unmonitored, permitted);
    }
}

#[test]
fn a_forbidden_turn_stops_the_whole_run() {
    // Node 0 may not call; node 1 in another flow would go on.
    let head = "01 02 01 02 11 08 00 00 00 40 00 4A 00 50 00 01 00 00 00 50 01 02 00 00 00";
    let expected = "0 1 255 1\nend 1 1 0 5 0 0\nnode 0 0 0 1 0\nnode 1 255 0 0 1 2 255\n";
    check(&[(head, 1), ("60 00 60 00 60 01 60 00", 1)], Monitored, expected);
}

#[test]
fn jumps() {
    // 0 JUMPZ 2, 1 SKIP, 2 ADD 1, 3 JUMPZ 0, 4 JUMP 6, 5 SKIP.
    let head = "01 02 40 00 47 02 4B 45 01 00 00 00 47 00 48 06 4B 50 00 01 00 00 00";
    let at = |turns, line: &str| {
        assert_eq!(ending(&print_untallied(&job(&[(head, 1), ("60 00", turns)]), Monitored)), line);
    };
    at(2, "end 0 2 0 0 0 0\nnode 0 2 0 1 0\n");
    at(3, "end 0 3 0 0 0 0\nnode 0 3 1 1 0\n");
    at(4, "end 0 4 0 0 0 0\nnode 0 4 1 1 0\n");
    at(5, "end 0 5 0 0 0 0\nnode 0 6 1 1 0\n");
    at(6, "end 0 6 0 0 0 0\nnode 0 255 0 0 0\n");
    at(7, "end 2 6 0 0 0 0\nnode 0 255 0 0 0\n");
}

#[test]
fn a_node_without_body_takes_messages_and_finishes() {
    let expected = "0 1 255 9\n0 2 0 0\nend 2 2 0 0 0 0\nnode 0 255 0 0 0\n";
    check(&[("01 02 50 00 09 00 00 00 60 00 60 00 60 00", 1)], Monitored, expected);
    let taken = "0 1 255 9\nend 0 1 0 0 0 0\nnode 0 0 0 9 0\n";
    check(&[("01 02 40 00 50 00 09 00 00 00 60 00", 1)], Monitored, taken);
}
