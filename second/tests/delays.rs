//! What is counted of the STARTs of delays.

use second::coverage::Coverage;
use second::lines::step_program;

/// A source with START and STOP, a delay and a sink.
const TABLE: &str = "0103
01020001
01040002
02000001
02010001
02000002
0300
0300
03000001
0401
04000001
050000000001
05010000
0A00
0A0000010001
0A0000020002
0B0000000001
";

fn start(dt: u8) -> String {
    format!("8101\n82000000000000{dt:02X}\n")
}

fn to(time: u8) -> String {
    format!("8000000000{time:02X}\n")
}

const STOP: &str = "81000001\n";
const RUN: &str = "8300000000FF\n";

/// The numbers that some calls reach of STARTs and outputs, and how often.
fn counts(coverage: &Coverage) -> Vec<(String, u64)> {
    let table = coverage.to_string();
    let rows = table.lines().filter(|row| row.starts_with("START") || row.starts_with("output"));
    let mut counts = Vec::new();
    for row in rows {
        let (name, cells) = row.split_once(":  ").expect("a name and its cells");
        for cell in cells.split("  ") {
            let (label, count) = cell.rsplit_once(' ').expect("a label and its count");
            let count = count.parse().expect("a number");
            counts.push((format!("{name} {label}"), count));
        }
    }
    counts.retain(|(_, count)| *count != 0);
    counts
}

fn reached(calls: &[&str]) -> Vec<(String, u64)> {
    let mut coverage = Coverage::default();
    step_program([TABLE, &calls.concat()].concat().as_bytes(), &mut coverage);
    counts(&coverage)
}

fn expected(counts: &[(&str, u64)]) -> Vec<(String, u64)> {
    counts.iter().map(|&(name, count)| (name.to_string(), count)).collect()
}

#[test]
fn ignored_starts_are_told_by_tick_and_by_the_due_time_that_they_would_set() {
    let calls = [&start(9), RUN, &start(3), RUN, &to(2), &start(9), RUN, &start(7), RUN, &to(9)];
    assert_eq!(
        reached(&calls),
        expected(&[
            ("START counts", 1),
            ("START ignored for earlier", 1),
            ("START ignored for later", 1),
            ("START ignored for the same", 1),
            ("START ignored with another DT", 3),
            ("START ignored at tick of the first", 1),
            ("START ignored at later", 1),
            ("START ignored at once more", 1),
            ("START counts after nothing", 1),
            ("output of START after nothing", 1),
            ("output not moved earlier", 1),
            ("output not moved later", 1),
        ])
    );
}

#[test]
fn a_delay_due_at_now_is_told_apart() {
    assert_eq!(
        reached(&[&to(4), &start(0), RUN, &start(5), RUN]),
        expected(&[
            ("START counts", 1),
            ("START ignored for later than now", 1),
            ("START ignored with another DT", 1),
            ("START ignored at tick of the first", 1),
            ("START counts after nothing", 1),
        ])
    );
}

#[test]
fn starts_that_count_are_told_by_what_was_before() {
    let stopped = [&start(9), RUN, STOP, RUN, &start(1), RUN, STOP, RUN, &to(3), &start(1), RUN];
    assert_eq!(
        reached(&[&stopped[..], &[&to(4)]].concat()),
        expected(&[
            ("START counts", 3),
            ("START counts after nothing", 1),
            ("START counts after STOP at its tick", 1),
            ("START counts after STOP later", 1),
            ("output of START after STOP later", 1),
        ])
    );
    let fired = [&start(1), RUN, &start(1), &to(1), RUN, &to(2), &to(5), &start(2), RUN, &to(7)];
    assert_eq!(
        reached(&fired),
        expected(&[
            ("START counts", 3),
            ("START counts after nothing", 1),
            ("START counts after output at its tick", 1),
            ("START counts after output later", 1),
            ("START counts after output while waiting", 1),
            ("output of START after nothing", 1),
            ("output of START after output at its tick", 1),
            ("output of START after output later", 1),
            ("output of START after output while waiting", 1),
        ])
    );
}

#[test]
fn nothing_is_carried_from_one_session_to_the_next() {
    let mut coverage = Coverage::default();
    for calls in [[&start(9), RUN, STOP, RUN], [&start(9), RUN, "", ""]] {
        step_program([TABLE, &calls.concat()].concat().as_bytes(), &mut coverage);
    }
    step_program([TABLE, &start(9), RUN].concat().as_bytes(), &mut coverage);
    let nothing = [("START counts", 3), ("START counts after nothing", 3)];
    assert_eq!(counts(&coverage), expected(&nothing));
}
