//! The traced run: the frames of each move, the trace room, and what it has in
//! common with the untraced run.

mod common;
use common::{loaded, refused, table, worked_table, FULL, WORKED};
use second::debugger::{show_program, trace_program, traced_runs};
use second::gen::session;
use second::lines::{text_of, OUTPUT_BYTES};
use second::{advance, arrival, run, run_traced, Answer};

/// The worked session's trace, the lines of each move together.
const WORKED_TRACE: [&[&str]; 9] = [
    // Event input 0 of block 1 is taken: variable 1 becomes 21.
    &[
        "8402 0001 0001 0000 0015 0000",
        "8404 0001 0000 0000 0001 0000",
        "8406 0001 0000 0000 0001 0000",
    ],
    // Transition 0 to state 1, which has an action.
    &[
        "8400 0001 0000 0000 0001 0000",
        "8408 0001 0000 0000 0001 0000",
        "8409 0001 0000 0000 0001 0000",
    ],
    // The step: variable 2 becomes 42.
    &["8403 0001 0002 0000 002A 0000", "840A 0001 0000 0000 0001 0000"],
    // The action is done: event output 1 is fired, no action is left.
    &[
        "8407 0001 0001 0000 0001 0000",
        "8409 0001 0000 0000 0000 0000",
        "840A 0001 0000 0000 0000 0000",
    ],
    &[],
    // Transition 1 to state 0, which has no action.
    &["8400 0001 0000 0000 0000 0000", "8408 0001 0001 0000 0001 0000"],
    &[],
    // No transition: block 1 ends.
    &["8405 0001 0000 0000 0001 0000"],
    // Event input 1 of block 2, a sink, is taken: variable 3 becomes 42.
    &[
        "8402 0002 0003 0000 002A 0000",
        "8404 0002 0000 0000 0001 0000",
        "8405 0002 0000 0000 0001 0000",
        "8406 0002 0001 0000 0001 0000",
    ],
];

/// Lines, whose spaces only help the eye, as text.
fn text(lines: &[&str]) -> String {
    lines.iter().map(|line| line.replace(' ', "") + "\n").collect()
}

/// The worked session up to before its run.
fn arrived() -> (Vec<u8>, Vec<u32>) {
    let table = worked_table();
    let mut store = loaded(&table, 39);
    advance(&table, &mut store, 10);
    arrival(&table, &mut store, 0, 7, &[21]);
    (table, store)
}

/// A run of one move with plenty of room; its answer and trace as text.
fn move_traced(table: &[u8], store: &mut [u32]) -> (Answer, String) {
    let mut trace = [0; 240];
    let answer = run_traced(table, store, 1, &mut [0; 64], &mut trace);
    let text = text_of(&trace[..answer.traced]);
    (answer, String::from_utf8(text).expect("digits and 0A"))
}

/// The traces of the moves up to the end, each as text.
fn moves_traced(table: &[u8], store: &mut [u32]) -> Vec<String> {
    let mut texts = Vec::new();
    loop {
        let (answer, text) = move_traced(table, store);
        if answer.moves == 0 {
            assert_eq!((answer.stop, answer.traced), (1, 0));
            return texts;
        }
        texts.push(text);
    }
}

// ---------------------------------------------------------------- frames

#[test]
fn the_worked_session_is_traced_move_by_move() {
    let (table, mut store) = arrived();
    let expected: Vec<String> = WORKED_TRACE.iter().map(|lines| text(lines)).collect();
    assert_eq!(moves_traced(&table, &mut store), expected);
    let frames: Vec<usize> = WORKED_TRACE.iter().map(|lines| lines.len()).collect();
    assert_eq!(frames, [3, 3, 2, 3, 0, 2, 0, 1, 4]);
}

#[test]
fn the_trace_program_prints_the_worked_trace_and_an_empty_line() {
    let expected = text(&WORKED_TRACE.concat()) + "\n";
    assert_eq!(expected.lines().count(), 19);
    assert_eq!(trace_program(WORKED.as_bytes(), &mut ()), expected.as_bytes());
}

/// A block with one state and a transition from it to itself.
const SELF: &[&str] = &[
    "0100 0000 0000",
    "0103 0001",
    "0200 0000",
    "0300 0001",
    "0600 0000",
    "0700 0000 0000 0000",
    "0800 0000 0000 0000 FFFF",
    "0A00 0000 0000",
];

#[test]
fn a_transition_to_the_same_state_changes_no_chart_state() {
    let with_action = table(SELF);
    let mut store = loaded(&with_action, 40);
    arrival(&with_action, &mut store, 0, 0, &[]);
    let taken = ["8404 0000 0000 0000 0001 0000", "8406 0000 0000 0000 0001 0000"];
    let enabled = "8408 0000 0000 0000 0001 0000";
    let (begun, done) = ("8409 0000 0000 0000 0001 0000", "8409 0000 0000 0000 0000 0000");
    let ended = "8405 0000 0000 0000 0001 0000";
    assert_eq!(
        moves_traced(&with_action, &mut store),
        [text(&taken), text(&[enabled, begun]), text(&[done]), text(&[]), text(&[ended])]
    );
    let without_action = table(&[&SELF[..6], &SELF[7..]].concat());
    arrival(&without_action, &mut store, 0, 0, &[]);
    assert_eq!(
        moves_traced(&without_action, &mut store),
        [text(&taken), text(&[enabled]), text(&[]), text(&[ended])]
    );
}

/// A source and an interface with the inputs 4, 5, 7 and their partners 3, 6,
/// 8. Its event's associations are not in the order of ids.
const INTERFACE: &[&str] = &[
    "0103 0000",
    "0101 0001",
    "0200 0001",
    "0300 0000",
    "0300 0001",
    "0401 0000",
    "0401 0000",
    "0401 0000",
    "0401 0001",
    "0400 0001",
    "0400 0001",
    "0401 0001 0000 0009",
    "0400 0001",
    "0401 0001",
    "0500 0000 0007",
    "0500 0000 0005",
    "0500 0000 0004",
    "0501 0000 0000",
    "0501 0000 0001",
    "0501 0000 0002",
    "0A00 0000 0000",
    "0B00 0000 0007",
    "0B00 0001 0005",
    "0B00 0002 0004",
];

#[test]
fn an_interface_traces_inputs_then_partners_by_id() {
    let table = table(INTERFACE);
    let mut store = loaded(&table, 50);
    arrival(&table, &mut store, 0, 0, &[-2, 0, 50]);
    let expected = [
        "8402 0001 0004 0000 0032 0000",
        // Input 5 was 0 before; input 7 becomes -2.
        "8402 0001 0007 FFFF FFFE 0000",
        "8403 0001 0003 0000 0032 0000",
        // The partner of input 5 was 9.
        "8403 0001 0006 0000 0000 0000",
        "8403 0001 0008 FFFF FFFE 0000",
        "8404 0001 0000 0000 0001 0000",
        "8405 0001 0000 0000 0001 0000",
        "8406 0001 0000 0000 0001 0000",
        "8407 0001 0001 0000 0001 0000",
    ];
    assert_eq!(moves_traced(&table, &mut store), [text(&expected)]);
    // The same again differs in nothing.
    arrival(&table, &mut store, 0, 0, &[-2, 0, 50]);
    assert_eq!(moves_traced(&table, &mut store), [text(&expected[5..])]);
}

#[test]
fn a_move_has_at_most_twenty_frames() {
    let mut lines = vec!["0103 0000", "0101 0001", "0200 0001", "0300 0000", "0300 0001"];
    let inputs: Vec<String> = (8..16).map(|id| format!("0500 0000 {id:04X}")).collect();
    let carried: Vec<String> = (0..8).map(|id| format!("0501 0000 {id:04X}")).collect();
    let data: Vec<String> = (0..8).map(|id| format!("0B00 {id:04X} {:04X}", id + 8)).collect();
    lines.extend(["0401"; 8]);
    lines.extend(["0400 0001"; 8]);
    lines.extend(["0401 0001"; 8]);
    lines.extend(inputs.iter().chain(&carried).map(String::as_str));
    lines.push("0A00 0000 0000");
    lines.extend(data.iter().map(String::as_str));
    let table = table(&lines);
    let mut store = loaded(&table, 80);
    arrival(&table, &mut store, 0, 0, &[1; 8]);
    for (room, stop, traced) in [(239, 4, 0), (240, 1, 240)] {
        let answer = run_traced(&table, &mut store, 9, &mut [], &mut vec![0; room]);
        assert_eq!((answer.stop, answer.traced), (stop, traced));
    }
}

/// A source and a delay with their events, before variables and connections.
const DELAY: &[&str] = &["0103", "0102 0001", "0200 0001", "0201 0001", "0300", "0300 0001"];

#[test]
fn a_delay_ends_at_once_and_its_due_time_is_not_traced() {
    let table = table(&[DELAY, &["0400 0001 0000 0032", "0A00"]].concat());
    let mut store = loaded(&table, 40);
    arrival(&table, &mut store, 0, 0, &[]);
    let expected = [
        "8404 0001 0000 0000 0001 0000",
        "8405 0001 0000 0000 0001 0000",
        "8406 0001 0000 0000 0001 0000",
    ];
    assert_eq!(moves_traced(&table, &mut store), [text(&expected)]);
}

#[test]
fn a_start_while_due_is_traced_with_the_dt_that_it_samples() {
    let fed = ["0401", "0400 0001", "0500 0000 0001", "0501 0000 0000", "0A00", "0B00 0000 0001"];
    let table = table(&[DELAY, &fed].concat());
    let mut store = loaded(&table, 40);
    for dt in [50, 7, 9] {
        arrival(&table, &mut store, 0, 0, &[dt]);
        let sampled = format!("8402 0001 0001 0000 {dt:04X} 0000");
        let expected = [
            &sampled,
            "8404 0001 0000 0000 0001 0000",
            "8405 0001 0000 0000 0001 0000",
            "8406 0001 0000 0000 0001 0000",
        ];
        assert_eq!(moves_traced(&table, &mut store), [text(&expected)]);
    }
    // The flag and the time of element 1.
    assert_eq!(store[20..22], [1, 50]);
}

#[test]
fn an_internal_value_has_kind_1() {
    let table = table(FULL);
    let mut store = loaded(&table, 70);
    advance(&table, &mut store, 9);
    arrival(&table, &mut store, 0, 4, &[1]);
    // The second step sets variable 3 to the age, 5.
    let step = text(&["8401 0001 0003 0000 0005 0000", "840A 0001 0000 0000 0002 0000"]);
    assert_eq!(moves_traced(&table, &mut store)[3], step);
}

// ---------------------------------------------------------------- room

#[test]
fn a_trace_room_of_35_bytes_stops_with_4_and_36_is_enough() {
    let (table, store) = arrived();
    for (room, moves, traced) in [(0, 0, 0), (35, 0, 0), (36, 1, 36), (71, 1, 36), (72, 2, 72)] {
        let (mut store, mut trace) = (store.clone(), vec![0xEE; room]);
        let answer = run_traced(&table, &mut store, 100, &mut [0; 20], &mut trace);
        assert_eq!(answer, Answer { moves, stop: 4, traced, ..Answer::default() });
        assert!(trace[traced..].iter().all(|&byte| byte == 0xEE), "spare bytes stay");
    }
}

#[test]
fn a_move_without_frames_needs_no_trace_room() {
    let (table, mut store) = arrived();
    // Eleven frames in four moves, the fifth has none.
    let answer = run_traced(&table, &mut store, 100, &mut [], &mut [0; 132]);
    assert_eq!(answer, Answer { moves: 5, stop: 4, traced: 132, ..Answer::default() });
}

#[test]
fn a_record_without_room_stops_with_3_whether_the_trace_has_room_or_not() {
    let (table, store) = arrived();
    for room in [168, 215, 216, 300] {
        let mut store = store.clone();
        let answer = run_traced(&table, &mut store, 100, &mut [0; 19], &mut vec![0; room]);
        assert_eq!(answer, Answer { moves: 8, stop: 3, traced: 168, ..Answer::default() });
    }
    let answer = run_traced(&table, &mut store.clone(), 100, &mut [0; 20], &mut [0; 215]);
    assert_eq!(answer, Answer { moves: 8, stop: 4, traced: 168, ..Answer::default() });
}

#[test]
fn the_budget_comes_last_also_at_0() {
    let (table, mut store) = arrived();
    for (room, stop) in [(35, 4), (36, 2)] {
        let answer = run_traced(&table, &mut store, 0, &mut [], &mut vec![0; room]);
        assert_eq!(answer, Answer { stop, ..Answer::default() });
    }
    // All but the sink's move; then both rooms, the trace room, the budget.
    assert_eq!(run(&table, &mut store, 8, &mut []).moves, 8);
    for (output, room, stop) in [(19, 47, 3), (19, 48, 3), (20, 47, 4), (20, 48, 2)] {
        let (mut output, mut room) = (vec![0; output], vec![0; room]);
        let answer = run_traced(&table, &mut store, 0, &mut output, &mut room);
        assert_eq!(answer, Answer { stop, ..Answer::default() });
    }
    run(&table, &mut store, 1, &mut [0; 20]);
    let answer = run_traced(&table, &mut store, 0, &mut [], &mut []);
    assert_eq!(answer, Answer { stop: 1, ..Answer::default() });
}

#[test]
fn a_refused_run_writes_nothing() {
    let (table, mut store) = arrived();
    let (mut output, mut trace) = ([0xDD; 40], [0xEE; 240]);
    store[5] = 1;
    let spoilt = store.clone();
    let refusals = [(6, &table[..], 39), (5, &table[..], 38), (1, &table[1..], 39)];
    for (number, table, words) in refusals {
        let answer = run_traced(table, &mut store[..words], 9, &mut output, &mut trace);
        assert_eq!(answer, refused(number));
    }
    assert_eq!((store, output, trace), (spoilt, [0xDD; 40], [0xEE; 240]));
}

// ---------------------------------------------------------------- sessions

/// Sessions with a sound table, small ones and one at all limits.
fn sessions() -> impl Iterator<Item = Vec<u8>> {
    (0..400).map(|number| session(5, number))
}

#[test]
fn a_traced_run_does_what_the_untraced_run_does() {
    let mut runs = 0;
    for session in sessions() {
        common::for_each_run(&session, |table, store, budget| {
            let (mut plain, mut traced) = (store.to_vec(), store.to_vec());
            let (mut output, mut other) = ([0; OUTPUT_BYTES], [0; OUTPUT_BYTES]);
            let answer = run(table, &mut plain, budget, &mut output);
            let mut trace = vec![0; 240 * answer.moves as usize + 240];
            let told = run_traced(table, &mut traced, budget, &mut other, &mut trace);
            assert_eq!(told, Answer { traced: told.traced, ..answer });
            assert_eq!((plain, output), (traced, other));
            runs += usize::from(told.traced > 0);
        });
    }
    assert!(runs > 500, "{runs} runs");
}

#[test]
fn the_programs_part_the_runs_of_a_session() {
    let mut several = 0;
    for session in sessions() {
        let output = trace_program(&session, &mut ());
        let runs = traced_runs(&session, &mut ());
        let ends = output.split(|&byte| byte == b'\n').filter(|line| line.is_empty()).count();
        // After the last 0A stands an empty rest that is no line.
        assert_eq!(ends, runs.len() + 1);
        several += usize::from(runs.len() > 1);
        assert!(show_program(&session, 0, 0).is_empty());
        assert!(show_program(&session, runs.len() as u64 + 1, 0).is_empty());
        if let Some(last) = runs.last() {
            let shown = show_program(&session, runs.len() as u64, u64::MAX);
            assert!(shown.starts_with(format!("frames {}\n", last.frames()).as_bytes()));
        }
    }
    assert!(several > 100, "{several} sessions");
}

#[test]
fn a_malformed_line_ends_the_traces_and_a_refused_table_has_none() {
    let whole = text(&WORKED_TRACE.concat()) + "\n";
    let again = format!("{WORKED}83\n82\n83\n");
    assert_eq!(trace_program(again.as_bytes(), &mut ()), (whole + "\n").as_bytes());
    assert!(trace_program(b"0103\n83\n83", &mut ()).len() == 2);
    for refused in ["", "83\n", "0100\n83\n", "01030\n83\n"] {
        assert!(trace_program(refused.as_bytes(), &mut ()).is_empty());
        assert!(show_program(refused.as_bytes(), 1, 0).is_empty());
    }
}
