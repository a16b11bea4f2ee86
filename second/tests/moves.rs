//! The moves, fire, run, advance and arrival.

mod common;
use common::{
    chart, loaded, record, refused, run_all, table, CHART_VARIABLES, FULL, FULL_EVENTS, FULL_NEED,
    FULL_VARIABLES,
};
use second::{advance, arrival, run, Answer};

/// A source (event outputs 0 and 1, variables 0 and 1) and two sinks. Sink 1
/// has event inputs 0 and 1 and the inputs 2 and 3; sink 2 has event input 2.
/// Event 0 carries variable 0, event 1 carries variables 1 and 0.
const SINKS: &[&str] = &[
    "0103 0009",
    "0104 0005",
    "0104 0004",
    "0207 0001",
    "0206 0001",
    "0208 0002",
    "0300",
    "0300",
    "0401",
    "0401",
    "0400 0001 FFFF FFFF",
    "0400 0001",
    "0500 0000 0003",
    "0501 0001 0001",
    "0500 0000 0002",
    "0501 0000 0000",
    "0501 0001 0000",
    "0A00 0000 0000",
    "0A00 0000 0002",
    "0A00 0001 0001",
    "0B00 0000 0002",
    "0B00 0001 0003",
];
/// Where SINKS keeps its event inputs and variables.
const EVENTS: usize = 16 + 9;
const VARIABLES: usize = EVENTS + 9;

fn made(answer: Answer) {
    assert_eq!(answer.refusal, 0);
}

fn value(store: &[u32], variables: usize, id: usize) -> i32 {
    store[variables + 2 * id] as i32
}

fn buffer(store: &[u32], variables: usize, id: usize) -> i32 {
    store[variables + 2 * id + 1] as i32
}

// ---------------------------------------------------------------- fire

#[test]
fn fire_copies_only_carried_values() {
    let table = table(SINKS);
    let mut store = loaded(&table, 100);
    made(arrival(&table, &mut store, 1, 0, &[11, 22]));
    // In table order event 1 has variable 1 first.
    assert_eq!((value(&store, VARIABLES, 0), value(&store, VARIABLES, 1)), (22, 11));
    assert_eq!((buffer(&store, VARIABLES, 2), buffer(&store, VARIABLES, 3)), (22, 11));
    // Variable 1 is set by hand; event 0 does not carry it.
    store[VARIABLES + 2] = 99;
    made(arrival(&table, &mut store, 0, 0, &[33]));
    assert_eq!((buffer(&store, VARIABLES, 2), buffer(&store, VARIABLES, 3)), (33, 11));
    // Values of inputs stay as they were until an event is taken.
    assert_eq!((value(&store, VARIABLES, 2), value(&store, VARIABLES, 3)), (-1, 0));
}

#[test]
fn fire_gives_birth_and_last_update_and_counts_overwritten() {
    let table = table(SINKS);
    let mut store = loaded(&table, 100);
    made(advance(&table, &mut store, 9));
    made(arrival(&table, &mut store, 0, 4, &[1]));
    assert_eq!(store[EVENTS..EVENTS + 9], [1, 4, 9, 0, 0, 0, 1, 4, 9]);
    assert_eq!(store[8], 0);
    made(advance(&table, &mut store, 10));
    made(arrival(&table, &mut store, 0, 3, &[1]));
    assert_eq!(store[EVENTS..EVENTS + 9], [1, 3, 10, 0, 0, 0, 1, 3, 10]);
    assert_eq!(store[8], 2);
}

#[test]
fn the_overwritten_count_stops_at_its_end() {
    let table = table(SINKS);
    let mut store = loaded(&table, 100);
    store[8] = u32::MAX - 1;
    made(arrival(&table, &mut store, 0, 0, &[1]));
    assert_eq!(store[8], u32::MAX - 1);
    made(arrival(&table, &mut store, 0, 0, &[1]));
    assert_eq!(store[8], u32::MAX);
    made(arrival(&table, &mut store, 1, 0, &[1, 1]));
    made(arrival(&table, &mut store, 1, 0, &[1, 1]));
    assert_eq!(store[8], u32::MAX);
}

// ---------------------------------------------------------------- move 1

#[test]
fn the_least_by_last_update_then_priorities_is_taken() {
    let table = table(SINKS);
    let mut store = loaded(&table, 100);
    made(advance(&table, &mut store, 5));
    made(arrival(&table, &mut store, 1, 5, &[1, 2]));
    made(advance(&table, &mut store, 6));
    made(arrival(&table, &mut store, 0, 0, &[3]));
    // Event input 1 has the least last update; then sink 2 goes before sink 1.
    let (_, out) = run_all(&table, &mut store.clone());
    let first = record(1, 1, [5, 5, 6], &[]);
    let second = record(2, 2, [0, 6, 6], &[]);
    let third = record(1, 0, [0, 6, 6], &[1, 3]);
    assert_eq!(out, [first, second, third].concat());
    // With one last update for all, local priority 6 goes before 7.
    made(arrival(&table, &mut store, 1, 5, &[1, 2]));
    let (_, out) = run_all(&table, &mut store);
    let first = record(2, 2, [0, 6, 6], &[]);
    let second = record(1, 1, [5, 6, 6], &[]);
    let third = record(1, 0, [0, 6, 6], &[1, 2]);
    assert_eq!(out, [first, second, third].concat());
}

#[test]
fn a_record_has_the_associated_values_in_table_order() {
    let table = table(SINKS);
    let mut store = loaded(&table, 100);
    made(arrival(&table, &mut store, 1, 0, &[i32::MIN, i32::MAX]));
    made(arrival(&table, &mut store, 0, 0, &[5]));
    let (answer, out) = run_all(&table, &mut store);
    assert_eq!(answer, Answer { moves: 3, stop: 1, bytes: 56, ..Answer::default() });
    // Event input 0 has variable 3 before variable 2.
    assert_eq!(out[32..], record(1, 0, [0, 0, 0], &[i32::MIN, 5]));
}

#[test]
fn an_event_taken_leaves_zeros() {
    let table = table(SINKS);
    let mut store = loaded(&table, 100);
    made(advance(&table, &mut store, 3));
    made(arrival(&table, &mut store, 1, 2, &[1, 2]));
    run_all(&table, &mut store);
    assert_eq!(store[EVENTS..EVENTS + 9], [0; 9]);
}

// ---------------------------------------------------------------- all moves

/// The words 1 to 7 of FULL's store after each move that follows an arrival
/// with value 3, born at 2, at time 5.
const TRACE: [[u32; 7]; 12] = [
    [2, 1, 2, 1, 1, 0, 0], // 1 taken
    [2, 1, 2, 2, 0, 1, 0], // 2 state 0 to 1
    [2, 1, 2, 2, 0, 1, 1], // 4 step 0
    [2, 1, 2, 2, 0, 1, 2], // 4 step 1
    [2, 1, 2, 2, 0, 2, 0], // 5 event 1 fired, next action
    [2, 1, 2, 2, 0, 0, 0], // 5 no event, no more action
    [2, 1, 2, 1, 0, 0, 0], // 6
    [2, 1, 2, 2, 0, 0, 0], // 2 state 1 to 0, which has no actions
    [2, 1, 2, 1, 0, 0, 0], // 6
    [0, 0, 0, 0, 0, 0, 0], // 3 not live, so idle
    [0, 0, 0, 0, 0, 0, 0], // 1 interface
    [0, 0, 0, 0, 0, 0, 0], // 1 START
];

#[test]
fn the_moves_follow_one_another() {
    let table = table(FULL);
    let mut store = loaded(&table, FULL_NEED);
    made(advance(&table, &mut store, 5));
    made(arrival(&table, &mut store, 0, 2, &[3]));
    for (made, words) in TRACE.iter().enumerate() {
        let answer = run(&table, &mut store, 1, &mut []);
        let stop = if made + 1 == TRACE.len() { 1 } else { 2 };
        assert_eq!(answer, Answer { moves: 1, stop, ..Answer::default() }, "{made}");
        assert_eq!(store[1..8], words[..], "{made}");
    }
    // Doubled, carried by the interface to DT: due at 5 + 6.
    assert_eq!(store[16 + 3 * 3..16 + 3 * 4], [0, 1, 11]);
    let values: Vec<i32> = (0..9).map(|id| value(&store, FULL_VARIABLES, id)).collect();
    assert_eq!(values, [3, 3, 6, 3, 6, 6, 6, 0, 0]);
    made(advance(&table, &mut store, 11));
    let (answer, out) = run_all(&table, &mut store);
    assert_eq!((answer.moves, out), (1, record(4, 4, [11, 11, 11], &[6])));
}

#[test]
fn one_run_equals_many_runs_of_one_move() {
    let table = table(FULL);
    let mut store = loaded(&table, FULL_NEED);
    made(arrival(&table, &mut store, 0, 0, &[3]));
    let mut slow = store.clone();
    let (answer, _) = run_all(&table, &mut store);
    for _ in 0..answer.moves {
        made(run(&table, &mut slow, 1, &mut [0; 100]));
    }
    assert_eq!((slow, answer.stop), (store, 1));
}

#[test]
fn an_interface_keeps_the_birth_and_renews_the_last_update() {
    let table = table(FULL);
    let mut store = loaded(&table, FULL_NEED);
    made(advance(&table, &mut store, 5));
    made(arrival(&table, &mut store, 0, 2, &[3]));
    made(run(&table, &mut store, 10, &mut []));
    assert_eq!(store[FULL_EVENTS + 3..FULL_EVENTS + 6], [1, 2, 5]);
    made(advance(&table, &mut store, 8));
    made(run(&table, &mut store, 1, &mut []));
    assert_eq!(store[FULL_EVENTS + 3..FULL_EVENTS + 9], [0, 0, 0, 1, 2, 8]);
}

/// An interface with two events and two pairs of variables in mixed order,
/// between a source and a sink.
const INTERFACE: &[&str] = &[
    "0103 0001",
    "0101 0002",
    "0104 0003",
    "0200 0001",
    "0201 0001",
    "0200 0002",
    "0300 0001",
    "0300 0000",
    "0300 0001",
    "0401 0001 0000 0064", // 0: first output of the interface
    "0400 0001 0000 0001", // 1: first input
    "0400 0001 0000 0002", // 2: second input
    "0401 0001 0000 00C8", // 3: second output
    "0400 0002",           // 4: of the sink, from 0
    "0400 0002",           // 5: of the sink, from 3
    "0500 0001 0002",      // the second event has the second input
    "0500 0002 0004",
    "0500 0002 0005",
    "0A00 0001 0001", // source to the second event
    "0A00 0002 0002", // second event output to the sink
    "0A00 0000 0000", // the first event output only leads back
    "0B00 0000 0004",
    "0B00 0003 0005",
];

#[test]
fn an_interface_carries_the_partners_of_the_associated_inputs_only() {
    let table = table(INTERFACE);
    let mut store = loaded(&table, 100);
    let variables = 16 + 9 + 9;
    store[variables + 2 * 2 + 1] = 77;
    made(arrival(&table, &mut store, 1, 0, &[]));
    let (answer, out) = run_all(&table, &mut store);
    assert_eq!((answer.moves, answer.stop), (2, 1));
    // Input 2 went to its partner 3 and on to 5; 0 kept its value, and its
    // connection to 4 was not used.
    let values: Vec<i32> = (0..6).map(|id| value(&store, variables, id)).collect();
    assert_eq!(values, [100, 1, 77, 77, 0, 77]);
    assert_eq!(out, record(2, 2, [0, 0, 0], &[0, 77]));
}

// ---------------------------------------------------------------- charts

/// The chart state and the output after the values arrived, born 4 at 10.
fn after(table: &[u8], values: &[i32; 2]) -> (u32, i32) {
    let mut store = loaded(table, 60);
    made(advance(table, &mut store, 10));
    made(arrival(table, &mut store, 0, 4, values));
    assert_eq!(run_all(table, &mut store).0.stop, 1);
    (store[19], value(&store, CHART_VARIABLES, 4))
}

#[test]
fn the_event_is_live_for_one_transition_only() {
    let on_event = ["0700000000010000", "0700000100020000"].map(String::from);
    assert_eq!(after(&chart(&on_event), &[0, 0]).0, 1);
    let then_none = ["0700000000010000", "070000010002FFFF"].map(String::from);
    assert_eq!(after(&chart(&then_none), &[0, 0]).0, 2);
}

#[test]
fn the_first_transition_in_table_order_is_followed() {
    let lines = ["0700000000020000", "0700000000010000"].map(String::from);
    assert_eq!(after(&chart(&lines), &[0, 0]).0, 2);
    let guarded = ["070100000002000000020003", "0700000000010000"].map(String::from);
    assert_eq!(after(&chart(&guarded), &[5, 5]).0, 2);
    assert_eq!(after(&chart(&guarded), &[5, 6]).0, 1);
}

#[test]
fn guards_compare_d_with_e() {
    // For d < e, d = e and d > e whether guards 0 to 4 hold.
    let expected = [
        ([-1, 1], [true, false, true, true, true]),
        ([7, 7], [true, true, false, false, true]),
        ([1, -1], [true, false, true, false, false]),
        ([i32::MIN, i32::MAX], [true, false, true, true, true]),
    ];
    for (values, holds) in expected {
        for (guard, holds) in holds.into_iter().enumerate() {
            let variables = if guard == 0 { "" } else { "00020003" };
            let line = format!("07{guard:02X}000000010000{variables}");
            let state = after(&chart(&[line]), &values).0;
            assert_eq!(state, u32::from(holds), "guard {guard} of {values:?}");
        }
    }
}

#[test]
fn operations_give_their_results() {
    let cases: [(&str, [i32; 2], i32); 14] = [
        ("0900000400020000", [5, 6], 5),
        ("0901000400020003", [i32::MAX, 1], i32::MAX),
        ("0902000400020003", [5, 7], -2),
        ("0902000400020003", [i32::MIN, 1], i32::MIN),
        ("0903000400020000", [i32::MIN, 0], i32::MAX),
        ("0904000400020003", [-3, 7], -21),
        ("0905000400020003", [-7, 2], -3),
        ("0905000400020003", [i32::MIN, -1], i32::MAX),
        ("0905000400020003", [9, 0], 0),
        ("0906000400020003", [3, -4], -4),
        ("0907000400020003", [3, -4], 3),
        ("0906000400020003", [-5, 2], -5),
        ("0907000400020003", [-5, 2], 2),
        ("0908000400000000", [1, 2], 6),
    ];
    for (step, values, result) in cases {
        let lines = ["0700000000010000", "080000010000 0001FFFF", step];
        let lines = lines.map(|line| line.replace(' ', ""));
        assert_eq!(after(&chart(&lines), &values), (1, result), "{step} of {values:?}");
    }
}

#[test]
fn actions_run_in_table_order_each_with_its_steps() {
    // State 1 runs steps 1 and 2 (copy, add), then step 0 (the square).
    let lines = [
        "0700000000010000",
        "0800000100010002FFFF",
        "0800000200000001FFFF",
        "0800000100000001FFFF",
        "0904000400040004",
        "0900000400020000",
        "0901000400040003",
    ];
    let table = chart(&lines.map(String::from));
    assert_eq!(after(&table, &[2, 3]), (1, 25));
}

// ---------------------------------------------------------------- run

#[test]
fn the_stop_is_1_else_3_else_2() {
    let table = table(SINKS);
    let mut store = loaded(&table, 100);
    let stop = |store: &mut Vec<u32>, budget: u32, room: usize| {
        let answer = run(&table, store, budget, &mut vec![0; room]);
        (answer.stop, answer.moves, answer.bytes)
    };
    assert_eq!(stop(&mut store, 0, 0), (1, 0, 0));
    made(arrival(&table, &mut store, 0, 0, &[1]));
    assert_eq!(stop(&mut store, 0, 15), (3, 0, 0));
    assert_eq!(stop(&mut store, 0, 16), (2, 0, 0));
    // Sink 2's record fits, sink 1's of 24 bytes does not; the budget is used.
    assert_eq!(stop(&mut store.clone(), 1, 39), (3, 1, 16));
    assert_eq!(stop(&mut store.clone(), 1, 40), (2, 1, 16));
    assert_eq!(stop(&mut store, 2, 40), (1, 2, 40));
}

#[test]
fn the_rest_of_the_buffer_is_unchanged() {
    let table = table(SINKS);
    let mut store = loaded(&table, 100);
    made(arrival(&table, &mut store, 0, 0, &[1]));
    let mut out = [0xEE; 39];
    assert_eq!(run(&table, &mut store, 9, &mut out).bytes, 16);
    assert_eq!(out[..16], record(2, 2, [0, 0, 0], &[]));
    assert_eq!(out[16..], [0xEE; 23]);
}

// ---------------------------------------------------------------- refusals 7 to 11

#[test]
fn advance_is_refused_7_before_8() {
    let table = table(FULL);
    let mut store = loaded(&table, FULL_NEED);
    made(advance(&table, &mut store, 50));
    store[16 + 3 * 3 + 1] = 1;
    store[16 + 3 * 3 + 2] = 60;
    store[9..11].copy_from_slice(&[1, 60]);
    let before = store.clone();
    for (to, number) in
        [(49, 7), (0, 7), (61, 8), (0x7FFF_FFFF, 8), (0x8000_0000, 7), (u32::MAX, 7)]
    {
        assert_eq!(advance(&table, &mut store, to), refused(number), "{to}");
        assert_eq!(store, before);
    }
    made(advance(&table, &mut store, 60));
    made(advance(&table, &mut store, 0x7FFF_FFFF));
}

#[test]
fn arrival_is_refused_9_then_10_then_11() {
    let table = table(FULL);
    let mut store = loaded(&table, FULL_NEED);
    let before = store.clone();
    for event in [1, 2, 3, 4, 0xFFFF, u32::MAX] {
        assert_eq!(arrival(&table, &mut store, event, 9, &[]), refused(9), "{event}");
    }
    for birth in [1, u32::MAX] {
        assert_eq!(arrival(&table, &mut store, 0, birth, &[]), refused(10), "{birth}");
    }
    for values in [&[][..], &[1, 2]] {
        assert_eq!(arrival(&table, &mut store, 0, 0, values), refused(11));
    }
    assert_eq!(store, before);
    made(arrival(&table, &mut store, 0, 0, &[1]));
}

#[test]
fn calls_may_come_while_a_block_runs() {
    let table = table(FULL);
    let mut store = loaded(&table, FULL_NEED);
    made(arrival(&table, &mut store, 0, 0, &[3]));
    made(run(&table, &mut store, 3, &mut []));
    assert_eq!(store[4], 2);
    made(advance(&table, &mut store, 20));
    made(arrival(&table, &mut store, 0, 20, &[4]));
    let (answer, _) = run_all(&table, &mut store);
    // Age was measured at 20, and the element stayed in state 1, since 20 is
    // not below 6.
    assert_eq!(answer.stop, 1);
    assert_eq!(value(&store, FULL_VARIABLES, 3), 20);
    assert_eq!(store[16 + 3], 1);
}
