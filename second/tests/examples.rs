//! "Examples to prove", one by one.

mod common;
use common::{
    loaded, printed, record, refusal, refused, table, worked_table, WORKED, WORKED_OUTPUT,
};
use second::arithmetic::{add, divide, multiply, negate, subtract};
use second::{advance, arrival, load, run, Answer};

/// A source with two events, a delay and a sink.
const DELAY: &[&str] = &[
    "0103 0000",
    "0102 0001",
    "0104 0002",
    "0200 0001",
    "0201 0001",
    "0200 0002",
    "0300 0000",
    "0300 0000",
    "0300 0001",
    "0401 0000",
    "0400 0001",
    "0500 0000 0001",
    "0501 0000 0000",
    "0A00 0000 0000",
    "0A00 0001 0001",
    "0A00 0002 0002",
    "0B00 0000 0001",
];
/// The due flag and time of the delay, element 1.
const DUE: std::ops::Range<usize> = 20..22;
/// Flag, birth and last update of START, event input 0.
const START: std::ops::Range<usize> = 25..28;
/// The value and the buffer of DT, variable 1.
const DT: std::ops::Range<usize> = 36..38;

/// A START that counts, and one right after it that does not.
fn counts_once(table: &[u8], store: &mut [u32], dt: i32) {
    let due = store[0] + dt.unsigned_abs();
    for dt in [dt, dt - 10] {
        start(table, store, dt);
        assert_eq!(store[DUE], [1, due]);
    }
}

/// The worked session up to before its run: time 10, one arrival.
fn arrived() -> (Vec<u8>, Vec<u32>) {
    let table = worked_table();
    let mut store = loaded(&table, 39);
    assert_eq!(advance(&table, &mut store, 10), Answer::default());
    assert_eq!(arrival(&table, &mut store, 0, 7, &[21]), Answer::default());
    (table, store)
}

/// A delay started with DT 50 at time 100.
fn started() -> (Vec<u8>, Vec<u32>) {
    let table = table(DELAY);
    let mut store = loaded(&table, 45);
    assert_eq!(advance(&table, &mut store, 100), Answer::default());
    start(&table, &mut store, 50);
    (table, store)
}

fn to(table: &[u8], store: &mut [u32], time: u32) {
    assert_eq!(advance(table, store, time), Answer::default());
}

fn arrive(table: &[u8], store: &mut [u32], event: u32, values: &[i32]) {
    let birth = store[0];
    assert_eq!(arrival(table, store, event, birth, values), Answer::default());
}

/// An advance at which the delay fires, recorded by the sink.
fn fires_at(table: &[u8], store: &mut [u32], time: u32) {
    to(table, store, time);
    assert_eq!(store[DUE], [0, 0]);
    let (answer, out) = common::run_all(table, store);
    assert_eq!((answer.moves, answer.stop), (1, 1));
    assert_eq!(out, record(2, 2, [time; 3], &[]));
}

fn stop(table: &[u8], store: &mut [u32]) {
    arrive(table, store, 1, &[]);
    assert_eq!(run(table, store, 10, &mut []).moves, 1);
}

fn start(table: &[u8], store: &mut [u32], dt: i32) {
    arrive(table, store, 0, &[dt]);
    let answer = run(table, store, 10, &mut []);
    assert_eq!((answer.moves, answer.stop), (1, 1));
}

#[test]
fn the_session_prints_the_documents_output() {
    assert_eq!(printed(WORKED), WORKED_OUTPUT);
}

#[test]
fn load_at_38_words_is_refused_5_and_at_39_accepted() {
    let table = worked_table();
    let mut store = vec![77; 38];
    assert_eq!(load(&table, &mut store), refused(5));
    assert_eq!(store, vec![77; 38]);
    assert_eq!(load(&table, &mut [77; 39]), Answer::default());
}

#[test]
fn budget_8_stops_with_2_and_9_with_1() {
    let (table, store) = arrived();
    for (budget, stop, moves, bytes) in [(8, 2, 8, 0), (9, 1, 9, 20), (0, 2, 0, 0)] {
        let answer = run(&table, &mut store.clone(), budget, &mut [0; 4096]);
        assert_eq!(answer, Answer { moves, stop, bytes, ..Answer::default() });
    }
}

#[test]
fn an_output_of_19_bytes_stops_with_3_after_8_moves() {
    let (table, mut store) = arrived();
    let mut out = [0xEE; 19];
    let answer = run(&table, &mut store, 100, &mut out);
    assert_eq!(answer, Answer { moves: 8, stop: 3, ..Answer::default() });
    assert_eq!(out, [0xEE; 19]);
    let mut out = [0xEE; 21];
    let answer = run(&table, &mut store, 100, &mut out);
    assert_eq!(answer, Answer { moves: 1, stop: 1, bytes: 20, ..Answer::default() });
    assert_eq!(out[..20], record(2, 1, [7, 10, 10], &[42]));
    assert_eq!(out[20], 0xEE);
}

#[test]
fn birth_11_at_10_is_refused_10_and_birth_10_accepted() {
    let (table, mut store) = arrived();
    let before = store.clone();
    assert_eq!(arrival(&table, &mut store, 0, 11, &[1]), refused(10));
    assert_eq!(store, before);
    assert_eq!(arrival(&table, &mut store, 0, 10, &[1]), Answer::default());
}

#[test]
fn the_last_frame_twice_is_refused_4_at_frame_25() {
    let mut table = worked_table();
    table.extend_from_within(table.len() - 12..);
    assert_eq!(refusal(&table), (4, 25));
}

#[test]
fn dt_50_taken_at_100_is_due_at_150_and_151_is_refused_8() {
    let (table, mut store) = started();
    assert_eq!(store[DUE], [1, 150]);
    let before = store.clone();
    assert_eq!(advance(&table, &mut store, 151), refused(8));
    assert_eq!(store, before);
    fires_at(&table, &mut store, 150);
}

#[test]
fn a_second_start_at_120_leaves_due_at_150() {
    let (table, mut store) = started();
    to(&table, &mut store, 120);
    start(&table, &mut store, 50);
    assert_eq!(store[DUE], [1, 150]);
    assert_eq!(advance(&table, &mut store, 151), refused(8));
    fires_at(&table, &mut store, 150);
}

#[test]
fn a_start_while_due_samples_dt_and_changes_nothing_else() {
    let (table, mut store) = started();
    to(&table, &mut store, 120);
    for dt in [i32::MIN, -3, 0, 1, 29, 30, 31, 50, 51, i32::MAX] {
        arrive(&table, &mut store, 0, &[dt]);
        let mut expected = store.clone();
        expected[START].fill(0);
        expected[DT].fill(dt as u32);
        assert_eq!(run(&table, &mut store, 10, &mut []).moves, 1);
        assert_eq!(store, expected, "DT {dt}");
        assert_eq!(store[DUE], [1, 150]);
    }
    assert_eq!(advance(&table, &mut store, 151), refused(8));
}

#[test]
fn further_starts_at_the_tick_of_the_first_change_no_due_time() {
    let (table, mut store) = started();
    for dt in [5, 500, 0, 50] {
        start(&table, &mut store, dt);
        assert_eq!(store[DUE], [1, 150]);
    }
    to(&table, &mut store, 105);
    assert_eq!(advance(&table, &mut store, 151), refused(8));
    fires_at(&table, &mut store, 150);
}

#[test]
fn a_delay_due_at_now_is_due_until_it_is_fired() {
    for dt in [0, -5] {
        let table = table(DELAY);
        let mut store = loaded(&table, 45);
        to(&table, &mut store, 100);
        start(&table, &mut store, dt);
        start(&table, &mut store, 50);
        assert_eq!(store[DUE], [1, 100]);
        assert_eq!(advance(&table, &mut store, 101), refused(8));
        fires_at(&table, &mut store, 100);
        // After the output, at the same tick, it is a first START again.
        start(&table, &mut store, 50);
        assert_eq!(store[DUE], [1, 150]);
    }
}

#[test]
fn a_start_after_stop_is_a_first_start() {
    for ticks in [0, 5] {
        let (table, mut store) = started();
        to(&table, &mut store, 120);
        start(&table, &mut store, 10);
        stop(&table, &mut store);
        assert_eq!(store[DUE], [0, 0]);
        to(&table, &mut store, 120 + ticks);
        counts_once(&table, &mut store, 40);
    }
}

#[test]
fn a_start_after_the_output_is_a_first_start() {
    for ticks in [0, 5] {
        let (table, mut store) = started();
        start(&table, &mut store, 10);
        fires_at(&table, &mut store, 150);
        to(&table, &mut store, 150 + ticks);
        counts_once(&table, &mut store, 20);
    }
}

#[test]
fn the_dt_of_a_start_while_due_holds_for_the_next_first_start() {
    // The source's third event leads to START too and carries nothing.
    let lines = [&DELAY[..9], &["0300 0000"], &DELAY[9..16], &["0A00 0003 0000"], &DELAY[16..]];
    let table = table(&lines.concat());
    let mut store = loaded(&table, 45);
    start(&table, &mut store, 50);
    start(&table, &mut store, 7);
    assert_eq!(store[DUE], [1, 50]);
    assert_eq!(store[DT], [7, 7]);
    stop(&table, &mut store);
    arrive(&table, &mut store, 3, &[]);
    run(&table, &mut store, 10, &mut []);
    assert_eq!(store[DUE], [1, 7]);
}

#[test]
fn a_start_is_judged_when_it_is_taken() {
    // It waits when the output comes.
    let (table, mut store) = started();
    to(&table, &mut store, 120);
    arrive(&table, &mut store, 0, &[9]);
    to(&table, &mut store, 150);
    run(&table, &mut store, 1, &mut []);
    assert_eq!(store[DUE], [1, 159]);
    // It waits when STOP, which came before, is taken.
    let (table, mut store) = started();
    arrive(&table, &mut store, 1, &[]);
    to(&table, &mut store, 120);
    arrive(&table, &mut store, 0, &[9]);
    run(&table, &mut store, 10, &mut []);
    assert_eq!(store[DUE], [1, 129]);
    // STOP, which came at the same tick, has the lower priority.
    let (table, mut store) = started();
    arrive(&table, &mut store, 1, &[]);
    arrive(&table, &mut store, 0, &[9]);
    run(&table, &mut store, 10, &mut []);
    assert_eq!(store[DUE], [0, 0]);
}

#[test]
fn stop_clears_and_a_negative_dt_counts_as_0() {
    let (table, mut store) = started();
    assert_eq!(arrival(&table, &mut store, 1, 100, &[]), Answer::default());
    run(&table, &mut store, 10, &mut []);
    assert_eq!(store[DUE], [0, 0]);
    start(&table, &mut store, -5);
    assert_eq!(store[DUE], [1, 100]);
    // Due at now: an advance to now fires it.
    assert_eq!(advance(&table, &mut store, 100), Answer::default());
    assert_eq!(store[DUE], [0, 0]);
}

#[test]
fn the_latest_due_time_is_4294967294() {
    let table = table(DELAY);
    let mut store = loaded(&table, 45);
    assert_eq!(advance(&table, &mut store, 2_147_483_647), Answer::default());
    start(&table, &mut store, i32::MAX);
    assert_eq!(store[DUE], [1, 4_294_967_294]);
    assert_eq!(advance(&table, &mut store, 2_147_483_647), Answer::default());
}

#[test]
fn results_outside_the_range_become_the_nearest_end() {
    assert_eq!(negate(i32::MIN).result, 2_147_483_647);
    assert_eq!(divide(i32::MIN, -1).result, 2_147_483_647);
    assert_eq!(add(i32::MAX, 1).result, i32::MAX);
    assert_eq!(add(i32::MIN, -1).result, i32::MIN);
    assert_eq!(subtract(i32::MIN, 1).result, i32::MIN);
    assert_eq!(subtract(i32::MAX, -1).result, i32::MAX);
    assert_eq!(multiply(i32::MIN, i32::MIN).result, i32::MAX);
    assert_eq!(multiply(i32::MIN, i32::MAX).result, i32::MIN);
}

#[test]
fn results_inside_the_range_are_exact() {
    assert_eq!(divide(-7, 2).result, -3);
    assert_eq!(divide(7, -2).result, -3);
    assert_eq!(divide(5, 0).result, 0);
    assert_eq!(negate(i32::MAX).result, -i32::MAX);
    assert_eq!(add(i32::MAX, i32::MIN).result, -1);
    assert_eq!(subtract(-1, i32::MAX).result, i32::MIN);
    assert_eq!(multiply(-65536, 32768).result, i32::MIN);
}
