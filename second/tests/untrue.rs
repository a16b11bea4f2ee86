//! "Each operation shall tell, besides its result, whether the result is the
//! true one": what is true, the count in word 11, and the answer of run.

mod common;
use common::{chart, for_each_run, loaded, printed, refused, run_all, worked_table};
use common::{CHART_VARIABLES, WORKED, WORKED_OUTPUT};
use second::arithmetic::{
    add, age, copy, divide, maximum, minimum, multiply, negate, subtract, Outcome,
};
use second::gen::session;
use second::lines::{text_of, OUTPUT_BYTES};
use second::{advance, arrival, load, run, run_traced, show, Answer};

/// The word that counts untrue steps, and where it stops.
const UNTRUE: usize = 11;
const END: u32 = 4_294_967_295;

const LEAST: i32 = -2_147_483_648;
const MOST: i32 = 2_147_483_647;

fn truly(result: i32) -> Outcome {
    Outcome { result, is_true: true }
}

fn untruly(result: i32) -> Outcome {
    Outcome { result, is_true: false }
}

// ---------------------------------------------------------------- operations

#[test]
fn a_clipped_result_is_untrue() {
    assert_eq!(negate(LEAST), untruly(MOST));
    assert_eq!(divide(LEAST, -1), untruly(MOST));
    assert_eq!(add(MOST, 1), untruly(MOST));
    assert_eq!(add(LEAST, -1), untruly(LEAST));
    assert_eq!(subtract(LEAST, 1), untruly(LEAST));
    assert_eq!(subtract(0, LEAST), untruly(MOST));
    assert_eq!(multiply(LEAST, -1), untruly(MOST));
    assert_eq!(multiply(65_536, 32_768), untruly(MOST));
    assert_eq!(multiply(MOST, -2), untruly(LEAST));
}

#[test]
fn a_division_by_zero_is_untrue_also_of_0() {
    for b in [0, 7, -7, LEAST, MOST] {
        assert_eq!(divide(b, 0), untruly(0));
    }
    assert_eq!(divide(0, 7), truly(0));
}

#[test]
fn a_division_toward_zero_is_true() {
    assert_eq!(divide(-7, 2), truly(-3));
    assert_eq!(divide(7, -2), truly(-3));
    assert_eq!(divide(1, MOST), truly(0));
    assert_eq!(divide(LEAST, 1), truly(LEAST));
    assert_eq!(divide(MOST, -1), truly(-MOST));
}

#[test]
fn a_result_exactly_at_an_end_is_true() {
    assert_eq!(add(2_147_483_646, 1), truly(MOST));
    assert_eq!(add(-2_147_483_647, -1), truly(LEAST));
    assert_eq!(subtract(-2_147_483_647, 1), truly(LEAST));
    assert_eq!(subtract(-1, LEAST), truly(MOST));
    assert_eq!(negate(-2_147_483_647), truly(MOST));
    assert_eq!(multiply(-65_536, 32_768), truly(LEAST));
    assert_eq!(multiply(MOST, 1), truly(MOST));
}

#[test]
fn copy_minimum_maximum_and_age_are_always_true() {
    let values = [LEAST, LEAST + 1, -1, 0, 1, MOST - 1, MOST];
    for b in values {
        assert_eq!(copy(b), truly(b));
        for c in values {
            assert_eq!(minimum(b, c), truly(if b < c { b } else { c }));
            assert_eq!(maximum(b, c), truly(if b < c { c } else { b }));
        }
    }
    assert_eq!(age(0, 0), truly(0));
    assert_eq!(age(10, 4), truly(6));
    assert_eq!(age(2_147_483_647, 0), truly(MOST));
    assert_eq!(age(2_147_483_647, 2_147_483_647), truly(0));
}

/// A result that fits, else the end that it is clipped to.
fn fitting(fits: Option<i32>, end: i32) -> Outcome {
    fits.map_or(untruly(end), truly)
}

#[test]
fn a_result_is_true_where_it_fits() {
    let near = [LEAST, LEAST + 1, LEAST / 2, -65_536, -2, -1, 0, 1, 2, 32_768, 65_536, MOST / 2];
    let values = [&near[..], &[MOST - 1, MOST]].concat();
    for &b in &values {
        assert_eq!(negate(b), fitting(b.checked_neg(), MOST));
        for &c in &values {
            assert_eq!(add(b, c), fitting(b.checked_add(c), b.saturating_add(c)));
            assert_eq!(subtract(b, c), fitting(b.checked_sub(c), b.saturating_sub(c)));
            assert_eq!(multiply(b, c), fitting(b.checked_mul(c), b.saturating_mul(c)));
            let end = if c == 0 { 0 } else { b.saturating_div(c) };
            assert_eq!(divide(b, c), fitting(b.checked_div(c), end));
        }
    }
}

// ---------------------------------------------------------------- word 11

/// A block that makes these steps when its event comes. Its inputs are the
/// variables 2 and 3, its output is 4.
fn block(steps: &[&str]) -> Vec<u8> {
    let action = format!("080000010000{:04X}FFFF", steps.len());
    let mut lines = vec!["0700000000010000".to_string(), action];
    lines.extend(steps.iter().map(|step| step.replace(' ', "")));
    chart(&lines)
}

/// A loaded store with this count, in which values came at 10, born at 4.
fn came(table: &[u8], count: u32, values: [i32; 2]) -> Vec<u32> {
    let mut store = loaded(table, 35);
    store[UNTRUE] = count;
    assert_eq!(advance(table, &mut store, 10), Answer::default());
    assert_eq!(arrival(table, &mut store, 0, 4, &values), Answer::default());
    assert_eq!(store[UNTRUE], count, "only a run counts");
    store
}

/// Variable 4 becomes the sum of 2 and 3, five times, and once their minimum.
const SUMS: [&str; 6] = [
    "0901 0004 0002 0003",
    "0901 0004 0002 0003",
    "0901 0004 0002 0003",
    "0906 0004 0002 0003",
    "0901 0004 0002 0003",
    "0901 0004 0002 0003",
];

#[test]
fn an_untrue_step_is_counted_and_told_and_a_true_one_is_not() {
    let cases: [(&str, [i32; 2], Outcome); 19] = [
        ("0900 0004 0002", [LEAST, 0], truly(LEAST)),
        ("0901 0004 0002 0003", [MOST, 1], untruly(MOST)),
        ("0901 0004 0002 0003", [MOST - 1, 1], truly(MOST)),
        ("0902 0004 0002 0003", [LEAST, 1], untruly(LEAST)),
        ("0902 0004 0002 0003", [LEAST + 1, 1], truly(LEAST)),
        ("0903 0004 0002", [LEAST, 0], untruly(MOST)),
        ("0903 0004 0002", [LEAST + 1, 0], truly(MOST)),
        ("0904 0004 0002 0003", [LEAST, -1], untruly(MOST)),
        ("0904 0004 0002 0003", [MOST, -2], untruly(LEAST)),
        ("0904 0004 0002 0003", [MOST, 1], truly(MOST)),
        ("0905 0004 0002 0003", [LEAST, -1], untruly(MOST)),
        ("0905 0004 0002 0003", [LEAST, 1], truly(LEAST)),
        ("0905 0004 0002 0003", [-7, 2], truly(-3)),
        ("0905 0004 0002 0003", [7, 0], untruly(0)),
        ("0905 0004 0002 0003", [0, 0], untruly(0)),
        ("0905 0004 0002 0003", [0, 7], truly(0)),
        ("0906 0004 0002 0003", [LEAST, MOST], truly(LEAST)),
        ("0907 0004 0002 0003", [LEAST, MOST], truly(MOST)),
        ("0908 0004", [LEAST, MOST], truly(6)),
    ];
    for (step, values, Outcome { result, is_true }) in cases {
        let table = block(&[step]);
        let mut store = came(&table, 40, values);
        let (answer, _) = run_all(&table, &mut store);
        assert_eq!(store[CHART_VARIABLES + 2 * 4] as i32, result, "{step} of {values:?}");
        assert_eq!(answer.untrue, u32::from(!is_true), "{step} of {values:?}");
        assert_eq!(store[UNTRUE], 40 + u32::from(!is_true), "{step} of {values:?}");
    }
}

#[test]
fn an_age_at_the_upper_end_is_true() {
    let table = block(&["0908 0004"]);
    let mut store = loaded(&table, 35);
    assert_eq!(advance(&table, &mut store, 2_147_483_647), Answer::default());
    assert_eq!(arrival(&table, &mut store, 0, 0, &[0, 0]), Answer::default());
    assert_eq!(run_all(&table, &mut store).0.untrue, 0);
    assert_eq!((store[CHART_VARIABLES + 8] as i32, store[UNTRUE]), (MOST, 0));
}

#[test]
fn the_count_rises_with_the_step_and_with_no_other_move() {
    let table = block(&SUMS);
    let mut store = came(&table, 7, [MOST, 1]);
    // Taken, transition, three sums, minimum, two sums, action, mode 1, idle.
    let expected = [0, 0, 1, 1, 1, 0, 1, 1, 0, 0, 0];
    for (place, untrue) in expected.into_iter().enumerate() {
        let before = store[UNTRUE];
        let answer = run(&table, &mut store, 1, &mut []);
        assert_eq!((answer.moves, answer.untrue), (1, untrue), "move {place}");
        assert_eq!(store[UNTRUE], before + untrue, "move {place}");
    }
    assert_eq!(store[UNTRUE], 7 + 5);
}

#[test]
fn the_count_stops_at_its_end_and_the_run_tells_them_all() {
    let table = block(&SUMS);
    let counts = [(0, 5), (END - 6, END - 1), (END - 5, END), (END - 4, END)];
    for (before, after) in counts.into_iter().chain([(END - 1, END), (END, END)]) {
        let mut store = came(&table, before, [MOST, 1]);
        let (answer, _) = run_all(&table, &mut store);
        assert_eq!((answer.untrue, store[UNTRUE]), (5, after), "from {before}");
    }
    // The same with nothing untrue.
    for count in [0, 1, END - 1, END] {
        let mut store = came(&table, count, [MOST - 1, 1]);
        let (answer, _) = run_all(&table, &mut store);
        assert_eq!((answer.untrue, store[UNTRUE]), (0, count));
    }
}

#[test]
fn load_zeroes_the_count() {
    let table = block(&SUMS);
    for count in [1, END - 1, END] {
        let mut store = came(&table, count, [MOST, 1]);
        run_all(&table, &mut store);
        assert_eq!(load(&table, &mut store), Answer::default());
        assert_eq!(store[UNTRUE], 0);
    }
}

#[test]
fn a_refused_run_tells_0_and_leaves_the_count() {
    let table = block(&SUMS);
    let store = came(&table, 9, [MOST, 1]);
    for (place, table, words, number) in
        [(5, &table[..], 35, 6), (12, &table[..], 35, 6), (8, &table[..], 34, 5), (8, &[], 35, 1)]
    {
        let mut spoilt = store.clone();
        spoilt[place] = 1;
        let before = spoilt.clone();
        assert_eq!(run(table, &mut spoilt[..words], 99, &mut []), refused(number));
        let answer = run_traced(table, &mut spoilt[..words], 99, &mut [], &mut [0; 999]);
        assert_eq!((answer, spoilt), (refused(number), before));
    }
}

#[test]
fn a_run_that_is_stopped_tells_the_untrue_steps_that_it_made() {
    let table = block(&SUMS);
    for (budget, untrue) in [(0, 0), (2, 0), (3, 1), (4, 2), (5, 3), (6, 3), (7, 4), (8, 5)] {
        let mut store = came(&table, END - 1, [MOST, 1]);
        let answer = run(&table, &mut store, budget, &mut []);
        assert_eq!((answer.moves, answer.stop, answer.untrue), (budget, 2, untrue));
        assert_eq!(store[UNTRUE], (END - 1).saturating_add(untrue));
    }
}

// ---------------------------------------------------------------- traces

/// A traced run with plenty of room; its answer and its trace as text.
fn traced(table: &[u8], store: &mut [u32]) -> (Answer, Vec<u8>) {
    let mut trace = vec![0; 240 * 100];
    let answer = run_traced(table, store, 100, &mut [], &mut trace);
    (answer, text_of(&trace[..answer.traced]))
}

#[test]
fn a_traced_run_tells_the_same_and_shows_nothing_of_it() {
    let table = block(&SUMS);
    let mut plain = came(&table, 0, [MOST, 1]);
    let (mut store, start) = (plain.clone(), plain.clone());
    let (told, _) = run_all(&table, &mut plain);
    let (answer, text) = traced(&table, &mut store);
    assert_eq!(answer, Answer { traced: answer.traced, ..told });
    assert_eq!((answer.untrue, &store), (5, &plain));
    // Another count gives the same frames.
    for count in [8, END - 2, END] {
        let (answer, other) = traced(&table, &mut came(&table, count, [MOST, 1]));
        assert_eq!((answer.untrue, &other), (5, &text));
    }
    // What is shown after the last frame has the count of the start.
    let mut shown = start.clone();
    shown[UNTRUE] = 77;
    assert_eq!(show(&table, &mut shown, &text, usize::MAX).refusal, 0);
    assert_eq!(shown[UNTRUE], 77);
    assert_eq!(shown[CHART_VARIABLES + 8], store[CHART_VARIABLES + 8]);
}

#[test]
fn a_step_without_trace_room_is_not_made_and_not_counted() {
    let table = block(&SUMS);
    let start = came(&table, 0, [MOST, 1]);
    let moves = |store: &mut Vec<u32>, room: usize| {
        let answer = run_traced(&table, store, 100, &mut [], &mut vec![0; room]);
        (answer.stop, answer.moves, answer.untrue)
    };
    // Taken with both inputs changed: 4 frames; a transition: 3; the first sum: 2.
    let mut store = start.clone();
    assert_eq!(moves(&mut store, 12 * 8), (4, 2, 0));
    assert_eq!(store[UNTRUE], 0);
    let mut store = start.clone();
    assert_eq!(moves(&mut store, 12 * 9), (4, 3, 1));
    assert_eq!(store[UNTRUE], 1);
}

// ---------------------------------------------------------------- sessions

#[test]
fn the_worked_session_has_no_untrue_step() {
    let table = worked_table();
    let mut store = loaded(&table, 39);
    assert_eq!(advance(&table, &mut store, 10), Answer::default());
    assert_eq!(arrival(&table, &mut store, 0, 7, &[21]), Answer::default());
    let (answer, _) = run_all(&table, &mut store);
    assert_eq!(answer, Answer { moves: 9, stop: 1, bytes: 20, ..Answer::default() });
    assert_eq!((answer.untrue, store[UNTRUE]), (0, 0));
}

#[test]
fn the_step_program_does_not_print_it() {
    // 2147483647 doubled is clipped; the answer has no number more for it.
    let session = WORKED.replace("8200000000000015", "820000007FFFFFFF");
    assert_ne!(session, WORKED);
    assert_eq!(printed(&session), WORKED_OUTPUT.replace("0000002A", "7FFFFFFF"));
}

/// A store with another count.
fn with_count(store: &[u32], count: u32) -> Vec<u32> {
    let mut store = store.to_vec();
    store[UNTRUE] = count;
    store
}

#[test]
fn the_count_decides_nothing_and_rises_by_what_runs_tell() {
    let mut untrue = 0;
    for number in 0..300 {
        for_each_run(&session(6, number), |table, store, budget| {
            let ran = |mut store: Vec<u32>| {
                let mut output = [0; OUTPUT_BYTES];
                let answer = run(table, &mut store, budget, &mut output);
                (answer, store, output)
            };
            let (answer, after, output) = ran(store.to_vec());
            assert_eq!(after[UNTRUE], store[UNTRUE] + answer.untrue);
            untrue += u64::from(answer.untrue);
            for count in [0, 1, END - 1, END] {
                let expected = with_count(&after, count.saturating_add(answer.untrue));
                assert_eq!(ran(with_count(store, count)), (answer, expected, output));
            }
        });
    }
    assert!(untrue > 1000, "{untrue} untrue steps");
}

#[test]
fn runs_of_one_move_tell_as_many_as_one_run() {
    for number in 0..200 {
        for_each_run(&session(7, number), |table, store, budget| {
            let budget = budget.min(200);
            let (mut once, mut often) = (store.to_vec(), store.to_vec());
            let told = run(table, &mut once, budget, &mut [0; OUTPUT_BYTES]);
            let one = |_| run(table, &mut often, 1, &mut [0; OUTPUT_BYTES]).untrue;
            assert_eq!((0..told.moves).map(one).sum::<u32>(), told.untrue);
            assert_eq!(often, once);
        });
    }
}
