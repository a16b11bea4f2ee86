//! "Well formed", clause by clause: a store with some words set is accepted or
//! refused 6.

mod common;
use common::{
    delays, loaded, refused, table, FULL, FULL_ELEMENTS, FULL_EVENTS, FULL_NEED, FULL_VARIABLES,
};
use second::store::need;
use second::{advance, arrival, check, load, run, Answer};

const NOW: (usize, u32) = (0, 100);
/// Element 1 (basic, states 0 and 1) runs event input 0, born at 60.
const CHARTS: [(usize, u32); 5] = [NOW, (1, 2), (2, 1), (3, 60), (4, 1)];
/// The same in state 1, which has two actions, of two steps and of none.
const ACTS: [(usize, u32); 7] = [NOW, (1, 2), (2, 1), (3, 60), (4, 2), (element(1), 1), (6, 1)];

const fn element(id: usize) -> usize {
    FULL_ELEMENTS + 3 * id
}
const fn event(id: usize) -> usize {
    FULL_EVENTS + 3 * id
}
const fn variable(id: usize) -> usize {
    FULL_VARIABLES + 2 * id
}

/// Whether FULL's loaded store with these words set is well formed. Every call
/// is asked, and must leave a refused store as it came.
fn accepts(base: &[(usize, u32)], changes: &[(usize, u32)]) -> bool {
    let table = table(FULL);
    let mut store = loaded(&table, FULL_NEED + 2);
    for &(place, word) in base.iter().chain(changes) {
        store[place] = word;
    }
    let mut after = store.clone();
    let answer = run(&table, &mut after, 0, &mut []);
    if answer.refusal == 0 {
        return true;
    }
    assert_eq!(answer, refused(6));
    assert_eq!(advance(&table, &mut after, u32::MAX), refused(6));
    assert_eq!(arrival(&table, &mut after, 99, u32::MAX, &[]), refused(6));
    assert_eq!(after, store);
    false
}

/// Each of the words alone is refused.
fn refuses_each(base: &[(usize, u32)], changes: &[(usize, u32)]) {
    for change in changes {
        assert!(!accepts(base, &[*change]), "accepted {change:?}");
    }
}

/// Each of the words alone is accepted.
fn accepts_each(base: &[(usize, u32)], changes: &[(usize, u32)]) {
    for change in changes {
        assert!(accepts(base, &[*change]), "refused {change:?}");
    }
}

#[test]
fn a_loaded_store_is_accepted() {
    assert!(accepts(&[], &[]));
    assert!(accepts(&CHARTS, &[]));
    assert!(accepts(&ACTS, &[]));
}

#[test]
fn load_sets_exactly_what_the_document_says() {
    let mut expected = vec![0; FULL_NEED];
    expected[element(5)] = 2;
    expected[variable(1)] = 7;
    expected[variable(1) + 1] = 7;
    expected[variable(3)] = -2i32 as u32;
    expected[variable(6)] = 50;
    expected[variable(6) + 1] = 50;
    expected.extend([0xAAAA_AAAA; 3]);
    assert_eq!(loaded(&table(FULL), FULL_NEED + 3), expected);
}

#[test]
fn now_is_in_range() {
    accepts_each(&[], &[(0, 0x7FFF_FFFF)]);
    refuses_each(&[], &[(0, 0x8000_0000), (0, u32::MAX)]);
}

#[test]
fn words_12_to_15_are_zero_and_words_8_and_11_are_free() {
    for place in [12, 13, 14, 15] {
        refuses_each(&[], &[(place, 1), (place, u32::MAX)]);
        assert!(!accepts(&[(11, 7)], &[(place, 1)]));
    }
    for base in [&[][..], &CHARTS, &ACTS] {
        for free in [8, 11] {
            accepts_each(base, &[(free, 1), (free, u32::MAX - 1), (free, u32::MAX)]);
        }
    }
}

#[test]
fn idle_means_words_1_to_7_zero() {
    for place in [1, 2, 3, 5, 6, 7] {
        refuses_each(&[NOW], &[(place, 1)]);
    }
}

#[test]
fn the_mode_is_0_1_or_2() {
    refuses_each(&CHARTS, &[(4, 0), (4, 3), (4, u32::MAX)]);
}

#[test]
fn the_running_element_is_basic_and_the_event_its_own() {
    // Elements 0, 2, 3, 4 are not basic; element 5 is, but the event is of 1.
    refuses_each(&CHARTS, &[(1, 0), (1, 1), (1, 3), (1, 4), (1, 5), (1, 6), (1, 7), (1, u32::MAX)]);
    refuses_each(&CHARTS, &[(2, 0), (2, 2), (2, 6), (2, 7), (2, u32::MAX)]);
    assert!(accepts(&CHARTS, &[(1, 6), (2, 6)]));
    // Not basic, with an event of its own.
    assert!(!accepts(&CHARTS, &[(1, 3), (2, 2)]));
    refuses_each(&ACTS, &[(1, 0), (1, 1), (2, 0), (2, 6)]);
}

#[test]
fn the_birth_is_at_most_now() {
    accepts_each(&CHARTS, &[(3, 0), (3, 100)]);
    refuses_each(&CHARTS, &[(3, 101), (3, u32::MAX)]);
    refuses_each(&ACTS, &[(3, 101)]);
}

#[test]
fn mode_1_has_action_and_step_0() {
    accepts_each(&CHARTS, &[(5, 0), (5, 1)]);
    refuses_each(&CHARTS, &[(5, 2), (5, u32::MAX), (6, 1), (7, 1)]);
}

#[test]
fn mode_2_has_live_0() {
    refuses_each(&ACTS, &[(5, 1), (5, 2)]);
}

#[test]
fn mode_2_has_an_action_of_the_state_and_a_step_of_the_action() {
    accepts_each(&ACTS, &[(6, 0), (6, 1), (6, 2), (7, 1), (7, 2)]);
    refuses_each(&ACTS, &[(6, 3), (6, u32::MAX), (7, 3), (7, u32::MAX)]);
    // Action 2 has no steps, and action 0 is none.
    assert!(!accepts(&ACTS, &[(6, 2), (7, 1)]));
    assert!(!accepts(&ACTS, &[(6, 0), (7, 1)]));
    // State 0 has no actions.
    assert!(!accepts(&ACTS, &[(element(1), 0)]));
    assert!(accepts(&ACTS, &[(element(1), 0), (6, 0)]));
}

#[test]
fn a_chart_state_is_the_basic_elements_own_else_0() {
    accepts_each(&[], &[(element(1), 1)]);
    refuses_each(&[], &[(element(1), 2), (element(1), 3), (element(1), u32::MAX)]);
    refuses_each(&[], &[(element(5), 0), (element(5), 1)]);
    for other in [0, 2, 3, 4] {
        refuses_each(&[], &[(element(other), 1)]);
    }
}

#[test]
fn a_due_flag_is_only_on_a_delay_and_due_not_before_now() {
    let (flag, time) = (element(3) + 1, element(3) + 2);
    for word in [100, 4_294_967_294] {
        assert!(accepts(&[NOW, (flag, 1)], &[(time, word), (9, 1), (10, word)]));
    }
    for word in [0, 99, u32::MAX] {
        assert!(!accepts(&[NOW, (flag, 1)], &[(time, word), (9, 1), (10, word)]));
    }
    // Whatever words 9 and 10 say of it.
    for words in [[(9, 0), (10, 0)], [(9, 1), (10, 100)]] {
        assert!(!accepts(&[NOW, (time, 100)], &words));
        for word in [2, u32::MAX] {
            assert!(!accepts(&[NOW, (time, 100), (flag, word)], &words));
        }
        for other in [0, 1, 2, 4, 5] {
            let time = (element(other) + 2, 100);
            assert!(!accepts(&[NOW, (element(other) + 1, 1), time], &words));
            assert!(!accepts(&[NOW, time], &words));
        }
    }
}

/// FULL's delay is due at 150.
const DUE: [(usize, u32); 3] = [NOW, (element(3) + 1, 1), (element(3) + 2, 150)];

#[test]
fn words_9_and_10_are_zero_where_no_due_flag_is_set() {
    for base in [&[NOW][..], &CHARTS, &ACTS] {
        assert!(accepts(base, &[(9, 0), (10, 0)]));
        refuses_each(base, &[(9, 1), (9, 2), (9, u32::MAX)]);
        refuses_each(base, &[(10, 1), (10, 100), (10, u32::MAX)]);
        assert!(!accepts(base, &[(9, 1), (10, 100)]));
    }
}

#[test]
fn words_9_and_10_tell_that_a_due_flag_is_set_and_its_time() {
    assert!(accepts(&DUE, &[(9, 1), (10, 150)]));
    let right = [&DUE[..], &[(9, 1), (10, 150)]].concat();
    // As a store has them that was kept from before these words.
    assert!(!accepts(&DUE, &[(9, 0), (10, 0)]));
    refuses_each(&right, &[(9, 0), (9, 2), (9, 257), (9, 0x8000_0001), (9, u32::MAX)]);
    refuses_each(&right, &[(10, 0), (10, 100), (10, 149), (10, 151), (10, u32::MAX)]);
    for base in [&CHARTS[..], &ACTS] {
        assert!(accepts(base, &right));
        assert!(!accepts(base, &[&right[..], &[(10, 151)]].concat()));
    }
}

#[test]
fn a_time_of_0_is_told_from_none() {
    let at_zero = (element(3) + 1, 1);
    assert!(accepts(&[at_zero], &[(9, 1), (10, 0)]));
    assert!(!accepts(&[at_zero], &[(9, 0), (10, 0)]));
    assert!(!accepts(&[], &[(9, 1), (10, 0)]));
}

#[test]
fn word_10_is_the_earliest_of_all_due_times() {
    let table = delays(3);
    let model = check(&table).expect("a sound table");
    let times = |times: [u32; 3], word: u32| {
        let mut store = loaded(&table, need(&model));
        for (element, time) in times.into_iter().enumerate().filter(|&(_, time)| time != 0) {
            store[FULL_ELEMENTS + 3 * element + 1] = 1;
            store[FULL_ELEMENTS + 3 * element + 2] = time;
        }
        store[9..11].copy_from_slice(&[1, word]);
        run(&table, &mut store, 0, &mut []).refusal
    };
    for order in [[20, 30, 40], [30, 20, 40], [40, 30, 20], [20, 20, 30], [30, 20, 20]] {
        assert_eq!(times(order, 20), 0, "{order:?}");
        for wrong in [0, 19, 21, 30, 40] {
            assert_eq!(times(order, wrong), 6, "{order:?} and {wrong}");
        }
    }
    // Times that no advance gets to; a delay with 0 here is not due.
    let (less, most) = (0x8000_0000, 4_294_967_294);
    assert_eq!((times([most, 0, less], less), times([most, 0, less], most)), (0, 6));
    assert_eq!((times([0, most, 0], most), times([0, most, 0], less)), (0, 6));
}

#[test]
fn a_waiting_event_has_birth_then_last_update_then_now() {
    for id in 0..6 {
        let (flag, birth, last_update) = (event(id), event(id) + 1, event(id) + 2);
        let waiting = [NOW, (flag, 1), (birth, 50), (last_update, 70)];
        accepts_each(&waiting, &[(birth, 0), (birth, 70), (last_update, 50), (last_update, 100)]);
        refuses_each(&waiting, &[(birth, 71), (last_update, 49), (last_update, 101)]);
        refuses_each(&waiting, &[(flag, 0), (flag, 2), (flag, u32::MAX)]);
        refuses_each(&[NOW], &[(birth, 1), (last_update, 1)]);
        accepts_each(&[NOW], &[(flag, 1)]);
    }
}

#[test]
fn a_buffer_is_0_unless_of_an_input() {
    for input in [1, 4, 6, 7] {
        accepts_each(&[], &[(variable(input) + 1, u32::MAX)]);
    }
    for other in [0, 2, 3, 5, 8] {
        refuses_each(&[], &[(variable(other) + 1, 1)]);
        accepts_each(&[], &[(variable(other), u32::MAX)]);
    }
}

#[test]
fn words_past_the_need_are_neither_judged_nor_touched() {
    accepts_each(&[], &[(FULL_NEED, u32::MAX), (FULL_NEED + 1, 0)]);
    let table = table(FULL);
    let mut store = loaded(&table, FULL_NEED + 5);
    assert_eq!(arrival(&table, &mut store, 0, 0, &[3]), Answer::default());
    common::run_all(&table, &mut store);
    assert_eq!(advance(&table, &mut store, 5), Answer::default());
    assert_eq!(store[FULL_NEED..], [0xAAAA_AAAA; 5]);
}

#[test]
fn a_store_too_short_is_refused_5_before_6() {
    let table = table(FULL);
    for words in [0, 1, 16, FULL_NEED - 1] {
        let mut store = vec![u32::MAX; words];
        assert_eq!(load(&table, &mut store), refused(5));
        assert_eq!(run(&table, &mut store, 1, &mut []), refused(5));
        assert_eq!(advance(&table, &mut store, 0), refused(5));
        assert_eq!(arrival(&table, &mut store, 0, 0, &[]), refused(5));
        assert_eq!(store, vec![u32::MAX; words]);
    }
}
