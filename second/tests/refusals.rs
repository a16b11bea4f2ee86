//! Refusals 1 to 4: every family of rules on every kind of frame, and which
//! frame and number win.

mod common;
use common::{full_with, refusal, refusal_of, FULL};
use second::{advance, arrival, load, run, Answer};

/// FULL with one line replaced is refused with the number, on that line.
fn refuses_on_the_line(number: u8, changes: &[(usize, &'static str)]) {
    for &change in changes {
        assert_eq!(refusal_of(&full_with(&[change])), (number, change.0), "{change:?}");
    }
}

/// FULL with one line replaced is refused 4 on an earlier frame, an element.
fn breaks_the_shape_of(element: usize, changes: &[(usize, &'static str)]) {
    for &change in changes {
        assert_eq!(refusal_of(&full_with(&[change])), (4, element), "{change:?}");
    }
}

fn accepts(changes: &[(usize, &'static str)]) {
    for &change in changes {
        assert_eq!(refusal_of(&full_with(&[change])), (0, 0), "{change:?}");
    }
}

// ---------------------------------------------------------------- number 1

#[test]
fn refusal_1_is_about_the_length_alone() {
    for length in [0, 1, 11, 13, 23, 49_151, 49_153, 49_164, 60_000] {
        assert_eq!(refusal(&vec![0xFF; length]), (1, 0), "{length}");
    }
    for length in [12, 24, 49_152] {
        assert_eq!(refusal(&vec![0xFF; length]), (2, 0), "{length}");
    }
}

// ---------------------------------------------------------------- number 2

#[test]
fn the_full_table_is_accepted() {
    assert_eq!(refusal_of(FULL), (0, 0));
}

#[test]
fn an_unknown_kind_is_refused_2() {
    refuses_on_the_line(2, &[(0, "0000"), (24, "0C00"), (47, "FF00"), (47, "7F"), (47, "80")]);
}

#[test]
fn a_kind_below_the_kind_before_it_is_refused_2() {
    for first in [5, 11, 15, 24, 30, 33, 35, 37, 39, 43] {
        let mut lines = FULL.to_vec();
        let moved = lines.remove(first);
        lines.insert(first + 1, moved);
        assert_eq!(refusal_of(&lines), (2, first + 1));
    }
}

#[test]
fn a_flag_out_of_range_is_refused_2() {
    refuses_on_the_line(
        2,
        &[
            (0, "0105 0004"),
            (12, "0301 0000"),
            (24, "0403 0005"),
            (25, "0502 0000 0001"),
            (32, "0601 0001"),
            (34, "0705 0000 0001 0000 0003 0002"),
            (36, "0801 0001 0000 0002 0001"),
            (38, "0909 0002 0001 0001"),
            (40, "0A01 0000 0000"),
            (44, "0B01 0000 0001"),
        ],
    );
    accepts(&[(11, "02FF 0005")]);
}

#[test]
fn an_unused_field_that_is_not_zero_is_refused_2() {
    refuses_on_the_line(
        2,
        &[
            (0, "0103 0004 0001"),
            (0, "0103 0004 0000 0000 0000 0001"),
            (1, "0100 0003 0000 0001"),
            (2, "0101 0002 FFFF"),
            (3, "0102 0001 0001"),
            (4, "0104 0000 0001"),
            (6, "0200 0001 0001"),
            (12, "0300 0000 0001"),
            (17, "0400 0001 0000 0007 0001"),
            (25, "0500 0000 0001 0001"),
            (31, "0600 0001 0001"),
            (34, "0700 0000 0001 0000 0001"),
            (34, "0700 0000 0001 0000 0000 0001"),
            (36, "0800 0001 0000 0002 0001 0001"),
            (38, "0901 0002 0001 0001 0001"),
            (38, "0900 0002 0001 0001"),
            (38, "0903 0002 0001 0001"),
            (39, "0908 0003 0001"),
            (39, "0908 0003 0000 0001"),
            (40, "0A00 0000 0000 0001"),
            (44, "0B00 0000 0001 0001"),
        ],
    );
}

#[test]
fn a_step_count_above_64_is_refused_2() {
    refuses_on_the_line(2, &[(36, "0800 0001 0000 0041 0001"), (37, "0800 0001 0000 FFFF FFFF")]);
    // 64 is in range, but so many steps do not exist.
    refuses_on_the_line(3, &[(36, "0800 0001 0000 0040 0001")]);
}

/// One basic element and its state, between them and after them other lines.
fn around_basic(before_state: &[String], after_state: &[String]) -> Vec<String> {
    let head = ["01000000".to_string()];
    let state = ["0600".to_string()];
    [&head[..], before_state, &state[..], after_state].concat()
}

fn refusal_of_owned(lines: &[String]) -> (u8, usize) {
    refusal_of(&lines.iter().map(String::as_str).collect::<Vec<&str>>())
}

#[test]
fn a_kind_may_have_its_number_and_not_one_more() {
    let numbered = |k: usize| format!("0104{k:04X}");
    let sinks = |number: usize| (0..number).map(numbered).collect::<Vec<String>>();
    assert_eq!(refusal_of_owned(&sinks(64)), (0, 0));
    assert_eq!(refusal_of_owned(&sinks(65)), (2, 64));

    let input = |k: usize| format!("02{:02X}0000", k % 256);
    let inputs = |number: usize| (0..number).map(input).collect::<Vec<String>>();
    assert_eq!(refusal_of_owned(&around_basic(&inputs(256), &[])), (0, 0));
    assert_eq!(refusal_of_owned(&around_basic(&inputs(257), &[])), (2, 257));

    for (line, most) in [("0300", 256), ("0402", 512)] {
        let lines = vec![line.to_string(); most + 1];
        assert_eq!(refusal_of_owned(&around_basic(&lines[1..], &[])), (0, 0));
        assert_eq!(refusal_of_owned(&around_basic(&lines, &[])), (2, most + 1));
    }
    // The state of the element itself is one of the 512.
    for (line, most) in [("0600", 511), ("070000000000FFFF", 1024)] {
        let lines = vec![line.to_string(); most + 1];
        assert_eq!(refusal_of_owned(&around_basic(&[], &lines[1..])), (0, 0));
        assert_eq!(refusal_of_owned(&around_basic(&[], &lines)), (2, most + 2));
    }
}

#[test]
fn the_kinds_with_no_number_are_held_by_the_frames() {
    let actions = vec!["080000000000 0000 FFFF".replace(' ', ""); 4094];
    assert_eq!(refusal_of_owned(&around_basic(&[], &actions)), (0, 0));
    let more = vec![actions[0].clone(); 4095];
    assert_eq!(refusal_of_owned(&around_basic(&[], &more)), (1, 0));
}

// ---------------------------------------------------------------- number 3

#[test]
fn owners_must_exist() {
    refuses_on_the_line(
        3,
        &[
            (11, "0200 0006"),
            (11, "0200 FFFF"),
            (13, "0300 0006"),
            (24, "0402 0006"),
            (32, "0600 0006"),
        ],
    );
}

#[test]
fn an_initial_state_is_the_elements_own() {
    refuses_on_the_line(
        3,
        &[
            (1, "0100 0003 0002"),
            (1, "0100 0003 0003"),
            (5, "0100 0005 0000"),
            (5, "0100 0005 FFFF"),
        ],
    );
    accepts(&[(1, "0100 0003 0001")]);
}

#[test]
fn states_belong_to_basic_elements() {
    let of_others = ["0600 0000", "0600 0002", "0600 0003", "0600 0004"];
    for line in of_others {
        refuses_on_the_line(3, &[(32, line)]);
    }
}

#[test]
fn an_association_joins_an_event_and_a_variable_of_one_element() {
    refuses_on_the_line(
        3,
        &[
            (25, "0500 0006 0001"),
            (25, "0500 FFFF 0001"),
            (25, "0500 0000 0009"),
            (25, "0500 0000 0004"),
            (25, "0500 0000 0002"),
            (25, "0500 0000 0003"),
            (30, "0501 0004 0002"),
            (30, "0501 0001 0009"),
            (30, "0501 0001 0000"),
            (30, "0501 0001 0001"),
            (30, "0501 0001 0003"),
        ],
    );
}

#[test]
fn output_associations_of_an_interface_are_wrong() {
    refuses_on_the_line(3, &[(30, "0501 0002 0005")]);
}

#[test]
fn what_a_transition_names_is_of_one_element() {
    refuses_on_the_line(
        3,
        &[
            (34, "0700 0003 0001 0000"),
            (34, "0700 0000 0003 0000"),
            (34, "0700 0000 0002 0000"),
            (34, "0700 0002 0001 0000"),
            (34, "0700 0000 0001 0006"),
            (34, "0700 0000 0001 0005"),
            (34, "0700 FFFF 0001 0000"),
            (35, "0703 0001 0000 FFFF 0009 0002"),
            (35, "0703 0001 0000 FFFF 0003 0009"),
            (35, "0703 0001 0000 FFFF 0008 0002"),
            (35, "0703 0001 0000 FFFF 0003 0004"),
            (35, "0703 0001 0000 FFFF FFFF 0002"),
        ],
    );
    accepts(&[(35, "0701 0001 0000 0000 0001 0001")]);
}

#[test]
fn what_an_action_names_is_of_its_states_element() {
    refuses_on_the_line(
        3,
        &[
            (36, "0800 0003 0000 0002 0001"),
            (36, "0800 0001 0001 0002 0001"),
            (36, "0800 0001 0002 0001 0001"),
            (36, "0800 0001 FFFF 0001 0001"),
            (36, "0800 0002 0000 0001 FFFF"),
            (36, "0800 0001 0000 0002 0004"),
            (36, "0800 0001 0000 0002 0000"),
        ],
    );
    accepts(&[(36, "0800 0001 0001 0001 FFFF")]);
}

#[test]
fn an_action_with_no_steps_has_no_first_step_that_must_exist() {
    accepts(&[(37, "0800 0001 FFFF 0000 FFFF"), (37, "0800 0002 0000 0000 FFFF")]);
}

#[test]
fn a_missing_result_variable_is_found_on_the_action() {
    assert_eq!(refusal_of(&full_with(&[(38, "0901 0009 0001 0001")])), (3, 36));
    assert_eq!(refusal_of(&full_with(&[(39, "0908 0008")])), (3, 36));
}

#[test]
fn what_a_step_names_is_of_one_basic_element() {
    refuses_on_the_line(
        3,
        &[
            (38, "0901 0002 0001 0009"),
            (38, "0901 0002 0008 0001"),
            (38, "0901 0002 0001 FFFF"),
            (38, "0900 0002 0004"),
            (38, "0901 0001 0001 0001"),
            (39, "0903 0003 0008"),
        ],
    );
    accepts(&[(38, "0901 0003 0003 0002")]);
}

#[test]
fn a_step_outside_of_actions_is_judged_too() {
    for line in ["0900 0005 0004", "0908 0009", "0908 0000", "0908 0001"] {
        let mut lines = FULL.to_vec();
        lines.insert(40, line);
        assert_eq!(refusal_of(&lines), (3, 40), "{line}");
    }
}

#[test]
fn connections_join_outputs_and_inputs_that_exist() {
    refuses_on_the_line(
        3,
        &[
            (40, "0A00 0004 0000"),
            (40, "0A00 0000 0006"),
            (44, "0B00 0009 0001"),
            (44, "0B00 0000 0009"),
            (44, "0B00 0001 0001"),
            (44, "0B00 0003 0001"),
            (44, "0B00 0000 0002"),
            (44, "0B00 0000 0003"),
        ],
    );
    accepts(&[(40, "0A00 0000 0005"), (44, "0B00 0005 0001")]);
}

// ---------------------------------------------------------------- number 4

#[test]
fn a_priority_an_earlier_element_has_is_refused_4() {
    refuses_on_the_line(4, &[(5, "0100 0004 0002"), (1, "0100 0004 0000")]);
}

#[test]
fn the_shape_of_a_source() {
    breaks_the_shape_of(0, &[(11, "0200 0000"), (24, "0400 0000"), (24, "0402 0000")]);
    accepts(&[(24, "0401 0000")]);
}

#[test]
fn the_shape_of_a_sink() {
    breaks_the_shape_of(4, &[(13, "0300 0004"), (24, "0401 0004"), (24, "0402 0004")]);
    accepts(&[(24, "0400 0004"), (11, "0201 0004")]);
}

#[test]
fn the_shape_of_an_interface() {
    breaks_the_shape_of(
        2,
        &[
            (11, "0201 0002"),
            (13, "0300 0002"),
            (24, "0400 0002"),
            (24, "0401 0002"),
            (24, "0402 0002"),
        ],
    );
    // One more pair of events keeps the shape; what follows is judged next.
    assert_eq!(refusal_of(&full_with(&[(11, "0201 0002"), (13, "0300 0002")])), (3, 30));
}

#[test]
fn the_shape_of_a_delay() {
    breaks_the_shape_of(
        3,
        &[
            (9, "0201 0001"),
            (11, "0202 0003"),
            (13, "0300 0003"),
            (15, "0300 0001"),
            (24, "0400 0003"),
            (24, "0402 0003"),
            (22, "0401 0003"),
            (22, "0402 0003"),
            (22, "0400 0001"),
        ],
    );
}

#[test]
fn a_variable_with_a_flag_out_of_range_is_no_input_output_or_internal() {
    breaks_the_shape_of(0, &[(24, "0403 0000")]);
    breaks_the_shape_of(3, &[(24, "04FF 0003")]);
    breaks_the_shape_of(4, &[(24, "0403 0004")]);
    refuses_on_the_line(2, &[(24, "0403 0002")]);
}

#[test]
fn a_local_priority_an_earlier_input_of_the_element_has_is_refused_4() {
    refuses_on_the_line(4, &[(9, "0200 0003")]);
}

#[test]
fn a_pair_repeated_is_refused_4() {
    refuses_on_the_line(
        4,
        &[
            (26, "0500 0000 0001"),
            (30, "0501 0000 0000"),
            (41, "0A00 0000 0000"),
            (45, "0B00 0000 0001"),
        ],
    );
    accepts(&[(41, "0A00 0000 0001"), (41, "0A00 0001 0000")]);
}

#[test]
fn a_destination_already_connected_is_refused_4() {
    refuses_on_the_line(4, &[(45, "0B00 0005 0001"), (47, "0B00 0000 0004")]);
}

#[test]
fn a_ninth_variable_for_one_event_is_refused_4() {
    let table = |number: usize| {
        let mut lines = vec!["0104".to_string(), "0200".to_string()];
        lines.extend(vec!["0400".to_string(); number]);
        lines.extend((0..number).map(|k| format!("05000000{k:04X}")));
        lines
    };
    assert_eq!(refusal_of_owned(&table(8)), (0, 0));
    assert_eq!(refusal_of_owned(&table(9)), (4, 19));
}

#[test]
fn eight_inputs_and_eight_outputs_of_events_of_one_number_are_not_nine() {
    let mut lines = vec!["0100".to_string(), "0200".to_string(), "0300".to_string()];
    lines.extend((0..16).map(|k| format!("04{:02X}", k / 8)));
    lines.extend((0..16).map(|k| format!("05{:02X}0000{k:04X}", k / 8)));
    lines.push("0600".to_string());
    assert_eq!(refusal_of_owned(&lines), (0, 0));
}

// ---------------------------------------------------------------- order

#[test]
fn on_a_frame_the_lowest_number_is_given() {
    refuses_on_the_line(2, &[(25, "0502 0099 0001"), (5, "0105 0004 0099")]);
    // A wrong initial state and a priority that an earlier element has.
    refuses_on_the_line(3, &[(5, "0100 0004 0000")]);
    // A kind below the one before it, and a wrong reference.
    let mut lines = FULL.to_vec();
    lines.insert(16, "0200 0099");
    assert_eq!(refusal_of(&lines), (2, 16));
}

#[test]
fn of_all_frames_the_lowest_is_named() {
    let faults =
        [(47, "0BFF"), (40, "0A00 0004 0000"), (26, "0500 0000 0001"), (5, "0100 0004 0002")];
    for taken in 1..=faults.len() {
        let number = [2, 3, 4, 4][taken - 1];
        assert_eq!(refusal_of(&full_with(&faults[..taken])), (number, faults[taken - 1].0));
    }
}

#[test]
fn frames_are_counted_by_their_kind_byte_in_any_order() {
    // The state and element that the first frames need come later.
    let lines = ["0700 0000 0000 FFFF", "0600 0000", "0100 0000 0000"];
    assert_eq!(refusal_of(&lines), (2, 1));
    assert_eq!(refusal_of(&lines[..1]), (3, 0));
    // A state with other faults is counted: the element's initial state is its own.
    assert_eq!(refusal_of(&["0100 0000 0000", "06FF 0000 1234"]), (2, 1));
    assert_eq!(refusal_of(&["0100 0000 0000", "05FF", "FFFF 0000"]), (3, 0));
}

#[test]
fn owners_that_do_not_exist_are_the_later_frames_fault() {
    // Both states say 99, so they are of one element.
    assert_eq!(refusal_of(&["0700 0000 0001 FFFF", "0600 0063", "0600 0063"]), (2, 1));
    assert_eq!(refusal_of(&["0700 0000 0001 FFFF", "0600 0063", "0600 0062"]), (3, 0));
}

#[test]
fn a_refused_table_is_refused_by_every_call_before_the_store() {
    let table = common::table(&full_with(&[(41, "0A00 0000 0000")]));
    let expected = Answer { refusal: 4, frame: 41, ..Answer::default() };
    let mut store = [7; 3];
    assert_eq!(load(&table, &mut store), expected);
    assert_eq!(run(&table, &mut store, 9, &mut []), expected);
    assert_eq!(advance(&table, &mut store, u32::MAX), expected);
    assert_eq!(arrival(&table, &mut store, 9, u32::MAX, &[]), expected);
    assert_eq!(store, [7; 3]);
}
