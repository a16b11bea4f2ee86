//! The two views.

mod common;
use common::{full_with, table, FULL};
use second::{frames_of, steps_of, View};

const EMPTY: View = View { offset: 0, bytes: &[] };

/// The view of the frames in a range of FULL.
fn frames(table: &[u8], range: std::ops::Range<usize>) -> View<'_> {
    let offset = range.start * 12;
    View { offset, bytes: &table[offset..range.end * 12] }
}

#[test]
fn the_frames_of_a_kind_are_a_stretch_of_the_table() {
    let table = table(FULL);
    let starts = [0, 6, 12, 16, 25, 31, 34, 36, 38, 40, 44, 48];
    for kind in 1..=11 {
        let expected = frames(&table, starts[kind - 1]..starts[kind]);
        let view = frames_of(&table, kind as u32);
        assert_eq!(view, expected);
        assert_eq!(view.bytes.as_ptr(), expected.bytes.as_ptr(), "the lent table itself");
    }
}

#[test]
fn the_steps_of_an_action_are_a_stretch_of_the_table() {
    let all = table(FULL);
    assert_eq!(steps_of(&all, 0), frames(&all, 38..40));
    assert_eq!(steps_of(&all, 1), EMPTY);
    let second_only = table(&full_with(&[(36, "0800 0001 0001 0001 0001")]));
    assert_eq!(steps_of(&second_only, 0), frames(&second_only, 39..40));
}

#[test]
fn an_unknown_number_has_an_empty_view() {
    let table = table(FULL);
    for kind in [0, 12, 255, 256 + 1, u32::MAX] {
        assert_eq!(frames_of(&table, kind), EMPTY);
    }
    for action in [2, 36, 65_536, u32::MAX] {
        assert_eq!(steps_of(&table, action), EMPTY);
    }
}

#[test]
fn a_kind_without_frames_has_an_empty_view() {
    let table = table(&["0104"]);
    assert_eq!(frames_of(&table, 1), frames(&table, 0..1));
    assert_eq!(frames_of(&table, 2), EMPTY);
    assert_eq!(steps_of(&table, 0), EMPTY);
}

#[test]
fn a_first_step_that_does_not_exist_has_no_steps() {
    let table = table(&full_with(&[(37, "0800 0001 FFFF 0000 FFFF")]));
    assert_eq!(steps_of(&table, 1), EMPTY);
}

#[test]
fn a_refused_table_has_empty_views() {
    let refused = table(&full_with(&[(47, "0B00 0005 0001")]));
    for number in 0..12 {
        assert_eq!(frames_of(&refused, number), EMPTY);
        assert_eq!(steps_of(&refused, number), EMPTY);
    }
    assert_eq!(frames_of(&refused[..13], 1), EMPTY);
}
