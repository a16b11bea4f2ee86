//! The reader of a trace: what ends the reading, what is shown, and that it is
//! what the machine held.

mod common;
use common::{loaded, table, FULL, FULL_ELEMENTS, FULL_NEED, FULL_VARIABLES, WORKED};
use second::debugger::{show_program, traced_runs};
use second::gen::session;
use second::lines::{text_of, OUTPUT_BYTES};
use second::reader::{Ending, Fault};
use second::store::{chart_state_at, value_at};
use second::trace::Trace;
use second::watch::{Sight, Watch};
use second::{show, Checked, Model, Shown};
use std::collections::BTreeSet;

/// Lines of each kind that FULL has, all of them good.
const GOOD: &[&str] = &[
    "840000010000000000010000", // chart state 1 of block 1
    "840000050000000000020000", // chart state 2 of block 5
    "840100010003123456780000", // internal 3
    "840200010001FFFFFFFF0000", // input 1
    "840300010002800000000000", // output 2
    "840400000000000000010000", // block 0 started, though it is a source
    "840500040000000000010000",
    "840600030003000000010000", // event input 3
    "840700020002000000010000", // event output 2
    "840800010001000000010000", // transition 1
    "84090004000000FFABCD0000", // any action number, of any block
    "840A00000000FFFFFFFF0000",
];

fn text(lines: &[&str]) -> String {
    lines.iter().map(|line| format!("{line}\n")).collect()
}

fn shown(shown: usize, line: usize) -> Shown {
    Shown { shown, line, ..Shown::default() }
}

/// The ending that a reading tells its watcher.
struct Last(Option<Ending>);

impl Watch for Last {
    fn see(&mut self, sight: Sight) {
        if let Sight::Read(ending) = sight {
            self.0 = Some(ending);
        }
    }
}

/// Reads two good lines, then this, then a good one, over FULL; the fault of
/// the line in the middle, at which the reading must end.
fn fault_of(line: &str) -> Option<Fault> {
    let text = text(&[GOOD[0], GOOD[3], line, GOOD[4]]);
    let table = table(FULL);
    let mut store = loaded(&table, FULL_NEED + 3);
    let mut expected = store.clone();
    let mut last = Last(None);
    let told = Checked::of(&table).show(&mut store, text.as_bytes(), 9, &mut last);
    let Some(Ending::Line(fault)) = last.0 else {
        assert_eq!(told, shown(4, 0), "{line}");
        return None;
    };
    assert_eq!(told, shown(2, 3), "{line}");
    // What is shown is what the lines before it say.
    expected[FULL_ELEMENTS + 3] = 1;
    expected[FULL_VARIABLES + 2] = u32::MAX;
    assert_eq!(store, expected, "{line}");
    Some(fault)
}

// ---------------------------------------------------------------- lines

#[test]
fn good_lines_of_each_kind_are_read() {
    for line in GOOD {
        assert_eq!(fault_of(line), None);
    }
}

/// Over FULL: elements 0 to 5, event inputs 0 to 5, event outputs 0 to 3,
/// variables 0 to 8, states 0 to 2, transitions 0 and 1.
const FAULTY: &[(Fault, &[&str])] = &[
    (Fault::Empty, &[""]),
    (
        Fault::Return,
        &[
            "\r",
            "840400000000000000010000\r",
            "84040000000000000001000\r",
            "\r84040000000000000001000",
        ],
    ),
    (Fault::Short, &["8", "84040000000000000001", "84040000000000000001000"]),
    (
        Fault::Long,
        &["8404000000000000000100000", "84040000000000000001000000", "840400000000000000010000 "],
    ),
    (Fault::LowerCase, &["840a00000000000000010000", "84090000000000000abc0000"]),
    (
        Fault::NoDigit,
        &["84040000000000000001000G", " 84040000000000000001000", "8404000000000000000100-1"],
    ),
    (
        Fault::NoTrace,
        &["830400000000000000010000", "850400000000000000010000", "040400000000000000010000"],
    ),
    (Fault::UnknownKind, &["840B00000000000000010000", "84FF00000000000000000000"]),
    (
        Fault::Rest,
        &["840400000000000000010001", "840000010000000000018000", "840A00000000FFFFFFFFFFFF"],
    ),
    (
        Fault::SurplusId,
        &[
            "840000010001000000010000",
            "840400000001000000010000",
            "840500000001000000010000",
            "840900000001000000010000",
            "840A0000FFFF000000010000",
        ],
    ),
    (
        Fault::NotOne,
        &[
            "840400000000000000000000",
            "840500000000000000020000",
            "840600010000000100010000",
            "840700000000000100000000",
            "840800010000FFFFFFFF0000",
        ],
    ),
    (
        Fault::UnknownBlock,
        &[
            "840000060000000000010000",
            "840200060001000000000000",
            "840400060000000000010000",
            "8405FFFF0000000000010000",
            "840601000000000000010000",
            "840900060000000000010000",
            "840A00060000000000010000",
        ],
    ),
    (Fault::StateWithoutChart, &["840000000000000000000000", "840000040000000000010000"]),
    (
        Fault::StateUnknown,
        &["840000010000000000030000", "840000010000000100010000", "840000010000800000010000"],
    ),
    (Fault::StateOfAnother, &["840000010000000000020000", "840000050000000000000000"]),
    (Fault::VariableUnknown, &["840100050009000000000000", "84020001FFFF000000000000"]),
    (Fault::VariableOfAnother, &["840200010004000000000000", "840100010008000000000000"]),
    (
        Fault::VariableOfAnotherKind,
        &[
            "840100010001000000000000",
            "840100010002000000000000",
            "840200010002000000000000",
            "840200010003000000000000",
            "840300010001000000000000",
            "840300010003000000000000",
        ],
    ),
    (Fault::EventInputUnknown, &["840600040006000000010000"]),
    (Fault::EventInputOfAnother, &["840600010001000000010000", "840600000000000000010000"]),
    (Fault::EventOutputUnknown, &["840700030004000000010000"]),
    (Fault::EventOutputOfAnother, &["840700000001000000010000"]),
    (Fault::TransitionUnknown, &["840800010002000000010000"]),
    (Fault::TransitionOfAnother, &["840800050000000000010000"]),
];

#[test]
fn each_fault_ends_the_reading_at_its_line() {
    for (fault, lines) in FAULTY {
        for line in *lines {
            assert_eq!(fault_of(line), Some(*fault), "{line}");
        }
    }
    let tested: Vec<Fault> = FAULTY.iter().map(|faulty| faulty.0).collect();
    assert_eq!(tested, Fault::ALL);
}

#[test]
fn the_last_line_need_not_be_ended() {
    let table = table(FULL);
    let mut store = loaded(&table, FULL_NEED);
    for (text, told) in [
        ("", shown(0, 0)),
        ("\n", shown(0, 1)),
        ("840000010000000000010000", shown(1, 0)),
        ("840000010000000000010000\n", shown(1, 0)),
        ("840000010000000000010000\n\n", shown(1, 2)),
        ("840000010000000000010000\n8", shown(1, 2)),
        ("840000010000000000010000\r\n", shown(0, 1)),
    ] {
        assert_eq!(show(&table, &mut store, text.as_bytes(), 5), told, "{text:?}");
    }
}

#[test]
fn a_line_past_those_asked_for_is_not_looked_at() {
    let table = table(FULL);
    let text = text(&[GOOD[0], GOOD[3], "", GOOD[4]]);
    for (frames, told) in [
        (0, shown(0, 0)),
        (1, shown(1, 0)),
        (2, shown(2, 0)),
        (3, shown(2, 3)),
        (usize::MAX, shown(2, 3)),
    ] {
        let mut store = loaded(&table, FULL_NEED);
        assert_eq!(show(&table, &mut store, text.as_bytes(), frames), told);
        assert_eq!(store[FULL_ELEMENTS + 3], u32::from(frames > 0));
        assert_eq!(store[FULL_VARIABLES + 2], if frames > 1 { u32::MAX } else { 7 });
    }
}

// ---------------------------------------------------------------- stores

#[test]
fn chart_states_and_values_are_shown_and_nothing_else_is_written() {
    let table = table(FULL);
    // No store that a call would take; the reader looks at none of this.
    let before: Vec<u32> = (0..FULL_NEED as u32 + 3).map(|word| 0xFFFF_0000 + word).collect();
    let mut store = before.clone();
    assert_eq!(show(&table, &mut store, text(GOOD).as_bytes(), 99), shown(GOOD.len(), 0));
    let mut expected = before;
    for (place, word) in [
        (FULL_ELEMENTS + 3, 1),
        (FULL_ELEMENTS + 15, 2),
        (FULL_VARIABLES + 6, 0x1234_5678),
        (FULL_VARIABLES + 2, 0xFFFF_FFFF),
        (FULL_VARIABLES + 4, 0x8000_0000),
    ] {
        expected[place] = word;
    }
    assert_eq!(store, expected);
}

#[test]
fn a_refused_reading_writes_nothing() {
    let table = table(FULL);
    let mut store = loaded(&table, FULL_NEED);
    let before = store.clone();
    let text = text(GOOD);
    let refused = |refusal, frame| Shown { refusal, frame, ..Shown::default() };
    let short = &mut store[..FULL_NEED - 1];
    assert_eq!(show(&table, short, text.as_bytes(), 99), refused(5, 0));
    assert_eq!(show(&table[..13], &mut store, text.as_bytes(), 99), refused(1, 0));
    let twice = [&table[..], &table[table.len() - 12..]].concat();
    assert_eq!(show(&twice, &mut store, text.as_bytes(), 99), refused(4, 48));
    assert_eq!(store, before);
}

#[test]
fn the_show_program_prints_states_and_values_by_element() {
    let after_5 = "frames 5\nelement 0 source\n  output 0 = 21\n\
                   element 1 basic, state 1\n  input 1 = 21\n  output 2 = 0\n\
                   element 2 sink\n  input 3 = 0\n";
    assert_eq!(String::from_utf8_lossy(&show_program(WORKED.as_bytes(), 1, 5)), after_5);
    let negative = WORKED.replace("8200000000000015", "82000000FFFFFFEB");
    let last = "frames 18\nelement 0 source\n  output 0 = -21\n\
                element 1 basic, state 0\n  input 1 = -21\n  output 2 = -42\n\
                element 2 sink\n  input 3 = -42\n";
    for frames in [18, 19, u64::MAX] {
        let printed = show_program(negative.as_bytes(), 1, frames);
        assert_eq!(String::from_utf8_lossy(&printed), last);
    }
}

// ---------------------------------------------------------------- the law

/// What a reader shows: chart words and value words.
fn seen(model: &Model, store: &[u32]) -> Vec<u32> {
    let charts = (0..model.elements.len()).map(|id| store[chart_state_at(model, id)]);
    let values = (0..model.variables.len()).map(|id| store[value_at(model, id)]);
    charts.chain(values).collect()
}

/// Holds what is shown after each move of a run to what the machine held. Long
/// traces are read on from move to move, short ones from the start each time.
fn judge_run(table: &[u8], start: &[u32], budget: u32) -> usize {
    let checked = Checked::of(table);
    let model = checked.model().expect("a run has a table");
    let mut trace = Trace::endless();
    let out = &mut [0; OUTPUT_BYTES];
    checked.run_traced(&mut start.to_vec(), budget, out, &mut trace, &mut ());
    let text = text_of(&trace.bytes);
    let (mut held, mut read_on, mut read) = (start.to_vec(), start.to_vec(), 0);
    for &end in &trace.ends {
        checked.run(&mut held, 1, &mut [0; OUTPUT_BYTES], &mut ());
        let (frames, expected) = (end / 12, seen(model, &held));
        let rest = &text[25 * read..];
        let told = checked.show(&mut read_on, rest, frames - read, &mut ());
        assert_eq!(told, shown(frames - read, 0));
        assert_eq!(seen(model, &read_on), expected);
        read = frames;
        if trace.ends.len() < 60 {
            let mut anew = start.to_vec();
            assert_eq!(checked.show(&mut anew, &text, frames, &mut ()), shown(frames, 0));
            assert_eq!(anew, read_on);
        }
    }
    trace.ends.len()
}

#[test]
fn reading_the_trace_of_m_moves_shows_the_store_after_m_moves() {
    let mut moves = 0;
    for number in 0..300 {
        common::for_each_run(&session(6, number), |table, store, budget| {
            moves += judge_run(table, store, budget);
        });
    }
    assert!(moves > 10_000, "{moves} moves");
}

#[test]
fn every_kind_of_frame_is_traced_in_sessions() {
    struct Kinds(BTreeSet<u8>);
    impl Watch for Kinds {
        fn see(&mut self, sight: Sight) {
            if let Sight::Traced(kind) = sight {
                self.0.insert(kind);
            }
        }
    }
    let mut kinds = Kinds(BTreeSet::new());
    for number in 0..100 {
        traced_runs(&session(6, number), &mut kinds);
    }
    assert_eq!(kinds.0, (0..=10).collect());
}
