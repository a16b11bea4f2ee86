//! The step program: lines, places, and what is printed.

mod common;
use common::{printed, FULL, WORKED, WORKED_OUTPUT};
use second::lines::step_program;

const DONE: &str = "C00000000000000000000000\n";
const MALFORMED: &str = "C0FF00000000000000000000\n";
/// A run that finds no move.
const IDLE: &str = "C00000000000000000010000\n";

/// FULL as lines, then others.
fn full_then(lines: &[&str]) -> String {
    let table = FULL.iter().map(|line| line.replace(' ', ""));
    let lines = lines.iter().map(|line| line.replace(' ', ""));
    table.chain(lines).map(|line| line + "\n").collect()
}

/// What the lines after FULL print after the answer to the load.
fn after_full(lines: &[&str]) -> String {
    let output = printed(&full_then(lines));
    output.strip_prefix(DONE).expect("the load is accepted").to_string()
}

#[test]
fn a_last_line_without_0a_counts() {
    assert_eq!(printed(WORKED.trim_end()), WORKED_OUTPUT);
}

#[test]
fn digits_left_off_are_zeros() {
    let padded: String = WORKED.lines().map(|line| format!("{line:0<24}\n")).collect();
    assert_eq!(printed(&padded), WORKED_OUTPUT);
}

#[test]
fn no_line_is_an_empty_table() {
    assert_eq!(printed(""), "C00100000000000000000000\n");
    assert_eq!(printed("83\n"), "C00100000000000000000000\n");
}

#[test]
fn a_line_of_another_form_stops_the_program() {
    let lines = [
        "",
        "8",
        "830",
        "8300000000001",
        "83g0",
        "83a0",
        "83 ",
        " 83",
        "83\r",
        "0x83",
        "+83",
        "83000000000000000000000000",
        "8300000000000000000000000",
    ];
    for line in lines {
        // Spaces matter here, so the lines are put together by hand.
        let session = format!("{}83\n{line}\n83\n", full_then(&[]));
        assert_eq!(printed(&session), [DONE, IDLE, MALFORMED].concat(), "{line:?}");
    }
}

#[test]
fn bytes_that_are_no_characters_are_another_form() {
    for byte in [0x00, 0x80, 0xB8, 0xFF] {
        let session = [full_then(&["83"]).as_bytes(), &[b'8', byte, b'\n']].concat();
        let output = step_program(&session, &mut ());
        assert_eq!(output, [DONE, IDLE, MALFORMED].concat().as_bytes(), "{byte}");
    }
}

#[test]
fn a_malformed_table_line_stops_before_the_load() {
    assert_eq!(printed("\n"), MALFORMED);
    for line in ["", "0", "0g", "01a0", "8", "0100000000000000000000000000"] {
        assert_eq!(printed(&format!("0104\n{line}\n83\n")), MALFORMED, "{line:?}");
    }
}

#[test]
fn a_line_beginning_80_to_83_starts_the_load_before_it_is_judged() {
    for line in ["80g", "81\r", "82", "82000000000001", "83000", "8000000000000001"] {
        assert_eq!(after_full(&[line]), MALFORMED, "{line:?}");
        // A refused load stops before the line is judged.
        assert_eq!(printed(&format!("0105\n{line}\n")), "C00200000000000000000000\n");
    }
}

#[test]
fn other_kinds_are_table_frames_before_the_calls_and_misplaced_after() {
    for line in ["84", "7F", "C0", "FF", "0100", "00"] {
        let refused = format!("C0020030{}\n", "0".repeat(16));
        assert_eq!(printed(&full_then(&[line, "83"])), refused, "{line}");
        assert_eq!(after_full(&["83", line, "83"]), [IDLE, MALFORMED].concat(), "{line}");
    }
}

#[test]
fn fields_not_named_are_zero() {
    let lines = [
        "8001",
        "80 00 0000 0000 0001",
        "80 00 0000 0000 0000 0001",
        "80 00 0000 0000 0000 0000 0001",
        "81 00 0000 0000 0000 0001",
        "81 00 0000 0000 0000 0000 0001",
        "8301",
        "83 00 0000 0000 0001",
        "83 00 0000 0000 0000 0001",
        "83 00 0000 0000 0000 0000 0001",
    ];
    for line in lines {
        assert_eq!(after_full(&[line, "83"]), MALFORMED, "{line}");
    }
    for value in
        ["8201", "82 00 0001", "82 00 0000 0000 0000 0001", "82 00 0000 0000 0000 0000 0001"]
    {
        assert_eq!(after_full(&["8101", value, "83"]), MALFORMED, "{value}");
    }
}

#[test]
fn a_missing_or_surplus_82_is_malformed() {
    assert_eq!(after_full(&["8101", "82", "83"]).lines().count(), 2);
    assert_eq!(after_full(&["8101", "83"]), MALFORMED);
    assert_eq!(after_full(&["8101"]), MALFORMED);
    assert_eq!(after_full(&["8102", "82", "81"]), MALFORMED);
    assert_eq!(after_full(&["8101", "82", "82", "83"]), [DONE, MALFORMED].concat());
    // The form is judged before the call: this arrival would be refused 9.
    assert_eq!(after_full(&["81 02 00FF", "82"]), MALFORMED);
}

#[test]
fn a_refused_call_is_told_and_the_session_goes_on() {
    let output = after_full(&["80 00 0000 0005", "80 00 0000 0004", "80 00 8000", "83"]);
    let refused = "C00700000000000000000000\n";
    assert_eq!(output, [DONE, refused, refused, IDLE].concat());
    let output = after_full(&["81 00 0001", "81 00 0000 0000 0001", "81 02", "82", "82", "83"]);
    let numbers: Vec<&str> = output.lines().map(|line| &line[..4]).collect();
    assert_eq!(numbers, ["C009", "C00A", "C00B", "C000"]);
}

#[test]
fn values_births_and_times_have_their_high_half_first() {
    // Time 0x00012345, birth 0x00010002, value 0x40000000: doubled it is clipped.
    let lines =
        ["80 00 0001 2345", "81 01 0000 0001 0002", "82 00 0000 4000 0000", "83 00 0000 00FF"];
    let output = after_full(&lines);
    assert_eq!(output, [DONE, DONE, "C00000000000000C00010000\n"].concat());
    // DT is 2147483647, so the delay is due at 0x80012344 and no time is beyond it.
    let output = after_full(&[&lines[..], &["80 00 7FFF FFFF"]].concat());
    assert!(output.ends_with(DONE));
}

#[test]
fn each_record_is_a_line_before_the_answer() {
    // A source with two events and a sink with two, one with two values.
    let table = [
        "0103",
        "01040001",
        "02000001",
        "02010001",
        "0300",
        "0300",
        "0401",
        "04000001",
        "04000001",
        "050000000001",
        "050000000002",
        "05010000",
        "0A00",
        "0A0000010001",
        "0B0000000001",
    ];
    let calls = ["8101", "82000000FFFFFFFE", "8100000100000000", "8300000000FF"];
    let session = [&table[..], &calls].concat().join("\n");
    let first = "000100000000000000000000 00000000 FFFFFFFE00000000\n".replace(' ', "");
    let second = "00010001000000000000000000000000\n";
    let answer = "C00000000000000200010028\n";
    assert_eq!(printed(&session), [DONE, DONE, DONE, &first, second, answer].concat());
}

#[test]
fn moves_have_32_bits() {
    // A chart that goes round for ever, two moves a round.
    let table = [
        "0103",
        "01000001",
        "02000001",
        "0300",
        "06000001",
        "0700000000000000",
        "070000000000FFFF",
        "0A00",
    ];
    let session = [&table[..], &["81", "83 00 0001 1170"]].concat().join("\n").replace(' ', "");
    let answer = "C00000000001117000020000\n";
    assert_eq!(printed(&session), [DONE, DONE, answer].concat());
}

#[test]
fn the_output_buffer_is_4096_bytes_for_each_run() {
    // An interface that feeds itself and a sink, whose record has 16 bytes.
    let table = [
        "0103",
        "01010002",
        "01040001",
        "02000001",
        "02000002",
        "0300",
        "03000001",
        "0A00",
        "0A0000010000",
        "0A0000010001",
    ];
    let session = [&table[..], &["81", "830000000400", "830000000002"]].concat().join("\n");
    let output = printed(&session);
    let lines: Vec<&str> = output.lines().collect();
    assert_eq!(lines.len(), 2 + 256 + 1 + 1 + 1);
    assert_eq!(lines[258], "C00000000000020100031000");
    assert_eq!(lines[260], "C00000000000000200020010");
}

#[test]
fn more_than_4096_table_lines_is_refusal_1() {
    let table = |number: usize| {
        let head = ["01000000".to_string(), "0600".to_string()];
        let rest = vec!["0800000000000000FFFF".to_string(); number - 2];
        [&head[..], &rest].concat().join("\n")
    };
    assert_eq!(printed(&table(4096)), DONE);
    for number in [4097, 5000, 9000] {
        assert_eq!(printed(&table(number)), "C00100000000000000000000\n");
        assert_eq!(printed(&(table(number) + "\n83")), "C00100000000000000000000\n");
    }
    // A malformed line is judged before the load, also after so many.
    assert_eq!(printed(&(table(4097) + "\nx\n83")), MALFORMED);
}
