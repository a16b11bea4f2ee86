//! Tables and stores for the tests.
#![allow(dead_code)] // each test file uses a part of this one

use second::lines::{
    calls_of_lines, frame_of_line, lines_of, part, step_program, table_of_lines, Call,
    OUTPUT_BYTES, STORE_WORDS,
};
use second::{advance, arrival, check, load, run, Answer, Model};

/// The worked session of the document and what it must print.
pub const WORKED: &str = include_str!("../data/worked.session");
pub const WORKED_OUTPUT: &str = include_str!("../data/worked.expected");

/// A network with every kind of element and frame. Need: 70 words.
pub const FULL: &[&str] = &[
    "0103 0004",                     // 0  element 0, source
    "0100 0003 0000",                // 1  element 1, basic
    "0101 0002",                     // 2  element 2, interface
    "0102 0001",                     // 3  element 3, delay
    "0104 0000",                     // 4  element 4, sink
    "0100 0005 0002",                // 5  element 5, basic
    "0200 0001",                     // 6  event input 0, of the basic element 1
    "0200 0002",                     // 7  event input 1, of the interface
    "0200 0003",                     // 8  event input 2, START
    "0201 0003",                     // 9  event input 3, STOP
    "0200 0004",                     // 10 event input 4, of the sink
    "0200 0005",                     // 11 event input 5, of the basic element 5
    "0300 0000",                     // 12 event output 0, of the source
    "0300 0001",                     // 13 event output 1, of the basic element 1
    "0300 0002",                     // 14 event output 2, of the interface
    "0300 0003",                     // 15 event output 3, of the delay
    "0401 0000",                     // 16 variable 0, output of the source
    "0400 0001 0000 0007",           // 17 variable 1, input of element 1
    "0401 0001",                     // 18 variable 2, output of element 1
    "0402 0001 FFFF FFFE",           // 19 variable 3, internal of element 1
    "0400 0002",                     // 20 variable 4, input of the interface
    "0401 0002",                     // 21 variable 5, output of the interface
    "0400 0003 0000 0032",           // 22 variable 6, DT
    "0400 0004",                     // 23 variable 7, input of the sink
    "0402 0005",                     // 24 variable 8, internal of element 5
    "0500 0000 0001",                // 25 event input 0 with variable 1
    "0500 0001 0004",                // 26 event input 1 with variable 4
    "0500 0002 0006",                // 27 START with DT
    "0500 0004 0007",                // 28 event input 4 with variable 7
    "0501 0000 0000",                // 29 event output 0 with variable 0
    "0501 0001 0002",                // 30 event output 1 with variable 2
    "0600 0001",                     // 31 state 0, of element 1
    "0600 0001",                     // 32 state 1, of element 1
    "0600 0005",                     // 33 state 2, of element 5
    "0700 0000 0001 0000",           // 34 from 0 to 1 on event input 0
    "0703 0001 0000 FFFF 0003 0002", // 35 from 1 to 0 if variable 3 < variable 2
    "0800 0001 0000 0002 0001",      // 36 action of state 1: steps 0 and 1, event 1
    "0800 0001 0000 0000 FFFF",      // 37 action of state 1: nothing
    "0901 0002 0001 0001",           // 38 variable 2 = variable 1 + variable 1
    "0908 0003",                     // 39 variable 3 = age
    "0A00 0000 0000",                // 40 source to element 1
    "0A00 0001 0001",                // 41 element 1 to interface
    "0A00 0002 0002",                // 42 interface to START
    "0A00 0003 0004",                // 43 delay to sink
    "0B00 0000 0001",                // 44 variable 0 to variable 1
    "0B00 0002 0004",                // 45 variable 2 to variable 4
    "0B00 0005 0006",                // 46 variable 5 to DT
    "0B00 0002 0007",                // 47 variable 2 to variable 7
];
pub const FULL_NEED: usize = 70;
/// Where the words of FULL's parts begin.
pub const FULL_ELEMENTS: usize = 16;
pub const FULL_EVENTS: usize = 34;
pub const FULL_VARIABLES: usize = 52;

/// The bytes of a table given in lines, whose spaces only help the eye.
pub fn table(lines: &[&str]) -> Vec<u8> {
    let bytes = |line: &&str| {
        let digits = line.replace(' ', "");
        let frame = frame_of_line(digits.as_bytes());
        frame.unwrap_or_else(|| panic!("{line} is no frame")).to_bytes()
    };
    lines.iter().flat_map(bytes).collect()
}

/// A source and a basic element with one event, states 0 to 2, inputs 2 and 3
/// fed by the source's variables 0 and 1, and the output 4.
pub fn chart(lines: &[String]) -> Vec<u8> {
    let mut all: Vec<String> = [
        "0103",
        "01000001",
        "02000001",
        "0300",
        "0401",
        "0401",
        "04000001",
        "04000001",
        "04010001",
        "050000000002",
        "050000000003",
        "050100000000",
        "050100000001",
        "06000001",
        "06000001",
        "06000001",
    ]
    .map(String::from)
    .to_vec();
    all.extend_from_slice(lines);
    all.extend(["0A00", "0B0000000002", "0B0000010003"].map(String::from));
    table(&all.iter().map(String::as_str).collect::<Vec<&str>>())
}

/// Where the words of the chart's variables begin.
pub const CHART_VARIABLES: usize = 16 + 6 + 3;

/// So many delays, elements 0 and on, a source and a sink. For each delay, by its
/// number, the source has an event that starts it and one that stops it (see
/// [`start_event`]), the one with a value that feeds DT, and the sink has an
/// event input that records its output.
pub fn delays(number: usize) -> Vec<u8> {
    let (source, sink) = (number, number + 1);
    let mut lines: Vec<String> = Vec::new();
    let each = |line: &dyn Fn(usize) -> String| (0..number).map(line).collect::<Vec<String>>();
    lines.extend(each(&|k| format!("0102{k:04X}")));
    lines.extend([format!("0103{source:04X}"), format!("0104{sink:04X}")]);
    lines.extend(each(&|k| format!("0200{k:04X}")));
    lines.extend(each(&|k| format!("0201{k:04X}")));
    lines.extend(each(&|k| format!("02{k:02X}{sink:04X}")));
    lines.extend(each(&|k| format!("0300{k:04X}")));
    lines.extend(vec![format!("0300{source:04X}"); 2 * number]);
    lines.extend(each(&|k| format!("0400{k:04X}")));
    lines.extend(vec![format!("0401{source:04X}"); number]);
    lines.extend(each(&|k| format!("0500{k:04X}{k:04X}")));
    lines.extend(each(&|k| format!("0501{:04X}{:04X}", number + k, number + k)));
    lines.extend(each(&|k| format!("0A00{k:04X}{:04X}", 2 * number + k)));
    lines.extend(each(&|k| format!("0A00{:04X}{k:04X}", number + k)));
    lines.extend(each(&|k| format!("0A00{:04X}{:04X}", 2 * number + k, number + k)));
    lines.extend(each(&|k| format!("0B00{:04X}{k:04X}", number + k)));
    table(&lines.iter().map(String::as_str).collect::<Vec<&str>>())
}

/// The events that start and stop a delay of so many.
pub fn start_event(number: usize, delay: usize) -> u32 {
    (number + delay) as u32
}
pub fn stop_event(number: usize, delay: usize) -> u32 {
    (2 * number + delay) as u32
}

/// The lines of FULL with some of them replaced.
pub fn full_with(changes: &[(usize, &'static str)]) -> Vec<&'static str> {
    let mut lines = FULL.to_vec();
    for &(position, line) in changes {
        lines[position] = line;
    }
    lines
}

/// The table of the worked session.
pub fn worked_table() -> Vec<u8> {
    let lines: Vec<&str> = WORKED.lines().take_while(|line| !line.starts_with('8')).collect();
    table(&lines)
}

/// The refusal of a table and its frame; (0, 0) if it is not refused.
pub fn refusal(table: &[u8]) -> (u8, usize) {
    check(table).err().map_or((0, 0), |refusal| (refusal.number, refusal.frame))
}

/// The refusal of a table given in lines.
pub fn refusal_of(lines: &[&str]) -> (u8, usize) {
    refusal(&table(lines))
}

/// A loaded store of so many words.
pub fn loaded(table: &[u8], words: usize) -> Vec<u32> {
    let mut store = vec![0xAAAA_AAAA; words];
    assert_eq!(load(table, &mut store), Answer::default());
    store
}

/// Runs with plenty of budget and room; the answer and the bytes written.
pub fn run_all(table: &[u8], store: &mut [u32]) -> (Answer, Vec<u8>) {
    let mut out = vec![0; 10_000];
    let answer = run(table, store, 10_000, &mut out);
    out.truncate(answer.bytes);
    (answer, out)
}

/// Words 9 and 10 as they are found by looking at the due flag and due time of
/// each element.
pub fn next_due(model: &Model, store: &[u32]) -> [u32; 2] {
    let mut words = [0, 0];
    for element in 0..model.elements.len() {
        let (flag, time) = (store[16 + 3 * element + 1], store[16 + 3 * element + 2]);
        if flag == 1 && (words[0] == 0 || time < words[1]) {
            words = [1, time];
        }
    }
    words
}

/// How many due flags are set.
pub fn due_flags(model: &Model, store: &[u32]) -> usize {
    (0..model.elements.len()).filter(|element| store[16 + 3 * element + 1] == 1).count()
}

/// An answer that only refuses.
pub fn refused(number: u8) -> Answer {
    Answer { refusal: number, ..Answer::default() }
}

/// What the step program prints.
pub fn printed(session: &str) -> String {
    String::from_utf8(step_program(session.as_bytes(), &mut ())).expect("digits and 0A")
}

/// A record's bytes.
pub fn record(element: u16, event: u16, times: [u32; 3], values: &[i32]) -> Vec<u8> {
    let mut bytes = [element.to_be_bytes(), event.to_be_bytes()].concat();
    for time in times {
        bytes.extend(time.to_be_bytes());
    }
    for value in values {
        bytes.extend(value.to_be_bytes());
    }
    bytes
}

/// Goes through the calls of a session, as far as it goes: what load left and
/// what each call left is handed over with the table, and with the call that is
/// made on it next. Load finds no word of the store 0.
pub fn for_each_store(session: &[u8], mut look: impl FnMut(&[u8], &[u32], Option<&Call>)) {
    let lines = lines_of(session);
    let (table_lines, call_lines) = part(&lines);
    let table = table_of_lines(table_lines).unwrap_or_default();
    let mut store = vec![0xAAAA_AAAA; STORE_WORDS];
    if load(&table, &mut store) != Answer::default() {
        return;
    }
    for call in calls_of_lines(call_lines) {
        look(&table, &store, Some(&call));
        let answer = match call {
            Call::Advance { to } => advance(&table, &mut store, to),
            Call::Arrival { event, birth, values } => {
                arrival(&table, &mut store, event, birth, &values)
            }
            Call::Run { budget } => run(&table, &mut store, budget, &mut [0; OUTPUT_BYTES]),
        };
        assert_ne!(answer.refusal, 6);
    }
    look(&table, &store, None);
}

/// The same of runs alone, each with the store before it and its budget.
pub fn for_each_run(session: &[u8], mut look: impl FnMut(&[u8], &[u32], u32)) {
    for_each_store(session, |table, store, next| {
        if let Some(Call::Run { budget }) = next {
            look(table, store, *budget);
        }
    });
}
