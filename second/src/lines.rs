//! The step program: lines in, lines out.

use crate::calls::{Answer, Checked};
use crate::machine::record_bytes;
use crate::model::Model;
use crate::table::{halves, Frame, FRAME_BYTES};
use crate::watch::{Sight, Watch};
use std::ops::RangeInclusive;

/// "The output buffer has 4,096 bytes".
pub const OUTPUT_BYTES: usize = 4096;
/// "The store has 2,000 words."
pub const STORE_WORDS: usize = 2000;

/// The kind bytes of the lines after the table, and of the answers.
pub mod call_kind {
    pub const ADVANCE: u8 = 0x80;
    pub const ARRIVAL: u8 = 0x81;
    pub const VALUE: u8 = 0x82;
    pub const RUN: u8 = 0x83;
    pub const ANSWER: u8 = 0xC0;
}

/// The flag of the answer to a malformed line.
pub const MALFORMED: u8 = 0xFF;

/// What the step program prints for a session on its standard input.
///
/// Open point: a session with no line at all. The end "ends the table and
/// starts the load", so the load of an empty table is refused 1.
pub fn step_program(input: &[u8], watch: &mut impl Watch) -> Vec<u8> {
    let mut program = Program { output: Vec::new(), watch };
    // `Err` only says that the program stopped before the end of its input.
    let _ = program.session(input);
    program.output
}

/// The lines of a session: "ended by 0A, the last perhaps not".
pub fn lines_of(input: &[u8]) -> Vec<&[u8]> {
    let mut lines: Vec<&[u8]> = input.split(|&byte| byte == b'\n').collect();
    // After the last 0A, or in an empty input, stands no line.
    if lines.last().is_some_and(|last| last.is_empty()) {
        lines.pop();
    }
    lines
}

/// Parts a session into table lines and call lines: "The first line beginning
/// 80 to 83, or the end, ends the table".
///
/// Open point: "beginning". The first two characters decide, also of a line
/// that is then judged malformed, since the load starts "before it is judged".
pub fn part<'l>(lines: &'l [&'l [u8]]) -> (&'l [&'l [u8]], &'l [&'l [u8]]) {
    let begins_call = |line: &&[u8]| matches!(line, [b'8', b'0'..=b'3', ..]);
    let end = lines.iter().position(begins_call).unwrap_or(lines.len());
    lines.split_at(end)
}

/// "lines [...] of 2 to 24 upper-case hexadecimal digits, an even number, one
/// frame each; digits left off at the end are zeros"; `None` for another form.
pub fn frame_of_line(line: &[u8]) -> Option<Frame> {
    let (pairs, rest) = line.as_chunks::<2>();
    if pairs.is_empty() || pairs.len() > FRAME_BYTES || !rest.is_empty() {
        return None;
    }
    let mut bytes = [0; FRAME_BYTES];
    for (byte, pair) in bytes.iter_mut().zip(pairs) {
        *byte = digit(pair[0])? << 4 | digit(pair[1])?;
    }
    Some(Frame::from_bytes(&bytes))
}

fn digit(character: u8) -> Option<u8> {
    match character {
        b'0'..=b'9' => Some(character - b'0'),
        b'A'..=b'F' => Some(character - b'A' + 10),
        _ => None,
    }
}

/// The bytes of a table given in lines; `None` if a line is malformed. "More
/// than 4,096 table lines is refusal 1" by the length of the bytes.
///
/// Open point: a malformed line after 4,096 table lines. No load has started
/// yet, so the line is judged and the session ends with C0FF.
pub fn table_of_lines(lines: &[&[u8]]) -> Option<Vec<u8>> {
    let mut table = Vec::with_capacity(lines.len() * FRAME_BYTES);
    for line in lines {
        table.extend(frame_of_line(line)?.to_bytes());
    }
    Some(table)
}

/// The bytes of a session's table; `None` if a line of it is malformed.
pub fn table_of(session: &[u8]) -> Option<Vec<u8>> {
    table_of_lines(part(&lines_of(session)).0)
}

/// Bytes as upper-case hexadecimal digits.
pub fn digits(bytes: &[u8]) -> Vec<u8> {
    let digit = |nibble: u8| b"0123456789ABCDEF"[usize::from(nibble)];
    bytes.iter().flat_map(|byte| [digit(byte >> 4), digit(byte & 15)]).collect()
}

/// Whole frames as lines of 24 digits, each ended by 0A.
pub fn text_of(frames: &[u8]) -> Vec<u8> {
    let line = |frame: &[u8]| [digits(frame), vec![b'\n']].concat();
    frames.chunks(FRAME_BYTES).flat_map(line).collect()
}

/// The shortest line for a frame.
pub fn shortest_line(frame: &Frame) -> Vec<u8> {
    let bytes = frame.to_bytes();
    let used = bytes.iter().rposition(|&byte| byte != 0).map_or(1, |last| last + 1);
    digits(&bytes[..used])
}

/// The session ended before the end of its input.
struct Stopped;

struct Program<'w, W: Watch> {
    output: Vec<u8>,
    watch: &'w mut W,
}

impl<W: Watch> Program<'_, W> {
    fn session(&mut self, input: &[u8]) -> Result<(), Stopped> {
        let lines = lines_of(input);
        let (table_lines, call_lines) = part(&lines);
        let Some(table) = table_of_lines(table_lines) else {
            return self.malformed();
        };
        let checked = Checked::of(&table);
        let mut store = vec![0; STORE_WORDS];
        let answer = checked.load(&mut store);
        self.print(answer, &table);
        // "A refused load stops the program."
        let model = checked.model().filter(|_| answer.refusal == 0).ok_or(Stopped)?;
        self.watch.see(Sight::Loaded);
        let mut lines = call_lines.iter();
        while let Some(line) = lines.next() {
            match call_of(line, &mut lines) {
                None => return self.malformed(),
                Some(Call::Advance { to }) => {
                    let answer = checked.advance(&mut store, to, self.watch);
                    self.print(answer, &table);
                }
                Some(Call::Arrival { event, birth, values }) => {
                    let answer = checked.arrival(&mut store, event, birth, &values, self.watch);
                    self.print(answer, &table);
                }
                Some(Call::Run { budget }) => self.run(&checked, model, &mut store, budget),
            }
        }
        Ok(())
    }

    /// A run with its records, which "come before it, a line each".
    fn run(&mut self, checked: &Checked, model: &Model, store: &mut [u32], budget: u32) {
        // "cleared before each run".
        let mut out = [0; OUTPUT_BYTES];
        let answer = checked.run(store, budget, &mut out, self.watch);
        let mut records = &out[..answer.bytes];
        while let [_, _, high, low, ..] = records {
            let event = u16::from_be_bytes([*high, *low]);
            let (record, rest) = records.split_at(record_bytes(model, usize::from(event)));
            self.print_line(record);
            records = rest;
        }
        self.watch.see(Sight::Stopped { moves: answer.moves, stop: answer.stop });
        self.print(answer, &[]);
    }

    /// "print C0FF and twenty zeros, stop".
    fn malformed(&mut self) -> Result<(), Stopped> {
        self.watch.see(Sight::Malformed);
        self.print_line(&Frame::new(call_kind::ANSWER, MALFORMED, &[]).to_bytes());
        Err(Stopped)
    }

    /// "Each load and call prints C0, flag refusal, a frame, b, c moves, d stop
    /// number, e bytes". The table tells the watcher the kind of the frame.
    ///
    /// Open point: the untrue steps that the answer of a run tells besides. They
    /// are not printed, since the document says what each field of the line is.
    fn print(&mut self, answer: Answer, table: &[u8]) {
        if answer.refusal != 0 {
            let byte = table.get(answer.frame * FRAME_BYTES).copied();
            let kind = byte.filter(|_| (2..=4).contains(&answer.refusal));
            let number = answer.refusal;
            self.watch.see(Sight::Refused { number, kind });
        }
        let small = |number: usize| u16::try_from(number).expect("at most 4,096");
        let [high, low] = halves(answer.moves);
        let fields = [small(answer.frame), high, low, u16::from(answer.stop), small(answer.bytes)];
        let line = Frame { kind: call_kind::ANSWER, flag: answer.refusal, fields };
        self.print_line(&line.to_bytes());
    }

    /// Open point: how an output line ends. Every one, the last too, by 0A.
    fn print_line(&mut self, bytes: &[u8]) {
        self.output.extend(digits(bytes));
        self.output.push(b'\n');
    }
}

/// One call, read from one line or, for an arrival, several.
pub enum Call {
    Advance { to: u32 },
    Arrival { event: u32, birth: u32, values: Vec<i32> },
    Run { budget: u32 },
}

/// The calls of a session, up to the first line that is malformed.
pub fn calls_of_lines(lines: &[&[u8]]) -> Vec<Call> {
    let mut lines = lines.iter();
    let mut calls = Vec::new();
    while let Some(call) = lines.next().and_then(|line| call_of(line, &mut lines)) {
        calls.push(call);
    }
    calls
}

/// The call that begins with this line and takes its values from the lines
/// after it; `None` for "a line of any other form or place, or a missing 82".
///
/// Open point: when an 82 is missing. The arrival is then not made, and the
/// one line C0FF stands for it and for the line in the place of the 82.
fn call_of<'l>(line: &[u8], rest: &mut impl Iterator<Item = &'l &'l [u8]>) -> Option<Call> {
    let frame = frame_of_line(line)?;
    // 80: a, b time.
    if has_only(&frame, call_kind::ADVANCE, 0..=1) && frame.flag == 0 {
        return Some(Call::Advance { to: frame.long(0) });
    }
    // 83: a, b budget.
    if has_only(&frame, call_kind::RUN, 0..=1) && frame.flag == 0 {
        return Some(Call::Run { budget: frame.long(0) });
    }
    // 81: flag number of values, a event, b, c birth; then the values.
    if has_only(&frame, call_kind::ARRIVAL, 0..=2) {
        let values = (0..frame.flag).map(|_| value_of(rest.next()?)).collect();
        let values: Option<Vec<i32>> = values;
        let event = u32::from(frame.a());
        return Some(Call::Arrival { event, birth: frame.long(1), values: values? });
    }
    None
}

/// "82 (b, c value)".
fn value_of(line: &[u8]) -> Option<i32> {
    let frame = frame_of_line(line)?;
    let holds = has_only(&frame, call_kind::VALUE, 1..=2) && frame.flag == 0;
    holds.then(|| frame.long(1) as i32)
}

/// Whether a frame is of the kind and "fields not named are zero".
fn has_only(frame: &Frame, kind: u8, named: RangeInclusive<usize>) -> bool {
    let zero = |(place, &field): (usize, &u16)| named.contains(&place) || field == 0;
    frame.kind == kind && frame.fields.iter().enumerate().all(zero)
}
