//! Calls on arbitrary tables and stores: the session's own calls, one after
//! the other on a store that grows out of them, and beside each a call on a
//! copy of that store, whole, spoiled or cut, or on any words, with the table or
//! a damaged one, or a run of a block put before one of its steps, or of a delay
//! before a START, or a call among delays that are due, with a next due time that
//! is right or not. The count of untrue steps is any. Traces of the runs are read,
//! whole, cut and damaged.

use super::delays::put_before_start;
use super::due::{delays_of, put_among_due, put_wrong_due, time_near_next};
use super::faults::{faulty_line, good_line};
use super::rng::Rng;
use super::session;
use super::steps::put_before_step;
use crate::calls::Checked;
use crate::host::{Call, Request};
use crate::lines::{self, calls_of_lines, lines_of, part, table_of_lines, text_of, OUTPUT_BYTES};
use crate::model::Model;
use crate::next_due::WrongDue;
use crate::reader::Fault;
use crate::store::{self, need, word, State};
use crate::table::{kind, FRAME_BYTES};
use crate::trace::Trace;

/// A trace of more bytes is left out, and of its text so many lines are read.
const MOST_TRACE_BYTES: usize = 20_000;
const MOST_TEXT_LINES: usize = 1000;

/// Draws the requests of a round. Each is handed to `made`, which tells the
/// store that it left.
pub fn requests(seed: u64, round: u64, made: &mut impl FnMut(Request) -> Vec<u32>) {
    let session = session(seed, round);
    let lines = lines_of(&session);
    let (table_lines, call_lines) = part(&lines);
    let table = table_of_lines(table_lines).unwrap_or_default();
    let checked = Checked::of(&table);
    // Of a table that is refused, a few calls tell all.
    let (need, most) = checked.model().map_or((30, 5), |model| (need(model), usize::MAX));
    let latest = Scene { store: vec![0; need], text: Vec::new() };
    let (rng, turn) = (Rng::new(!seed, round), 3 * (round % 1000) as usize);
    let mut draw = Draw { rng, table, checked, need, latest, faults: turn, wrong: turn };
    let mut store = draw.any_store();
    for call in [Call::Check, Call::Need, draw.view(), draw.view(), draw.view()] {
        made(draw.request(store.clone(), call));
    }
    store = made(draw.request(store, Call::Load));
    for call in calls_of_lines(call_lines).into_iter().take(most) {
        draw.set_count(&mut store);
        let call = draw.with_rooms(call, &store);
        draw.note_trace(&call, &store);
        store = made(draw.request(store, call));
        if draw.rng.chance(70) {
            made(draw.probe(&store));
        }
        for (percent, put) in [(35, put_before_step as Put), (20, put_before_start)] {
            if let Some(request) = draw.run_from(&store, percent, put) {
                made(request);
            }
        }
        for request in draw.calls_among_due(&store) {
            made(request);
        }
        if draw.rng.chance(20) {
            made(draw.reading());
        }
    }
}

/// Puts a machine before a move; `None` if the table has none such.
type Put = fn(&mut Rng, &Model, &mut State) -> Option<()>;

/// The store before a run, and the run's trace as text.
struct Scene {
    store: Vec<u32>,
    text: Vec<u8>,
}

struct Draw {
    rng: Rng,
    table: Vec<u8>,
    checked: Checked,
    need: usize,
    latest: Scene,
    /// How many lines were made faulty, counted on from round to round.
    faults: usize,
    /// The same of wrong next due times.
    wrong: usize,
}

impl Draw {
    fn request(&self, store: Vec<u32>, call: Call) -> Request {
        Request { table: self.table.clone(), store, call }
    }

    // ------------------------------------------------------------ lent

    /// Any words, at least as many as are needed.
    fn any_store(&mut self) -> Vec<u32> {
        let words = self.need + self.rng.pick(&[0, 0, 1, 5, 40]);
        (0..words).map(|_| self.any_word()).collect()
    }

    /// A word near those that mean something.
    fn any_word(&mut self) -> u32 {
        let any = self.rng.bits() as u32;
        let near = [0, 1, 2, 3, 7, any % 16, 0x7FFF_FFFF, 0x8000_0000, u32::MAX - 1, u32::MAX, any];
        self.rng.pick(&near)
    }

    /// Any count of untrue steps is well formed. Often it is near its end, so
    /// that runs get there.
    fn set_count(&mut self, store: &mut [u32]) {
        if self.rng.chance(40) {
            let (near, any) = (u32::MAX - self.rng.below(3) as u32, self.any_word());
            store[word::UNTRUE] = self.rng.pick(&[near, near, near, any]);
        }
    }

    /// Any bytes, mostly few, so that runs meet the end of the buffer.
    fn any_output(&mut self) -> Vec<u8> {
        let few = self.rng.below(200);
        let bytes = self.rng.pick(&[0, 15, 16, 19, 20, 39, 40, few, few, OUTPUT_BYTES]);
        (0..bytes).map(|_| self.rng.bits() as u8).collect()
    }

    fn with_rooms(&mut self, call: lines::Call, store: &[u32]) -> Call {
        match call {
            lines::Call::Advance { to } => Call::Advance { to },
            lines::Call::Arrival { event, birth, values } => {
                Call::Arrival { event: u64::from(event), birth, values }
            }
            lines::Call::Run { budget } => self.any_run(budget, store),
        }
    }

    /// A run, traced or not.
    fn any_run(&mut self, budget: u32, store: &[u32]) -> Call {
        let output = self.any_output();
        if self.rng.chance(50) {
            return Call::Run { budget, output };
        }
        let ends = self.trace_of(store, budget, &output).ends;
        let trace = self.any_trace_room(&ends);
        // So many moves as it makes anyway, so that several things hold it up.
        let moves = u32::try_from(ends.len()).unwrap_or(budget);
        let budget = if self.rng.chance(20) { moves } else { budget };
        Call::RunTraced { budget, output, trace }
    }

    /// The trace of a run that has room for all of it.
    fn trace_of(&self, store: &[u32], budget: u32, output: &[u8]) -> Trace {
        let (mut store, mut output, mut trace) =
            (store.to_vec(), output.to_vec(), Trace::endless());
        self.checked.run_traced(&mut store, budget, &mut output, &mut trace, &mut ());
        trace
    }

    /// Any bytes: as many as a trace with these ends of moves needs, as up to
    /// one of its moves, a few less or more, or some number of its own.
    fn any_trace_room(&mut self, ends: &[usize]) -> Vec<u8> {
        let whole = ends.last().copied().unwrap_or(0);
        let one = self.rng.pick_any(ends).unwrap_or(0);
        let near = self.rng.pick(&[whole, whole, one]);
        let little = self.rng.pick(&[1, 1, 11, 12, 13, 36]);
        let bytes = match self.rng.below(10) {
            0 => self.rng.pick(&[0, 0, 1, 11, 12, 23, 24, 35, 36]),
            1 => self.rng.pick(&[239, 240, 241]),
            2..=3 => near,
            4 => near.saturating_sub(little),
            5 => near + little,
            _ => whole + self.rng.pick(&[240, 300, 1000]),
        };
        (0..bytes.min(MOST_TRACE_BYTES)).map(|_| self.rng.bits() as u8).collect()
    }

    /// Keeps the trace that a run has when there is room for it.
    fn note_trace(&mut self, call: &Call, store: &[u32]) {
        if let Call::Run { budget, output } | Call::RunTraced { budget, output, .. } = call {
            let trace = self.trace_of(store, *budget, output).bytes;
            if !trace.is_empty() && trace.len() <= MOST_TRACE_BYTES {
                self.latest = Scene { store: store.to_vec(), text: text_of(&trace) };
            }
        }
    }

    // ------------------------------------------------------------ readings

    /// A reading of the latest trace from its starting store.
    fn reading(&mut self) -> Request {
        let mut store = self.latest.store.clone();
        if self.rng.chance(20) {
            self.spoil(&mut store);
        }
        let call = self.any_reading();
        self.request(store, call)
    }

    /// The latest trace, whole, cut or damaged, and a number of frames.
    fn any_reading(&mut self) -> Call {
        let lines = lines_of(&self.latest.text);
        let mut lines: Vec<Vec<u8>> =
            lines.iter().take(MOST_TEXT_LINES).map(|line| line.to_vec()).collect();
        match self.rng.below(10) {
            0..=2 => {}
            3 => lines.truncate(self.rng.below(lines.len() + 1)),
            _ => self.put_faulty(&mut lines),
        }
        let mut text = lines.join(&b'\n');
        if !lines.is_empty() && self.rng.chance(80) {
            text.push(b'\n');
        }
        match self.rng.below(20) {
            0 => text.truncate(self.rng.below(text.len() + 1)),
            1 if !text.is_empty() => {
                let place = self.rng.below(text.len());
                text[place] = self.rng.pick(b"0189AFaf\n\r ");
            }
            _ => {}
        }
        Call::Show { text, frames: self.any_frames(lines.len() as u64) }
    }

    /// Puts a faulty line among the lines or in the place of one; around it
    /// stand good lines that no run has to have traced.
    fn put_faulty(&mut self, lines: &mut Vec<Vec<u8>>) {
        let Some(model) = self.checked.model() else {
            return;
        };
        for _ in 0..self.rng.pick(&[0, 0, 1, 3]) {
            let place = self.rng.below(lines.len() + 1);
            lines.insert(place, good_line(&mut self.rng, model));
        }
        // In turn, over the rounds too, so that few rounds have all.
        let fault = Fault::ALL[self.faults % Fault::ALL.len()];
        self.faults += 1;
        if let Some(line) = faulty_line(&mut self.rng, model, fault) {
            let place = self.rng.below(lines.len() + 1);
            let replaced = usize::from(place < lines.len() && self.rng.chance(50));
            lines.splice(place..place + replaced, [line]);
        }
    }

    /// None, some, all or more of so many frames, mostly no fewer than there are.
    fn any_frames(&mut self, number: u64) -> u64 {
        let some = self.rng.below(number as usize + 1) as u64;
        let large = [1 << 32, u64::MAX, (1 << 63) + some];
        match self.rng.below(12) {
            0 => 0,
            1..=2 => some,
            3 => number.saturating_sub(1),
            4 => self.rng.pick(&large),
            5 => number + 1,
            6..=8 => number,
            _ => number + 1 + some,
        }
    }

    // ------------------------------------------------------------ probes

    /// Any call on the store as it is, spoiled or cut, or on any words, with
    /// the table as it is or damaged.
    fn probe(&mut self, store: &[u32]) -> Request {
        let mut words = store.to_vec();
        match self.rng.below(20) {
            0..=6 => {}
            7..=16 => {
                for _ in 0..self.rng.pick(&[1, 1, 1, 2, 3]) {
                    self.spoil(&mut words);
                }
            }
            17..=18 => words.truncate(self.rng.between(self.need - self.need / 4, self.need)),
            _ => {
                words = self.any_store();
                words.truncate(self.rng.below(2 * self.need));
            }
        }
        let mut table = self.table.clone();
        if self.rng.chance(20) {
            self.damage(&mut table);
        }
        let call = self.any_call(&words);
        Request { table, store: words, call }
    }

    /// Now and then a run on a store in which the machine is put before a move
    /// that runs as they come seldom make.
    fn run_from(&mut self, store: &[u32], percent: usize, put: Put) -> Option<Request> {
        let model = self.checked.model().filter(|_| self.rng.chance(percent))?;
        let mut state = store::read(model, store)?;
        put(&mut self.rng, model, &mut state)?;
        let mut words = store.to_vec();
        store::write(model, &state, &mut words);
        self.set_count(&mut words);
        let budget = self.rng.below(60) as u32;
        let call = self.any_run(budget, &words);
        Some(self.request(words, call))
    }

    /// Calls among due delays, more of them where there are several delays.
    fn calls_among_due(&mut self, store: &[u32]) -> Vec<Request> {
        let delays = self.checked.model().map_or(0, |model| delays_of(model).len());
        (0..delays.min(3)).filter_map(|_| self.call_among_due(store, 40)).collect()
    }

    /// Now and then a run or an advance on a store in which delays are due, or a
    /// call on one in which words 9 and 10 are wrong.
    fn call_among_due(&mut self, store: &[u32], percent: usize) -> Option<Request> {
        let model = self.checked.model().filter(|_| self.rng.chance(percent))?;
        let mut state = store::read(model, store)?;
        let mut words = store.to_vec();
        if self.rng.chance(30) {
            // In turn, over the rounds too, so that few rounds have all.
            let way = WrongDue::ALL[self.wrong % WrongDue::ALL.len()];
            self.wrong += 1;
            let wrong = put_wrong_due(&mut self.rng, model, &mut state, way)?;
            store::write(model, &state, &mut words);
            words[word::DUE..=word::NEXT_DUE].copy_from_slice(&wrong);
            let call = self.any_judging_call(&words);
            return Some(self.request(words, call));
        }
        put_among_due(&mut self.rng, model, &mut state)?;
        store::write(model, &state, &mut words);
        let call = if self.rng.chance(50) {
            Call::Advance { to: time_near_next(&mut self.rng, &state) }
        } else {
            let budget = self.rng.pick(&[1, 1, 1, 30]);
            self.any_run(budget, &words)
        };
        Some(self.request(words, call))
    }

    /// Changes a word: to any, to one near it, or to another's. The count of
    /// untrue steps may be any, so that word is passed over.
    fn spoil(&mut self, words: &mut [u32]) {
        let end = self.rng.pick(&[word::FIRST_PART, words.len(), words.len()]);
        let mut places: Vec<usize> = (0..end).filter(|&place| place != word::UNTRUE).collect();
        // The few that are always to be zero, or what other words say, come more
        // often.
        for _ in 0..3 {
            places.extend([word::DUE, word::NEXT_DUE]);
            places.extend(word::ZEROS);
        }
        let place = self.rng.pick(&places);
        words[place] = match self.rng.below(4) {
            0 => words[place].wrapping_add(1),
            1 => words[place].wrapping_sub(1),
            2 => self.rng.pick(words),
            _ => self.any_word(),
        };
    }

    /// Changes a byte, cuts the table, or gives a frame twice; the last one is
    /// mostly a connection, which may not be repeated.
    fn damage(&mut self, table: &mut Vec<u8>) {
        if table.is_empty() {
            return;
        }
        let place = self.rng.below(table.len());
        match self.rng.below(7) {
            0 => table.truncate(place),
            1 => table.truncate(place - place % FRAME_BYTES),
            case @ 2..=3 => {
                let place = if case == 2 { place } else { table.len() - 1 };
                let from = place - place % FRAME_BYTES;
                let frame: Vec<u8> = table[from..].iter().take(FRAME_BYTES).copied().collect();
                table.splice(from..from, frame);
            }
            4 => table[place] = self.rng.bits() as u8,
            _ => table[place] = self.rng.pick(&[0, 1, 2, 3, 4, 5, 9, 64, 65, 255]),
        }
    }

    fn any_call(&mut self, store: &[u32]) -> Call {
        match self.rng.below(15) {
            0 => Call::Check,
            1 => Call::Need,
            2 => Call::Load,
            3..=11 => self.any_judging_call(store),
            12..=13 => self.any_reading(),
            _ => self.view(),
        }
    }

    /// A call that asks whether the store is well formed.
    fn any_judging_call(&mut self, store: &[u32]) -> Call {
        match self.rng.below(9) {
            0..=1 => Call::Advance { to: self.any_time(store) },
            2..=3 => Call::Arrival {
                event: self.any_number(9),
                birth: self.any_time(store),
                values: (0..self.rng.below(4)).map(|_| self.rng.value(false)).collect(),
            },
            _ => {
                let budget = self.rng.below(60) as u32;
                self.any_run(budget, store)
            }
        }
    }

    fn view(&mut self) -> Call {
        match self.rng.below(2) {
            0 => Call::FramesOf { kind: self.any_number(usize::from(kind::LAST) + 2) },
            _ => Call::StepsOf { action: self.any_number(12) },
        }
    }

    /// A time near now, one that the store holds, or any.
    fn any_time(&mut self, store: &[u32]) -> u32 {
        let now = store.first().copied().unwrap_or(0);
        match self.rng.below(4) {
            0 => now,
            1 => now.wrapping_add(self.rng.below(30) as u32).wrapping_sub(3),
            2 => self.rng.pick_any(store).unwrap_or(7),
            _ => self.any_word(),
        }
    }

    /// A small number, or one that is small in its low 32 bits only.
    fn any_number(&mut self, end: usize) -> u64 {
        let low = self.rng.below(end) as u64;
        match self.rng.below(12) {
            0 => low + (1 << 32),
            1 => low + (1 << 16),
            2 => u64::MAX - low,
            _ => low,
        }
    }
}

#[cfg(test)]
mod tests {
    use super::*;
    use std::collections::BTreeSet;

    #[test]
    fn spoiling_reaches_every_word_but_the_count_of_untrue_steps() {
        let table = Vec::new();
        let (rng, checked) = (Rng::new(11, 0), Checked::of(&table));
        let latest = Scene { store: Vec::new(), text: Vec::new() };
        let mut draw = Draw { rng, table, checked, need: 30, latest, faults: 0, wrong: 0 };
        let mut reached = BTreeSet::new();
        for _ in 0..2000 {
            let mut words = [5; 30];
            draw.spoil(&mut words);
            reached.extend((0..30).filter(|&place| words[place] != 5));
        }
        let mut expected: BTreeSet<usize> = (0..30).collect();
        expected.remove(&word::UNTRUE);
        assert_eq!(reached, expected);
    }
}
