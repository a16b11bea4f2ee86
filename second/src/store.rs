//! The store: its need, and the typed state that a well formed store holds.
//! Reading a store is the judgment "Well formed": a word that no typed state
//! can hold makes it refused.

use crate::model::{ElementKind, Model, Role};
use crate::next_due::WrongDue;
use std::ops::Range;

/// "Times are whole ticks, read unsigned, 0 to 2,147,483,647."
pub const GREATEST_TIME: u32 = 2_147_483_647;
/// "due from now to 4,294,967,294".
pub const GREATEST_DUE: u32 = 4_294_967_294;

/// Words 0 to 15.
pub mod word {
    pub const NOW: usize = 0;
    pub const ELEMENT: usize = 1;
    pub const EVENT: usize = 2;
    pub const BIRTH: usize = 3;
    pub const MODE: usize = 4;
    pub const LIVE: usize = 5;
    pub const ACTION: usize = 6;
    pub const STEP: usize = 7;
    pub const OVERWRITTEN: usize = 8;
    /// "word 9 tells whether a due flag is set, word 10 the earliest time or 0."
    ///
    /// Open point: how word 9 tells it. By 1 or 0, as flags do. It is needed
    /// beside word 10: a delay may be due at 0.
    ///
    /// Open point: which times count. Those of all due flags, of whatever kind of
    /// element, also above the largest time, where no advance gets.
    pub const DUE: usize = 9;
    pub const NEXT_DUE: usize = 10;
    /// "Word 11 counts untrue steps since load and stops at 4,294,967,295."
    ///
    /// Open point: what a well formed store has there. Any word, as in word 8:
    /// a store does not tell how many steps were made since load.
    pub const UNTRUE: usize = 11;
    /// "Words 9 to 15 zero", but for words 9, 10 and 11.
    pub const ZEROS: [usize; 4] = [12, 13, 14, 15];
    pub const FIRST_PART: usize = 16;
}

const PER_ELEMENT: usize = 3;
const PER_EVENT_INPUT: usize = 3;
const PER_VARIABLE: usize = 2;

/// A well formed store, typed.
#[derive(Clone, PartialEq, Eq, Debug)]
pub struct State {
    pub now: u32,
    pub mode: Mode,
    pub overwritten: u32,
    /// How many steps since load had a result that is not the true one.
    pub untrue: u32,
    /// Per element: the chart state, of a basic element.
    pub chart_states: Vec<Option<usize>>,
    /// Per element: the due time, of a delay that is due.
    pub due: Vec<Option<u32>>,
    /// Per event input.
    pub waiting: Vec<Option<Waiting>>,
    /// Per variable.
    pub values: Vec<i32>,
    /// Per variable; 0 unless an input.
    pub buffers: Vec<i32>,
}

impl State {
    /// The earliest due time, if a due flag is set.
    pub fn next_due(&self) -> Option<u32> {
        next_due(&self.due)
    }
}

/// "the one found by looking".
pub(crate) fn next_due(due: &[Option<u32>]) -> Option<u32> {
    due.iter().flatten().copied().min()
}

/// Words 9 and 10 of a store with these due times.
fn due_words(due: &[Option<u32>]) -> [u32; 2] {
    next_due(due).map_or([0, 0], |time| [1, time])
}

#[derive(Clone, Copy, PartialEq, Eq, Debug)]
pub struct Waiting {
    pub birth: u32,
    pub last_update: u32,
}

/// "mode (0 idle, 1 charts, 2 acts)", with what belongs to each.
#[derive(Clone, Copy, PartialEq, Eq, Debug)]
pub enum Mode {
    Idle,
    Charts {
        current: Current,
        live: bool,
    },
    /// The action counts from 1 within the state's actions; 0 is none left.
    Acts {
        current: Current,
        action: usize,
        step: usize,
    },
}

/// The running element with the current event and its birth.
#[derive(Clone, Copy, PartialEq, Eq, Debug)]
pub struct Current {
    pub element: usize,
    pub event: usize,
    pub birth: u32,
}

/// "Then per element [...]. Per event input [...]. Per variable [...]."
struct Layout {
    elements: Range<usize>,
    event_inputs: Range<usize>,
    variables: Range<usize>,
}

impl Layout {
    fn of(model: &Model) -> Layout {
        let elements_end = word::FIRST_PART + PER_ELEMENT * model.elements.len();
        let events_end = elements_end + PER_EVENT_INPUT * model.event_inputs.len();
        let variables_end = events_end + PER_VARIABLE * model.variables.len();
        Layout {
            elements: word::FIRST_PART..elements_end,
            event_inputs: elements_end..events_end,
            variables: events_end..variables_end,
        }
    }
}

/// "Need: 16 + 3 per element + 3 per event input + 2 per variable."
pub fn need(model: &Model) -> usize {
    Layout::of(model).variables.end
}

/// Where the chart state of an element lies.
pub fn chart_state_at(model: &Model, element: usize) -> usize {
    Layout::of(model).elements.start + PER_ELEMENT * element
}

/// Where the value of a variable lies.
pub fn value_at(model: &Model, variable: usize) -> usize {
    Layout::of(model).variables.start + PER_VARIABLE * variable
}

// ---------------------------------------------------------------- load

/// "Load zeroes the need, then sets initial chart states, and start values in
/// value and, for inputs, buffer."
pub fn loaded(model: &Model) -> State {
    let buffer = |v: &crate::model::Variable| if v.role == Role::Input { v.start } else { 0 };
    State {
        now: 0,
        mode: Mode::Idle,
        overwritten: 0,
        untrue: 0,
        chart_states: model.elements.iter().map(|e| e.initial_state).collect(),
        due: vec![None; model.elements.len()],
        waiting: vec![None; model.event_inputs.len()],
        values: model.variables.iter().map(|v| v.start).collect(),
        buffers: model.variables.iter().map(buffer).collect(),
    }
}

// ---------------------------------------------------------------- read

/// The typed state of a store of at least the need; `None` if the store is
/// not well formed (refusal 6).
pub fn read(model: &Model, store: &[u32]) -> Option<State> {
    let layout = Layout::of(model);
    let now = store[word::NOW];
    // "every zero named above holds; now in range".
    if now > GREATEST_TIME || word::ZEROS.iter().any(|&place| store[place] != 0) {
        return None;
    }
    let (chart_states, due) = read_elements(model, &store[layout.elements], now)?;
    // "a store in which it is wrong is not well formed", also one from before it
    // was kept, with zeros there and a due flag.
    if store[word::DUE..=word::NEXT_DUE] != due_words(&due) {
        return None;
    }
    let waiting = read_waiting(&store[layout.event_inputs], now)?;
    let (values, buffers) = read_variables(model, &store[layout.variables])?;
    let mode = read_mode(model, store, &chart_states)?;
    Some(State {
        now,
        mode,
        overwritten: store[word::OVERWRITTEN],
        untrue: store[word::UNTRUE],
        chart_states,
        due,
        waiting,
        values,
        buffers,
    })
}

/// The words that alone make a store not well formed.
#[derive(Clone, Copy, PartialEq, Eq, Debug)]
pub enum LoneFault {
    /// One of [`word::ZEROS`].
    NotZero(usize),
    /// Words 9 and 10, or one of them.
    NextDue(WrongDue),
}

/// Of a store that is not well formed, the words that alone are at fault, if
/// these are of words 9, 10 and 12 to 15.
pub fn lone_fault(model: &Model, store: &[u32]) -> Option<LoneFault> {
    let mends = |place: usize, words: &[u32]| {
        let mut mended = store.to_vec();
        mended[place..place + words.len()].copy_from_slice(words);
        read(model, &mended).is_some()
    };
    if let Some(place) = word::ZEROS.into_iter().find(|&place| mends(place, &[0])) {
        return Some(LoneFault::NotZero(place));
    }
    let (_, due) = read_elements(model, &store[Layout::of(model).elements], store[word::NOW])?;
    let wrong = WrongDue::of(store[word::DUE], store[word::NEXT_DUE], &due);
    mends(word::DUE, &due_words(&due)).then_some(LoneFault::NextDue(wrong))
}

fn has_other_than_zero(words: &[u32]) -> bool {
    words.iter().any(|&w| w != 0)
}

type Elements = (Vec<Option<usize>>, Vec<Option<u32>>);

fn read_elements(model: &Model, words: &[u32], now: u32) -> Option<Elements> {
    let mut chart_states = Vec::with_capacity(model.elements.len());
    let mut due = Vec::with_capacity(model.elements.len());
    for (id, words) in words.chunks_exact(PER_ELEMENT).enumerate() {
        let kind = model.elements[id].kind;
        chart_states.push(read_chart_state(model, id, words[0])?);
        due.push(read_due(kind, words[1], words[2], now)?);
    }
    Some((chart_states, due))
}

/// "A basic element's chart state is its own"; "chart state (basic, else 0)".
fn read_chart_state(model: &Model, element: usize, word: u32) -> Option<Option<usize>> {
    if model.elements[element].kind != ElementKind::Basic {
        return (word == 0).then_some(None);
    }
    let state = usize::try_from(word).ok()?;
    let own = model.states.get(state)?.element == element;
    own.then_some(Some(state))
}

/// "A due flag is only on a delay, due from now to 4,294,967,294, else zeros."
fn read_due(kind: ElementKind, flag: u32, time: u32, now: u32) -> Option<Option<u32>> {
    match flag {
        0 => (time == 0).then_some(None),
        1 => {
            let holds = kind == ElementKind::Delay && (now..=GREATEST_DUE).contains(&time);
            holds.then_some(Some(time))
        }
        _ => None,
    }
}

/// "A waiting event has birth ≤ last update ≤ now, others zeros."
fn read_waiting(words: &[u32], now: u32) -> Option<Vec<Option<Waiting>>> {
    let one = |words: &[u32]| {
        let (birth, last_update) = (words[1], words[2]);
        match words[0] {
            0 => (birth == 0 && last_update == 0).then_some(None),
            1 => {
                let holds = birth <= last_update && last_update <= now;
                holds.then_some(Some(Waiting { birth, last_update }))
            }
            _ => None,
        }
    };
    words.chunks_exact(PER_EVENT_INPUT).map(one).collect()
}

/// "Per variable: value, buffer (0 unless an input)."
fn read_variables(model: &Model, words: &[u32]) -> Option<(Vec<i32>, Vec<i32>)> {
    let pairs = words.chunks_exact(PER_VARIABLE);
    let one = |(id, words): (usize, &[u32])| {
        let holds = words[1] == 0 || model.variables[id].role == Role::Input;
        holds.then_some((words[0] as i32, words[1] as i32))
    };
    pairs.enumerate().map(one).collect()
}

fn read_mode(model: &Model, store: &[u32], chart_states: &[Option<usize>]) -> Option<Mode> {
    match store[word::MODE] {
        // "idle means words 1 to 7 zero".
        0 => (!has_other_than_zero(&store[word::ELEMENT..=word::STEP])).then_some(Mode::Idle),
        1 => read_charts(model, store),
        2 => read_acts(model, store, chart_states),
        _ => None,
    }
}

/// "the element basic, the event its own, birth at most now".
fn read_current(model: &Model, store: &[u32]) -> Option<Current> {
    let element = usize::try_from(store[word::ELEMENT].checked_sub(1)?).ok()?;
    let event = usize::try_from(store[word::EVENT].checked_sub(1)?).ok()?;
    let birth = store[word::BIRTH];
    let holds = model.elements.get(element)?.kind == ElementKind::Basic
        && model.event_inputs.get(event)?.element == element
        && birth <= store[word::NOW];
    holds.then_some(Current { element, event, birth })
}

/// "mode 1 has action and step 0"; "Flags are 0 or 1."
fn read_charts(model: &Model, store: &[u32]) -> Option<Mode> {
    let current = read_current(model, store)?;
    let live = match store[word::LIVE] {
        0 => false,
        1 => true,
        _ => return None,
    };
    let holds = store[word::ACTION] == 0 && store[word::STEP] == 0;
    holds.then_some(Mode::Charts { current, live })
}

/// "mode 2 has live 0, action at most the number of the state's actions, step
/// at most that action's steps (0 for action 0)".
fn read_acts(model: &Model, store: &[u32], chart_states: &[Option<usize>]) -> Option<Mode> {
    let current = read_current(model, store)?;
    let action = usize::try_from(store[word::ACTION]).ok()?;
    let step = usize::try_from(store[word::STEP]).ok()?;
    let actions = &model.states[chart_states[current.element]?].actions;
    let most_steps = match action.checked_sub(1) {
        None => 0,
        Some(place) => model.actions[*actions.get(place)?].steps.len(),
    };
    let holds = store[word::LIVE] == 0 && step <= most_steps;
    holds.then_some(Mode::Acts { current, action, step })
}

// ---------------------------------------------------------------- write

/// Writes a state over the need. "Words past the need are never touched."
pub fn write(model: &Model, state: &State, store: &mut [u32]) {
    let layout = Layout::of(model);
    store[..word::FIRST_PART].copy_from_slice(&head(state));
    let elements = store[layout.elements].chunks_exact_mut(PER_ELEMENT);
    for (id, words) in elements.enumerate() {
        words[0] = state.chart_states[id].map_or(0, word_of);
        words[1] = u32::from(state.due[id].is_some());
        words[2] = state.due[id].unwrap_or(0);
    }
    let events = store[layout.event_inputs].chunks_exact_mut(PER_EVENT_INPUT);
    for (words, waiting) in events.zip(&state.waiting) {
        words.copy_from_slice(&match waiting {
            Some(w) => [1, w.birth, w.last_update],
            None => [0; PER_EVENT_INPUT],
        });
    }
    let variables = store[layout.variables].chunks_exact_mut(PER_VARIABLE);
    for (id, words) in variables.enumerate() {
        words[0] = state.values[id] as u32;
        words[1] = state.buffers[id] as u32;
    }
}

/// Words 0 to 15.
fn head(state: &State) -> [u32; word::FIRST_PART] {
    let mut words = [0; word::FIRST_PART];
    words[word::NOW] = state.now;
    words[word::OVERWRITTEN] = state.overwritten;
    words[word::DUE..=word::NEXT_DUE].copy_from_slice(&due_words(&state.due));
    words[word::UNTRUE] = state.untrue;
    let current = match state.mode {
        Mode::Idle => return words,
        Mode::Charts { current, live } => {
            words[word::MODE] = 1;
            words[word::LIVE] = u32::from(live);
            current
        }
        Mode::Acts { current, action, step } => {
            words[word::MODE] = 2;
            words[word::ACTION] = word_of(action);
            words[word::STEP] = word_of(step);
            current
        }
    };
    words[word::ELEMENT] = word_of(current.element + 1);
    words[word::EVENT] = word_of(current.event + 1);
    words[word::BIRTH] = current.birth;
    words
}

/// A number of the table as a word; a table has at most 4,096 frames.
fn word_of(number: usize) -> u32 {
    u32::try_from(number).expect("numbers of a table are small")
}
