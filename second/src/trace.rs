//! "Trace for the debugger": the frames of a move, "a line of 24 digits for
//! each change: 84; flag the kind; a block; b id of the variable, event or
//! transition, else zero; c, d new value (1 for kinds 4 to 8); e zero".
//!
//! What is traced "only where the value differs from before" (kinds 0 to 3, 9
//! and 10) is found by comparing the states before and after the move, what
//! happens (kinds 4 to 8) by the move itself.
//!
//! Open point: before what. Before the whole move, so that an input sampled to
//! the value that it had gives no frame.
//!
//! Open point: what else a move changes (buffers, what waits, due times, the
//! overwritten and the untrue count) has no kind and is not traced.

use crate::machine::{Machine, Move};
use crate::model::{Model, Role, Taking};
use crate::store::{Current, Mode, State};
use crate::table::{halves, Frame, FRAME_BYTES};
use crate::watch::{Sight, Watch};

/// The first byte of a frame of a trace.
pub const TRACE: u8 = 0x84;

/// "Kinds 0 to 10: chart state, internal, input, output value, block started,
/// finished, event selected, event emitted, transition enabled, action number,
/// step number."
pub mod trace_kind {
    pub const CHART_STATE: u8 = 0;
    pub const INTERNAL: u8 = 1;
    pub const INPUT: u8 = 2;
    pub const OUTPUT: u8 = 3;
    pub const STARTED: u8 = 4;
    pub const FINISHED: u8 = 5;
    pub const SELECTED: u8 = 6;
    pub const EMITTED: u8 = 7;
    pub const ENABLED: u8 = 8;
    pub const ACTION: u8 = 9;
    pub const STEP: u8 = 10;
    pub const LAST: u8 = STEP;
}

/// The new value of the kinds that tell what happened, 4 to 8.
pub const HAPPENED: u32 = 1;

/// The kind of a variable's value. It is another number than the flag of the
/// variable's frame.
pub fn value_kind(role: Role) -> u8 {
    match role {
        Role::Internal => trace_kind::INTERNAL,
        Role::Input => trace_kind::INPUT,
        Role::Output => trace_kind::OUTPUT,
    }
}

/// A trace with the room that it has.
pub struct Trace {
    pub bytes: Vec<u8>,
    /// The bytes up to the end of each move traced.
    pub ends: Vec<usize>,
    most: usize,
}

impl Trace {
    /// A trace of at most so many bytes.
    pub fn within(most: usize) -> Trace {
        Trace { bytes: Vec::new(), ends: Vec::new(), most }
    }

    /// A trace for which there is always room.
    pub fn endless() -> Trace {
        Trace::within(usize::MAX)
    }

    /// Whether the frames of a move fit: "a move is traced whole or not made".
    pub fn has_room(&self, frames: &[Frame]) -> bool {
        frames.len() * FRAME_BYTES <= self.most - self.bytes.len()
    }

    /// Adds the frames of a move, for which there is room.
    pub fn put(&mut self, frames: &[Frame], watch: &mut impl Watch) {
        for frame in frames {
            watch.see(Sight::Traced(frame.flag));
            self.bytes.extend(frame.to_bytes());
        }
        self.ends.push(self.bytes.len());
    }
}

/// The frames of the next move. The move is tried on a copy of the machine, so
/// that a run can ask for them before making it.
pub fn frames<W: Watch>(machine: &Machine<W>, next: Move) -> Vec<Frame> {
    let mut copy = Machine { model: machine.model, state: machine.state.clone(), watch: &mut () };
    copy.make(next, &mut vec![0; machine.record_bytes(next)]);
    frames_between(machine.model, &machine.state, next, &copy.state)
}

/// The frames of a move between two states: "a move's frames stand by kind,
/// then id".
///
/// Open point: the order is strict, also where things happened in another one
/// (an event is selected before its inputs are sampled), and values stand by
/// the id of the variable, not in the order of associations.
fn frames_between(model: &Model, before: &State, made: Move, after: &State) -> Vec<Frame> {
    let mut frames = changed_charts(before, after);
    frames.extend(changed_values(model, before, after));
    frames.extend(happened(model, before, made));
    frames.extend(changed_numbers(before, after));
    frames.sort_by_key(|frame| (frame.flag, frame.b()));
    frames
}

fn frame(kind: u8, block: usize, id: usize, value: u32) -> Frame {
    let small = |number: usize| u16::try_from(number).expect("ids are small");
    let [high, low] = halves(value);
    Frame::new(TRACE, kind, &[small(block), small(id), high, low])
}

/// A frame of a kind that names no id: "else zero".
fn plain(kind: u8, block: usize, value: u32) -> Frame {
    frame(kind, block, 0, value)
}

/// Kind 0, whose value is the id of the state. A transition to the same state
/// changes nothing.
fn changed_charts(before: &State, after: &State) -> Vec<Frame> {
    let pairs = before.chart_states.iter().zip(&after.chart_states);
    let one = |(block, (before, after)): (usize, (&Option<usize>, &Option<usize>))| {
        let state = after.filter(|_| before != after)?;
        Some(plain(trace_kind::CHART_STATE, block, number(state)))
    };
    pairs.enumerate().filter_map(one).collect()
}

/// Kinds 1 to 3. The block is the variable's own.
fn changed_values(model: &Model, before: &State, after: &State) -> Vec<Frame> {
    let changed = |&id: &usize| before.values[id] != after.values[id];
    let one = |id: usize| {
        let variable = &model.variables[id];
        frame(value_kind(variable.role), variable.element, id, after.values[id] as u32)
    };
    (0..model.variables.len()).filter(changed).map(one).collect()
}

/// Kinds 4 to 8.
fn happened(model: &Model, before: &State, made: Move) -> Vec<Frame> {
    match made {
        Move::Take(event, _) => taken(model, event),
        Move::Change(current, transition) => {
            vec![frame(trace_kind::ENABLED, current.element, transition.id, HAPPENED)]
        }
        // "5 when its block ends".
        Move::Rest => {
            let ended = running(before.mode).map(|current| current.element);
            ended.map(|block| plain(trace_kind::FINISHED, block, HAPPENED)).into_iter().collect()
        }
        // "7 when fired".
        Move::Finish(_, action) => {
            let event = model.actions[action].event;
            event.map(|event| emitted(model, event)).into_iter().collect()
        }
        Move::Step(..) | Move::Return(_) => Vec::new(),
    }
}

/// "4 and 6 when an event is taken, 5 when its block ends (at once without a
/// chart), 7 when fired", which an interface does.
fn taken(model: &Model, event: usize) -> Vec<Frame> {
    let input = &model.event_inputs[event];
    let mut frames = vec![
        plain(trace_kind::STARTED, input.element, HAPPENED),
        frame(trace_kind::SELECTED, input.element, event, HAPPENED),
    ];
    if input.taking != Taking::Chart {
        frames.push(plain(trace_kind::FINISHED, input.element, HAPPENED));
    }
    if let Taking::Carry { event, .. } = input.taking {
        frames.push(emitted(model, event));
    }
    frames
}

fn emitted(model: &Model, event: usize) -> Frame {
    frame(trace_kind::EMITTED, model.event_outputs[event].element, event, HAPPENED)
}

/// Kinds 9 and 10.
///
/// Open point: their block. It is the running element. Both numbers are 0 but
/// in mode 2, so a block that starts or ends changes neither.
fn changed_numbers(before: &State, after: &State) -> Vec<Frame> {
    let Some(current) = running(after.mode).or(running(before.mode)) else {
        return Vec::new();
    };
    let (old, new) = (action_and_step(before.mode), action_and_step(after.mode));
    let mut frames = Vec::new();
    if old.0 != new.0 {
        frames.push(plain(trace_kind::ACTION, current.element, number(new.0)));
    }
    if old.1 != new.1 {
        frames.push(plain(trace_kind::STEP, current.element, number(new.1)));
    }
    frames
}

fn action_and_step(mode: Mode) -> (usize, usize) {
    match mode {
        Mode::Acts { action, step, .. } => (action, step),
        Mode::Idle | Mode::Charts { .. } => (0, 0),
    }
}

fn running(mode: Mode) -> Option<Current> {
    match mode {
        Mode::Idle => None,
        Mode::Charts { current, .. } | Mode::Acts { current, .. } => Some(current),
    }
}

/// A number of the table as a value.
fn number(id: usize) -> u32 {
    u32::try_from(id).expect("numbers of a table are small")
}
