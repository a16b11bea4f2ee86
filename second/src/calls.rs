//! Load and the three calls: "Number 1 comes first. Of 2, 3 and 4, the lowest
//! faulty frame is named [...]. Then 5, 6 and the call's own, rising."

use crate::machine::Machine;
use crate::model::{check, ElementKind, EventOutput, Model};
use crate::rules::Refusal;
use crate::store::{self, State, GREATEST_TIME};
use crate::trace::{self, Trace};
use crate::watch::{Sight, Watch};

/// What a load or call answers. Refusal 0 is acceptance.
#[derive(Clone, Copy, PartialEq, Eq, Default, Debug)]
pub struct Answer {
    pub refusal: u8,
    pub frame: usize,
    pub moves: u32,
    pub stop: u8,
    pub bytes: usize,
    /// The bytes of the trace; 0 for a run that is not traced.
    pub traced: usize,
    /// The untrue steps: "The answer of run tells how many it made."
    ///
    /// Open point: what it tells where the count in the store has stopped. All
    /// that this run made, since that is what was asked for.
    pub untrue: u32,
}

/// Why a run ended.
pub mod stop {
    pub const NO_MOVE: u8 = 1;
    pub const BUDGET_USED: u8 = 2;
    pub const NO_ROOM: u8 = 3;
    pub const NO_TRACE_ROOM: u8 = 4;
}

pub fn load(table: &[u8], store: &mut [u32]) -> Answer {
    Checked::of(table).load(store)
}

pub fn advance(table: &[u8], store: &mut [u32], to: u32) -> Answer {
    Checked::of(table).advance(store, to, &mut ())
}

pub fn arrival(table: &[u8], store: &mut [u32], event: u32, birth: u32, values: &[i32]) -> Answer {
    Checked::of(table).arrival(store, event, birth, values, &mut ())
}

pub fn run(table: &[u8], store: &mut [u32], budget: u32, out: &mut [u8]) -> Answer {
    Checked::of(table).run(store, budget, out, &mut ())
}

/// A run with a trace in a lent room, whose bytes past those told stay.
pub fn run_traced(
    table: &[u8],
    store: &mut [u32],
    budget: u32,
    out: &mut [u8],
    room: &mut [u8],
) -> Answer {
    let mut trace = Trace::within(room.len());
    let answer = Checked::of(table).run_traced(store, budget, out, &mut trace, &mut ());
    room[..answer.traced].copy_from_slice(&trace.bytes);
    answer
}

/// A table judged once, for any number of calls.
pub struct Checked(Result<Model, Refusal>);

impl Checked {
    pub fn of(table: &[u8]) -> Checked {
        Checked(check(table))
    }

    /// The network of a table that is not refused.
    pub fn model(&self) -> Option<&Model> {
        self.0.as_ref().ok()
    }

    /// The refusal of the table alone.
    pub fn verdict(&self) -> Answer {
        answer(self.0.as_ref().map(|_| Answer::default()).map_err(|refusal| *refusal))
    }

    /// The network and its need; refusals 1 to 4, then 5.
    pub fn model_for(&self, store: &[u32]) -> Result<&Model, Refusal> {
        let model = self.0.as_ref().map_err(|refusal| *refusal)?;
        // "store shorter than its need".
        if store.len() < store::need(model) {
            return Err(Refusal::plain(5));
        }
        Ok(model)
    }

    /// The machine in the state of the store; refusals 1 to 5, then 6.
    fn machine<'m, W: Watch>(
        &'m self,
        store: &[u32],
        watch: &'m mut W,
    ) -> Result<Machine<'m, W>, Refusal> {
        let model = self.model_for(store)?;
        match store::read(model, store) {
            Some(state) => Ok(Machine { model, state, watch }),
            None => {
                if let Some(fault) = store::lone_fault(model, store) {
                    watch.see(Sight::NotWellFormed(fault));
                }
                Err(Refusal::plain(6))
            }
        }
    }

    /// One call: the store is written only if the call is not refused.
    fn call<W: Watch>(
        &self,
        store: &mut [u32],
        watch: &mut W,
        body: impl FnOnce(&mut Machine<W>) -> Result<Answer, Refusal>,
    ) -> Answer {
        let made = self.machine(store, watch).and_then(|mut machine| {
            machine.watch.see(Sight::Found(machine.state.next_due()));
            let told = body(&mut machine)?;
            machine.watch.see(Sight::Left(machine.state.next_due()));
            store::write(machine.model, &machine.state, store);
            Ok(told)
        });
        answer(made)
    }

    /// "Load gives 1 to 5".
    pub fn load(&self, store: &mut [u32]) -> Answer {
        let made = self.model_for(store).map(|model| {
            store::write(model, &store::loaded(model), store);
            Answer::default()
        });
        answer(made)
    }

    /// "Advance to t sets now, then fires, with birth t, each delay due at t
    /// and clears it."
    pub fn advance(&self, store: &mut [u32], to: u32, watch: &mut impl Watch) -> Answer {
        self.call(store, watch, |machine| {
            judge_time(&machine.state, to)?;
            machine.state.now = to;
            expire(machine, to);
            Ok(Answer::default())
        })
    }

    /// "Arrival puts its values into the associated output variables in table
    /// order, then fires with the given birth."
    pub fn arrival(
        &self,
        store: &mut [u32],
        event: u32,
        birth: u32,
        values: &[i32],
        watch: &mut impl Watch,
    ) -> Answer {
        self.call(store, watch, |machine| {
            let (event, output) = source_event(machine.model, event)?;
            judge_arrival(&machine.state, output, birth, values)?;
            machine.watch.see(Sight::Element(ElementKind::Source));
            for (&variable, &value) in output.associated.iter().zip(values) {
                machine.state.values[variable] = value;
            }
            machine.fire(event, birth);
            Ok(Answer::default())
        })
    }

    /// "Run takes a budget (32 bits) and an output buffer and makes moves
    /// until: no move exists (1), else the next move's record has no room (3),
    /// else the budget is used (2)."
    pub fn run(
        &self,
        store: &mut [u32],
        budget: u32,
        out: &mut [u8],
        watch: &mut impl Watch,
    ) -> Answer {
        self.call(store, watch, |machine| Ok(watched_run(machine, budget, out, None)))
    }

    /// The same run with a trace beside it: "Trace room is checked before each
    /// move, so a move is traced whole or not made."
    ///
    /// Open point: what other calls change. Only a run is traced, so a trace
    /// can be read from the store that the run starts from, and no other.
    pub fn run_traced(
        &self,
        store: &mut [u32],
        budget: u32,
        out: &mut [u8],
        trace: &mut Trace,
        watch: &mut impl Watch,
    ) -> Answer {
        self.call(store, watch, |machine| Ok(watched_run(machine, budget, out, Some(trace))))
    }
}

/// "A refusal returns its number, the frame for 2 to 4 (else 0) and zero
/// counts".
fn answer(result: Result<Answer, Refusal>) -> Answer {
    result.unwrap_or_else(|Refusal { number, frame }| Answer {
        refusal: number,
        frame,
        ..Answer::default()
    })
}

/// Refusals 7 and 8: "advance to a time before now or above the largest";
/// "advance beyond the due time of a delay".
fn judge_time(state: &State, to: u32) -> Result<(), Refusal> {
    if to < state.now || to > GREATEST_TIME {
        return Err(Refusal::plain(7));
    }
    if state.due.iter().flatten().any(|&due| due < to) {
        return Err(Refusal::plain(8));
    }
    Ok(())
}

/// Fires each delay due at the time.
///
/// Open point: the order of several delays due at once. They are fired in the
/// order of their elements; since all have one birth and carry nothing, no
/// other order gives another store.
fn expire<W: Watch>(machine: &mut Machine<W>, time: u32) {
    let mut fired = 0;
    for element in 0..machine.model.elements.len() {
        if machine.state.due[element] == Some(time) {
            fired += 1;
            machine.state.due[element] = None;
            machine.watch.see(Sight::Expired(machine.cleared(element)));
            machine.fire(machine.model.elements[element].event_outputs[0], time);
        }
    }
    machine.watch.see(Sight::Advanced { fired, next: machine.state.next_due() });
}

/// Refusal 9: "arrival names no event output of a source".
fn source_event(model: &Model, event: u32) -> Result<(usize, &EventOutput), Refusal> {
    let id = usize::try_from(event).unwrap_or(usize::MAX);
    match model.event_outputs.get(id) {
        Some(output) if model.elements[output.element].kind == ElementKind::Source => {
            Ok((id, output))
        }
        _ => Err(Refusal::plain(9)),
    }
}

/// Refusals 10 and 11: "arrival born after now"; "number of values differs
/// from the event's associations".
fn judge_arrival(
    state: &State,
    output: &EventOutput,
    birth: u32,
    values: &[i32],
) -> Result<(), Refusal> {
    if birth > state.now {
        return Err(Refusal::plain(10));
    }
    if values.len() != output.associated.len() {
        return Err(Refusal::plain(11));
    }
    Ok(())
}

/// What holds up a move that exists.
#[derive(Clone, Copy, PartialEq, Eq, Debug)]
pub struct Held {
    pub no_room: bool,
    pub no_trace_room: bool,
    pub budget_used: bool,
}

impl Held {
    /// The stop number; `None` if nothing holds the move up. "4, no trace
    /// room, looked at after 3 and before 2".
    ///
    /// Open point: when it is looked at. Before each move, also the one that
    /// the budget does not allow any more, and at a budget of 0.
    fn stop(self) -> Option<u8> {
        match self {
            Held { no_room: true, .. } => Some(stop::NO_ROOM),
            Held { no_trace_room: true, .. } => Some(stop::NO_TRACE_ROOM),
            Held { budget_used: true, .. } => Some(stop::BUDGET_USED),
            _ => None,
        }
    }
}

/// A run, of which the watcher learns what it did to the count.
fn watched_run<W: Watch>(
    machine: &mut Machine<W>,
    budget: u32,
    out: &mut [u8],
    trace: Option<&mut Trace>,
) -> Answer {
    let (traced, before) = (trace.is_some(), machine.state.untrue);
    let told = make_moves(machine, budget, out, trace);
    let (untrue, after) = (told.untrue, machine.state.untrue);
    machine.watch.see(Sight::Counted { traced, untrue, before, after });
    told
}

/// The moves of a run, and what it tells.
fn make_moves<W: Watch>(
    machine: &mut Machine<W>,
    budget: u32,
    out: &mut [u8],
    mut trace: Option<&mut Trace>,
) -> Answer {
    let mut told = Answer::default();
    loop {
        let Some(next) = machine.next_move() else {
            told.stop = stop::NO_MOVE;
            return told;
        };
        let room = &mut out[told.bytes..];
        let record = machine.record_bytes(next);
        let frames = if trace.is_some() { trace::frames(machine, next) } else { Vec::new() };
        let held = Held {
            no_room: record > room.len(),
            no_trace_room: trace.as_ref().is_some_and(|trace| !trace.has_room(&frames)),
            budget_used: told.moves == budget,
        };
        if let Some(stop) = held.stop() {
            machine.watch.see(Sight::Held(held));
            told.stop = stop;
            return told;
        }
        let untrue = machine.make(next, room);
        if let Some(trace) = &mut trace {
            trace.put(&frames, machine.watch);
            told.traced = trace.bytes.len();
        }
        told.moves += 1;
        told.untrue += u32::from(untrue);
        told.bytes += record;
    }
}
