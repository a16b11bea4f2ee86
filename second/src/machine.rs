//! The moves. The next move is first decided, as a value, and then made, so
//! that a run can ask for its record before making it.

use crate::arithmetic::{self, Outcome};
use crate::model::{ElementKind, Guard, Model, Step, Taking, Transition};
use crate::store::{Current, Mode, State, Waiting};
use crate::table::operation;
use crate::watch::{Cleared, Sight, Watch};
use std::cmp::Reverse;

/// The six moves of the document, in its order.
#[derive(Clone, Copy, PartialEq, Eq, Debug)]
pub enum Move {
    /// 1: take the event of this event input.
    Take(usize, Waiting),
    /// 2: follow a transition.
    Change(Current, Transition),
    /// 3: no such transition.
    Rest,
    /// 4: one step of an action.
    Step(Current, usize),
    /// 5: an action's steps are done.
    Finish(Current, usize),
    /// 6: no action left.
    Return(Current),
}

/// A network, its state and a watcher.
pub struct Machine<'m, W: Watch> {
    pub model: &'m Model,
    pub state: State,
    pub watch: &'m mut W,
}

impl<W: Watch> Machine<'_, W> {
    /// The next move; `None` if no move exists.
    pub fn next_move(&mut self) -> Option<Move> {
        match self.state.mode {
            Mode::Idle => {
                let event = self.least_waiting()?;
                Some(Move::Take(event, self.state.waiting[event]?))
            }
            Mode::Charts { current, live } => Some(match self.enabled(current, live) {
                Some(transition) => Move::Change(current, transition),
                None => Move::Rest,
            }),
            Mode::Acts { current, action: 0, .. } => Some(Move::Return(current)),
            Mode::Acts { current, action, step } => {
                let id = self.actions(current)[action - 1];
                let steps = &self.model.actions[id].steps;
                Some(if step < steps.len() {
                    Move::Step(current, steps.start + step)
                } else {
                    Move::Finish(current, id)
                })
            }
        }
    }

    /// "take the least by (last update, element priority, local priority)".
    fn least_waiting(&self) -> Option<usize> {
        let key = |&event: &usize| {
            let input = &self.model.event_inputs[event];
            let waiting = self.state.waiting[event]?;
            let priority = self.model.elements[input.element].priority;
            Some(Reverse((waiting.last_update, priority, input.local_priority)))
        };
        // An event that does not wait has key None, below every other.
        let event = (0..self.model.event_inputs.len()).max_by_key(key)?;
        self.state.waiting[event].map(|_| event)
    }

    /// "the first transition in table order from the present state whose event
    /// is none, or is the current event while live, and whose guard holds".
    fn enabled(&mut self, current: Current, live: bool) -> Option<Transition> {
        let transitions = &self.model.states[self.chart_state(current)].transitions;
        for transition in transitions {
            let named = match transition.event {
                None => true,
                Some(event) => live && event == current.event,
            };
            if named && self.holds(transition.guard) {
                return Some(*transition);
            }
        }
        None
    }

    /// "Guards: 0 always; 1 to 4: d equals, differs from, is below, is at most
    /// e."
    fn holds(&mut self, guard: Guard) -> bool {
        self.watch.see(Sight::Guard(guard.number));
        let (d, e) = (self.state.values.get(guard.d), self.state.values.get(guard.e));
        match guard.number {
            0 => true,
            1 => d == e,
            2 => d != e,
            3 => d < e,
            _ => d <= e,
        }
    }

    /// The present state of the running element, which is basic.
    fn chart_state(&self, current: Current) -> usize {
        self.state.chart_states[current.element].expect("a basic element has a chart state")
    }

    /// The actions of the present state in table order.
    fn actions(&self, current: Current) -> &[usize] {
        &self.model.states[self.chart_state(current)].actions
    }

    /// The bytes of the record that a move writes; 0 if it writes none.
    pub fn record_bytes(&self, next: Move) -> usize {
        match next {
            Move::Take(event, _) => record_bytes(self.model, event),
            _ => 0,
        }
    }

    /// Makes a move that [`Machine::next_move`] gave. A record goes to the
    /// start of `room`, which holds it. Tells whether the move was an untrue
    /// step: one whose result is not the true one.
    pub fn make(&mut self, next: Move, room: &mut [u8]) -> bool {
        match next {
            Move::Take(event, waiting) => self.take(event, waiting, room),
            Move::Change(current, transition) => self.change(current, transition),
            Move::Rest => self.state.mode = Mode::Idle,
            Move::Step(current, step) => {
                return !self.step(current, self.model.steps[step]).is_true;
            }
            Move::Finish(current, action) => self.finish(current, action),
            // "mode 1, live stays 0".
            Move::Return(current) => self.state.mode = Mode::Charts { current, live: false },
        }
        false
    }

    // ------------------------------------------------------------ move 1

    fn take(&mut self, event: usize, waiting: Waiting, room: &mut [u8]) {
        let model = self.model;
        let input = &model.event_inputs[event];
        let element = input.element;
        self.watch.see(Sight::Element(model.elements[element].kind));
        let renews =
            input.associated.iter().any(|&v| self.state.values[v] != self.state.buffers[v]);
        // "It stops waiting. Associated inputs get value from buffer."
        self.state.waiting[event] = None;
        for &variable in &input.associated {
            self.state.values[variable] = self.state.buffers[variable];
        }
        match &input.taking {
            Taking::Chart => {
                let current = Current { element, event, birth: waiting.birth };
                self.state.mode = Mode::Charts { current, live: true };
            }
            Taking::Carry { partners, event } => self.carry(partners, *event, waiting.birth),
            Taking::Start { dt } => self.start(element, *dt, renews),
            Taking::Stop => self.stop(element),
            Taking::Record => self.record(event, waiting, room),
        }
    }

    /// "the associated inputs' values go to their partners, then the partner
    /// event is fired with the same birth".
    fn carry(&mut self, partners: &[(usize, usize)], event: usize, birth: u32) {
        for &(input, partner) in partners {
            self.state.values[partner] = self.state.values[input];
        }
        for &input in &self.model.event_outputs[event].connections {
            let to = self.model.event_inputs[input].element;
            if self.model.elements[to].kind == ElementKind::Interface {
                self.watch.see(Sight::Chained);
            }
        }
        self.fire(event, birth);
    }

    /// "START sets due to now + DT (a negative DT counts as 0)". Both are at
    /// most 2,147,483,647, so the sum fits a word. But only the first one does:
    /// "The standard's E_DELAY counts from the first START, and later ones before
    /// the output have no effect." "DT is still sampled", as by any event taken.
    ///
    /// Open point: DT is the value of the variable, which a START that has no
    /// association with it does not renew.
    ///
    /// Open point: which START is a later one. One that is taken while the due
    /// flag is set: STOP and the output clear it, and a delay that is due at now
    /// has had no output until an advance fires it.
    fn start(&mut self, delay: usize, dt: usize, renews: bool) {
        let now = self.state.now;
        let dt = self.state.values[dt].max(0).unsigned_abs();
        let (sum, next) = (now + dt, self.state.next_due());
        if let Some(due) = self.state.due[delay] {
            let (instead, next) = (sum, next.unwrap_or(due));
            self.watch.see(Sight::StartIgnored { delay, now, due, instead, renews, next });
            return;
        }
        self.watch.see(Sight::Started { delay, now, due: sum, next });
        self.state.due[delay] = Some(sum);
    }

    /// "STOP clears it."
    fn stop(&mut self, delay: usize) {
        let due = self.state.due[delay].take();
        self.watch.see(Sight::StopTaken { due, next: self.state.next_due() });
        if due.is_some() {
            self.watch.see(Sight::StoppedInTime(self.cleared(delay)));
        }
    }

    /// What a watcher is told of a delay that is due no more.
    pub fn cleared(&self, delay: usize) -> Cleared {
        let element = &self.model.elements[delay];
        let output = &self.model.event_outputs[element.event_outputs[0]];
        Cleared {
            delay,
            now: self.state.now,
            start_waits: self.state.waiting[element.event_inputs[0]].is_some(),
            leads: !output.connections.is_empty(),
        }
    }

    /// "A record: element, event input (2 bytes each), birth, last update,
    /// now, then associated values in table order (4 each)."
    fn record(&mut self, event: usize, waiting: Waiting, room: &mut [u8]) {
        self.watch.see(Sight::Record);
        let input = &self.model.event_inputs[event];
        let mut bytes = Vec::with_capacity(record_bytes(self.model, event));
        for id in [input.element, event] {
            bytes.extend(u16::try_from(id).expect("ids are small").to_be_bytes());
        }
        for time in [waiting.birth, waiting.last_update, self.state.now] {
            bytes.extend(time.to_be_bytes());
        }
        for &variable in &input.associated {
            bytes.extend(self.state.values[variable].to_be_bytes());
        }
        room[..bytes.len()].copy_from_slice(&bytes);
    }

    // ------------------------------------------------------------ moves 2 to 6

    /// "State changes, live ends, mode 2, step 0, action 1, or action 0 for a
    /// state with none."
    fn change(&mut self, current: Current, transition: Transition) {
        self.state.chart_states[current.element] = Some(transition.to);
        let action = usize::from(!self.actions(current).is_empty());
        self.state.mode = Mode::Acts { current, action, step: 0 };
    }

    /// "one step".
    fn step(&mut self, current: Current, step: Step) -> Outcome {
        let (operation, b) = (step.operation, self.state.values[step.b]);
        let outcome = self.outcome(current, step);
        self.watch.see(Sight::Step { operation, b, outcome });
        self.state.values[step.result] = outcome.result;
        if !outcome.is_true {
            // "counts untrue steps since load and stops at 4,294,967,295".
            self.state.untrue = self.state.untrue.saturating_add(1);
        }
        if let Mode::Acts { step, .. } = &mut self.state.mode {
            *step += 1;
        }
        outcome
    }

    /// "Operations: 0 copy b; 1 add; 2 subtract c from b; [...]". The field of an
    /// operand not used is 0, and variable 0 exists since the result does.
    fn outcome(&self, current: Current, step: Step) -> Outcome {
        let (b, c) = (self.state.values[step.b], self.state.values[step.c]);
        match step.operation {
            operation::COPY => arithmetic::copy(b),
            operation::ADD => arithmetic::add(b, c),
            operation::SUBTRACT => arithmetic::subtract(b, c),
            operation::NEGATE => arithmetic::negate(b),
            operation::MULTIPLY => arithmetic::multiply(b, c),
            operation::DIVIDE => arithmetic::divide(b, c),
            operation::MINIMUM => arithmetic::minimum(b, c),
            operation::MAXIMUM => arithmetic::maximum(b, c),
            _ => arithmetic::age(self.state.now, current.birth),
        }
    }

    /// "its event, if any, is fired with the current birth; next action, or 0
    /// after the last, step 0."
    fn finish(&mut self, current: Current, action: usize) {
        if let Some(event) = self.model.actions[action].event {
            self.fire(event, current.birth);
        }
        let most = self.actions(current).len();
        if let Mode::Acts { action, step, .. } = &mut self.state.mode {
            *action = if *action < most { *action + 1 } else { 0 };
            *step = 0;
        }
    }

    // ------------------------------------------------------------ fire

    /// "Fire event e with birth t". No other buffer changes than those that a
    /// carried variable is connected to.
    pub fn fire(&mut self, event: usize, birth: u32) {
        let output = &self.model.event_outputs[event];
        let last_update = self.state.now;
        for &input in &output.connections {
            let waiting = Waiting { birth, last_update };
            if self.state.waiting[input].replace(waiting).is_some() {
                self.watch.see(Sight::Overwritten);
                // "overwritten count, which stops at 4,294,967,295".
                self.state.overwritten = self.state.overwritten.saturating_add(1);
            }
        }
        for &variable in &output.carried {
            for &destination in &self.model.variables[variable].destinations {
                self.state.buffers[destination] = self.state.values[variable];
            }
        }
    }
}

/// The bytes of the record of a sink's event; 0 for other event inputs.
pub fn record_bytes(model: &Model, event: usize) -> usize {
    let input = &model.event_inputs[event];
    match input.taking {
        Taking::Record => 16 + 4 * input.associated.len(),
        _ => 0,
    }
}
