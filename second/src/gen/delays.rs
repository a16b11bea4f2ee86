//! Delays that are tried: networks in which a source leads to a delay and the
//! delay to a sink, calls that bring STARTs while it is due and after, and
//! states in which a START waits.

use super::due::delays_of;
use super::rng::Rng;
use super::script::Script;
use super::skeleton::{field, Skeleton};
use super::wiring::Associated;
use crate::lines::OUTPUT_BYTES;
use crate::model::Model;
use crate::store::{Mode, State, Waiting, GREATEST_DUE, GREATEST_TIME};
use crate::table::{element_flag, role};
use crate::watch::{Cleared, Sight, Watch};

// ---------------------------------------------------------------- networks

/// The way from a source over a delay to a sink, by ids. The source says DT, if
/// it has a value to say it with, and STOP, if it has an event left.
pub struct Lead {
    starter: usize,
    stopper: Option<usize>,
    value: Option<usize>,
    start: usize,
    stop: usize,
    dt: usize,
    output: usize,
    recorded: usize,
}

impl Lead {
    /// Such a way in two of three networks that have a delay.
    pub fn draw(rng: &mut Rng, skeleton: &Skeleton) -> Option<Lead> {
        let mut any = |flag: u8| rng.pick_any(&skeleton.elements_of(flag));
        let (source, delay) = (any(element_flag::SOURCE)?, any(element_flag::DELAY)?);
        let sink = any(element_flag::SINK)?;
        let mut events = skeleton.event_outputs_of(source);
        rng.shuffle(&mut events);
        let inputs = skeleton.event_inputs_of(delay);
        let lead = Lead {
            starter: events[0],
            stopper: events.get(1).copied(),
            value: rng.pick_any(&skeleton.variables_of(source, role::OUTPUT)),
            start: inputs[0],
            stop: inputs[1],
            dt: skeleton.variables_of(delay, role::INPUT)[0],
            output: skeleton.event_outputs_of(delay)[0],
            recorded: rng.pick(&skeleton.event_inputs_of(sink)),
        };
        rng.chance(67).then_some(lead)
    }

    pub fn associate(&self, associated: &mut Associated) {
        if let Some(value) = self.value {
            put(&mut associated.inputs[self.start], self.dt);
            put(&mut associated.outputs[self.starter], value);
        }
    }

    pub fn connect(&self, connections: &mut [Vec<usize>]) {
        put(&mut connections[self.starter], self.start);
        put(&mut connections[self.output], self.recorded);
        if let Some(stopper) = self.stopper {
            put(&mut connections[stopper], self.stop);
        }
    }

    pub fn feed(&self, sources: &mut [Option<usize>]) {
        if self.value.is_some() {
            sources[self.dt] = self.value;
        }
    }
}

/// Puts a member into a list that must not have it twice.
fn put(list: &mut Vec<usize>, member: usize) {
    if !list.contains(&member) {
        list.push(member);
    }
}

// ---------------------------------------------------------------- calls

/// Moves enough for an event to come to a delay, beside rings too.
const BUDGET: u32 = 400;
/// A due time further away than this is not waited for.
const SOON: u32 = 1000;
/// So many due times of other delays may lie before the one waited for.
const OTHERS: usize = 4;

/// The delays that an arrival starts or tries to start, and those it stops.
#[derive(Default)]
struct Tried {
    started: Vec<usize>,
    stopped: Vec<usize>,
}

impl Watch for Tried {
    fn see(&mut self, sight: Sight) {
        match sight {
            Sight::Started { delay, .. } | Sight::StartIgnored { delay, .. } => {
                put(&mut self.started, delay);
            }
            Sight::StoppedInTime(Cleared { delay, .. }) => put(&mut self.stopped, delay),
            _ => {}
        }
    }
}

/// The delay that is tried, and the event of a source that starts it.
#[derive(Clone, Copy)]
struct Trial {
    delay: usize,
    event: usize,
}

impl Script<'_> {
    /// Starts a delay, then starts it again in some of the ways that there are,
    /// and waits for its output; `None` if no arrival starts a delay.
    pub fn draw_delay_calls(&mut self) -> Option<()> {
        let trials = self.trials(|tried| tried.started);
        let trial = self.rng.pick_any(&trials)?;
        self.run(BUDGET);
        self.arrive_and_run(trial.event);
        for _ in 0..self.rng.between(1, 3) {
            match self.rng.below(8) {
                0..=1 => self.arrive_and_run(trial.event),
                2..=3 => self.start_later(trial),
                4 => self.start_after_stop(trial),
                5 => self.start_after_output(trial),
                6 => self.start_before_stop(trial),
                _ => self.start_before_output(trial),
            }
        }
        self.await_output(trial.delay);
        Some(())
    }

    /// The events of sources whose arrival would do something to delays, with
    /// these delays.
    fn trials(&mut self, of: impl Fn(Tried) -> Vec<usize>) -> Vec<Trial> {
        let mut trials = Vec::new();
        for event in self.source_events() {
            let values = self.draw_delay_times(event);
            let (mut store, mut tried) = (self.store.clone(), Tried::default());
            let output = &mut [0; OUTPUT_BYTES];
            self.checked.run(&mut store, BUDGET, output, &mut ());
            let (id, now) = (u32::from(field(event)), self.now());
            self.checked.arrival(&mut store, id, now, &values, &mut ());
            self.checked.run(&mut store, BUDGET, output, &mut tried);
            trials.extend(of(tried).into_iter().map(|delay| Trial { delay, event }));
        }
        trials
    }

    /// Values for an event that are mostly times soon over.
    fn draw_delay_times(&mut self, event: usize) -> Vec<i32> {
        let number = self.associations(event);
        let mut time = || self.rng.pick(&[-3, 0, 0, 1, 2, 3, 4, 5, 7, 10, 20, 50, i32::MAX]);
        (0..number).map(|_| time()).collect()
    }

    fn arrive_with_times(&mut self, event: usize) {
        let (birth, values) = (self.draw_birth(), self.draw_delay_times(event));
        self.arrive(event, birth, &values);
    }

    fn arrive_and_run(&mut self, event: usize) {
        self.arrive_with_times(event);
        self.run(BUDGET);
    }

    /// The due time of a delay, if it can be waited for.
    fn due_soon(&self, delay: usize) -> Option<u32> {
        let soon = |due: &u32| *due <= GREATEST_TIME && due - self.now() <= SOON;
        self.dues().get(delay).copied().flatten().filter(soon)
    }

    /// Some ticks on, short of what is due; what is due at now fires.
    fn advance_a_little(&mut self) {
        let first = self.due_times().into_iter().min().unwrap_or(GREATEST_TIME);
        let most = first.min(GREATEST_TIME).saturating_sub(1).max(self.now());
        let to = self.now() + self.rng.between(1, 6) as u32;
        self.advance(to.min(most));
    }

    fn start_later(&mut self, trial: Trial) {
        self.advance_a_little();
        self.arrive_and_run(trial.event);
    }

    /// An event that stops the delay; none does if it is not due.
    fn stopper(&mut self, delay: usize) -> Option<usize> {
        let trials = self.trials(|tried| tried.stopped);
        let stoppers: Vec<Trial> = trials.into_iter().filter(|one| one.delay == delay).collect();
        self.rng.pick_any(&stoppers).map(|one| one.event)
    }

    /// STOP, then START, at one tick or not.
    fn start_after_stop(&mut self, trial: Trial) {
        if let Some(stopper) = self.stopper(trial.delay) {
            self.arrive_and_run(stopper);
            if self.rng.chance(50) {
                self.advance_a_little();
            }
        }
        self.arrive_and_run(trial.event);
    }

    /// START and STOP wait at one time; which is taken first hangs on when they
    /// came and on priorities.
    fn start_before_stop(&mut self, trial: Trial) {
        let stopper = self.stopper(trial.delay);
        let mut events = [Some(trial.event), stopper];
        self.rng.shuffle(&mut events);
        for event in events.into_iter().flatten() {
            self.arrive_with_times(event);
        }
        self.run(BUDGET);
    }

    /// The output, then START, at one tick or not.
    fn start_after_output(&mut self, trial: Trial) {
        self.await_output(trial.delay);
        if self.rng.chance(50) {
            self.advance_a_little();
        }
        self.arrive_and_run(trial.event);
    }

    /// START waits when the output comes.
    fn start_before_output(&mut self, trial: Trial) {
        self.arrive_with_times(trial.event);
        self.await_output(trial.delay);
    }

    /// Tries to go beyond the due time, which is refused, goes there and lets the
    /// sinks record the output. Other delays may be due before.
    fn await_output(&mut self, delay: usize) {
        for _ in 0..OTHERS {
            let Some(due) = self.due_soon(delay) else {
                return;
            };
            let first = self.due_times().into_iter().min().unwrap_or(due);
            if first == due && self.rng.chance(60) {
                self.advance(due + 1);
            }
            self.advance(first);
            self.run(BUDGET);
            if first == due {
                return;
            }
        }
    }
}

// ---------------------------------------------------------------- states

/// Makes a START wait, mostly of a delay that is due, with a DT in its buffer
/// that makes a difference; `None` if there is no delay.
pub fn put_before_start(rng: &mut Rng, model: &Model, state: &mut State) -> Option<()> {
    let delay = rng.pick_any(&delays_of(model))?;
    state.mode = Mode::Idle;
    if rng.chance(50) {
        state.waiting.fill(None);
    }
    if rng.chance(10) {
        // The greatest due times are those set at the last tick.
        state.now = GREATEST_TIME;
        state.due.fill(None);
    }
    let start = model.elements[delay].event_inputs[0];
    let last_update = rng.pick(&[0, state.now]);
    state.waiting[start] = Some(Waiting { birth: rng.pick(&[0, last_update]), last_update });
    let dt = model.elements[delay].inputs[0];
    for value in [&mut state.values[dt], &mut state.buffers[dt]] {
        *value = rng.pick(&[i32::MIN, -1, 0, 1, 2, 9, 30, i32::MAX - 1, i32::MAX]);
    }
    let sum = state.now + state.buffers[dt].max(0).unsigned_abs();
    let near = rng.pick(&[sum, sum + 1, sum.saturating_sub(1), state.now + 1, state.now + 10]);
    let due = rng.pick(&[state.now, near, near, near, GREATEST_DUE]);
    let due = due.clamp(state.now, GREATEST_DUE);
    state.due[delay] = rng.chance(80).then_some(due);
    Some(())
}

#[cfg(test)]
mod tests {
    use super::super::session;
    use super::*;
    use crate::calls::Checked;
    use crate::lines::table_of;
    use crate::store::{loaded, need, read, write};

    #[test]
    fn a_start_put_before_a_delay_is_well_formed_and_taken() {
        let mut starts = 0;
        for number in 0..300 {
            let checked = Checked::of(&table_of(&session(13, number)).unwrap_or_default());
            let Some(model) = checked.model() else {
                continue;
            };
            let mut state = loaded(model);
            if put_before_start(&mut Rng::new(13, number), model, &mut state).is_some() {
                let mut words = vec![0; need(model)];
                write(model, &state, &mut words);
                assert_eq!(read(model, &words), Some(state));
                let mut tried = Tried::default();
                checked.run(&mut words, 1, &mut [], &mut tried);
                assert_eq!(tried.started.len(), 1, "{number}");
                starts += 1;
            }
        }
        assert!(starts > 100, "{starts} starts");
    }
}
