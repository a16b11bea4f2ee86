//! The transitions, actions and steps of a random network's basic elements.

use super::rng::Rng;
use super::skeleton::{field, Skeleton};
use super::Wish;
use crate::rules::{limits, used_fields};
use crate::table::{element_flag, kind, operation, role, Frame, NONE};

pub struct Charts {
    pub transitions: Vec<Frame>,
    pub actions: Vec<Frame>,
    pub steps: Vec<Frame>,
}

/// What a basic element has, by id.
struct Basic {
    states: Vec<usize>,
    event_inputs: Vec<usize>,
    event_outputs: Vec<usize>,
    variables: Vec<usize>,
    /// The variables that a step may have as its result.
    results: Vec<usize>,
}

impl Basic {
    fn of(skeleton: &Skeleton, element: usize) -> Basic {
        let inputs = skeleton.variables_of(element, role::INPUT);
        let mut results = skeleton.variables_of(element, role::OUTPUT);
        results.extend(skeleton.variables_of(element, role::INTERNAL));
        Basic {
            states: skeleton.states_of(element),
            event_inputs: skeleton.event_inputs_of(element),
            event_outputs: skeleton.event_outputs_of(element),
            variables: [&inputs[..], &results[..]].concat(),
            results,
        }
    }
}

impl Charts {
    pub fn draw(rng: &mut Rng, skeleton: &Skeleton, wish: &Wish) -> Charts {
        let mut charts = Charts { transitions: Vec::new(), actions: Vec::new(), steps: Vec::new() };
        let basics: Vec<Basic> = skeleton
            .elements_of(element_flag::BASIC)
            .into_iter()
            .map(|element| Basic::of(skeleton, element))
            .collect();
        for basic in &basics {
            charts.draw_transitions(rng, basic);
            charts.draw_actions(rng, basic);
        }
        charts.fill_transitions(rng, &basics, wish);
        rng.shuffle(&mut charts.transitions);
        rng.shuffle(&mut charts.actions);
        charts
    }

    /// Adds steps that no action has until the table holds the frames wished
    /// for; `others` frames stand outside of the charts.
    pub fn fill_steps(&mut self, rng: &mut Rng, skeleton: &Skeleton, wish: &Wish, others: usize) {
        let element = skeleton.elements_of(element_flag::BASIC)[0];
        let basic = Basic::of(skeleton, element);
        while others + self.frames() < wish.frames {
            self.steps.push(draw_step(rng, &basic));
        }
    }

    pub fn frames(&self) -> usize {
        self.transitions.len() + self.actions.len() + self.steps.len()
    }

    /// Most states answer most events. Transitions with no event lead mostly
    /// to a later state, so that few charts go round for ever.
    fn draw_transitions(&mut self, rng: &mut Rng, basic: &Basic) {
        for (place, &from) in basic.states.iter().enumerate() {
            for &event in &basic.event_inputs {
                for _ in 0..rng.pick(&[0, 1, 1, 1, 2]) {
                    let to = rng.pick(&basic.states);
                    self.transitions.push(draw_transition(rng, basic, from, to, field(event)));
                }
            }
            let later = &basic.states[place + 1..];
            let to = if rng.chance(3) { Some(from) } else { rng.pick_any(later) };
            if let Some(to) = to.filter(|_| rng.chance(40)) {
                self.transitions.push(draw_transition(rng, basic, from, to, NONE));
            }
        }
    }

    fn fill_transitions(&mut self, rng: &mut Rng, basics: &[Basic], wish: &Wish) {
        while self.transitions.len() < wish.transitions {
            let basic = &basics[rng.below(basics.len())];
            let (from, to) = (rng.pick(&basic.states), rng.pick(&basic.states));
            if let Some(event) = rng.pick_any(&basic.event_inputs) {
                let transition = draw_transition(rng, basic, from, to, field(event));
                self.transitions.push(transition);
            }
        }
        // Many states with many events can ask for more than a table holds.
        let (_, most) = limits(kind::TRANSITION).expect("a known kind");
        self.transitions.truncate(most.max(wish.transitions));
    }

    /// The steps of an element stand together; its actions run stretches of
    /// them, which may overlap.
    fn draw_actions(&mut self, rng: &mut Rng, basic: &Basic) {
        let first = self.steps.len();
        let number = if rng.chance(3) { rng.between(64, 80) } else { rng.between(1, 10) };
        for _ in 0..number {
            self.steps.push(draw_step(rng, basic));
        }
        for &state in &basic.states {
            for _ in 0..rng.pick(&[0, 1, 1, 2, 3]) {
                // Few steps, or any number of them, or as many as there can be.
                let most = number.min(64);
                let any = rng.below(most + 1);
                let count = rng.pick(&[0, 1, 2, 2, 3, 3, 4, 5, most, any]).min(most);
                let start = first + rng.below(number - count + 1);
                self.actions.push(draw_action(rng, basic, state, start, count));
            }
        }
    }
}

fn draw_action(rng: &mut Rng, basic: &Basic, state: usize, start: usize, count: usize) -> Frame {
    let event = match rng.pick_any(&basic.event_outputs) {
        Some(event) if rng.chance(80) => field(event),
        _ => NONE,
    };
    // The first step of an action with no steps may be any number.
    let start = if count == 0 && rng.chance(20) { NONE } else { field(start) };
    Frame::new(kind::ACTION, 0, &[field(state), start, field(count), event])
}

fn draw_transition(rng: &mut Rng, basic: &Basic, from: usize, to: usize, event: u16) -> Frame {
    let mut fields = vec![field(from), field(to), event];
    let mut guard = 0;
    if !basic.variables.is_empty() && rng.chance(60) {
        guard = rng.between(1, 4);
        fields.push(field(rng.pick(&basic.variables)));
        fields.push(field(rng.pick(&basic.variables)));
    }
    Frame::new(kind::TRANSITION, guard as u8, &fields)
}

/// Every generated basic element has a variable that a step may set.
fn draw_step(rng: &mut Rng, basic: &Basic) -> Frame {
    let operation = rng.between(usize::from(operation::COPY), usize::from(operation::AGE)) as u8;
    let mut step = Frame::new(kind::STEP, operation, &[field(rng.pick(&basic.results))]);
    for place in 1..used_fields(&step) {
        step.fields[place] = field(rng.pick(&basic.variables));
    }
    step
}
