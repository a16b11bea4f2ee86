//! States in which a block is about to make steps with results at the ends of
//! the range: clipped ones, true ones just there, and those of a zero divisor.

use super::rng::Rng;
use crate::model::{Model, Step};
use crate::store::{Current, Mode, State, GREATEST_TIME};

const LEAST: i32 = i32::MIN;
const MOST: i32 = i32::MAX;

/// By operation number, operands with such results.
const OPERANDS: [&[&[i32]]; 9] = [
    &[&[LEAST], &[MOST]],
    &[&[LEAST, -1], &[LEAST + 1, -1], &[MOST - 1, 1], &[MOST, 1]],
    &[&[LEAST, 1], &[LEAST + 1, 1], &[MOST - 1, -1], &[MOST, -1]],
    &[&[LEAST], &[LEAST + 1]],
    &[&[LEAST, 1], &[LEAST, -1], &[LEAST + 1, -1], &[MOST, -2], &[65_536, 32_768]],
    &[&[LEAST, 1], &[LEAST, -1], &[LEAST, -1], &[MOST, 1], &[0, 0], &[7, 0], &[-7, 2]],
    &[&[LEAST, MOST], &[MOST, MOST]],
    &[&[LEAST, LEAST], &[LEAST, MOST]],
    &[&[]],
];

/// Puts a block before one of its steps; `None` if no block has one.
pub fn put_before_step(rng: &mut Rng, model: &Model, state: &mut State) -> Option<()> {
    let (chart_state, place) = rng.pick_any(&actions_with_steps(model))?;
    let element = model.states[chart_state].element;
    let event = rng.pick_any(&model.elements[element].event_inputs)?;
    if rng.chance(25) {
        // The age of what was born at 0 is then the greatest.
        state.now = GREATEST_TIME;
        state.due.fill(None);
    }
    let birth = rng.pick(&[0, state.now]);
    let steps = model.actions[model.states[chart_state].actions[place]].steps.clone();
    let step = rng.below(steps.len());
    let current = Current { element, event, birth };
    state.chart_states[element] = Some(chart_state);
    state.mode = Mode::Acts { current, action: place + 1, step };
    // Steps have variables in common; the first one is to have its operands.
    for id in (steps.start + step..steps.end).rev() {
        set_operands(rng, state, model.steps[id]);
    }
    Some(())
}

/// The chart states with the places of their actions that have steps.
fn actions_with_steps(model: &Model) -> Vec<(usize, usize)> {
    let mut all = Vec::new();
    for (id, state) in model.states.iter().enumerate() {
        let has_steps = |&place: &usize| !model.actions[state.actions[place]].steps.is_empty();
        all.extend((0..state.actions.len()).filter(has_steps).map(|place| (id, place)));
    }
    all
}

fn set_operands(rng: &mut Rng, state: &mut State, step: Step) {
    let operands = rng.pick(OPERANDS[usize::from(step.operation)]);
    for (variable, &value) in [step.b, step.c].into_iter().zip(operands) {
        state.values[variable] = value;
    }
}

#[cfg(test)]
mod tests {
    use super::super::session;
    use super::*;
    use crate::calls::Checked;
    use crate::lines::table_of;
    use crate::machine::{Machine, Move};
    use crate::store::{loaded, need, read, write};

    #[test]
    fn a_block_before_a_step_is_well_formed_and_makes_that_step() {
        let mut blocks = 0;
        for number in 0..300 {
            let checked = Checked::of(&table_of(&session(12, number)).unwrap_or_default());
            let Some(model) = checked.model() else {
                continue;
            };
            let mut state = loaded(model);
            if put_before_step(&mut Rng::new(12, number), model, &mut state).is_some() {
                let mut words = vec![0; need(model)];
                write(model, &state, &mut words);
                assert_eq!(read(model, &words).as_ref(), Some(&state));
                let next = Machine { model, state, watch: &mut () }.next_move();
                assert!(matches!(next, Some(Move::Step(..))), "{number}: {next:?}");
                blocks += 1;
            }
        }
        assert!(blocks > 100, "{blocks} blocks");
    }
}
