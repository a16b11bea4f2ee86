//! The elements of a random network with their events, variables and states.
//! Ids are given in mixed order, so that owners and ids do not run together.

use super::rng::Rng;
use super::{Flow, Wish};
use crate::table::{element_flag, halves, kind, role, Frame};
use std::collections::BTreeSet;

pub struct Skeleton {
    /// The flag of each element.
    pub elements: Vec<u8>,
    /// The element of each event input, event output and state.
    pub event_inputs: Vec<usize>,
    pub event_outputs: Vec<usize>,
    pub states: Vec<usize>,
    /// The element and role of each variable.
    pub variables: Vec<(usize, u8)>,
}

/// A number of the table as a field.
pub fn field(number: usize) -> u16 {
    u16::try_from(number).expect("numbers of a generated table are small")
}

/// The places in a list of owners that hold this owner.
fn places<T: Copy + PartialEq>(owners: &[T], owner: T) -> Vec<usize> {
    (0..owners.len()).filter(|&id| owners[id] == owner).collect()
}

impl Skeleton {
    pub fn draw(rng: &mut Rng, wish: &Wish) -> Skeleton {
        let mut skeleton = Skeleton {
            elements: draw_elements(rng, wish),
            event_inputs: Vec::new(),
            event_outputs: Vec::new(),
            states: Vec::new(),
            variables: Vec::new(),
        };
        for element in 0..skeleton.elements.len() {
            skeleton.draw_shape(rng, element);
        }
        skeleton.fill(rng, wish);
        if rng.chance(85) {
            rng.shuffle(&mut skeleton.event_inputs);
            rng.shuffle(&mut skeleton.event_outputs);
            rng.shuffle(&mut skeleton.states);
            rng.shuffle(&mut skeleton.variables);
        }
        skeleton
    }

    fn draw_shape(&mut self, rng: &mut Rng, element: usize) {
        match self.elements[element] {
            element_flag::BASIC => {
                self.add(element, [rng.between(1, 3), rng.between(1, 3)]);
                let roles = [rng.between(0, 3), rng.between(1, 3), rng.below(3)];
                self.add_variables(element, roles);
                self.states.extend(vec![element; rng.between(1, 4)]);
            }
            element_flag::INTERFACE => {
                let (events, pairs) = (rng.between(1, 2), rng.below(4));
                self.add(element, [events, events]);
                self.add_variables(element, [pairs, pairs, 0]);
            }
            element_flag::DELAY => {
                self.add(element, [2, 1]);
                self.add_variables(element, [1, 0, 0]);
            }
            element_flag::SOURCE => {
                self.add(element, [0, rng.between(1, 2)]);
                self.add_variables(element, [0, rng.below(5), 0]);
            }
            _ => {
                let most = rng.pick(&[0, 1, 2, 4, 9]);
                self.add(element, [rng.between(1, 2), 0]);
                self.add_variables(element, [rng.between(0, most), 0, 0]);
            }
        }
    }

    fn add(&mut self, element: usize, [event_inputs, event_outputs]: [usize; 2]) {
        self.event_inputs.extend(vec![element; event_inputs]);
        self.event_outputs.extend(vec![element; event_outputs]);
    }

    fn add_variables(&mut self, element: usize, numbers: [usize; 3]) {
        for (role, number) in [role::INPUT, role::OUTPUT, role::INTERNAL].into_iter().zip(numbers) {
            self.variables.extend(vec![(element, role); number]);
        }
    }

    /// Adds to the basic elements until every number wished for is there.
    fn fill(&mut self, rng: &mut Rng, wish: &Wish) {
        let basic = places(&self.elements, element_flag::BASIC);
        while self.event_inputs.len() < wish.event_inputs {
            self.event_inputs.push(rng.pick(&basic));
        }
        while self.event_outputs.len() < wish.event_outputs {
            self.event_outputs.push(rng.pick(&basic));
        }
        while self.variables.len() < wish.variables {
            let role = rng.pick(&[role::INPUT, role::OUTPUT, role::INTERNAL]);
            self.variables.push((rng.pick(&basic), role));
        }
        while self.states.len() < wish.states {
            self.states.push(rng.pick(&basic));
        }
    }

    pub fn elements_of(&self, flag: u8) -> Vec<usize> {
        places(&self.elements, flag)
    }

    /// The flag of the element of an event input.
    pub fn flag_of_input(&self, input: usize) -> u8 {
        self.elements[self.event_inputs[input]]
    }

    pub fn event_inputs_of(&self, element: usize) -> Vec<usize> {
        places(&self.event_inputs, element)
    }

    pub fn event_outputs_of(&self, element: usize) -> Vec<usize> {
        places(&self.event_outputs, element)
    }

    pub fn states_of(&self, element: usize) -> Vec<usize> {
        places(&self.states, element)
    }

    pub fn variables_of(&self, element: usize, role: u8) -> Vec<usize> {
        places(&self.variables, (element, role))
    }

    /// The frames of kinds 01 to 04.
    pub fn frames(&self, rng: &mut Rng, wish: &Wish) -> Vec<Frame> {
        let mut frames = self.element_frames(rng, wish.flow);
        frames.extend(self.event_input_frames(rng));
        let output = |&owner: &usize| Frame::new(kind::EVENT_OUTPUT, 0, &[field(owner)]);
        frames.extend(self.event_outputs.iter().map(output));
        for &(owner, role) in &self.variables {
            let [high, low] = halves(self.start_value(rng, owner, wish) as u32);
            frames.push(Frame::new(kind::VARIABLE, role, &[field(owner), high, low]));
        }
        frames
    }

    /// The frames of kind 06.
    pub fn state_frames(&self) -> impl Iterator<Item = Frame> + '_ {
        self.states.iter().map(|&owner| Frame::new(kind::STATE, 0, &[field(owner)]))
    }

    fn element_frames(&self, rng: &mut Rng, flow: Flow) -> Vec<Frame> {
        let priorities = self.draw_priorities(rng, flow);
        let mut frames = Vec::new();
        for (element, (&flag, priority)) in self.elements.iter().zip(priorities).enumerate() {
            let initial = rng.pick_any(&self.states_of(element)).unwrap_or(0);
            frames.push(Frame::new(kind::ELEMENT, flag, &[priority, field(initial)]));
        }
        frames
    }

    /// A priority of its own for each element. Beside rings the sinks mostly
    /// come first, since a ring leaves nothing to elements after it.
    fn draw_priorities(&self, rng: &mut Rng, flow: Flow) -> Vec<u16> {
        let mut sorted: BTreeSet<u16> = BTreeSet::new();
        while sorted.len() < self.elements.len() {
            let any = rng.bits() as u16;
            sorted.insert(rng.pick(&[0, u16::MAX, any, any % 100, any % 100]));
        }
        let mut order: Vec<usize> = (0..self.elements.len()).collect();
        rng.shuffle(&mut order);
        if flow == Flow::Rings && rng.chance(75) {
            order.sort_by_key(|&element| self.elements[element] != element_flag::SINK);
        }
        let mut priorities = vec![0; order.len()];
        for (element, priority) in order.into_iter().zip(sorted) {
            priorities[element] = priority;
        }
        priorities
    }

    /// Local priorities are unique within an element, and often shared by
    /// events of several elements.
    fn event_input_frames(&self, rng: &mut Rng) -> Vec<Frame> {
        let mut frames = vec![Frame::new(0, 0, &[]); self.event_inputs.len()];
        for element in 0..self.elements.len() {
            let ids = self.event_inputs_of(element);
            let most = if ids.len() < 5 && rng.chance(70) { 4 } else { u8::MAX };
            let mut priorities: Vec<u8> = (0..=most).collect();
            rng.shuffle(&mut priorities);
            for (id, priority) in ids.into_iter().zip(priorities) {
                frames[id] = Frame::new(kind::EVENT_INPUT, priority, &[field(element)]);
            }
        }
        frames
    }

    /// The start value of a delay's DT is mostly a time soon reached.
    fn start_value(&self, rng: &mut Rng, owner: usize, wish: &Wish) -> i32 {
        if self.elements[owner] == element_flag::DELAY && rng.chance(75) {
            rng.pick(&[0, 1, 2, 5, 20, 50, -3])
        } else {
            rng.value(wish.extreme)
        }
    }
}

/// The flags of the elements: a source, a basic element and a sink at least,
/// for rings an interface too, in any order.
fn draw_elements(rng: &mut Rng, wish: &Wish) -> Vec<u8> {
    const OFTEN: [u8; 12] = [0, 0, 0, 0, 1, 1, 2, 2, 2, 3, 4, 4];
    let mut flags = vec![element_flag::SOURCE, element_flag::BASIC, element_flag::SINK];
    if wish.flow == Flow::Rings {
        flags.push(element_flag::INTERFACE);
    }
    while flags.len() < wish.elements {
        flags.push(rng.pick(&OFTEN));
    }
    rng.shuffle(&mut flags);
    flags
}
