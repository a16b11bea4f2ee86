//! The decoded network: structs with owner links and the lists the moves need,
//! made once from a table that is not refused.

use crate::rules::{first_fault, Refusal};
use crate::table::{element_flag, kind, operation, role, Frame, Frames, NONE};
use std::ops::Range;

/// The kind of an element, in the order of its flags.
#[derive(Clone, Copy, PartialEq, Eq, Debug)]
pub enum ElementKind {
    Basic,
    Interface,
    Delay,
    Source,
    Sink,
}

#[derive(Debug)]
pub struct Element {
    pub kind: ElementKind,
    /// "a priority (smaller is higher)".
    pub priority: u16,
    /// The initial chart state; only a basic element has one.
    pub initial_state: Option<usize>,
    /// Its events and variables, each list in table order, so that "the k-th
    /// belong together" is a matter of places.
    pub event_inputs: Vec<usize>,
    pub event_outputs: Vec<usize>,
    pub inputs: Vec<usize>,
    pub outputs: Vec<usize>,
}

#[derive(Debug)]
pub struct EventInput {
    pub element: usize,
    pub local_priority: u8,
    /// The associated input variables in table order.
    pub associated: Vec<usize>,
    pub taking: Taking,
}

/// What taking an event does besides sampling its inputs.
#[derive(Clone, PartialEq, Eq, Debug)]
pub enum Taking {
    /// Basic: "mode 1, live".
    Chart,
    /// Interface: copy each (input, partner), then fire the partner event.
    Carry { partners: Vec<(usize, usize)>, event: usize },
    /// Delay, first event input.
    Start { dt: usize },
    /// Delay, second event input.
    Stop,
    /// Sink: "a record is written".
    Record,
}

#[derive(Debug)]
pub struct EventOutput {
    pub element: usize,
    /// The event inputs connected, in table order.
    pub connections: Vec<usize>,
    /// The associated output variables in table order.
    pub associated: Vec<usize>,
    /// The variables that the event carries when fired.
    pub carried: Vec<usize>,
}

#[derive(Clone, Copy, PartialEq, Eq, Debug)]
pub enum Role {
    Input,
    Output,
    Internal,
}

#[derive(Debug)]
pub struct Variable {
    pub element: usize,
    pub role: Role,
    pub start: i32,
    /// The input variables that data connections lead to.
    pub destinations: Vec<usize>,
}

#[derive(Debug)]
pub struct ChartState {
    pub element: usize,
    /// The transitions from this state in table order.
    pub transitions: Vec<Transition>,
    /// The actions of this state (ids) in table order.
    pub actions: Vec<usize>,
}

#[derive(Clone, Copy, PartialEq, Eq, Debug)]
pub struct Transition {
    pub id: usize,
    pub to: usize,
    /// `None` for FFFF: "whose event is none".
    pub event: Option<usize>,
    pub guard: Guard,
}

/// The guard number with the variables d and e (not looked at for guard 0).
#[derive(Clone, Copy, PartialEq, Eq, Debug)]
pub struct Guard {
    pub number: u8,
    pub d: usize,
    pub e: usize,
}

#[derive(Debug)]
pub struct Action {
    pub steps: Range<usize>,
    /// `None` for FFFF.
    pub event: Option<usize>,
}

/// An operation number with the variables a, b, c (those the operation does
/// not use are not looked at).
#[derive(Clone, Copy, PartialEq, Eq, Debug)]
pub struct Step {
    pub operation: u8,
    pub result: usize,
    pub b: usize,
    pub c: usize,
}

#[derive(Debug)]
pub struct Model {
    pub elements: Vec<Element>,
    pub event_inputs: Vec<EventInput>,
    pub event_outputs: Vec<EventOutput>,
    pub variables: Vec<Variable>,
    pub states: Vec<ChartState>,
    /// Per transition: the element that both its states are of.
    pub transition_elements: Vec<usize>,
    pub actions: Vec<Action>,
    pub steps: Vec<Step>,
    /// Where in the table the frames of each kind stand (kinds 0 to 11).
    pub stretches: Vec<Range<usize>>,
}

/// Judges a table: the decoded network, or refusal 1, 2, 3 or 4.
pub fn check(table: &[u8]) -> Result<Model, Refusal> {
    let frames = Frames::cut(table).ok_or(Refusal::plain(1))?;
    match first_fault(&frames) {
        Some(refusal) => Err(refusal),
        None => Ok(Model::build(&frames)),
    }
}

fn id(field: u16) -> usize {
    usize::from(field)
}

/// "FFFF means none, only where shown."
fn optional_id(field: u16) -> Option<usize> {
    (field != NONE).then(|| id(field))
}

impl Model {
    /// Decodes frames in which [`first_fault`] found no fault.
    fn build(frames: &Frames) -> Model {
        let mut model = Model {
            elements: frames.of(kind::ELEMENT).map(element).collect(),
            event_inputs: frames.of(kind::EVENT_INPUT).map(event_input).collect(),
            event_outputs: frames.of(kind::EVENT_OUTPUT).map(event_output).collect(),
            variables: frames.of(kind::VARIABLE).map(variable).collect(),
            states: frames.of(kind::STATE).map(chart_state).collect(),
            transition_elements: Vec::new(),
            actions: frames.of(kind::ACTION).map(action).collect(),
            steps: frames.of(kind::STEP).map(step).collect(),
            stretches: (0..=kind::LAST).map(|k| stretch(frames.positions(k))).collect(),
        };
        model.link_to_elements();
        model.link_to_states(frames);
        model.associate(frames);
        model.connect(frames);
        model.decide_taking();
        model.decide_carried();
        model
    }

    fn link_to_elements(&mut self) {
        for (id, event) in self.event_inputs.iter().enumerate() {
            self.elements[event.element].event_inputs.push(id);
        }
        for (id, event) in self.event_outputs.iter().enumerate() {
            self.elements[event.element].event_outputs.push(id);
        }
        for (id, variable) in self.variables.iter().enumerate() {
            let element = &mut self.elements[variable.element];
            match variable.role {
                Role::Input => element.inputs.push(id),
                Role::Output => element.outputs.push(id),
                Role::Internal => {}
            }
        }
    }

    fn link_to_states(&mut self, frames: &Frames) {
        for (number, frame) in frames.of(kind::TRANSITION).enumerate() {
            let from = &mut self.states[id(frame.a())];
            from.transitions.push(transition(number, frame));
            self.transition_elements.push(from.element);
        }
        for (number, frame) in frames.of(kind::ACTION).enumerate() {
            self.states[id(frame.a())].actions.push(number);
        }
    }

    fn associate(&mut self, frames: &Frames) {
        for frame in frames.of(kind::ASSOCIATION) {
            let associated = if frame.flag == role::INPUT {
                &mut self.event_inputs[id(frame.a())].associated
            } else {
                &mut self.event_outputs[id(frame.a())].associated
            };
            associated.push(id(frame.b()));
        }
    }

    fn connect(&mut self, frames: &Frames) {
        for frame in frames.of(kind::EVENT_CONNECTION) {
            self.event_outputs[id(frame.a())].connections.push(id(frame.b()));
        }
        for frame in frames.of(kind::DATA_CONNECTION) {
            self.variables[id(frame.a())].destinations.push(id(frame.b()));
        }
    }

    fn decide_taking(&mut self) {
        for number in 0..self.event_inputs.len() {
            let event = &self.event_inputs[number];
            let element = &self.elements[event.element];
            let place = place_of(&element.event_inputs, number);
            let taking = match element.kind {
                ElementKind::Interface => Taking::Carry {
                    partners: partners(element, &event.associated),
                    event: element.event_outputs[place],
                },
                // "two event inputs (first START, second STOP)".
                ElementKind::Delay if place == 0 => Taking::Start { dt: element.inputs[0] },
                ElementKind::Delay => Taking::Stop,
                ElementKind::Sink => Taking::Record,
                // A source has no event inputs.
                ElementKind::Basic | ElementKind::Source => Taking::Chart,
            };
            self.event_inputs[number].taking = taking;
        }
    }

    /// An event carries its associated variables; "An interface's output
    /// carries the partners of the inputs associated with its partner event."
    fn decide_carried(&mut self) {
        for event in &mut self.event_outputs {
            event.carried = event.associated.clone();
        }
        for event_input in &self.event_inputs {
            if let Taking::Carry { partners, event } = &event_input.taking {
                self.event_outputs[*event].carried = partners.iter().map(|p| p.1).collect();
            }
        }
    }
}

/// Each associated input of an interface with its partner: "the k-th belong
/// together".
fn partners(interface: &Element, associated: &[usize]) -> Vec<(usize, usize)> {
    let partner = |&input: &usize| {
        let place = place_of(&interface.inputs, input);
        (input, interface.outputs[place])
    };
    associated.iter().map(partner).collect()
}

/// The place of an id in its element's list, which holds it by construction.
fn place_of(list: &[usize], id: usize) -> usize {
    list.iter().position(|&other| other == id).expect("listed by its element")
}

/// The frames of one kind stand together in a table that is not refused.
fn stretch(positions: &[usize]) -> Range<usize> {
    match (positions.first(), positions.last()) {
        (Some(&first), Some(&last)) => first..last + 1,
        _ => 0..0,
    }
}

fn element(frame: &Frame) -> Element {
    let kind = match frame.flag {
        element_flag::BASIC => ElementKind::Basic,
        element_flag::INTERFACE => ElementKind::Interface,
        element_flag::DELAY => ElementKind::Delay,
        element_flag::SOURCE => ElementKind::Source,
        _ => ElementKind::Sink,
    };
    Element {
        kind,
        priority: frame.a(),
        initial_state: (kind == ElementKind::Basic).then(|| id(frame.b())),
        event_inputs: Vec::new(),
        event_outputs: Vec::new(),
        inputs: Vec::new(),
        outputs: Vec::new(),
    }
}

fn event_input(frame: &Frame) -> EventInput {
    EventInput {
        element: id(frame.a()),
        local_priority: frame.flag,
        associated: Vec::new(),
        taking: Taking::Chart,
    }
}

fn event_output(frame: &Frame) -> EventOutput {
    EventOutput {
        element: id(frame.a()),
        connections: Vec::new(),
        associated: Vec::new(),
        carried: Vec::new(),
    }
}

fn variable(frame: &Frame) -> Variable {
    Variable {
        element: id(frame.a()),
        role: match frame.flag {
            role::INPUT => Role::Input,
            role::OUTPUT => Role::Output,
            _ => Role::Internal,
        },
        start: frame.long(1) as i32,
        destinations: Vec::new(),
    }
}

fn chart_state(frame: &Frame) -> ChartState {
    ChartState { element: id(frame.a()), transitions: Vec::new(), actions: Vec::new() }
}

fn transition(number: usize, frame: &Frame) -> Transition {
    Transition {
        id: number,
        to: id(frame.b()),
        event: optional_id(frame.c()),
        guard: Guard { number: frame.flag, d: id(frame.d()), e: id(frame.e()) },
    }
}

fn action(frame: &Frame) -> Action {
    let first = id(frame.b());
    Action { steps: first..first + id(frame.c()), event: optional_id(frame.d()) }
}

fn step(frame: &Frame) -> Step {
    debug_assert!(frame.flag <= operation::AGE);
    Step { operation: frame.flag, result: id(frame.a()), b: id(frame.b()), c: id(frame.c()) }
}
