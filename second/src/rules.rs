//! Refusals 2, 3 and 4: "the lowest faulty frame is named, and on it the
//! lowest number."

use crate::table::{element_flag, kind, operation, role, Frame, Frames, NONE};
use std::collections::{HashMap, HashSet};

/// "A refusal returns its number, the frame for 2 to 4 (else 0)".
#[derive(Clone, Copy, PartialEq, Eq, Debug)]
pub struct Refusal {
    pub number: u8,
    pub frame: usize,
}

impl Refusal {
    /// A refusal that names no frame.
    pub fn plain(number: u8) -> Refusal {
        Refusal { number, frame: 0 }
    }
}

/// "c number of steps, 0 to 64".
const MOST_STEPS: u16 = 64;
/// "a ninth variable for one event" is one too many.
const MOST_ASSOCIATIONS: usize = 8;

/// The refusal of the lowest faulty frame, if any frame is faulty.
pub fn first_fault(frames: &Frames) -> Option<Refusal> {
    let mut earlier = Earlier::new(frames);
    let mut kind_before = 0;
    for (position, frame) in frames.all().iter().enumerate() {
        let id = earlier.next_id(frame.kind);
        let number = if frame.kind < kind_before || !form_holds(frame, id) {
            2
        } else if !references_hold(frames, frame, id) {
            3
        } else if !earlier.network_rule_holds(frame, id) {
            4
        } else {
            kind_before = frame.kind;
            continue;
        };
        let frame = position;
        return Some(Refusal { number, frame });
    }
    None
}

// ---------------------------------------------------------------- number 2

/// Number 2 without the order of kinds: "a frame's kind is unknown [...];
/// flag or step count out of range; an unused field is not zero; the frame
/// exceeds its kind's number".
fn form_holds(frame: &Frame, id: usize) -> bool {
    let Some((greatest_flag, most)) = limits(frame.kind) else {
        return false;
    };
    frame.flag <= greatest_flag
        && id < most
        && frame.fields[used_fields(frame)..].iter().all(|&f| f == 0)
        && (frame.kind != kind::ACTION || frame.c() <= MOST_STEPS)
}

/// The greatest flag of a kind and the greatest number of its frames ("64
/// elements, 256 event inputs, [...]"); `None` for an unknown kind. A kind
/// with no number of its own is held by the number of frames (refusal 1).
pub fn limits(kind: u8) -> Option<(u8, usize)> {
    let limits = match kind {
        kind::ELEMENT => (element_flag::SINK, 64),
        kind::EVENT_INPUT => (u8::MAX, 256),
        kind::EVENT_OUTPUT => (0, 256),
        kind::VARIABLE => (role::INTERNAL, 512),
        kind::ASSOCIATION => (role::OUTPUT, usize::MAX),
        kind::STATE => (0, 512),
        kind::TRANSITION => (4, 1024),
        kind::STEP => (operation::AGE, usize::MAX),
        kind::ACTION | kind::EVENT_CONNECTION | kind::DATA_CONNECTION => (0, usize::MAX),
        _ => return None,
    };
    Some(limits)
}

/// How many of the fields a to e are shown for this frame; those after them
/// are unused ("Fields not shown are zero and are no reference").
///
/// Open point: "Copy and negate use b only, age neither" is read as making the
/// operands not used unused fields, so that a value there is refusal 2.
pub fn used_fields(frame: &Frame) -> usize {
    match (frame.kind, frame.flag) {
        (kind::ELEMENT, element_flag::BASIC) => 2,
        (kind::ELEMENT, _) => 1,
        (kind::VARIABLE, _) => 3,
        (kind::ASSOCIATION | kind::EVENT_CONNECTION | kind::DATA_CONNECTION, _) => 2,
        (kind::TRANSITION, 0) => 3,
        (kind::TRANSITION, _) => 5,
        (kind::ACTION, _) => 4,
        (kind::STEP, operation::COPY | operation::NEGATE) => 2,
        (kind::STEP, operation::AGE) => 1,
        (kind::STEP, _) => 3,
        _ => 1,
    }
}

// ---------------------------------------------------------------- number 3

/// "Wrong reference (3)", for a frame whose form holds.
fn references_hold(frames: &Frames, frame: &Frame, id: usize) -> bool {
    match frame.kind {
        kind::ELEMENT => {
            frame.flag != element_flag::BASIC || initial_state_holds(frames, frame, id)
        }
        kind::EVENT_INPUT | kind::EVENT_OUTPUT | kind::VARIABLE => {
            frames.get(kind::ELEMENT, frame.a()).is_some()
        }
        kind::ASSOCIATION => association_holds(frames, frame),
        kind::STATE => is_element(frames, frame.a(), element_flag::BASIC),
        kind::TRANSITION => transition_holds(frames, frame),
        kind::ACTION => action_holds(frames, frame),
        kind::STEP => step_holds(frames, frame),
        kind::EVENT_CONNECTION => {
            frames.get(kind::EVENT_OUTPUT, frame.a()).is_some()
                && frames.get(kind::EVENT_INPUT, frame.b()).is_some()
        }
        _ => {
            is_variable(frames, frame.a(), role::OUTPUT)
                && is_variable(frames, frame.b(), role::INPUT)
        }
    }
}

/// "A basic element's initial state is its own."
fn initial_state_holds(frames: &Frames, element: &Frame, id: usize) -> bool {
    let owner = frames.owner(kind::STATE, element.b());
    owner.map(usize::from) == Some(id)
}

/// "An association joins an event input and input variable, or event output
/// and output variable, of one element; output associations of an interface
/// are wrong."
fn association_holds(frames: &Frames, frame: &Frame) -> bool {
    let output = frame.flag == role::OUTPUT;
    let event_kind = if output { kind::EVENT_OUTPUT } else { kind::EVENT_INPUT };
    let Some(owner) = frames.owner(event_kind, frame.a()) else {
        return false;
    };
    // The flags of kind 05 are the roles of the variables they join.
    is_variable(frames, frame.b(), frame.flag)
        && frames.owner(kind::VARIABLE, frame.b()) == Some(owner)
        && !(output && is_element(frames, owner, element_flag::INTERFACE))
}

/// "Both states, the event and the variables of a transition are of one
/// element."
fn transition_holds(frames: &Frames, frame: &Frame) -> bool {
    let Some(owner) = frames.owner(kind::STATE, frame.a()) else {
        return false;
    };
    let own = |kind, id| frames.owner(kind, id) == Some(owner);
    own(kind::STATE, frame.b())
        && (frame.c() == NONE || own(kind::EVENT_INPUT, frame.c()))
        && (frame.flag == 0 || (own(kind::VARIABLE, frame.d()) && own(kind::VARIABLE, frame.e())))
}

/// "An action's steps, if any, all exist, each result variable exists and is
/// of the state's element, and the output event is too."
///
/// Open point: an action with no steps may have any number as its first step:
/// "if any" leaves nothing to exist, and the field is shown, so not unused.
fn action_holds(frames: &Frames, frame: &Frame) -> bool {
    let Some(owner) = frames.owner(kind::STATE, frame.a()) else {
        return false;
    };
    let own = |kind, id| frames.owner(kind, id) == Some(owner);
    let first = u32::from(frame.b());
    let steps_hold = (first..first + u32::from(frame.c())).all(|id| {
        let step = u16::try_from(id).ok().and_then(|id| frames.get(kind::STEP, id));
        step.is_some_and(|step| own(kind::VARIABLE, step.a()))
    });
    steps_hold && (frame.d() == NONE || own(kind::EVENT_OUTPUT, frame.d()))
}

/// "A step's variables are of one basic element, and its result is not an
/// input."
fn step_holds(frames: &Frames, frame: &Frame) -> bool {
    let Some(owner) = frames.owner(kind::VARIABLE, frame.a()) else {
        return false;
    };
    is_element(frames, owner, element_flag::BASIC)
        && !is_variable(frames, frame.a(), role::INPUT)
        && frame.fields[1..used_fields(frame)]
            .iter()
            .all(|&operand| frames.owner(kind::VARIABLE, operand) == Some(owner))
}

fn is_element(frames: &Frames, id: u16, flag: u8) -> bool {
    frames.get(kind::ELEMENT, id).is_some_and(|f| f.flag == flag)
}

fn is_variable(frames: &Frames, id: u16, flag: u8) -> bool {
    frames.get(kind::VARIABLE, id).is_some_and(|f| f.flag == flag)
}

// ---------------------------------------------------------------- number 4

/// What the frames before the present one hold, as far as a network rule
/// speaks of "an earlier" one, and the shape of every element.
struct Earlier {
    ids: HashMap<u8, usize>,
    shapes: Vec<Shape>,
    priorities: HashSet<u16>,
    local_priorities: HashSet<(u16, u8)>,
    associations: HashSet<(u8, u16, u16)>,
    associations_of_event: HashMap<(u8, u16), usize>,
    event_connections: HashSet<(u16, u16)>,
    destinations: HashSet<u16>,
}

impl Earlier {
    fn new(frames: &Frames) -> Earlier {
        Earlier {
            ids: HashMap::new(),
            shapes: shapes(frames),
            priorities: HashSet::new(),
            local_priorities: HashSet::new(),
            associations: HashSet::new(),
            associations_of_event: HashMap::new(),
            event_connections: HashSet::new(),
            destinations: HashSet::new(),
        }
    }

    /// "Frames count from 0, ids from 0 within a kind."
    fn next_id(&mut self, kind: u8) -> usize {
        let next = self.ids.entry(kind).or_insert(0);
        *next += 1;
        *next - 1
    }

    /// "Network rule (4)", for a frame whose form and references hold; also
    /// notes the frame for the frames after it.
    fn network_rule_holds(&mut self, frame: &Frame, id: usize) -> bool {
        match frame.kind {
            kind::ELEMENT => self.priorities.insert(frame.a()) && self.shapes[id].holds(frame.flag),
            kind::EVENT_INPUT => self.local_priorities.insert((frame.a(), frame.flag)),
            kind::ASSOCIATION => self.association_is_new(frame),
            kind::EVENT_CONNECTION => self.event_connections.insert((frame.a(), frame.b())),
            kind::DATA_CONNECTION => self.destinations.insert(frame.b()),
            _ => true,
        }
    }

    /// "a pair repeated (under the same flag); [...] also a ninth variable for
    /// one event". An event input and an event output of one number are two
    /// events, so the count is under the flag too.
    fn association_is_new(&mut self, frame: &Frame) -> bool {
        let count = self.associations_of_event.entry((frame.flag, frame.a())).or_insert(0);
        *count += 1;
        *count <= MOST_ASSOCIATIONS && self.associations.insert((frame.flag, frame.a(), frame.b()))
    }
}

/// How many events and variables name an element as theirs.
#[derive(Clone, Default)]
struct Shape {
    event_inputs: usize,
    event_outputs: usize,
    inputs: usize,
    outputs: usize,
    internals: usize,
    /// Variables of any flag.
    variables: usize,
}

/// Open point: a variable whose flag is out of range (a later frame's refusal
/// 2) is a variable that is neither input, output nor internal. So it breaks
/// "only output variables", "only input variables" and "one variable, an
/// input", but not "as many input as output variables, and no internal ones".
fn shapes(frames: &Frames) -> Vec<Shape> {
    let mut shapes = vec![Shape::default(); frames.count(kind::ELEMENT)];
    for frame in frames.all() {
        let Some(shape) = shapes.get_mut(usize::from(frame.a())) else {
            continue;
        };
        match (frame.kind, frame.flag) {
            (kind::EVENT_INPUT, _) => shape.event_inputs += 1,
            (kind::EVENT_OUTPUT, _) => shape.event_outputs += 1,
            (kind::VARIABLE, role::INPUT) => shape.inputs += 1,
            (kind::VARIABLE, role::OUTPUT) => shape.outputs += 1,
            (kind::VARIABLE, role::INTERNAL) => shape.internals += 1,
            _ => {}
        }
        if frame.kind == kind::VARIABLE {
            shape.variables += 1;
        }
    }
    shapes
}

impl Shape {
    /// Whether this is the shape of an element with that flag.
    fn holds(&self, flag: u8) -> bool {
        match flag {
            // "A source has no event inputs and only output variables."
            element_flag::SOURCE => self.event_inputs == 0 && self.outputs == self.variables,
            // "A sink has no event outputs and only input variables."
            element_flag::SINK => self.event_outputs == 0 && self.inputs == self.variables,
            // "An interface has as many event inputs as outputs and as many
            // input as output variables, and no internal ones".
            element_flag::INTERFACE => {
                self.event_inputs == self.event_outputs
                    && self.inputs == self.outputs
                    && self.internals == 0
            }
            // "A delay has two event inputs [...], one event output, one
            // variable, an input (DT)."
            element_flag::DELAY => {
                self.event_inputs == 2
                    && self.event_outputs == 1
                    && self.variables == 1
                    && self.inputs == 1
            }
            // No rule speaks of the shape of a basic element.
            _ => true,
        }
    }
}
