//! Lines that end the reading of a trace, and good ones. A faulty line is a
//! good one with one thing wrong, so that nothing else ends the reading there.

use super::rng::Rng;
use super::skeleton::field;
use crate::lines::digits;
use crate::model::{ElementKind, Model, Role};
use crate::reader::Fault;
use crate::table::{halves, Frame};
use crate::trace::{trace_kind, value_kind, HAPPENED, TRACE};

/// A line with this fault; `None` if the network has nothing to make it of.
pub fn faulty_line(rng: &mut Rng, model: &Model, fault: Fault) -> Option<Vec<u8>> {
    match fault {
        Fault::Empty => Some(Vec::new()),
        Fault::Return | Fault::Short | Fault::Long | Fault::NoDigit => {
            let mut line = good_line(rng, model);
            spoil(rng, &mut line, fault);
            Some(line)
        }
        Fault::LowerCase => {
            // The digit of this kind is a letter.
            let frame = Network { model }.plain(rng, trace_kind::STEP);
            Some(digits(&frame.to_bytes()).to_ascii_lowercase())
        }
        _ => {
            let frame = Network { model }.faulty(rng, fault)?;
            Some(digits(&frame.to_bytes()))
        }
    }
}

/// A line of any kind that the network has something for.
pub fn good_line(rng: &mut Rng, model: &Model) -> Vec<u8> {
    digits(&Network { model }.any_good(rng).to_bytes())
}

/// Spoils the characters of a line, mostly so that a reader which is lenient
/// would take it.
fn spoil(rng: &mut Rng, line: &mut Vec<u8>, fault: Fault) {
    let place = rng.below(line.len());
    match fault {
        Fault::Return if rng.chance(50) => line.push(b'\r'),
        Fault::Return => line[place] = b'\r',
        Fault::Short => line.truncate(rng.pick(&[20, 20, 22, 23, place.max(1)])),
        Fault::Long => line.resize(rng.pick(&[25, 26, 26, 28, 48]), b'0'),
        // The neighbours of the digits, and others.
        _ => line[place] = rng.pick(b"/:@G`gxX -+\t\0\xB0\xFF"),
    }
}

/// A network, of whose blocks and ids frames are made.
struct Network<'m> {
    model: &'m Model,
}

impl Network<'_> {
    /// Kinds 4, 5, 9 and 10 are good for every block.
    fn any_good(&self, rng: &mut Rng) -> Frame {
        let kind = rng.between(0, usize::from(trace_kind::LAST)) as u8;
        self.good(rng, kind).unwrap_or_else(|| self.plain(rng, trace_kind::STEP))
    }

    /// A good frame of one of these kinds.
    fn good_of(&self, rng: &mut Rng, kinds: &[u8]) -> Option<Frame> {
        let kind = rng.pick(kinds);
        self.good(rng, kind)
    }

    /// A good frame of a kind.
    fn good(&self, rng: &mut Rng, kind: u8) -> Option<Frame> {
        let model = self.model;
        let value = rng.value(false) as u32;
        Some(match kind {
            trace_kind::CHART_STATE => {
                let state = any_of(rng, model.states.len())?;
                frame(kind, model.states[state].element, 0, state as u32)
            }
            trace_kind::INTERNAL => self.variable(rng, Role::Internal, value)?,
            trace_kind::INPUT => self.variable(rng, Role::Input, value)?,
            trace_kind::OUTPUT => self.variable(rng, Role::Output, value)?,
            trace_kind::SELECTED => {
                let event = any_of(rng, model.event_inputs.len())?;
                frame(kind, model.event_inputs[event].element, event, HAPPENED)
            }
            trace_kind::EMITTED => {
                let event = any_of(rng, model.event_outputs.len())?;
                frame(kind, model.event_outputs[event].element, event, HAPPENED)
            }
            trace_kind::ENABLED => {
                let transition = any_of(rng, model.transition_elements.len())?;
                frame(kind, model.transition_elements[transition], transition, HAPPENED)
            }
            _ => self.plain(rng, kind),
        })
    }

    /// A frame of a kind that names a block only.
    fn plain(&self, rng: &mut Rng, kind: u8) -> Frame {
        let numbers = matches!(kind, trace_kind::ACTION | trace_kind::STEP);
        let value = if numbers { rng.value(false) as u32 } else { HAPPENED };
        frame(kind, self.block(rng), 0, value)
    }

    fn variable(&self, rng: &mut Rng, role: Role, value: u32) -> Option<Frame> {
        let variables = &self.model.variables;
        let of_role: Vec<usize> =
            (0..variables.len()).filter(|&id| variables[id].role == role).collect();
        let id = rng.pick_any(&of_role)?;
        Some(frame(value_kind(role), variables[id].element, id, value))
    }

    fn block(&self, rng: &mut Rng) -> usize {
        rng.below(self.model.elements.len())
    }

    /// A block that is basic, or one that is not, and not the one left out.
    fn block_of(&self, rng: &mut Rng, basic: bool, left_out: u16) -> Option<u16> {
        let elements = self.model.elements.iter().enumerate();
        let suits = elements.filter(|(_, element)| (element.kind == ElementKind::Basic) == basic);
        let blocks: Vec<u16> = suits.map(|(id, _)| field(id)).collect();
        let others: Vec<u16> = blocks.into_iter().filter(|&id| id != left_out).collect();
        rng.pick_any(&others)
    }

    // ------------------------------------------------------------ faults

    /// A frame with one thing wrong in its form, its block or its id.
    fn faulty(&self, rng: &mut Rng, fault: Fault) -> Option<Frame> {
        match fault {
            Fault::NoTrace | Fault::UnknownKind | Fault::Rest | Fault::UnknownBlock => {
                let mut frame = self.any_good(rng);
                self.spoil_any(rng, &mut frame, fault);
                Some(frame)
            }
            Fault::SurplusId => {
                let mut frame = self.good_of(rng, &[0, 4, 5, 9, 10])?;
                frame.fields[1] = rng.pick(&[1, 1, 2, 0x100, 0xFFFF, 7]);
                Some(frame)
            }
            Fault::NotOne => {
                let frame = self.good_of(rng, &[4, 5, 6, 7, 8])?;
                Some(with_value(frame, rng.pick(&[0, 2, 0x1_0000, 0x1_0001, 0x100, u32::MAX])))
            }
            Fault::StateWithoutChart | Fault::StateUnknown | Fault::StateOfAnother => {
                self.faulty_state(rng, fault)
            }
            Fault::VariableOfAnotherKind => {
                let mut frame = self.good_of(rng, &[1, 2, 3])?;
                frame.flag = frame.flag % 3 + 1;
                if rng.chance(50) {
                    frame.flag = frame.flag % 3 + 1;
                }
                Some(frame)
            }
            _ => self.faulty_id(rng, fault),
        }
    }

    /// Spoils a frame of any kind.
    fn spoil_any(&self, rng: &mut Rng, frame: &mut Frame, fault: Fault) {
        let blocks = field(self.model.elements.len());
        match fault {
            Fault::NoTrace => frame.kind = rng.pick(&[0x83, 0x85, 0x80, 0x04, 0x48, 0xC4, 0]),
            Fault::UnknownKind => frame.flag = rng.pick(&[11, 11, 12, 16, 0x80, 0x8A, 0xFF]),
            Fault::Rest => frame.fields[4] = rng.pick(&[1, 2, 0x100, 0x8000, 0xFFFF]),
            _ => frame.fields[0] = rng.pick(&[blocks, blocks, blocks + 1, 64, 0x100, 0xFFFF]),
        }
    }

    fn faulty_state(&self, rng: &mut Rng, fault: Fault) -> Option<Frame> {
        let mut frame = self.good(rng, trace_kind::CHART_STATE)?;
        let states = self.model.states.len() as u32;
        match fault {
            Fault::StateWithoutChart => {
                frame.fields[0] = self.block_of(rng, false, u16::MAX)?;
                Some(with_value(frame, rng.pick(&[0, frame.long(2), states])))
            }
            Fault::StateUnknown => {
                let high = 0x1_0000 + frame.long(2);
                Some(with_value(frame, rng.pick(&[states, states + 1, high, u32::MAX])))
            }
            _ => {
                frame.fields[0] = self.block_of(rng, true, frame.a())?;
                Some(frame)
            }
        }
    }

    /// A variable, event or transition past the last, or of another block.
    fn faulty_id(&self, rng: &mut Rng, fault: Fault) -> Option<Frame> {
        let model = self.model;
        let (kind, number) = match fault {
            Fault::VariableUnknown | Fault::VariableOfAnother => {
                (rng.pick(&[1, 2, 3]), model.variables.len())
            }
            Fault::EventInputUnknown | Fault::EventInputOfAnother => {
                (trace_kind::SELECTED, model.event_inputs.len())
            }
            Fault::EventOutputUnknown | Fault::EventOutputOfAnother => {
                (trace_kind::EMITTED, model.event_outputs.len())
            }
            _ => (trace_kind::ENABLED, model.transition_elements.len()),
        };
        let mut frame = self.good(rng, kind)?;
        let unknown = matches!(
            fault,
            Fault::VariableUnknown
                | Fault::EventInputUnknown
                | Fault::EventOutputUnknown
                | Fault::TransitionUnknown
        );
        if unknown {
            let last = field(number);
            frame.fields[1] = rng.pick(&[last, last, last + 1, 0x8000, 0xFFFF]);
        } else {
            let basic = rng.chance(50);
            frame.fields[0] = self.block_of(rng, basic, frame.a())?;
        }
        Some(frame)
    }
}

fn frame(kind: u8, block: usize, id: usize, value: u32) -> Frame {
    let [high, low] = halves(value);
    Frame::new(TRACE, kind, &[field(block), field(id), high, low])
}

fn with_value(mut frame: Frame, value: u32) -> Frame {
    [frame.fields[2], frame.fields[3]] = halves(value);
    frame
}

/// One of so many ids.
fn any_of(rng: &mut Rng, number: usize) -> Option<usize> {
    (number > 0).then(|| rng.below(number))
}
