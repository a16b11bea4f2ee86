//! The reader of a trace: "takes the starting store and the trace and shows
//! the store's chart states and values after any frame".

use crate::calls::Checked;
use crate::lines::{frame_of_line, lines_of};
use crate::model::{ElementKind, Model};
use crate::rules::Refusal;
use crate::store::{chart_state_at, value_at};
use crate::table::{Frame, FRAME_BYTES};
use crate::trace::{trace_kind, value_kind, HAPPENED, TRACE};
use crate::watch::{Sight, Watch};

/// What a reading tells. Refusal 0 is acceptance.
#[derive(Clone, Copy, PartialEq, Eq, Default, Debug)]
pub struct Shown {
    pub refusal: u8,
    pub frame: usize,
    /// How many frames were read.
    pub shown: usize,
    /// The line that ended the reading, from 1; 0 for none.
    pub line: usize,
}

/// How a reading ended.
#[derive(Clone, Copy, PartialEq, Eq, Debug)]
pub enum Ending {
    /// So many frames were read as were asked for: none, fewer than there are
    /// lines, or all. Lines after them are not looked at.
    AskedNone,
    AskedFewer,
    AskedAll,
    /// More frames were asked for than there are lines: the text is empty, or
    /// its last line is ended by 0A, or not.
    TextEmpty,
    TextEnded,
    TextOpen,
    /// A line ended it.
    Line(Fault),
}

/// Why a line ends the reading: "A line of a wrong form, an unknown block, or
/// an id or chart state not of that block and kind ends the reading there".
/// Where a line has several faults, the first in this order is named.
///
/// Open point: what a wrong form is. All that the form of a line says: 24
/// upper-case digits and nothing else, 84, a known kind, b zero where no id is
/// named, the value 1 for kinds 4 to 8, e zero.
#[derive(Clone, Copy, PartialEq, Eq, PartialOrd, Ord, Debug)]
pub enum Fault {
    Empty,
    Return,
    Short,
    Long,
    LowerCase,
    NoDigit,
    /// It does not begin 84.
    NoTrace,
    UnknownKind,
    /// e is not zero.
    Rest,
    /// b is not zero where no id is named.
    SurplusId,
    /// The value is not 1 for a kind that tells what happened.
    NotOne,
    UnknownBlock,
    StateWithoutChart,
    StateUnknown,
    StateOfAnother,
    VariableUnknown,
    VariableOfAnother,
    VariableOfAnotherKind,
    EventInputUnknown,
    EventInputOfAnother,
    EventOutputUnknown,
    EventOutputOfAnother,
    TransitionUnknown,
    TransitionOfAnother,
}

impl Fault {
    /// Every fault, in its order.
    pub const ALL: [Fault; 24] = [
        Fault::Empty,
        Fault::Return,
        Fault::Short,
        Fault::Long,
        Fault::LowerCase,
        Fault::NoDigit,
        Fault::NoTrace,
        Fault::UnknownKind,
        Fault::Rest,
        Fault::SurplusId,
        Fault::NotOne,
        Fault::UnknownBlock,
        Fault::StateWithoutChart,
        Fault::StateUnknown,
        Fault::StateOfAnother,
        Fault::VariableUnknown,
        Fault::VariableOfAnother,
        Fault::VariableOfAnotherKind,
        Fault::EventInputUnknown,
        Fault::EventInputOfAnother,
        Fault::EventOutputUnknown,
        Fault::EventOutputOfAnother,
        Fault::TransitionUnknown,
        Fault::TransitionOfAnother,
    ];
}

/// The starting store becomes the store shown after at most so many frames.
pub fn show(table: &[u8], store: &mut [u32], text: &[u8], frames: usize) -> Shown {
    Checked::of(table).show(store, text, frames, &mut ())
}

impl Checked {
    /// Open point: its refusals. They are 1 to 5: it looks at no word that "well
    /// formed" speaks of, so that a store once shown can be shown on.
    pub fn show(
        &self,
        store: &mut [u32],
        text: &[u8],
        frames: usize,
        watch: &mut impl Watch,
    ) -> Shown {
        match self.model_for(store) {
            Ok(model) => {
                let (shown, ending) = read(model, store, text, frames);
                watch.see(Sight::Read(ending));
                let line = if matches!(ending, Ending::Line(_)) { shown + 1 } else { 0 };
                Shown { shown, line, ..Shown::default() }
            }
            Err(Refusal { number, frame }) => Shown { refusal: number, frame, ..Shown::default() },
        }
    }
}

/// Reads lines up to the end of the reading; how many, and how it ended.
///
/// Open point: a faulty line after so many frames as are asked for. It is not
/// looked at, and so ends nothing.
fn read(model: &Model, store: &mut [u32], text: &[u8], frames: usize) -> (usize, Ending) {
    let lines = lines_of(text);
    let shown = frames.min(lines.len());
    for (before, line) in lines[..shown].iter().enumerate() {
        match judge(model, line) {
            Ok(frame) => apply(model, &frame, store),
            Err(fault) => return (before, Ending::Line(fault)),
        }
    }
    let ending = match text.last() {
        _ if frames == 0 => Ending::AskedNone,
        _ if frames < lines.len() => Ending::AskedFewer,
        _ if frames == lines.len() => Ending::AskedAll,
        None => Ending::TextEmpty,
        Some(b'\n') => Ending::TextEnded,
        Some(_) => Ending::TextOpen,
    };
    (shown, ending)
}

/// Chart states and values are shown, all else stays.
fn apply(model: &Model, frame: &Frame, store: &mut [u32]) {
    let value = frame.long(2);
    match frame.flag {
        trace_kind::CHART_STATE => store[chart_state_at(model, block(frame))] = value,
        trace_kind::INTERNAL | trace_kind::INPUT | trace_kind::OUTPUT => {
            store[value_at(model, id(frame))] = value;
        }
        _ => {}
    }
}

fn block(frame: &Frame) -> usize {
    usize::from(frame.a())
}

fn id(frame: &Frame) -> usize {
    usize::from(frame.b())
}

/// The frame of a line that does not end the reading.
fn judge(model: &Model, line: &[u8]) -> Result<Frame, Fault> {
    let frame = judge_digits(line)?;
    judge_form(&frame)?;
    judge_names(model, &frame)?;
    Ok(frame)
}

/// "a line of 24 digits", upper case as all lines.
fn judge_digits(line: &[u8]) -> Result<Frame, Fault> {
    if line.is_empty() {
        return Err(Fault::Empty);
    }
    if line.contains(&b'\r') {
        return Err(Fault::Return);
    }
    if line.len() != 2 * FRAME_BYTES {
        return Err(if line.len() < 2 * FRAME_BYTES { Fault::Short } else { Fault::Long });
    }
    let lower_case = line.iter().any(|byte| matches!(byte, b'a'..=b'f'));
    frame_of_line(line).ok_or(if lower_case { Fault::LowerCase } else { Fault::NoDigit })
}

/// "84; flag the kind; [...] b id of the variable, event or transition, else
/// zero; c, d new value (1 for kinds 4 to 8); e zero".
fn judge_form(frame: &Frame) -> Result<(), Fault> {
    let names_id = matches!(
        frame.flag,
        trace_kind::INTERNAL..=trace_kind::OUTPUT | trace_kind::SELECTED..=trace_kind::ENABLED
    );
    let happened = matches!(frame.flag, trace_kind::STARTED..=trace_kind::ENABLED);
    if frame.kind != TRACE {
        Err(Fault::NoTrace)
    } else if frame.flag > trace_kind::LAST {
        Err(Fault::UnknownKind)
    } else if frame.e() != 0 {
        Err(Fault::Rest)
    } else if !names_id && frame.b() != 0 {
        Err(Fault::SurplusId)
    } else if happened && frame.long(2) != HAPPENED {
        Err(Fault::NotOne)
    } else {
        Ok(())
    }
}

/// "an unknown block, or an id or chart state not of that block and kind", for
/// a frame whose form holds.
///
/// Open point: whether a frame can have come about. That is not asked: any
/// block may start or end, a source too, an action or step number may be any,
/// and frames may stand in any order.
fn judge_names(model: &Model, frame: &Frame) -> Result<(), Fault> {
    if block(frame) >= model.elements.len() {
        return Err(Fault::UnknownBlock);
    }
    match frame.flag {
        trace_kind::CHART_STATE => judge_state(model, frame),
        trace_kind::INTERNAL | trace_kind::INPUT | trace_kind::OUTPUT => {
            judge_variable(model, frame)
        }
        trace_kind::SELECTED => {
            let owner = model.event_inputs.get(id(frame)).map(|event| event.element);
            judge_owner(frame, owner, Fault::EventInputUnknown, Fault::EventInputOfAnother)
        }
        trace_kind::EMITTED => {
            let owner = model.event_outputs.get(id(frame)).map(|event| event.element);
            judge_owner(frame, owner, Fault::EventOutputUnknown, Fault::EventOutputOfAnother)
        }
        trace_kind::ENABLED => {
            let owner = model.transition_elements.get(id(frame)).copied();
            judge_owner(frame, owner, Fault::TransitionUnknown, Fault::TransitionOfAnother)
        }
        // 4, 5, 9 and 10 name a block only.
        _ => Ok(()),
    }
}

/// Kind 0. A block without a chart has no chart state, not even 0.
fn judge_state(model: &Model, frame: &Frame) -> Result<(), Fault> {
    if model.elements[block(frame)].kind != ElementKind::Basic {
        return Err(Fault::StateWithoutChart);
    }
    let state = usize::try_from(frame.long(2)).ok().and_then(|id| model.states.get(id));
    let owner = state.map(|state| state.element);
    judge_owner(frame, owner, Fault::StateUnknown, Fault::StateOfAnother)
}

/// Kinds 1 to 3.
fn judge_variable(model: &Model, frame: &Frame) -> Result<(), Fault> {
    let variable = model.variables.get(id(frame));
    let owner = variable.map(|variable| variable.element);
    judge_owner(frame, owner, Fault::VariableUnknown, Fault::VariableOfAnother)?;
    match variable {
        Some(variable) if value_kind(variable.role) == frame.flag => Ok(()),
        _ => Err(Fault::VariableOfAnotherKind),
    }
}

/// What a frame names must exist and be of the frame's block.
fn judge_owner(
    frame: &Frame,
    owner: Option<usize>,
    unknown: Fault,
    of_another: Fault,
) -> Result<(), Fault> {
    match owner {
        None => Err(unknown),
        Some(owner) if owner != block(frame) => Err(of_another),
        Some(_) => Ok(()),
    }
}
