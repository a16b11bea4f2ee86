//! Takes a frame out of a session together with all that refers to it, so that
//! the other frames still name what they named before. A sound table mostly
//! stays sound, which lets a session shrink by whole elements.

use crate::lines::call_kind;
use crate::rules::used_fields;
use crate::table::{element_flag, kind, role, Frame, NONE};

/// The frames of a session (table and calls) without the one at the position.
pub fn without(frames: &[Frame], position: usize) -> Vec<Frame> {
    let mut session = Session { frames, kept: vec![true; frames.len()] };
    session.drop(position);
    (0..frames.len()).filter(|&p| session.kept[p]).map(|p| session.renewed(p)).collect()
}

struct Session<'f> {
    frames: &'f [Frame],
    kept: Vec<bool>,
}

/// The fields of a frame that refer to something, with its kind. The steps of
/// an action are a stretch and no such reference.
pub fn references(frame: &Frame) -> Vec<(usize, u8)> {
    let event = if frame.flag == role::INPUT { kind::EVENT_INPUT } else { kind::EVENT_OUTPUT };
    let mut references = match frame.kind {
        kind::ELEMENT if frame.flag == element_flag::BASIC => vec![(1, kind::STATE)],
        kind::EVENT_INPUT | kind::EVENT_OUTPUT | kind::VARIABLE | kind::STATE => {
            vec![(0, kind::ELEMENT)]
        }
        kind::ASSOCIATION => vec![(0, event), (1, kind::VARIABLE)],
        kind::TRANSITION => {
            let states = vec![(0, kind::STATE), (1, kind::STATE), (2, kind::EVENT_INPUT)];
            let variables = (3..used_fields(frame)).map(|place| (place, kind::VARIABLE));
            states.into_iter().chain(variables).collect()
        }
        kind::ACTION => vec![(0, kind::STATE), (3, kind::EVENT_OUTPUT)],
        kind::STEP => (0..used_fields(frame)).map(|place| (place, kind::VARIABLE)).collect(),
        kind::EVENT_CONNECTION => vec![(0, kind::EVENT_OUTPUT), (1, kind::EVENT_INPUT)],
        kind::DATA_CONNECTION => vec![(0, kind::VARIABLE), (1, kind::VARIABLE)],
        call_kind::ARRIVAL => vec![(0, kind::EVENT_OUTPUT)],
        _ => Vec::new(),
    };
    references.retain(|&(place, _)| frame.fields[place] != NONE);
    references
}

impl Session<'_> {
    /// The id of the frame at a position within its kind.
    fn id(&self, position: usize) -> usize {
        let kind = self.frames[position].kind;
        self.frames[..position].iter().filter(|frame| frame.kind == kind).count()
    }

    /// Drops a frame and all that refers to it.
    fn drop(&mut self, position: usize) {
        if !std::mem::replace(&mut self.kept[position], false) {
            return;
        }
        let (dropped, id) = (self.frames[position], self.id(position));
        for (p, frame) in self.frames.iter().enumerate() {
            let named = |&(place, kind): &(usize, u8)| {
                kind == dropped.kind && usize::from(frame.fields[place]) == id
            };
            if references(frame).iter().any(named) {
                self.drop(p);
            }
        }
        if dropped.kind == call_kind::ARRIVAL {
            self.values_of(position).for_each(|value| self.kept[value] = false);
        }
        if dropped.kind == kind::ASSOCIATION && dropped.flag == role::OUTPUT {
            self.drop_values(position);
        }
    }

    /// The positions of the values of an arrival, those that are there.
    fn values_of(&self, arrival: usize) -> std::ops::Range<usize> {
        let first = arrival + 1;
        let most = usize::from(self.frames[arrival].flag);
        let is_value = |frame: &&Frame| frame.kind == call_kind::VALUE;
        let number = self.frames[first..].iter().take(most).take_while(is_value).count();
        first..first + number
    }

    /// Drops the value that each arrival gives for an association.
    fn drop_values(&mut self, association: usize) {
        let event = self.frames[association].a();
        let same = |frame: &&Frame| {
            frame.kind == kind::ASSOCIATION && frame.flag == role::OUTPUT && frame.a() == event
        };
        let place = self.frames[..association].iter().filter(same).count();
        for (p, frame) in self.frames.iter().enumerate() {
            if frame.kind == call_kind::ARRIVAL && frame.a() == event {
                if let Some(value) = self.values_of(p).nth(place) {
                    self.kept[value] = false;
                }
            }
        }
    }

    /// How many of the first `end` frames of a kind are kept; ids that do not
    /// exist stay past the last.
    fn kept_before(&self, kind: u8, end: usize) -> usize {
        let of_kind = (0..self.frames.len()).filter(|&p| self.frames[p].kind == kind);
        end - of_kind.take(end).filter(|&p| !self.kept[p]).count()
    }

    /// The frame at a position with its numbers renewed.
    fn renewed(&self, position: usize) -> Frame {
        let mut frame = self.frames[position];
        for (place, kind) in references(&frame) {
            let renewed = self.kept_before(kind, usize::from(frame.fields[place]));
            frame.fields[place] = renewed as u16;
        }
        if frame.kind == kind::ACTION {
            let first = usize::from(frame.b());
            let end = self.kept_before(kind::STEP, first + usize::from(frame.c()));
            let first = self.kept_before(kind::STEP, first);
            frame.fields[1] = first as u16;
            frame.fields[2] = (end - first) as u16;
        }
        if frame.kind == call_kind::ARRIVAL {
            let dropped = self.values_of(position).filter(|&value| !self.kept[value]).count();
            frame.flag -= dropped as u8;
        }
        frame
    }
}
