//! "Views. One gives the frames of one kind, one the steps of one action. The
//! answer is the stretch of the lent table that holds them; for a refused
//! table or an unknown number it is empty."

use crate::model::check;
use crate::table::{kind, FRAME_BYTES};
use std::ops::Range;

/// A stretch of the lent table.
#[derive(Clone, Copy, PartialEq, Eq, Debug)]
pub struct View<'t> {
    /// Where the stretch begins, in bytes.
    pub offset: usize,
    pub bytes: &'t [u8],
}

/// The frames of one kind.
pub fn frames_of(table: &[u8], kind: u32) -> View<'_> {
    let stretch = check(table)
        .ok()
        .and_then(|model| model.stretches.get(usize::try_from(kind).ok()?).cloned());
    view(table, stretch)
}

/// The steps of one action, the action named by its id.
pub fn steps_of(table: &[u8], action: u32) -> View<'_> {
    let stretch = check(table).ok().and_then(|model| {
        let steps = &model.actions.get(usize::try_from(action).ok()?)?.steps;
        let first = model.stretches[usize::from(kind::STEP)].start;
        Some(first + steps.start..first + steps.end)
    });
    view(table, stretch)
}

/// Open point: where an empty stretch begins. It has no place in the table,
/// so every empty view begins at 0.
fn view(table: &[u8], frames: Option<Range<usize>>) -> View<'_> {
    match frames {
        Some(frames) if !frames.is_empty() => {
            let offset = frames.start * FRAME_BYTES;
            let bytes = &table[offset..frames.end * FRAME_BYTES];
            View { offset, bytes }
        }
        _ => View { offset: 0, bytes: &[] },
    }
}
