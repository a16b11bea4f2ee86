//! Makes a session that shows a difference small, keeping a difference.

use crate::lines::{frame_of_line, lines_of, shortest_line};
use crate::renumber::without;
use crate::table::Frame;
use std::time::Instant;

/// A session no longer than `input` for which `differs` still holds. Ends at
/// the deadline with the smallest one found until then.
pub fn shrink(input: &[u8], deadline: Instant, differs: impl FnMut(&[u8]) -> bool) -> Vec<u8> {
    let mut shrinker = Shrinker {
        smallest: lines_of(input).iter().map(|line| line.to_vec()).collect(),
        deadline,
        differs,
    };
    if !shrinker.try_lines(shrinker.smallest.clone()) {
        // The difference hangs on the form of the end; nothing is taken away.
        return input.to_vec();
    }
    shrinker.remove_stretches();
    while shrinker.remove_frames() {
        shrinker.remove_stretches();
    }
    joined(&shrinker.smallest)
}

/// The lines, each ended by 0A.
fn joined(lines: &[Vec<u8>]) -> Vec<u8> {
    lines.iter().flat_map(|line| line.iter().chain(b"\n")).copied().collect()
}

struct Shrinker<F> {
    smallest: Vec<Vec<u8>>,
    deadline: Instant,
    differs: F,
}

impl<F: FnMut(&[u8]) -> bool> Shrinker<F> {
    fn time_left(&self) -> bool {
        Instant::now() < self.deadline
    }

    /// Keeps the lines if they show a difference.
    fn try_lines(&mut self, lines: Vec<Vec<u8>>) -> bool {
        let differs = self.time_left() && (self.differs)(&joined(&lines));
        if differs {
            self.smallest = lines;
        }
        differs
    }

    /// Takes away stretches of lines, from half of all down to single ones,
    /// and again while single lines could be taken away.
    fn remove_stretches(&mut self) {
        let mut length = self.smallest.len().div_ceil(2);
        while length > 0 && self.time_left() {
            let removed = self.remove_stretches_of(length);
            if length > 1 || !removed {
                length /= 2;
            }
        }
    }

    /// One pass from the end to the start; true if something was taken away.
    fn remove_stretches_of(&mut self, length: usize) -> bool {
        let mut removed = false;
        let mut end = self.smallest.len();
        while end > 0 && self.time_left() {
            let start = end.saturating_sub(length);
            let mut lines = self.smallest.clone();
            lines.drain(start..end);
            removed |= self.try_lines(lines);
            end = start;
        }
        removed
    }

    /// Takes away frames with all that refers to them, elements first; true
    /// if something was taken away. A session with a malformed line has none.
    fn remove_frames(&mut self) -> bool {
        let mut removed = false;
        let mut position = 0;
        while self.time_left() {
            let frames: Option<Vec<Frame>> =
                self.smallest.iter().map(|line| frame_of_line(line)).collect();
            let Some(frames) = frames.filter(|frames| position < frames.len()) else {
                break;
            };
            let lines = without(&frames, position).iter().map(shortest_line).collect();
            if self.try_lines(lines) {
                removed = true;
            } else {
                position += 1;
            }
        }
        removed
    }
}
