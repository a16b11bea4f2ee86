//! What the machine and the step program tell a watcher while they work. The
//! watcher counts (see [`crate::coverage`]) and can change nothing.

use crate::arithmetic::Outcome;
use crate::calls::Held;
use crate::model::ElementKind;
use crate::reader::Ending;
use crate::store::LoneFault;

/// One thing that happened when running.
#[derive(Clone, Copy, PartialEq, Eq, Debug)]
pub enum Sight {
    /// An event of an element of this kind was taken or, for a source, arrived.
    Element(ElementKind),
    /// A step with this operation number was executed, on this value of b.
    Step { operation: u8, b: i32, outcome: Outcome },
    /// A guard with this number was evaluated.
    Guard(u8),
    /// An input that waited already was given a new event.
    Overwritten,
    /// An interface fired into an input of an interface.
    Chained,
    /// The step program loaded a table: no delay is due.
    Loaded,
    /// START made a delay due at this time; before that the next due time was
    /// that of others.
    Started { delay: usize, now: u32, due: u32, next: Option<u32> },
    /// START was taken while the delay was due: that time stays, and not the one
    /// that DT would give. It renews DT if the value sampled is another. The next
    /// due time may be another delay's.
    StartIgnored { delay: usize, now: u32, due: u32, instead: u32, renews: bool, next: u32 },
    /// STOP was taken while the delay was due at this time or not due; after that
    /// the next due time is that of others.
    StopTaken { due: Option<u32>, next: Option<u32> },
    /// STOP was taken while the delay was due.
    StoppedInTime(Cleared),
    /// A delay fired on advance.
    Expired(Cleared),
    /// An advance fired so many delays and left this next due time.
    Advanced { fired: usize, next: Option<u32> },
    /// A call found a store well formed, with this next due time.
    Found(Option<u32>),
    /// A call that was not refused left this next due time.
    Left(Option<u32>),
    /// A record was written.
    Record,
    /// A run ended with this many moves and this stop number.
    Stopped { moves: u32, stop: u8 },
    /// A load or call was refused; for 2, 3 and 4 the kind byte of the frame.
    Refused { number: u8, kind: Option<u8> },
    /// A line of any other form or place, or a missing 82.
    Malformed,
    /// A frame of this kind was traced.
    Traced(u8),
    /// A run was held up before a move.
    Held(Held),
    /// A trace was read up to here.
    Read(Ending),
    /// A run with so many untrue steps found and left these counts of them.
    Counted { traced: bool, untrue: u32, before: u32, after: u32 },
    /// A store was not well formed because of these words alone.
    NotWellFormed(LoneFault),
}

/// A delay that is due no more.
#[derive(Clone, Copy, PartialEq, Eq, Debug)]
pub struct Cleared {
    pub delay: usize,
    pub now: u32,
    /// Whether START waits, fired while the delay was due and not taken yet.
    pub start_waits: bool,
    /// Whether its output leads anywhere, so that a run tells that it fired.
    pub leads: bool,
}

pub trait Watch {
    fn see(&mut self, sight: Sight);
}

/// The watcher of those who want to know nothing.
impl Watch for () {
    fn see(&mut self, _: Sight) {}
}

/// Two watchers see the same.
impl<A: Watch, B: Watch> Watch for (A, B) {
    fn see(&mut self, sight: Sight) {
        self.0.see(sight);
        self.1.see(sight);
    }
}
