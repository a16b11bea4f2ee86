//! The calls as a host in C makes them: what is lent, what is answered and
//! what is left, in the numbers of the C interface.

use crate::calls::{Answer, Checked};
use crate::store::need;
use crate::trace::Trace;
use crate::views::{frames_of, steps_of, View};
use crate::watch::Watch;

#[derive(Clone, PartialEq, Eq, Debug)]
pub enum Call {
    Check,
    Need,
    Load,
    Advance { to: u32 },
    Arrival { event: u64, birth: u32, values: Vec<i32> },
    Run { budget: u32, output: Vec<u8> },
    FramesOf { kind: u64 },
    StepsOf { action: u64 },
    RunTraced { budget: u32, output: Vec<u8>, trace: Vec<u8> },
    Show { text: Vec<u8>, frames: u64 },
}

/// The names of the calls, by [`Call::number`].
pub const NAMES: [&str; 10] = [
    "check",
    "need",
    "load",
    "advance",
    "arrival",
    "run",
    "frames_of",
    "steps_of",
    "run_traced",
    "show",
];

impl Call {
    pub fn number(&self) -> usize {
        match self {
            Call::Check => 0,
            Call::Need => 1,
            Call::Load => 2,
            Call::Advance { .. } => 3,
            Call::Arrival { .. } => 4,
            Call::Run { .. } => 5,
            Call::FramesOf { .. } => 6,
            Call::StepsOf { .. } => 7,
            Call::RunTraced { .. } => 8,
            Call::Show { .. } => 9,
        }
    }

    /// The output buffer that it is lent.
    pub fn output(&self) -> &[u8] {
        match self {
            Call::Run { output, .. } | Call::RunTraced { output, .. } => output,
            _ => &[],
        }
    }

    /// The trace room that it is lent.
    pub fn trace(&self) -> &[u8] {
        match self {
            Call::RunTraced { trace, .. } => trace,
            _ => &[],
        }
    }
}

/// A call with all that it is lent.
#[derive(Clone, PartialEq, Eq, Debug)]
pub struct Request {
    pub table: Vec<u8>,
    pub store: Vec<u32>,
    pub call: Call,
}

/// What a call answers and leaves.
#[derive(Clone, PartialEq, Eq, Default, Debug)]
pub struct Reply {
    /// Refusal number * 65536 + frame; of `need` and the views a length.
    pub answer: u64,
    pub moves: u64,
    pub stop: u64,
    /// Bytes written by a run, or the start of a view.
    pub bytes: u64,
    /// Bytes of a run's trace.
    pub traced: u64,
    /// Frames that were shown, and the line that ended the reading.
    pub shown: u64,
    pub line: u64,
    /// Untrue steps of a run.
    pub untrue: u64,
    pub store: Vec<u32>,
    pub output: Vec<u8>,
    pub trace: Vec<u8>,
}

/// What the second program answers and leaves.
pub fn reply(request: &Request) -> Reply {
    reply_watched(request, &mut ())
}

pub fn reply_watched(request: &Request, watch: &mut impl Watch) -> Reply {
    let mut reply = Reply {
        store: request.store.clone(),
        output: request.call.output().to_vec(),
        trace: request.call.trace().to_vec(),
        ..Reply::default()
    };
    let table = &request.table;
    let checked = Checked::of(table);
    match &request.call {
        Call::Need => reply.answer = checked.model().map_or(0, need) as u64,
        Call::FramesOf { kind } => reply.tell_view(frames_of(table, small(*kind))),
        Call::StepsOf { action } => reply.tell_view(steps_of(table, small(*action))),
        Call::Show { text, frames } => reply.show(&checked, text, *frames, watch),
        call => {
            let told = reply.make(&checked, call, watch);
            reply.tell(told);
        }
    }
    reply
}

impl Reply {
    /// Makes a call that answers with counts, on the store and buffers here.
    fn make(&mut self, checked: &Checked, call: &Call, watch: &mut impl Watch) -> Answer {
        let store = &mut self.store[..];
        match call {
            Call::Load => checked.load(store),
            Call::Advance { to } => checked.advance(store, *to, watch),
            Call::Arrival { event, birth, values } => {
                checked.arrival(store, small(*event), *birth, values, watch)
            }
            Call::Run { budget, .. } => checked.run(store, *budget, &mut self.output, watch),
            Call::RunTraced { budget, .. } => {
                let mut trace = Trace::within(self.trace.len());
                let told = checked.run_traced(store, *budget, &mut self.output, &mut trace, watch);
                self.trace[..told.traced].copy_from_slice(&trace.bytes);
                told
            }
            // All that is left is the verdict on the table.
            _ => checked.verdict(),
        }
    }

    fn tell(&mut self, told: Answer) {
        self.answer = refusal(told.refusal, told.frame);
        self.moves = u64::from(told.moves);
        self.stop = u64::from(told.stop);
        self.bytes = told.bytes as u64;
        self.traced = told.traced as u64;
        self.untrue = u64::from(told.untrue);
    }

    /// A view's length and start.
    fn tell_view(&mut self, view: View) {
        self.answer = view.bytes.len() as u64;
        self.bytes = view.offset as u64;
    }

    fn show(&mut self, checked: &Checked, text: &[u8], frames: u64, watch: &mut impl Watch) {
        let frames = usize::try_from(frames).unwrap_or(usize::MAX);
        let told = checked.show(&mut self.store, text, frames, watch);
        self.answer = refusal(told.refusal, told.frame);
        self.shown = told.shown as u64;
        self.line = told.line as u64;
    }
}

fn refusal(number: u8, frame: usize) -> u64 {
    (u64::from(number) << 16) + frame as u64
}

/// No table has ids or kinds past 32 bits, so any number there means the same.
fn small(number: u64) -> u32 {
    u32::try_from(number).unwrap_or(u32::MAX)
}
