//! The programs `trace` and `show`: what the runs of a session trace, and what
//! the store shows after some of it.

use crate::calls::Checked;
use crate::lines::{
    calls_of_lines, lines_of, part, table_of_lines, text_of, Call, OUTPUT_BYTES, STORE_WORDS,
};
use crate::model::{ElementKind, Model, Role};
use crate::store::{chart_state_at, value_at};
use crate::trace::Trace;
use crate::watch::Watch;

/// A run of a session: the store that it starts from, and its trace as text.
pub struct TracedRun {
    pub start: Vec<u32>,
    pub text: Vec<u8>,
}

impl TracedRun {
    /// How many lines the trace has.
    pub fn frames(&self) -> usize {
        lines_of(&self.text).len()
    }
}

/// A session as far as it goes: the table, and the runs up to the end or to
/// the line that stops the step program.
struct Traced {
    checked: Checked,
    runs: Vec<TracedRun>,
}

/// The runs of a session, each as the step program makes it, with trace room
/// without end. There is none where the load is refused or not reached.
pub fn traced_runs(session: &[u8], watch: &mut impl Watch) -> Vec<TracedRun> {
    traced(session, watch).map_or(Vec::new(), |traced| traced.runs)
}

fn traced(session: &[u8], watch: &mut impl Watch) -> Option<Traced> {
    let lines = lines_of(session);
    let (table_lines, call_lines) = part(&lines);
    let checked = Checked::of(&table_of_lines(table_lines)?);
    let mut store = vec![0; STORE_WORDS];
    if checked.load(&mut store).refusal != 0 {
        return None;
    }
    let mut runs = Vec::new();
    for call in calls_of_lines(call_lines) {
        match call {
            Call::Advance { to } => {
                checked.advance(&mut store, to, &mut ());
            }
            Call::Arrival { event, birth, values } => {
                checked.arrival(&mut store, event, birth, &values, &mut ());
            }
            Call::Run { budget } => {
                let start = store.clone();
                let mut trace = Trace::endless();
                let out = &mut [0; OUTPUT_BYTES];
                checked.run_traced(&mut store, budget, out, &mut trace, watch);
                runs.push(TracedRun { start, text: text_of(&trace.bytes) });
            }
        }
    }
    Some(Traced { checked, runs })
}

/// What `trace` prints: for each run its lines, then an empty line.
///
/// Open point: how the runs are parted. After each run stands an empty line,
/// since a line of a trace is never empty; so the lines of one run can be cut
/// out and read with the store that it starts from.
pub fn trace_program(session: &[u8], watch: &mut impl Watch) -> Vec<u8> {
    let runs = traced_runs(session, watch);
    runs.into_iter().flat_map(|run| [run.text, vec![b'\n']].concat()).collect()
}

/// What `show` prints: the store after so many frames of a run, which counts
/// from 1. More frames than there are show the last.
///
/// Open point: a run that the session does not have. Then nothing is printed.
pub fn show_program(session: &[u8], run: u64, frames: u64) -> Vec<u8> {
    let Some(Traced { checked, runs }) = traced(session, &mut ()) else {
        return Vec::new();
    };
    let place = run.checked_sub(1).and_then(|place| usize::try_from(place).ok());
    let run = place.and_then(|place| runs.into_iter().nth(place));
    let (Some(model), Some(TracedRun { mut start, text })) = (checked.model(), run) else {
        return Vec::new();
    };
    let frames = usize::try_from(frames).unwrap_or(usize::MAX);
    let shown = checked.show(&mut start, &text, frames, &mut ()).shown;
    format!("frames {shown}\n{}", picture(model, &start)).into_bytes()
}

/// Chart states and values by element, for a person to read.
fn picture(model: &Model, store: &[u32]) -> String {
    let mut picture = String::new();
    for (element, kind) in model.elements.iter().map(|element| element.kind).enumerate() {
        picture += &format!("element {element} {}", kind_name(kind));
        if kind == ElementKind::Basic {
            picture += &format!(", state {}", store[chart_state_at(model, element)]);
        }
        picture.push('\n');
        for (id, variable) in model.variables.iter().enumerate() {
            if variable.element == element {
                let value = store[value_at(model, id)] as i32;
                picture += &format!("  {} {id} = {value}\n", role_name(variable.role));
            }
        }
    }
    picture
}

fn kind_name(kind: ElementKind) -> &'static str {
    match kind {
        ElementKind::Basic => "basic",
        ElementKind::Interface => "interface",
        ElementKind::Delay => "delay",
        ElementKind::Source => "source",
        ElementKind::Sink => "sink",
    }
}

fn role_name(role: Role) -> &'static str {
    match role {
        Role::Input => "input",
        Role::Output => "output",
        Role::Internal => "internal",
    }
}
