//! What sessions reached when running, and which numbers they missed; and the
//! same of traces and their reading, of the results of steps, and of the words
//! of a store that calls bring along.

use crate::arithmetic::Outcome;
use crate::calls::{stop, Held};
use crate::delays::{DelayCoverage, StartCoverage};
use crate::model::ElementKind;
use crate::next_due::{NextDueCoverage, ToldNextDue, WrongDue};
use crate::reader::{Ending, Fault};
use crate::store::{word, LoneFault};
use crate::table::{kind, operation};
use crate::trace::trace_kind;
use crate::watch::{Sight, Watch};
use std::fmt::{self, Display, Formatter};

const KINDS: usize = kind::LAST as usize;
/// The place of unknown kind bytes, after the eleven kinds.
const UNKNOWN: usize = KINDS;

/// From this many sessions on, a number that was not reached is a fault of
/// the generator.
pub const ENOUGH_SESSIONS: u64 = 2000;

#[derive(Clone, Default, Debug)]
pub struct Coverage {
    pub sessions: u64,
    pub moves: u64,
    /// Places 1 to 11.
    pub refusals: [u64; 12],
    pub malformed: u64,
    /// Places 1 to 3.
    pub stops: [u64; 4],
    pub element_kinds: [u64; 5],
    pub operations: [u64; 9],
    pub guards: [u64; 5],
    /// For refusals 2, 3 and 4, by the kind of the frame named.
    pub refused_kinds: [[u64; KINDS + 1]; 3],
    pub overwritten: u64,
    pub chained: u64,
    pub stopped_in_time: u64,
    pub expired: u64,
    pub records: u64,
    pub starts: StartCoverage,
    pub delays: DelayCoverage,
    pub next_due: ToldNextDue,
}

impl Watch for Coverage {
    fn see(&mut self, sight: Sight) {
        self.starts.see(sight);
        self.delays.see(sight);
        self.next_due.see(sight);
        match sight {
            Sight::Element(kind) => self.element_kinds[place_of(kind)] += 1,
            Sight::Step { operation, .. } => self.operations[usize::from(operation)] += 1,
            Sight::Guard(number) => self.guards[usize::from(number)] += 1,
            Sight::Overwritten => self.overwritten += 1,
            Sight::Chained => self.chained += 1,
            Sight::StoppedInTime(_) => self.stopped_in_time += 1,
            Sight::Expired(_) => self.expired += 1,
            Sight::Record => self.records += 1,
            Sight::Malformed => self.malformed += 1,
            Sight::Stopped { moves, stop } => {
                self.moves += u64::from(moves);
                self.stops[usize::from(stop)] += 1;
            }
            Sight::Refused { number, kind } => self.see_refusal(number, kind),
            // Counted with their delays.
            Sight::Loaded | Sight::Started { .. } | Sight::StartIgnored { .. } => {}
            Sight::StopTaken { .. } | Sight::Advanced { .. } => {}
            Sight::Found(_) | Sight::Left(_) => {}
            // No answer of the step program tells any of these.
            Sight::Traced(_) | Sight::Held(_) | Sight::Read(_) => {}
            Sight::Counted { .. } | Sight::NotWellFormed(_) => {}
        }
    }
}

fn place_of(kind: ElementKind) -> usize {
    match kind {
        ElementKind::Basic => 0,
        ElementKind::Interface => 1,
        ElementKind::Delay => 2,
        ElementKind::Source => 3,
        ElementKind::Sink => 4,
    }
}

impl Coverage {
    fn see_refusal(&mut self, number: u8, kind: Option<u8>) {
        self.refusals[usize::from(number)] += 1;
        if let Some(kind) = kind {
            let known = (1..=kind::LAST).contains(&kind);
            let place = if known { usize::from(kind) - 1 } else { UNKNOWN };
            self.refused_kinds[usize::from(number) - 2][place] += 1;
        }
    }

    /// The numbers that sessions can reach and these did not.
    pub fn missed(&self) -> Vec<String> {
        missed(self.cells())
    }

    /// The numbers that these sessions reached.
    pub fn reached(&self) -> Vec<String> {
        self.cells()
            .filter(|cell| cell.count != 0)
            .map(|cell| format!("{} {}", cell.row, cell.label))
            .collect()
    }

    /// Every number of the table, row by row.
    fn cells(&self) -> impl Iterator<Item = Cell> + '_ {
        let named = |row: &'static str, labels: &'static [&'static str], counts: Vec<u64>| {
            let one = move |(label, count): (&&str, u64)| Cell::new(row, label, count);
            labels.iter().zip(counts).map(one).collect::<Vec<Cell>>()
        };
        let mut cells = self.refusal_cells();
        let stops = [stop::NO_MOVE, stop::BUDGET_USED, stop::NO_ROOM];
        let stops = stops.iter().map(|&n| self.stops[usize::from(n)]).collect();
        cells.extend(named("stop", &["1", "2", "3"], stops));
        let kinds = &["0", "1", "2", "3", "4"];
        cells.extend(named("element kind", kinds, self.element_kinds.to_vec()));
        let operations = &["0", "1", "2", "3", "4", "5", "6", "7", "8"];
        cells.extend(named("operation", operations, self.operations.to_vec()));
        cells.extend(named("guard", kinds, self.guards.to_vec()));
        for (place, row) in ["refusal 2 on", "refusal 3 on", "refusal 4 on"].into_iter().enumerate()
        {
            cells.extend(self.refused_kind_cells(place, row));
        }
        cells.extend(named("seen", SEEN, self.seen()));
        let delays = self.starts.cells().chain(self.delays.cells());
        cells.into_iter().chain(delays).chain(self.next_due.told.cells())
    }

    /// Refusals 5 and 6 cannot come from a session: the store of 2,000 words
    /// is as long as the greatest need and always well formed.
    fn refusal_cells(&self) -> Vec<Cell> {
        let one = |number: usize| Cell {
            reachable: number != 5 && number != 6,
            ..Cell::new("refusal", &number.to_string(), self.refusals[number])
        };
        let mut cells: Vec<Cell> = (1..=11).map(one).collect();
        cells.push(Cell::new("refusal", "FF", self.malformed));
        cells
    }

    /// Only some kinds have a network rule, and an unknown kind is refused 2.
    fn refused_kind_cells(&self, place: usize, row: &'static str) -> Vec<Cell> {
        const WITH_NETWORK_RULE: [u8; 5] = [
            kind::ELEMENT,
            kind::EVENT_INPUT,
            kind::ASSOCIATION,
            kind::EVENT_CONNECTION,
            kind::DATA_CONNECTION,
        ];
        let mut cells = Vec::new();
        for kind in 1..=kind::LAST {
            let count = self.refused_kinds[place][usize::from(kind) - 1];
            let reachable = place < 2 || WITH_NETWORK_RULE.contains(&kind);
            let label = format!("{kind:02X}");
            cells.push(Cell { reachable, ..Cell::new(row, &label, count) });
        }
        let unknown = Cell::new(row, "unknown", self.refused_kinds[place][UNKNOWN]);
        cells.push(Cell { reachable: place == 0, ..unknown });
        cells
    }

    fn seen(&self) -> Vec<u64> {
        vec![
            self.moves,
            self.records,
            self.overwritten,
            self.chained,
            self.expired,
            self.stopped_in_time,
        ]
    }
}

/// The labels of [`Coverage::seen`].
const SEEN: &[&str] = &[
    "moves",
    "records",
    "overwritten",
    "interface to interface",
    "delay expired",
    "STOP while due",
];

/// A number of a table of what was reached.
pub(crate) struct Cell {
    row: &'static str,
    label: String,
    count: u64,
    reachable: bool,
}

impl Cell {
    pub(crate) fn new(row: &'static str, label: &str, count: u64) -> Cell {
        Cell { row, label: label.to_string(), count, reachable: true }
    }
}

/// A row of a table, with its labels in the order of the counts.
pub(crate) fn row<'c>(
    row: &'static str,
    labels: &'static [&'static str],
    counts: &'c [u64],
) -> impl Iterator<Item = Cell> + 'c {
    labels.iter().zip(counts).map(move |(label, &count)| Cell::new(row, label, count))
}

/// What can be reached and was not.
pub(crate) fn missed(cells: impl Iterator<Item = Cell>) -> Vec<String> {
    let absent = cells.filter(|cell| cell.reachable && cell.count == 0);
    absent.map(|cell| format!("{} {}", cell.row, cell.label)).collect()
}

impl Display for Coverage {
    fn fmt(&self, f: &mut Formatter<'_>) -> fmt::Result {
        write!(f, "sessions {}", self.sessions)?;
        write_cells(f, self.cells())
    }
}

/// Each row on a line of its own.
pub(crate) fn write_cells(f: &mut Formatter<'_>, cells: impl Iterator<Item = Cell>) -> fmt::Result {
    let mut row = "";
    for cell in cells {
        if cell.row != row {
            row = cell.row;
            write!(f, "\n{row}:")?;
        }
        match (cell.reachable, cell.count) {
            (false, 0) if row == "refusal" => write!(f, "  {} n/a from sessions", cell.label)?,
            (false, 0) => write!(f, "  {} n/a", cell.label)?,
            (_, count) => write!(f, "  {} {count}", cell.label)?,
        }
    }
    Ok(())
}

/// Has a coverage told by its `cells`: what of them was missed, and all of them
/// under a title.
macro_rules! told_by_cells {
    ($coverage:ty, $title:literal) => {
        impl $coverage {
            /// What can be reached and was not.
            pub fn missed(&self) -> Vec<String> {
                $crate::coverage::missed(self.cells())
            }
        }

        impl std::fmt::Display for $coverage {
            fn fmt(&self, f: &mut std::fmt::Formatter<'_>) -> std::fmt::Result {
                write!(f, $title)?;
                $crate::coverage::write_cells(f, self.cells())
            }
        }
    };
}
pub(crate) use told_by_cells;

// ---------------------------------------------------------------- traces

/// What traced runs and readings of traces reached.
#[derive(Clone, Default, Debug)]
pub struct TraceCoverage {
    /// Frames, by kind.
    pub kinds: [u64; trace_kind::LAST as usize + 1],
    /// Moves that had no trace room, by what they lacked besides.
    pub held: [u64; HELD.len()],
    /// Readings that no line ended, in the order of [`ENDINGS`].
    pub endings: [u64; ENDINGS.len()],
    /// Readings that a line ended, in the order of [`Fault::ALL`].
    pub faults: [u64; Fault::ALL.len()],
}

const HELD: [&str; 4] = ["only", "and budget used", "and no room", "and neither"];

const ENDINGS: [Ending; 6] = [
    Ending::AskedNone,
    Ending::AskedFewer,
    Ending::AskedAll,
    Ending::TextEmpty,
    Ending::TextEnded,
    Ending::TextOpen,
];

impl Watch for TraceCoverage {
    fn see(&mut self, sight: Sight) {
        match sight {
            Sight::Traced(kind) => self.kinds[usize::from(kind)] += 1,
            Sight::Held(Held { no_room, no_trace_room: true, budget_used }) => {
                self.held[2 * usize::from(no_room) + usize::from(budget_used)] += 1;
            }
            Sight::Read(Ending::Line(fault)) => count_in(&mut self.faults, &Fault::ALL, fault),
            Sight::Read(ending) => count_in(&mut self.endings, &ENDINGS, ending),
            _ => {}
        }
    }
}

/// Counts a thing at its place in a list that has it.
fn count_in<T: PartialEq>(counts: &mut [u64], list: &[T], thing: T) {
    let place = list.iter().position(|other| *other == thing).expect("the list has all");
    counts[place] += 1;
}

impl TraceCoverage {
    fn cells(&self) -> impl Iterator<Item = Cell> + '_ {
        let kinds = self.kinds.iter().enumerate();
        let kinds = kinds.map(|(kind, &count)| Cell::new("trace kind", &kind.to_string(), count));
        let held = HELD.iter().zip(self.held);
        let held = held.map(|(label, count)| Cell::new("no trace room", label, count));
        let endings = ENDINGS.iter().zip(self.endings);
        let endings = endings.map(|(e, count)| Cell::new("reading", &format!("{e:?}"), count));
        let faults = Fault::ALL.iter().zip(self.faults);
        let faults = faults.map(|(e, count)| Cell::new("ended by", &format!("{e:?}"), count));
        kinds.chain(held).chain(endings).chain(faults)
    }
}

told_by_cells!(TraceCoverage, "traces");

// ---------------------------------------------------------------- untrue steps

/// The results of steps, untrue ones and true ones at an end of the range.
#[derive(Clone, Default, Debug)]
pub struct ResultCoverage {
    /// In the order of [`AT_END`], by operation number.
    pub at_end: [[u64; 9]; AT_END.len()],
    /// In the order of [`BY_ZERO`].
    pub by_zero: [u64; BY_ZERO.len()],
}

/// Results at an end of the range, with the operations that can give them.
const AT_END: [(&str, &[u8]); 4] = {
    use operation::{ADD, AGE, COPY, DIVIDE, MAXIMUM, MINIMUM, MULTIPLY, NEGATE, SUBTRACT};
    [
        ("clipped to lower end", &[ADD, SUBTRACT, MULTIPLY]),
        ("clipped to upper end", &[ADD, SUBTRACT, NEGATE, MULTIPLY, DIVIDE]),
        ("true at lower end", &[COPY, ADD, SUBTRACT, MULTIPLY, DIVIDE, MINIMUM, MAXIMUM]),
        (
            "true at upper end",
            &[COPY, ADD, SUBTRACT, NEGATE, MULTIPLY, DIVIDE, MINIMUM, MAXIMUM, AGE],
        ),
    ]
};

const BY_ZERO: [&str; 2] = ["of zero", "of others"];

/// Cells that 2,000 sessions may miss, of some seeds. Calls are drawn for them.
const SELDOM: [(&str, &str); 5] = [
    ("clipped to upper end", "5"),
    ("true at lower end", "4"),
    ("true at lower end", "5"),
    ("true at upper end", "5"),
    ("true at upper end", "8"),
];

impl Watch for ResultCoverage {
    fn see(&mut self, sight: Sight) {
        let Sight::Step { operation, b, outcome: Outcome { result, is_true } } = sight else {
            return;
        };
        match result {
            i32::MIN | i32::MAX => {
                let row = 2 * usize::from(is_true) + usize::from(result == i32::MAX);
                self.at_end[row][usize::from(operation)] += 1;
            }
            // Clipped to neither end.
            _ if !is_true => self.by_zero[usize::from(b != 0)] += 1,
            _ => {}
        }
    }
}

impl ResultCoverage {
    /// What sessions missed, whose operands come as they are drawn.
    pub fn missed_by_sessions(&self) -> Vec<String> {
        let often = |cell: &Cell| !SELDOM.contains(&(cell.row, &cell.label));
        missed(self.cells().filter(often))
    }

    fn cells(&self) -> impl Iterator<Item = Cell> + '_ {
        let at_end = AT_END.iter().zip(&self.at_end).flat_map(|(&(row, operations), counts)| {
            let count = |number: &u8| counts[usize::from(*number)];
            operations.iter().map(move |n| Cell::new(row, &n.to_string(), count(n)))
        });
        let by_zero = BY_ZERO.iter().zip(self.by_zero);
        at_end.chain(by_zero.map(|(label, count)| Cell::new("zero divisor", label, count)))
    }
}

told_by_cells!(ResultCoverage, "results by operation");

/// What calls found in words 9, 10 and 12 to 15 of a store, and what runs left in
/// word 11.
#[derive(Clone, Default, Debug)]
pub struct StoreCoverage {
    /// Of runs and of traced runs, in the order of [`COUNTED`].
    pub counted: [[u64; COUNTED.len()]; 2],
    /// Stores not well formed by one word alone, in the order of
    /// [`word::ZEROS`].
    pub not_zero: [u64; word::ZEROS.len()],
    /// Stores not well formed by the next due time alone, in the order of
    /// [`WrongDue::ALL`].
    pub wrong_due: [u64; WrongDue::ALL.len()],
}

/// What becomes of the count of untrue steps: a run has none, and the count is
/// not 0; or it has some, and the count rises below its end, or just to it, or
/// up to it by less than the run tells, or was there already.
const COUNTED: [&str; 5] = ["kept", "rose", "reached end", "stopped at end", "stood at end"];

impl Watch for StoreCoverage {
    fn see(&mut self, sight: Sight) {
        match sight {
            Sight::Counted { traced, untrue, before, after } => {
                let place = match untrue {
                    0 if before == 0 => return,
                    0 => 0,
                    _ if after < u32::MAX => 1,
                    _ if after - before == untrue => 2,
                    _ if before < u32::MAX => 3,
                    _ => 4,
                };
                self.counted[usize::from(traced)][place] += 1;
            }
            Sight::NotWellFormed(LoneFault::NotZero(place)) => {
                count_in(&mut self.not_zero, &word::ZEROS, place);
            }
            Sight::NotWellFormed(LoneFault::NextDue(wrong)) if wrong != WrongDue::Otherwise => {
                count_in(&mut self.wrong_due, &WrongDue::ALL, wrong);
            }
            _ => {}
        }
    }
}

impl StoreCoverage {
    fn cells(&self) -> impl Iterator<Item = Cell> + '_ {
        let rows = ["count of a run", "count of a traced run"];
        let counted = rows.into_iter().zip(self.counted).flat_map(|(row, counts)| {
            COUNTED.iter().zip(counts).map(move |(label, count)| Cell::new(row, label, count))
        });
        let not_zero = word::ZEROS.iter().zip(self.not_zero);
        let row = "refusal 6 by word";
        let not_zero = not_zero.map(move |(word, count)| Cell::new(row, &word.to_string(), count));
        let wrong_due = WrongDue::ALL.iter().zip(self.wrong_due);
        let row = "refusal 6 by next due";
        let wrong_due = wrong_due.map(move |(w, count)| Cell::new(row, &format!("{w:?}"), count));
        counted.chain(not_zero).chain(wrong_due)
    }
}

told_by_cells!(StoreCoverage, "stores");

// ---------------------------------------------------------------- calls

/// What calls reached besides their own numbers.
#[derive(Clone, Default, Debug)]
pub struct CallCoverage {
    pub traces: TraceCoverage,
    pub results: ResultCoverage,
    pub stores: StoreCoverage,
    pub starts: StartCoverage,
    pub next_due: NextDueCoverage,
}

impl Watch for CallCoverage {
    fn see(&mut self, sight: Sight) {
        self.traces.see(sight);
        self.results.see(sight);
        self.stores.see(sight);
        self.starts.see(sight);
        self.next_due.see(sight);
    }
}

impl CallCoverage {
    pub fn missed(&self) -> Vec<String> {
        let (traces, results) = (self.traces.missed(), self.results.missed());
        let (stores, starts) = (self.stores.missed(), self.starts.missed());
        [traces, results, stores, starts, self.next_due.missed()].concat()
    }
}

impl Display for CallCoverage {
    fn fmt(&self, f: &mut Formatter<'_>) -> fmt::Result {
        writeln!(f, "{}\n{}\n{}\n{}", self.traces, self.results, self.stores, self.starts)?;
        write!(f, "{}", self.next_due)
    }
}
