//! The next due time of a store: how words 9 and 10 can be wrong, and what
//! became of it when running.

use crate::coverage::{row, told_by_cells, Cell};
use crate::store::{next_due, GREATEST_TIME};
use crate::watch::{Sight, Watch};

// ---------------------------------------------------------------- wrong words

/// How words 9 and 10 are not what looking finds.
#[derive(Clone, Copy, PartialEq, Eq, Debug)]
pub enum WrongDue {
    /// A due flag is set and both words are 0, as in a store from before they
    /// were kept.
    Zeros,
    /// The same where a delay is due at 0: word 10 is right.
    ZerosAtZero,
    /// A due flag is set, word 9 is 0 and word 10 right.
    FlagLeftOff,
    /// Word 9 is above 1 and word 10 right, a due flag being set or none.
    FlagAboveOne,
    FlagAboveOneAlone,
    /// No due flag is set, and word 9 is 1, word 10 is not 0, or both.
    FlagAlone,
    TimeAlone,
    FlagAndTimeAlone,
    /// Word 9 is right and word 10 before the earliest due time.
    Early,
    /// Word 9 is right and word 10 a due time, not the earliest one.
    OfAnother,
    /// Word 9 is right and word 10 after the earliest due time, at none.
    Late,
    /// Word 9 and word 10 are wrong in another way.
    Otherwise,
}

impl WrongDue {
    /// All that a call is to be refused for.
    pub const ALL: [WrongDue; 11] = [
        WrongDue::Zeros,
        WrongDue::ZerosAtZero,
        WrongDue::FlagLeftOff,
        WrongDue::FlagAboveOne,
        WrongDue::FlagAboveOneAlone,
        WrongDue::FlagAlone,
        WrongDue::TimeAlone,
        WrongDue::FlagAndTimeAlone,
        WrongDue::Early,
        WrongDue::OfAnother,
        WrongDue::Late,
    ];

    /// How words 9 and 10 are wrong for these due times.
    pub fn of(flag: u32, time: u32, due: &[Option<u32>]) -> WrongDue {
        match (flag, next_due(due)) {
            (0, Some(0)) if time == 0 => WrongDue::ZerosAtZero,
            (0, Some(_)) if time == 0 => WrongDue::Zeros,
            (0, Some(next)) if time == next => WrongDue::FlagLeftOff,
            (2.., Some(next)) if time == next => WrongDue::FlagAboveOne,
            (2.., None) if time == 0 => WrongDue::FlagAboveOneAlone,
            (1, None) if time == 0 => WrongDue::FlagAlone,
            (0, None) => WrongDue::TimeAlone,
            (1, None) => WrongDue::FlagAndTimeAlone,
            (1, Some(next)) if time < next => WrongDue::Early,
            (1, Some(_)) if due.contains(&Some(time)) => WrongDue::OfAnother,
            (1, Some(_)) => WrongDue::Late,
            _ => WrongDue::Otherwise,
        }
    }
}

// ---------------------------------------------------------------- what became of it

/// What STARTs, STOPs and advances did to the next due time, and what calls
/// found and left.
#[derive(Clone, Default, Debug)]
pub struct NextDueCoverage {
    /// In the order of [`ROWS`] and their labels.
    pub counts: [[u64; MOST_LABELS]; ROWS.len()],
}

const MOST_LABELS: usize = 6;

/// A START that counts makes the first due time, or one before, after or at the
/// next one; the next one may then be above the largest time. An ignored START
/// would have made one before the next.
const STARTED: [&str; 6] =
    ["first", "earlier", "later", "the same", "above largest", "ignored for earlier"];

/// A STOP takes no due time away, or the last one, or the next one, or another.
const STOPPED: [&str; 6] = [
    "not due with none due",
    "not due with others due",
    "last",
    "earliest with later left",
    "earliest with same left",
    "not earliest",
];

/// An advance fires none, one or several delays, and leaves none or some due.
const ADVANCED: [&str; 6] = [
    "fires none with none due",
    "fires none while due",
    "fires the only one",
    "fires one with later left",
    "fires several",
    "fires several with later left",
];

/// A next due time: none, 0 (at now 0), one that an advance gets to, or not.
const TIMES: [&str; 4] = ["none", "0", "in range", "above largest"];

const ROWS: [(&str, &[&str]); 5] = [
    ("next due by START", &STARTED),
    ("next due by STOP", &STOPPED),
    ("next due by advance", &ADVANCED),
    ("next due found", &TIMES),
    ("next due left", &TIMES),
];

impl Watch for NextDueCoverage {
    fn see(&mut self, sight: Sight) {
        let [started, stopped, advanced, found, left] = &mut self.counts;
        match sight {
            Sight::Started { due, next, .. } => see_start(started, due, next),
            Sight::StartIgnored { instead, next, .. } => started[5] += u64::from(instead < next),
            Sight::StopTaken { due, next } => stopped[place_of_stop(due, next)] += 1,
            Sight::Advanced { fired, next } => {
                advanced[2 * fired.min(2) + usize::from(next.is_some())] += 1;
            }
            Sight::Found(next) => found[place_of_time(next)] += 1,
            Sight::Left(next) => left[place_of_time(next)] += 1,
            _ => {}
        }
    }
}

fn see_start(started: &mut [u64], due: u32, next: Option<u32>) {
    let place = match next {
        None => 0,
        Some(next) if due < next => 1,
        Some(next) if due > next => 2,
        Some(_) => 3,
    };
    started[place] += 1;
    let after = next.map_or(due, |next| next.min(due));
    started[4] += u64::from(after > GREATEST_TIME);
}

fn place_of_stop(due: Option<u32>, next: Option<u32>) -> usize {
    match (due, next) {
        (None, None) => 0,
        (None, Some(_)) => 1,
        (Some(_), None) => 2,
        (Some(due), Some(next)) if due < next => 3,
        (Some(due), Some(next)) if due == next => 4,
        (Some(_), Some(_)) => 5,
    }
}

fn place_of_time(next: Option<u32>) -> usize {
    match next {
        None => 0,
        Some(0) => 1,
        Some(1..=GREATEST_TIME) => 2,
        Some(_) => 3,
    }
}

impl NextDueCoverage {
    pub(crate) fn cells(&self) -> impl Iterator<Item = Cell> + '_ {
        let rows = ROWS.iter().zip(&self.counts);
        rows.flat_map(|(&(name, labels), counts)| row(name, labels, counts))
    }

    fn add(&mut self, other: &NextDueCoverage) {
        let (counts, others) = (self.counts.as_flattened_mut(), other.counts.as_flattened());
        counts.iter_mut().zip(others).for_each(|(count, other)| *count += other);
    }
}

told_by_cells!(NextDueCoverage, "next due time");

// ---------------------------------------------------------------- sessions

/// The same of sessions. No line of the step program tells words 9 and 10; what
/// a call left there is told by the next one, which finds the store well formed
/// or not. So what a call did counts from there on.
#[derive(Clone, Default, Debug)]
pub struct ToldNextDue {
    pub told: NextDueCoverage,
    untold: NextDueCoverage,
}

impl Watch for ToldNextDue {
    fn see(&mut self, sight: Sight) {
        match sight {
            Sight::Loaded => self.untold = NextDueCoverage::default(),
            Sight::Found(_) => {
                self.told.add(&std::mem::take(&mut self.untold));
                self.told.see(sight);
            }
            _ => self.untold.see(sight),
        }
    }
}
