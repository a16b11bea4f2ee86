//! What became of the STARTs of delays. Some of it one store tells, the rest
//! hangs on what happened to the delay before, since the table was loaded.

use crate::coverage::{missed, row, told_by_cells, Cell};
use crate::watch::{Cleared, Sight, Watch};
use std::collections::BTreeMap;

/// The STARTs taken, as far as one store tells.
#[derive(Clone, Default, Debug)]
pub struct StartCoverage {
    /// In the order of [`TAKEN`].
    pub taken: [u64; TAKEN.len()],
}

/// A START counts or is ignored. If it counted too, an ignored one would move
/// the due time to an earlier one, to a later one, from now to a later one, or
/// leave it; and some renew DT.
const TAKEN: [&str; 6] = [
    "counts",
    "ignored for earlier",
    "ignored for later",
    "ignored for later than now",
    "ignored for the same",
    "ignored with another DT",
];

impl Watch for StartCoverage {
    fn see(&mut self, sight: Sight) {
        match sight {
            Sight::Started { .. } => self.taken[0] += 1,
            Sight::StartIgnored { now, due, instead, renews, .. } => {
                let place = match instead {
                    _ if instead < due => 1,
                    _ if instead > due && now < due => 2,
                    _ if instead > due => 3,
                    _ => 4,
                };
                self.taken[place] += 1;
                self.taken[5] += u64::from(renews);
            }
            _ => {}
        }
    }
}

impl StartCoverage {
    pub(crate) fn cells(&self) -> impl Iterator<Item = Cell> + '_ {
        row("START", &TAKEN, &self.taken)
    }
}

told_by_cells!(StartCoverage, "delays");

// ---------------------------------------------------------------- histories

/// The STARTs and outputs of delays, by what happened to them before. It is
/// forgotten at each load, so that sessions do not mix.
#[derive(Clone, Default, Debug)]
pub struct DelayCoverage {
    /// Ignored STARTs that would set another due time, in the order of [`TICKS`].
    pub ignored: [u64; TICKS.len()],
    /// STARTs that count, in the order of [`AFTER`].
    pub counted: [u64; AFTER.len()],
    /// The outputs of those STARTs, where they lead anywhere.
    pub outputs: [u64; AFTER.len()],
    /// Of these, the ones that an ignored START would have moved, in the order of
    /// [`KEPT`].
    pub kept: [u64; KEPT.len()],
    /// What happened last to a delay, by element.
    pasts: BTreeMap<usize, Past>,
}

/// When a START is ignored: at the tick at which the delay was started, or later;
/// and it need not be the only one.
const TICKS: [&str; 3] = ["tick of the first", "later", "once more"];

/// After what a START counts: nothing, or a STOP or output that cleared the
/// delay, at the tick of that or later; it may have waited then already.
const AFTER: [&str; 7] = [
    "nothing",
    "STOP at its tick",
    "STOP later",
    "output at its tick",
    "output later",
    "STOP while waiting",
    "output while waiting",
];

/// Where the output would have come, had an ignored START counted too.
const KEPT: [&str; 2] = ["earlier", "later"];

#[derive(Clone, Copy, Debug)]
enum Past {
    /// START counted, after what and when; and where STARTs ignored since would
    /// have moved the output, in the order of [`KEPT`].
    Started {
        after: [bool; AFTER.len()],
        at: u32,
        instead: [bool; KEPT.len()],
    },
    Stopped(Cleared),
    Fired(Cleared),
}

impl Watch for DelayCoverage {
    fn see(&mut self, sight: Sight) {
        match sight {
            Sight::Loaded => self.pasts.clear(),
            Sight::Started { delay, now, .. } => self.see_start(delay, now),
            Sight::StartIgnored { delay, now, due, instead, .. } if due != instead => {
                self.see_ignored(delay, now, instead > due);
            }
            Sight::StoppedInTime(cleared) => {
                self.pasts.insert(cleared.delay, Past::Stopped(cleared));
            }
            Sight::Expired(cleared) => self.see_output(cleared),
            _ => {}
        }
    }
}

impl DelayCoverage {
    fn see_start(&mut self, delay: usize, now: u32) {
        let after = after(self.pasts.get(&delay), now);
        count_where(&mut self.counted, &after);
        self.pasts.insert(delay, Past::Started { after, at: now, instead: [false; KEPT.len()] });
    }

    fn see_ignored(&mut self, delay: usize, now: u32, later: bool) {
        if let Some(Past::Started { at, instead, .. }) = self.pasts.get_mut(&delay) {
            self.ignored[usize::from(now > *at)] += 1;
            self.ignored[2] += u64::from(instead.contains(&true));
            instead[usize::from(later)] = true;
        }
    }

    fn see_output(&mut self, cleared: Cleared) {
        let past = self.pasts.insert(cleared.delay, Past::Fired(cleared));
        let past = past.filter(|_| cleared.leads);
        if let Some(Past::Started { after, instead, .. }) = past {
            count_where(&mut self.outputs, &after);
            count_where(&mut self.kept, &instead);
        }
    }

    /// What STARTs and outputs can be and these were not.
    pub fn missed(&self) -> Vec<String> {
        missed(self.cells())
    }

    pub(crate) fn cells(&self) -> impl Iterator<Item = Cell> + '_ {
        let ignored = row("START ignored at", &TICKS, &self.ignored);
        let counted = row("START counts after", &AFTER, &self.counted);
        let outputs = row("output of START after", &AFTER, &self.outputs);
        let kept = row("output not moved", &KEPT, &self.kept);
        ignored.chain(counted).chain(outputs).chain(kept)
    }
}

/// After what a START counts, in the order of [`AFTER`].
fn after(past: Option<&Past>, now: u32) -> [bool; AFTER.len()] {
    let mut after = [false; AFTER.len()];
    match past {
        Some(Past::Stopped(Cleared { now: at, start_waits, .. })) => {
            after[1 + usize::from(now > *at)] = true;
            after[5] = *start_waits;
        }
        Some(Past::Fired(Cleared { now: at, start_waits, .. })) => {
            after[3 + usize::from(now > *at)] = true;
            after[6] = *start_waits;
        }
        Some(Past::Started { .. }) | None => after[0] = true,
    }
    after
}

fn count_where(counts: &mut [u64], places: &[bool]) {
    for (count, &is_there) in counts.iter_mut().zip(places) {
        *count += u64::from(is_there);
    }
}
