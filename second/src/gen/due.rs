//! Stores in which delays are due, several at one time or one after the other,
//! with a START or STOP that waits; and stores whose next due time is wrong.

use super::rng::Rng;
use crate::model::{ElementKind, Model};
use crate::next_due::WrongDue;
use crate::store::{next_due, Mode, State, Waiting, GREATEST_DUE, GREATEST_TIME};

/// The delays of a network.
pub fn delays_of(model: &Model) -> Vec<usize> {
    let is_delay = |&id: &usize| model.elements[id].kind == ElementKind::Delay;
    (0..model.elements.len()).filter(is_delay).collect()
}

/// Makes some delays due and one START or STOP wait; `None` if there is no
/// delay.
pub fn put_among_due(rng: &mut Rng, model: &Model, state: &mut State) -> Option<()> {
    let delays = delays_of(model);
    let delay = rng.pick_any(&delays)?;
    state.mode = Mode::Idle;
    state.waiting.fill(None);
    state.due.fill(None);
    state.now = rng.pick(&[0, state.now, state.now, state.now, GREATEST_TIME]);
    let (percent, first) = (rng.pick(&[0, 50, 80, 100, 100]), first_due(rng, state.now));
    let later_percent = rng.pick(&[0, 40, 40, 100]);
    for &id in &delays {
        let due = if rng.chance(later_percent) { after_first(rng, first) } else { first };
        state.due[id] = rng.chance(percent).then_some(due);
    }
    let inputs = &model.elements[delay].event_inputs;
    let (start, stop) = (inputs[0], inputs[1]);
    let event = rng.pick(&[start, stop]);
    if event == start && rng.chance(80) {
        // So that the START counts.
        state.due[delay] = None;
    }
    let birth = rng.pick(&[0, state.now]);
    state.waiting[event] = Some(Waiting { birth, last_update: state.now });
    let dt = model.elements[delay].inputs[0];
    state.values[dt] = near_next(rng, state);
    state.buffers[dt] = near_next(rng, state);
    Some(())
}

/// A time not before now, most often soon, now and then past the largest one.
fn first_due(rng: &mut Rng, now: u32) -> u32 {
    let past = GREATEST_TIME + 1 + rng.below(9) as u32;
    let soon = now + rng.below(9) as u32;
    rng.pick(&[now, now, now, soon, soon, soon, soon, past])
}

fn after_first(rng: &mut Rng, first: u32) -> u32 {
    let soon = first + rng.between(1, 3) as u32;
    rng.pick(&[soon, soon, soon, GREATEST_DUE])
}

/// A DT that makes a delay due before, at or after the next due time.
fn near_next(rng: &mut Rng, state: &State) -> i32 {
    let ticks = state.next_due().map_or(5, |next| i64::from(next) - i64::from(state.now));
    let near = [ticks - 1, ticks, ticks, ticks + 1, -1, 0, i64::from(i32::MAX)];
    i32::try_from(rng.pick(&near)).unwrap_or(i32::MAX)
}

/// A time for an advance: mostly the next due time or one about it.
pub fn time_near_next(rng: &mut Rng, state: &State) -> u32 {
    let next = state.next_due().unwrap_or(state.now);
    let before = next.saturating_sub(1).max(state.now);
    rng.pick(&[next, next, next, next, before, state.now, next.saturating_add(1)])
}

// ---------------------------------------------------------------- wrong words

/// So many states are drawn until one has due times that suit a wrong way.
const TRIES: usize = 60;

/// Puts a machine among due delays, and gives words 9 and 10 that are wrong there
/// in this way; `None` if there is no delay, or not enough of them.
pub fn put_wrong_due(
    rng: &mut Rng,
    model: &Model,
    state: &mut State,
    way: WrongDue,
) -> Option<[u32; 2]> {
    let mut tries = 0..TRIES;
    tries.find_map(|_| {
        put_among_due(rng, model, state)?;
        wrong_words(rng, way, &state.due)
    })
}

/// Words 9 and 10 that are wrong in this way; `None` if they cannot be, or if
/// the times drawn for it do not suit.
fn wrong_words(rng: &mut Rng, way: WrongDue, due: &[Option<u32>]) -> Option<[u32; 2]> {
    let next = next_due(due);
    let above_one = rng.pick(&[2, 2, 3, 1 << 31, u32::MAX]);
    let (time, any) = (next.unwrap_or(0), rng.bits() as u32);
    let later: Vec<u32> = due.iter().flatten().copied().filter(|&other| other > time).collect();
    let another = rng.pick_any(&later).unwrap_or(time);
    let words = match way {
        WrongDue::Zeros | WrongDue::ZerosAtZero => [0, 0],
        WrongDue::FlagLeftOff => [0, time],
        WrongDue::FlagAboveOne | WrongDue::FlagAboveOneAlone => [above_one, time],
        WrongDue::FlagAlone => [1, 0],
        WrongDue::TimeAlone => [0, rng.pick(&[1, any, u32::MAX])],
        WrongDue::FlagAndTimeAlone => [1, rng.pick(&[1, any, u32::MAX])],
        WrongDue::Early => [1, rng.pick(&[0, time / 2, time.saturating_sub(1)])],
        WrongDue::OfAnother => [1, another],
        WrongDue::Late => [1, rng.pick(&[time.saturating_add(1), any, GREATEST_DUE, u32::MAX])],
        WrongDue::Otherwise => return None,
    };
    let is_right = words == [u32::from(next.is_some()), time];
    (!is_right && WrongDue::of(words[0], words[1], due) == way).then_some(words)
}

#[cfg(test)]
mod tests {
    use super::super::session;
    use super::*;
    use crate::calls::Checked;
    use crate::lines::table_of;
    use crate::store::{loaded, lone_fault, need, read, word, write, LoneFault};
    use crate::watch::{Sight, Watch};

    /// The STARTs and STOPs that were taken.
    #[derive(Default)]
    struct Taken(Vec<Sight>);

    impl Watch for Taken {
        fn see(&mut self, sight: Sight) {
            if let Sight::Started { .. } | Sight::StartIgnored { .. } | Sight::StopTaken { .. } =
                sight
            {
                self.0.push(sight);
            }
        }
    }

    /// A network of a generated session with a state among due delays, by number.
    fn for_each_put(mut look: impl FnMut(&Checked, &Model, State, u64)) {
        for number in 0..600 {
            let checked = Checked::of(&table_of(&session(14, number)).unwrap_or_default());
            if let Some(model) = checked.model() {
                let mut state = loaded(model);
                state.now = 7;
                if put_among_due(&mut Rng::new(14, number), model, &mut state).is_some() {
                    look(&checked, model, state, number);
                }
            }
        }
    }

    #[test]
    fn a_store_among_due_delays_is_well_formed_and_takes_a_start_or_stop() {
        let mut by_flags = [0; 3];
        for_each_put(|checked, model, state, number| {
            by_flags[state.due.iter().flatten().count().min(2)] += 1;
            let mut words = vec![0; need(model)];
            write(model, &state, &mut words);
            assert_eq!(read(model, &words), Some(state));
            let mut taken = Taken::default();
            checked.run(&mut words, 1, &mut [], &mut taken);
            assert_eq!(taken.0.len(), 1, "{number}");
        });
        assert!(by_flags.iter().all(|&stores| stores > 40), "{by_flags:?} with 0, 1, more flags");
    }

    #[test]
    fn a_wrong_next_due_time_is_the_lone_fault_of_a_store() {
        let mut found = Vec::new();
        for_each_put(|_, model, mut state, number| {
            let rng = &mut Rng::new(15, number);
            let mut words = vec![0; need(model)];
            for way in WrongDue::ALL {
                if let Some(wrong) = put_wrong_due(rng, model, &mut state, way) {
                    write(model, &state, &mut words);
                    assert_eq!(read(model, &words).as_ref(), Some(&state), "{number} {way:?}");
                    words[word::DUE..=word::NEXT_DUE].copy_from_slice(&wrong);
                    assert_eq!(read(model, &words), None, "{number} {way:?}");
                    assert_eq!(lone_fault(model, &words), Some(LoneFault::NextDue(way)));
                    found.push(way);
                }
            }
        });
        for way in WrongDue::ALL {
            let number = found.iter().filter(|&&one| one == way).count();
            assert!(number > 50, "{way:?}: {number}");
        }
    }
}
