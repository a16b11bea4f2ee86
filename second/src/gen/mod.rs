//! Random sessions, the same for a seed on every machine.

mod charts;
mod damage;
mod delays;
mod due;
pub mod faults;
pub mod requests;
pub mod rng;
mod script;
mod skeleton;
mod spoil;
mod steps;
mod wiring;

use crate::lines::shortest_line;
use crate::rules::limits;
use crate::table::{kind, Frame, FRAME_BYTES, MOST_FRAMES};
use charts::Charts;
use damage::Damage;
use rng::Rng;
use skeleton::Skeleton;
use spoil::Spoil;
use wiring::Wiring;

/// How large a network is to be. A number of 0 is no wish; other numbers than
/// that of the elements are reached by adding frames.
#[derive(Clone, Default)]
pub struct Wish {
    pub elements: usize,
    pub event_inputs: usize,
    pub event_outputs: usize,
    pub variables: usize,
    pub states: usize,
    pub transitions: usize,
    pub frames: usize,
    pub flow: Flow,
    /// Whether data values are at or near the ends of the range, 0 or -1 only.
    pub extreme: bool,
}

/// Where events may go on.
#[derive(Clone, Copy, PartialEq, Eq, Default, Debug)]
pub enum Flow {
    /// From sources towards sinks only.
    #[default]
    Forward,
    /// Also back to an element they passed, seldom back to an interface.
    Back,
    /// Anywhere. A ring of interfaces goes round for ever and can fill any
    /// output buffer with records.
    Rings,
}

/// Of so many sessions in a row, the first are damaged tables, the next
/// malformed lines, the last one is at a limit, and all others are sound.
const ROUND: u64 = 50;
const DAMAGED: u64 = 12;
const SPOILED: u64 = 6;

/// What is special about a session. The ways of each class come in turn, so
/// that not many sessions are needed to have all of them.
enum Class {
    Sound,
    Damaged(Damage),
    Spoiled(Spoil),
    Limit(u64),
}

impl Class {
    fn of(number: u64) -> Class {
        let (round, place) = (number / ROUND, number % ROUND);
        if place < DAMAGED {
            let all = damage::all();
            Class::Damaged(all[in_turn(round * DAMAGED + place, all.len())])
        } else if place < DAMAGED + SPOILED {
            let all = spoil::all();
            Class::Spoiled(all[in_turn(round * SPOILED + place - DAMAGED, all.len())])
        } else if place == ROUND - 1 {
            Class::Limit(round)
        } else {
            Class::Sound
        }
    }
}

fn in_turn(number: u64, length: usize) -> usize {
    (number % length as u64) as usize
}

/// The session with this number.
pub fn session(seed: u64, number: u64) -> Vec<u8> {
    let mut rng = Rng::new(seed, number);
    let class = Class::of(number);
    // Not every network can be damaged or spoiled in every way; one soon can.
    let lines = loop {
        if let Some(lines) = draw(&mut rng, &class) {
            break lines;
        }
    };
    let mut bytes = lines.join(&b'\n');
    // "the last perhaps not" ended by 0A.
    if rng.chance(92) {
        bytes.push(b'\n');
    }
    bytes
}

/// The lines of a session of a class; `None` if the network drawn for it does
/// not suit the class.
fn draw(rng: &mut Rng, class: &Class) -> Option<Vec<Vec<u8>>> {
    let wish = match class {
        Class::Limit(round) => draw_limits(rng, *round),
        _ => draw_small(rng),
    };
    let mut table = sound_table(rng, &wish);
    if let Class::Damaged(damage) = class {
        damage.apply(rng, &mut table)?;
        // A second damage, so that the lowest frame and number matter.
        if rng.chance(25) {
            Damage::Anyhow.apply(rng, &mut table)?;
        }
    }
    let number = rng.between(6, 40);
    let mut frames = table.clone();
    frames.extend(script::draw(rng, &table, number, &wish));
    let mut lines: Vec<Vec<u8>> = frames.iter().map(|frame| line_of(rng, frame)).collect();
    if let Class::Spoiled(spoil) = class {
        spoil.apply(rng, &mut lines, table.len())?;
    }
    Some(lines)
}

/// A line for a frame; of the zeros at its end, some are left off.
fn line_of(rng: &mut Rng, frame: &Frame) -> Vec<u8> {
    let mut line = shortest_line(frame);
    let bytes = match rng.below(4) {
        0 => FRAME_BYTES,
        1 => rng.between(line.len() / 2, FRAME_BYTES),
        _ => line.len() / 2,
    };
    line.resize(2 * bytes, b'0');
    line
}

fn draw_small(rng: &mut Rng) -> Wish {
    Wish {
        elements: rng.between(3, 12),
        flow: match rng.below(100) {
            0..=64 => Flow::Forward,
            65..=94 => Flow::Back,
            _ => Flow::Rings,
        },
        extreme: rng.chance(25),
        ..Wish::default()
    }
}

/// A network at a limit of the table or one past it: "At most 4,096 frames, 64
/// elements, 256 event inputs, [...]". In turn all limits at once, one past
/// each, and any one of them.
fn draw_limits(rng: &mut Rng, round: u64) -> Wish {
    let most = |kind: u8| limits(kind).expect("a known kind").1;
    let mut wish = draw_small(rng);
    let turn = in_turn(round, 10);
    let past = usize::from(turn < 8);
    match if turn < 9 { turn } else { rng.between(1, 7) } {
        0 => {
            wish = Wish {
                elements: most(kind::ELEMENT),
                event_inputs: most(kind::EVENT_INPUT),
                event_outputs: most(kind::EVENT_OUTPUT),
                variables: most(kind::VARIABLE),
                states: most(kind::STATE),
                transitions: most(kind::TRANSITION),
                frames: MOST_FRAMES,
                ..wish
            }
        }
        1 => wish.elements = most(kind::ELEMENT) + past,
        2 => wish.event_inputs = most(kind::EVENT_INPUT) + past,
        3 => wish.event_outputs = most(kind::EVENT_OUTPUT) + past,
        4 => wish.variables = most(kind::VARIABLE) + past,
        5 => wish.states = most(kind::STATE) + past,
        6 => wish.transitions = most(kind::TRANSITION) + past,
        7 => wish.frames = MOST_FRAMES + past,
        _ => wish.frames = MOST_FRAMES + rng.between(2, 300),
    }
    wish
}

/// A table that no rule refuses, unless the wish goes past a limit.
fn sound_table(rng: &mut Rng, wish: &Wish) -> Vec<Frame> {
    let skeleton = Skeleton::draw(rng, wish);
    let mut wiring = Wiring::draw(rng, &skeleton, wish);
    let mut charts = Charts::draw(rng, &skeleton, wish);
    let mut table = skeleton.frames(rng, wish);
    let others = table.len() + skeleton.states.len() + charts.frames();
    wiring.fit(MOST_FRAMES.saturating_sub(others));
    charts.fill_steps(rng, &skeleton, wish, table.len() + skeleton.states.len() + wiring.frames());
    table.extend(wiring.associations);
    table.extend(skeleton.state_frames());
    table.extend(charts.transitions);
    table.extend(charts.actions);
    table.extend(charts.steps);
    table.extend(wiring.event_connections);
    table.extend(wiring.data_connections);
    table
}

#[cfg(test)]
mod tests {
    use super::*;
    use crate::model::check;

    fn is_refused(table: &[Frame]) -> bool {
        let bytes: Vec<u8> = table.iter().flat_map(|frame| frame.to_bytes()).collect();
        check(&bytes).is_err()
    }

    #[test]
    fn five_hundred_sessions_have_every_damage_and_every_malformed_line() {
        assert!(damage::all().len() as u64 <= 500 / ROUND * DAMAGED);
        assert!(spoil::all().len() as u64 <= 500 / ROUND * SPOILED);
    }

    #[test]
    fn tables_are_sound() {
        for stream in 0..300 {
            let rng = &mut Rng::new(9, stream);
            let wish = draw_small(rng);
            assert!(!is_refused(&sound_table(rng, &wish)), "{stream}");
        }
    }

    #[test]
    fn tables_are_sound_at_a_limit_and_refused_past_it() {
        for stream in 0..40 {
            let rng = &mut Rng::new(10, stream);
            let wish = draw_limits(rng, stream);
            let table = sound_table(rng, &wish);
            let past = wish.frames > MOST_FRAMES
                || [kind::ELEMENT, kind::EVENT_INPUT, kind::EVENT_OUTPUT, kind::VARIABLE]
                    .into_iter()
                    .chain([kind::STATE, kind::TRANSITION])
                    .any(|k| {
                        let number = table.iter().filter(|frame| frame.kind == k).count();
                        number > limits(k).expect("a known kind").1
                    });
            assert_eq!(is_refused(&table), past, "{stream}");
        }
    }
}
