//! The calls of a random session. The calls are also made while they are
//! drawn, so that times can aim at due times and births at now.

use super::rng::Rng;
use super::skeleton::field;
use super::{Flow, Wish};
use crate::calls::Checked;
use crate::lines::{call_kind, OUTPUT_BYTES, STORE_WORDS};
use crate::model::{ElementKind, Model};
use crate::store::{self, GREATEST_TIME};
use crate::table::{halves, Frame};

/// How often a call is the first of several that try a delay.
const DELAY_PERCENT: usize = 6;

/// Draws the frames of so many calls to a table; a table that is refused gets
/// calls too, which must not be reached.
pub fn draw(rng: &mut Rng, table: &[Frame], number: usize, wish: &Wish) -> Vec<Frame> {
    let bytes: Vec<u8> = table.iter().flat_map(|frame| frame.to_bytes()).collect();
    let checked = Checked::of(&bytes);
    let mut script =
        Script { rng, checked: &checked, wish, store: vec![0; STORE_WORDS], frames: Vec::new() };
    checked.load(&mut script.store);
    for _ in 0..number {
        script.draw_call();
    }
    script.frames
}

pub struct Script<'a> {
    pub rng: &'a mut Rng,
    pub checked: &'a Checked,
    wish: &'a Wish,
    pub store: Vec<u32>,
    frames: Vec<Frame>,
}

impl Script<'_> {
    fn draw_call(&mut self) {
        if self.rng.chance(DELAY_PERCENT) && self.draw_delay_calls().is_some() {
            return;
        }
        match self.rng.below(100) {
            0..=31 => self.draw_arrivals(),
            32..=67 => {
                let budget = self.draw_budget();
                self.run(budget);
            }
            68..=91 => {
                let to = self.draw_time();
                self.advance(to);
            }
            92..=94 => {
                let to = self.draw_refused_time();
                self.advance(to);
            }
            _ => self.draw_refused_arrival(),
        }
    }

    fn model(&self) -> Option<&Model> {
        self.checked.model()
    }

    pub fn now(&self) -> u32 {
        self.store[store::word::NOW]
    }

    pub fn due_times(&self) -> Vec<u32> {
        self.dues().into_iter().flatten().collect()
    }

    /// The due time of each element, of a delay that is due.
    pub fn dues(&self) -> Vec<Option<u32>> {
        let state = self.model().and_then(|model| store::read(model, &self.store));
        state.map_or(Vec::new(), |state| state.due)
    }

    pub fn source_events(&self) -> Vec<usize> {
        let Some(model) = self.model() else {
            return vec![0, 1];
        };
        let of_source = |&id: &usize| {
            let element = model.event_outputs[id].element;
            model.elements[element].kind == ElementKind::Source
        };
        (0..model.event_outputs.len()).filter(of_source).collect()
    }

    pub fn associations(&self, event: usize) -> usize {
        let output = self.model().and_then(|model| model.event_outputs.get(event));
        output.map_or(0, |output| output.associated.len())
    }

    // ------------------------------------------------------------ advance

    /// A time at, before or beyond a due time, or a little after now.
    fn draw_time(&mut self) -> u32 {
        let now = self.now();
        if let Some(due) = self.rng.pick_any(&self.due_times()) {
            match self.rng.below(10) {
                0..=5 => return due,
                6 => return due.saturating_sub(1).max(now),
                7 => return due.saturating_add(1),
                _ => {}
            }
        }
        match self.rng.below(60) {
            0 => GREATEST_TIME,
            1..=8 => now,
            9..=12 => now + self.rng.below(100_000) as u32,
            _ => now + self.rng.below(30) as u32,
        }
    }

    fn draw_refused_time(&mut self) -> u32 {
        let beyond = self.due_times().first().map_or(u32::MAX, |due| due.saturating_add(1));
        let before = self.now().wrapping_sub(1);
        self.rng.pick(&[before, before, beyond, GREATEST_TIME + 1, u32::MAX, 0])
    }

    pub fn advance(&mut self, to: u32) {
        self.frames.push(Frame::new(call_kind::ADVANCE, 0, &halves(to)));
        self.checked.advance(&mut self.store, to, &mut ());
    }

    // ------------------------------------------------------------ arrival

    /// One arrival, or several of one event, which find its inputs waiting; then
    /// often a run.
    fn draw_arrivals(&mut self) {
        let Some(event) = self.rng.pick_any(&self.source_events()) else {
            return;
        };
        for _ in 0..self.rng.pick(&[1, 1, 1, 1, 1, 1, 2, 3]) {
            let birth = self.draw_birth();
            let values = self.draw_values(self.associations(event));
            self.arrive(event, birth, &values);
        }
        if self.rng.chance(50) {
            let budget = self.draw_budget();
            self.run(budget);
        }
    }

    /// A birth at now or in the past.
    pub fn draw_birth(&mut self) -> u32 {
        let now = self.now();
        match self.rng.below(10) {
            0..=4 => now,
            5..=8 => now.saturating_sub(self.rng.below(20) as u32),
            _ => 0,
        }
    }

    /// An unknown event or none of a source, a birth after now, or too many
    /// or too few values; sometimes more than one of these.
    fn draw_refused_arrival(&mut self) {
        let mut event = self.rng.pick_any(&self.source_events()).unwrap_or(0);
        let mut birth = self.draw_birth();
        let mut values = self.associations(event);
        for _ in 0..self.rng.pick(&[1, 1, 1, 2]) {
            let after = self.now().saturating_add(1);
            match self.rng.below(3) {
                0 => event = self.rng.pick(&[0, 1, 2, 3, 5, 9, 300, 0xFFFF]),
                1 => birth = self.rng.pick(&[after, after, GREATEST_TIME, u32::MAX]),
                _ => values = self.rng.pick(&[0, 1, values + 1, 9, 255]).min(255),
            }
        }
        let values = self.draw_values(values);
        self.arrive(event, birth, &values);
    }

    fn draw_values(&mut self, number: usize) -> Vec<i32> {
        (0..number).map(|_| self.rng.value(self.wish.extreme)).collect()
    }

    pub fn arrive(&mut self, event: usize, birth: u32, values: &[i32]) {
        let [high, low] = halves(birth);
        let number = u8::try_from(values.len()).expect("at most 255 values");
        let fields = [field(event), high, low];
        self.frames.push(Frame::new(call_kind::ARRIVAL, number, &fields));
        for &value in values {
            let [high, low] = halves(value as u32);
            self.frames.push(Frame::new(call_kind::VALUE, 0, &[0, high, low]));
        }
        let event = u32::from(field(event));
        self.checked.arrival(&mut self.store, event, birth, values, &mut ());
    }

    // ------------------------------------------------------------ run

    /// Any budget, or one near the moves after which a run would stop anyway.
    fn draw_budget(&mut self) -> u32 {
        // Rings need many moves to fill the output buffer.
        let most = if self.wish.flow == Flow::Rings { 3000 } else { 400 };
        let budget = match self.rng.below(20) {
            0 => 0,
            1..=3 => self.rng.between(1, 4),
            4..=6 => self.rng.between(5, 30),
            7..=9 => {
                let stop = self.moves_of(&mut self.store.clone(), most);
                stop.saturating_sub(1) as usize + self.rng.below(3)
            }
            10..=13 => most as usize,
            _ => self.rng.between(40, 400),
        };
        budget as u32
    }

    /// Makes a run on a store and gives its moves.
    fn moves_of(&self, store: &mut [u32], budget: u32) -> u32 {
        self.checked.run(store, budget, &mut [0; OUTPUT_BYTES], &mut ()).moves
    }

    pub fn run(&mut self, budget: u32) {
        self.frames.push(Frame::new(call_kind::RUN, 0, &halves(budget)));
        let mut store = std::mem::take(&mut self.store);
        self.moves_of(&mut store, budget);
        self.store = store;
    }
}
