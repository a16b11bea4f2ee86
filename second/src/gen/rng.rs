//! A small generator of numbers, the same on every machine.

/// The splitmix64 sequence.
pub struct Rng(u64);

impl Rng {
    /// A sequence of its own for each seed and stream.
    pub fn new(seed: u64, stream: u64) -> Rng {
        let mut first = Rng(seed);
        let mixed = first.bits();
        Rng(mixed ^ stream.wrapping_mul(0xD134_2543_DE82_EF95))
    }

    /// The next 64 bits.
    pub fn bits(&mut self) -> u64 {
        self.0 = self.0.wrapping_add(0x9E37_79B9_7F4A_7C15);
        let mut z = self.0;
        z = (z ^ (z >> 30)).wrapping_mul(0xBF58_476D_1CE4_E5B9);
        z = (z ^ (z >> 27)).wrapping_mul(0x94D0_49BB_1331_11EB);
        z ^ (z >> 31)
    }

    /// A number from 0 to `end` - 1; `end` is not 0.
    pub fn below(&mut self, end: usize) -> usize {
        (self.bits() % end as u64) as usize
    }

    /// A number from `least` to `most`.
    pub fn between(&mut self, least: usize, most: usize) -> usize {
        least + self.below(most - least + 1)
    }

    /// True in this many of a hundred cases.
    pub fn chance(&mut self, percent: usize) -> bool {
        self.below(100) < percent
    }

    /// One of a list that is not empty.
    pub fn pick<T: Copy>(&mut self, list: &[T]) -> T {
        list[self.below(list.len())]
    }

    /// One of a list, `None` of an empty one.
    pub fn pick_any<T: Copy>(&mut self, list: &[T]) -> Option<T> {
        (!list.is_empty()).then(|| self.pick(list))
    }

    pub fn shuffle<T>(&mut self, list: &mut [T]) {
        for last in (1..list.len()).rev() {
            list.swap(last, self.below(last + 1));
        }
    }

    /// Some of a list, in any order, at most `most` of them.
    pub fn some_of(&mut self, list: &[usize], percent: usize, most: usize) -> Vec<usize> {
        let mut some: Vec<usize> = list.iter().copied().filter(|_| self.chance(percent)).collect();
        self.shuffle(&mut some);
        some.truncate(most);
        some
    }

    /// A data value: mostly small, often near an end of the range; an extreme
    /// one always at an end or where results change their sign.
    pub fn value(&mut self, extreme: bool) -> i32 {
        const ENDS: [i32; 10] =
            [i32::MIN, i32::MIN, i32::MIN + 1, i32::MAX, i32::MAX, i32::MAX - 1, -1, -1, 0, 65536];
        match self.below(10) {
            _ if extreme => self.pick(&ENDS),
            0..=4 => self.below(40) as i32 - 12,
            5..=7 => self.pick(&ENDS),
            8 => self.below(200_000) as i32 - 100_000,
            _ => self.bits() as i32,
        }
    }
}
