//! Random numbers, and floats in and around the domain.

/// The same seed gives the same numbers (splitmix64).
pub struct Random {
    state: u64,
}

impl Random {
    pub fn new(seed: u64) -> Random {
        Random { state: seed }
    }

    pub fn number(&mut self) -> u64 {
        self.state = self.state.wrapping_add(0x9e37_79b9_7f4a_7c15);
        let mut z = self.state;
        z = (z ^ (z >> 30)).wrapping_mul(0xbf58_476d_1ce4_e5b9);
        z = (z ^ (z >> 27)).wrapping_mul(0x94d0_49bb_1331_11eb);
        z ^ (z >> 31)
    }

    /// Below n, which is not 0.
    pub fn below(&mut self, n: u64) -> u64 {
        self.number() % n
    }

    pub fn between(&mut self, least: u64, most: u64) -> u64 {
        least + self.below(most - least + 1)
    }

    /// True so often in a hundred.
    pub fn percent(&mut self, times: u64) -> bool {
        self.below(100) < times
    }

    pub fn pick<T: Copy>(&mut self, from: &[T]) -> T {
        from[self.below(from.len() as u64) as usize]
    }

    /// From 0 to below 1.
    fn part(&mut self) -> f32 {
        self.below(1 << 24) as f32 / (1 << 24) as f32
    }
}

/// The float so many steps above x, or below it; below 0.0 come the negative ones, from -0.0 on.
pub fn stepped(x: f32, steps: i32) -> f32 {
    let bits = x.to_bits() as i64 + steps as i64;
    if bits < 0 {
        return f32::from_bits(0x8000_0000 | (-bits - 1) as u32);
    }
    f32::from_bits(bits as u32)
}

const MOST_SIZE: f32 = 1_000_000.0;
const LEAST_PROPORTION: f32 = 0.001;
const MOST_PROPORTION: f32 = 1000.0;

/// The size nearest to x.
pub fn as_size(x: f32) -> f32 {
    if x > 0.0 {
        x.min(MOST_SIZE)
    } else {
        0.0
    }
}

pub fn as_proportion(x: f32) -> f32 {
    x.max(LEAST_PROPORTION).min(MOST_PROPORTION)
}

/// What the sizes of a case are like.
#[derive(Clone, Copy)]
pub enum Mood {
    Whole,
    LargeWhole,
    Tenths,
    Small,
    Wide,
    AnyBits,
    Subnormal,
    Huge,
    Same(f32),
    Mixed,
}

impl Random {
    pub fn mood(&mut self) -> Mood {
        match self.below(20) {
            0..=3 => Mood::Whole,
            4 => Mood::LargeWhole,
            5..=6 => Mood::Tenths,
            7..=9 => Mood::Small,
            10..=12 => Mood::Wide,
            13 => self.pick(&[Mood::AnyBits, Mood::Subnormal]),
            14 => Mood::Huge,
            15..=16 => {
                let mood = self.pick(&[Mood::Whole, Mood::Tenths, Mood::Small, Mood::Wide]);
                Mood::Same(self.size(mood))
            }
            _ => Mood::Mixed,
        }
    }

    /// A size in the domain.
    pub fn size(&mut self, mood: Mood) -> f32 {
        if self.percent(6) {
            return self.edge();
        }
        match mood {
            Mood::Whole => self.between(0, 100) as f32,
            Mood::LargeWhole => self.between(0, 1_000_000) as f32,
            Mood::Tenths => self.between(0, 1_000) as f32 / 10.0,
            Mood::Small => self.between(0, 200) as f32 / 100.0 * self.part(),
            Mood::Wide => as_size(10f32.powi(self.between(0, 12) as i32 - 6) * self.part()),
            Mood::AnyBits => f32::from_bits(self.between(0, MOST_SIZE.to_bits() as u64) as u32),
            Mood::Subnormal => f32::from_bits(self.between(0, 200) as u32),
            Mood::Huge => MOST_SIZE - self.between(0, 100_000) as f32 * self.part(),
            Mood::Same(x) => x,
            Mood::Mixed => {
                let mood = self.pick(&[
                    Mood::Whole,
                    Mood::LargeWhole,
                    Mood::Tenths,
                    Mood::Small,
                    Mood::Wide,
                    Mood::AnyBits,
                ]);
                self.size(mood)
            }
        }
    }

    /// A size in the domain at a threshold, or at most two steps from it.
    pub fn edge(&mut self) -> f32 {
        let threshold = self.pick(&[
            0.0,
            0.0,
            0.0,
            0.01,
            0.01,
            0.001,
            1.0,
            MOST_PROPORTION,
            MOST_SIZE,
            f32::MIN_POSITIVE,
        ]);
        as_size(self.near(threshold))
    }

    pub fn near(&mut self, x: f32) -> f32 {
        let steps = self.between(0, 4) as i32 - 2;
        stepped(x, steps)
    }

    pub fn proportion(&mut self, mood: Mood) -> f32 {
        if self.percent(6) {
            let end = self.pick(&[LEAST_PROPORTION, 1.0, MOST_PROPORTION]);
            return as_proportion(self.near(end));
        }
        match mood {
            Mood::Whole => self.between(1, 4) as f32,
            Mood::Same(x) => as_proportion(x),
            Mood::Small => as_proportion(self.between(1, 200) as f32 / 1000.0),
            _ => as_proportion(10f32.powi(self.between(0, 6) as i32 - 3) * (1.0 + self.part())),
        }
    }

    /// Often outside every domain, and always at or near an end of one.
    pub fn outside(&mut self) -> f32 {
        match self.below(12) {
            0 => f32::from_bits(self.pick(&[
                0x7fc0_0000,
                0x7f80_0001,
                0xffc0_0000,
                0xff80_0001,
                0x7fff_ffff,
                0xffff_ffff,
            ])),
            1 => f32::INFINITY,
            2 => f32::NEG_INFINITY,
            3 => -0.0,
            4 => -self.pick(&[
                1.0,
                0.01,
                0.001,
                1e6,
                f32::MIN_POSITIVE,
                f32::MAX,
                f32::from_bits(1),
            ]),
            5 => stepped(MOST_SIZE, self.between(0, 2) as i32),
            6 => self.near(MOST_PROPORTION),
            7 => self.near(LEAST_PROPORTION),
            8 => stepped(0.0, self.between(0, 4) as i32 - 2),
            9 => f32::MAX,
            10 => stepped(f32::MAX, self.between(0, 2) as i32),
            _ => f32::from_bits(self.number() as u32),
        }
    }
}
