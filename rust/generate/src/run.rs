//! Horizons and buffer lengths for runs.

use crate::Generator;

impl Generator {
    /// A horizon: mostly short, now and then at or past a limit.
    pub fn horizon(&mut self) -> u32 {
        match self.random.between(0, 99) {
            0..=1 => 0,
            2 => 1_000_001,
            3 => u32::MAX,
            4..=69 => self.random.between(1, 64) as u32,
            _ => self.random.between(65, 1_500) as u32,
        }
    }

    /// A buffer's length in bytes: mostly ample, now and then too short, even or not.
    pub fn buffer_length(&mut self) -> usize {
        match self.random.between(0, 3) {
            0 => self.random.between(0, 120),
            1 => self.random.between(121, 2_000),
            _ => 60_000,
        }
    }
}
