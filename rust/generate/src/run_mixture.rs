//! The mixture of all runs.

use plain::Sheet;

use crate::limits::LAST_HORIZON;
use crate::sheets::MEMORY;
use crate::{Generator, Size, ZeroDelay};

/// What a run is given but for its buffer.
#[derive(Debug, Clone, PartialEq, Eq)]
pub struct RunInput {
    pub sheet: Vec<u8>,
    pub horizon: u32,
}

/// A family of accepted sheets.
type Family = fn(&mut Generator, Size) -> Sheet;

impl Generator {
    /// A sheet, good or bad, and a horizon. Long horizons go with few nodes. Of some sheets nodes have
    /// several drivers.
    pub fn run_input(&mut self) -> RunInput {
        self.or_beside(
            Generator::run_of_one_driver,
            Generator::run_of_several_drivers,
        )
    }

    fn run_of_one_driver(&mut self) -> RunInput {
        match self.random.between(0, 1_999) {
            0 => self.long_run(Generator::valid),
            1..=199 => self.run_of(Generator::valid, Size::Tiny),
            200..=499 => self.run_of(Generator::valid, Size::Small),
            500..=1_199 => self.lively_run(Generator::lively),
            1_200..=1_229 => self.short_run(Generator::valid, Size::Medium),
            1_230..=1_234 => self.short_run(Generator::valid, Size::Large),
            1_235..=1_239 => self.short_run(Generator::valid, Size::Full),
            1_240..=1_339 => self.zero_delay_run(Generator::zero_delay),
            1_340..=1_369 => self.crowded(),
            _ => self.any_run(Generator::any_of_one_driver),
        }
    }

    fn run_of_several_drivers(&mut self) -> RunInput {
        match self.random.between(0, 1_999) {
            0 => self.long_run(Generator::several_drivers),
            1..=199 => self.run_of(Generator::several_drivers, Size::Tiny),
            200..=999 => self.lively_run(Generator::several_drivers),
            1_000..=1_499 => self.bus(),
            1_500..=1_529 => self.short_run(Generator::several_drivers, Size::Medium),
            1_530..=1_534 => self.short_run(Generator::several_drivers, Size::Large),
            1_535..=1_539 => self.short_run(|generator, _| generator.longest(), Size::Full),
            1_540..=1_639 => self.zero_delay_run(Generator::zero_delay_of_several_drivers),
            1_640..=1_669 => self.crowded_bus(),
            _ => self.any_run(Generator::any_of_several_drivers),
        }
    }

    fn run_of(&mut self, family: Family, size: Size) -> RunInput {
        RunInput {
            sheet: family(self, size).encode(self.edition),
            horizon: self.horizon(),
        }
    }

    fn lively_run(&mut self, family: Family) -> RunInput {
        RunInput {
            sheet: family(self, Size::Small).encode(self.edition),
            horizon: self.random.between(1, 120) as u32,
        }
    }

    fn short_run(&mut self, family: Family, size: Size) -> RunInput {
        RunInput {
            sheet: family(self, size).encode(self.edition),
            horizon: self.horizon().min(100),
        }
    }

    fn zero_delay_run(&mut self, family: fn(&mut Generator) -> ZeroDelay) -> RunInput {
        RunInput {
            sheet: family(self).sheet.encode(self.edition),
            horizon: self.random.between(1, 20) as u32,
        }
    }

    fn any_run(&mut self, family: fn(&mut Generator) -> Vec<u8>) -> RunInput {
        RunInput {
            sheet: family(self),
            horizon: self.random.between(1, 64) as u32,
        }
    }

    /// A run to the last horizons there are. Memories would search back too far.
    fn long_run(&mut self, family: Family) -> RunInput {
        let has_memory = |sheet: &Sheet| sheet.modules.iter().any(|module| module.kind == MEMORY);
        let mut sheet = family(self, Size::Tiny);
        while has_memory(&sheet) {
            sheet = family(self, Size::Tiny);
        }
        RunInput {
            sheet: sheet.encode(self.edition),
            horizon: self
                .random
                .pick(&[LAST_HORIZON - 1, LAST_HORIZON, LAST_HORIZON + 1]),
        }
    }
}
