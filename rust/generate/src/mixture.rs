//! The mixture of all families.

use crate::{Generator, Size};

impl Generator {
    /// The bytes of a sheet, good or bad, or of none. Of some sheets nodes have several drivers.
    pub fn any(&mut self) -> Vec<u8> {
        self.or_beside(
            Generator::any_of_one_driver,
            Generator::any_of_several_drivers,
        )
    }

    pub(crate) fn any_of_one_driver(&mut self) -> Vec<u8> {
        let sheet = match self.random.between(0, 999) {
            0..=79 => self.valid(Size::Tiny),
            80..=199 => self.valid(Size::Small),
            200..=204 => self.valid(Size::Medium),
            205..=206 => self.valid(Size::Large),
            207..=208 => self.valid(Size::Full),
            209..=299 => self.zero_delay().sheet,
            300..=319 => self.closed_by_unused_inputs().sheet,
            320..=379 => self.tangle(),
            380..=569 => self.faulty(1),
            570..=589 => self.faulty(2),
            590..=669 => self.faulty(5),
            670..=789 => self.faulty_record(),
            790..=859 => return self.with_wrong_count(),
            860..=909 => return self.truncated(),
            910..=939 => return self.left_over(),
            940..=984 => return self.mutated(),
            _ => return self.noise(),
        };
        sheet.encode(self.edition)
    }
}
