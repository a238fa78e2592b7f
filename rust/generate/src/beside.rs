//! The stream of sheets with several drivers a node, beside that of all others.

use std::mem;

use plain::Sheet;

use crate::{Generator, Size};

/// How many of a hundred come from the stream beside.
const BESIDE: usize = 30;

impl Generator {
    /// What the first makes, or now and then what the second makes of the stream beside. The first stream
    /// is not touched then.
    pub(crate) fn or_beside<T>(
        &mut self,
        make: fn(&mut Generator) -> T,
        make_beside: fn(&mut Generator) -> T,
    ) -> T {
        if !self.beside.chance(BESIDE) {
            return make(self);
        }
        mem::swap(&mut self.random, &mut self.beside);
        let made = make_beside(self);
        mem::swap(&mut self.random, &mut self.beside);
        made
    }

    /// The bytes of a sheet with several drivers a node, good or bad.
    pub(crate) fn any_of_several_drivers(&mut self) -> Vec<u8> {
        let mut sheet = match self.random.between(0, 999) {
            0..=199 => self.several_drivers(Size::Tiny),
            200..=549 => self.several_drivers(Size::Small),
            550..=554 => self.several_drivers(Size::Medium),
            555..=558 => self.longest(),
            559..=749 => self.zero_delay_of_several_drivers().sheet,
            750..=849 => self.tangle_of_several_drivers(),
            _ => return self.bus().sheet,
        };
        match self.random.between(0, 9) {
            0..=4 => {}
            5..=6 => self.add_fault(&mut sheet),
            7 => (0..3).for_each(|_| self.add_fault(&mut sheet)),
            8 => self.spoil_module(&mut sheet),
            _ => return self.cut(&sheet),
        }
        sheet.encode(self.edition)
    }

    fn tangle_of_several_drivers(&mut self) -> Sheet {
        let sheet = self.tangle();
        self.with_more_drivers(sheet)
    }

    fn cut(&mut self, sheet: &Sheet) -> Vec<u8> {
        let mut bytes = sheet.encode(self.edition);
        bytes.truncate(self.random.place(bytes.len()));
        bytes
    }
}
