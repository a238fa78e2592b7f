//! Sheets to be converted to the other edition.
//!
//! Most sheets of the second edition have many modules of kinds that the first lacks, so they are mixed
//! with sheets that have none, or one or two, which may be the first in the list, the last or any.

use std::mem;

use plain::{Edition, Module, Sheet};

use crate::{Generator, Size};

impl Generator {
    /// The bytes of a sheet, good or bad, to be converted to the other edition.
    pub fn to_convert(&mut self) -> Vec<u8> {
        self.or_beside(
            |generator| {
                generator.any_or_narrow(Generator::any_of_one_driver, Generator::base_or_faulty)
            },
            |generator| {
                generator.any_or_narrow(Generator::any_of_several_drivers, |generator| {
                    generator.several_drivers(Size::Small)
                })
            },
        )
    }

    /// The bytes of any sheet of a family, or of one that has few modules or none of three inputs.
    fn any_or_narrow(
        &mut self,
        any: fn(&mut Generator) -> Vec<u8>,
        narrow: fn(&mut Generator) -> Sheet,
    ) -> Vec<u8> {
        let modules_to_widen = match (self.edition, self.random.between(0, 9)) {
            (Edition::First, _) | (_, 0..=3) => return any(self),
            (_, 4..=6) => 0,
            (_, 7..=8) => 1,
            _ => 2,
        };
        let mut sheet = self.of_first_kinds(narrow);
        for _ in 0..modules_to_widen {
            self.widen_a_module(&mut sheet);
        }
        sheet.encode(self.edition)
    }

    /// A sheet as it is made in the first edition.
    fn of_first_kinds(&mut self, make: fn(&mut Generator) -> Sheet) -> Sheet {
        let edition = mem::replace(&mut self.edition, Edition::First);
        let sheet = make(self);
        self.edition = edition;
        sheet
    }

    /// Gives the first module, the last one or any a kind of three inputs. What it reads now is what it
    /// read before, so that it closes no loop; a constant, which read nothing, gets a delay.
    fn widen_a_module(&mut self, sheet: &mut Sheet) {
        let Some(last) = sheet.modules.len().checked_sub(1) else {
            return;
        };
        let any = self.random.place(last + 1);
        let place = self.random.pick(&[0, last, any]);
        let module = sheet.modules[place];
        let read = module.used_inputs().last();
        let mut wide = Module {
            kind: self.widest_kind(),
            parameter: 0,
            delay: module.delay.max(u16::from(read.is_none())),
            ..module
        };
        for input in wide.used_inputs_mut().skip(module.input_count()) {
            *input = read.unwrap_or(0);
        }
        sheet.modules[place] = wide;
    }
}
