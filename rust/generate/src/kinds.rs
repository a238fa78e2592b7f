//! The kinds that the modules of an edition may have, and their parameters.

use plain::Edition;

use crate::sheets::*;
use crate::{byte, Generator};

/// All kinds, rising, those that pass changes on more often. Of the second edition's modules half have
/// three inputs.
const OFTEN_PASSING: &[u8] = &[
    0, 1, 2, 2, 3, 4, 5, 5, 6, 6, 7, 7, 8, 9, 9, 10, 10, 11, 11, 12, 12, 12, 13, 13, 14, 14, 15,
    15, 15, 15,
];

/// The kinds of two inputs that are neither clocked nor a memory.
const OF_TWO: &[u8] = &[AND, OR, XOR, NAND, NOR];

/// All kinds of three inputs.
const OF_THREE: &[u8] = &[AND_3, OR_3, XOR_3, NAND_3, NOR_3, MULTIPLEXER];

impl Generator {
    /// Any kind from `least` on.
    pub(crate) fn kind_from(&mut self, least: u8) -> u8 {
        let greatest = self.edition.greatest_kind();
        byte(self.random.between(least.into(), greatest.into()))
    }

    /// One of these kinds, which rise, that the edition has.
    pub(crate) fn kind_among(&mut self, rising: &[u8]) -> u8 {
        let greatest = self.edition.greatest_kind();
        let known = rising.partition_point(|&kind| kind <= greatest);
        self.random.pick(&rising[..known])
    }

    /// Any kind, those that pass changes on more often.
    pub(crate) fn often_passing_kind(&mut self) -> u8 {
        self.kind_among(OFTEN_PASSING)
    }

    /// A gate's kind with as many inputs as the edition has.
    pub(crate) fn widest_kind(&mut self) -> u8 {
        let kinds = self.by_edition(OF_TWO, OF_THREE);
        self.random.pick(kinds)
    }

    /// A parameter that the kind allows.
    pub(crate) fn parameter(&mut self, kind: u8) -> u8 {
        match kind {
            CONSTANT => self.level(),
            MEMORY => byte(self.random.between(0, 15)),
            _ => 0,
        }
    }

    /// What goes with the edition of this stream.
    pub(crate) fn by_edition<T>(&self, first: T, second: T) -> T {
        match self.edition {
            Edition::First => first,
            Edition::Second => second,
        }
    }
}
