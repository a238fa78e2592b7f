//! When inputs begin: at tick 0, later, or never.

use plain::Sheet;

use crate::Generator;

/// When an input has its first event.
#[derive(Debug, Clone, Copy, PartialEq, Eq)]
pub enum Start {
    AtOnce,
    /// After tick 0, and soon enough for short runs to show it.
    Late,
    /// It has no event.
    Never,
}

/// The last tick at which an input that begins late does so.
const LATEST: usize = 8;

/// All inputs begin at once.
const ALL_AT_ONCE: &[Start] = &[Start::AtOnce];

/// Any of them may begin late, or not at all.
const MIXED: &[Start] = &[Start::AtOnce, Start::AtOnce, Start::Late, Start::Never];

impl Generator {
    /// How the inputs of one sheet begin: of two sheets one has them all begin at once.
    pub(crate) fn starts(&mut self) -> &'static [Start] {
        self.random.pick(&[ALL_AT_ONCE, MIXED])
    }

    /// A tick for an input's first event, or none if it never begins.
    pub(crate) fn first_tick(&mut self, start: Start) -> Option<u32> {
        match start {
            Start::AtOnce => Some(0),
            Start::Late => Some(self.random.between(1, LATEST) as u32),
            Start::Never => None,
        }
    }
}

/// How each input of a sheet begins.
pub fn starts_of(sheet: &Sheet) -> Vec<Start> {
    let start = |node: u8| {
        let first = sheet.drive.iter().find(|event| event.node == node);
        match first.map(|event| event.tick) {
            Some(0) => Start::AtOnce,
            Some(_) => Start::Late,
            None => Start::Never,
        }
    };
    sheet.inputs().map(start).collect()
}
