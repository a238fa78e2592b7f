//! Runs and widths for reports of pulses.

use plain::{Sheet, INPUT, NONE, UNKNOWN};

use crate::limits::GREATEST_WIDTH;
use crate::sheets::{event, sheet, Change};
use crate::{byte, Generator, Room, RunInput};

/// What a report of pulses is given but for its buffers.
#[derive(Debug, Clone, PartialEq, Eq)]
pub struct PulsesInput {
    pub run: RunInput,
    pub width: u32,
}

impl Generator {
    /// A run, good or bad, and a width, good or bad. More than half of the runs have stretches about as
    /// long as the width.
    pub fn pulses_input(&mut self) -> PulsesInput {
        if self.random.chance(60) {
            return self.near_the_width();
        }
        PulsesInput {
            run: self.run_input(),
            width: self.width(),
        }
    }

    /// The sort of a listing's buffer: mostly the whole listing is wanted.
    pub fn listing_room(&mut self) -> Room {
        match self.random.chance(70) {
            true => Room::Exact,
            false => self.room(),
        }
    }

    /// The sort of a report's buffer.
    pub fn report_room(&mut self) -> Room {
        self.random.pick(&Room::ALL)
    }

    /// A width: mostly a small one, now and then at a limit or past it.
    fn width(&mut self) -> u32 {
        let small = self.random.between(1, 12) as u32;
        let any = self.random.between(1, GREATEST_WIDTH as usize) as u32;
        let (last, past) = (GREATEST_WIDTH, GREATEST_WIDTH + 1);
        match self.random.between(0, 9) {
            0 => self.random.pick(&[0, past, u32::MAX]),
            1 => self.random.pick(&[1, last - 1, last]),
            2 => any,
            _ => small,
        }
    }

    /// A few inputs, each with stretches that are a tick shorter than the width, as long, a tick longer, or
    /// anything near, and modules that pass them on. The horizon is often where a stretch ends, or the tick
    /// after. Few widths are long, for the cells are many then.
    fn near_the_width(&mut self) -> PulsesInput {
        let width = match self.random.between(0, 1_999) {
            0 => self.random.pick(&[300, GREATEST_WIDTH - 1, GREATEST_WIDTH]),
            _ => self.random.pick(&[1, 2, 2, 3, 3, 3, 4, 4, 5, 7, 10, 16]),
        };
        let mut sheet = self.stretched_inputs(width as usize);
        for _ in 0..self.random.between(0, 3) {
            let node = byte(self.random.place(sheet.nodes.len()));
            let delay = self.random.between(0, width as usize);
            self.add_passing(&mut sheet, node, delay, false);
        }
        let horizon = self.horizon_near_an_end(&sheet, width as usize);
        let watched = self.random.pick(&[60, 90, 100]);
        let sheet = self.numbered_anyhow(sheet, watched);
        PulsesInput {
            run: RunInput { sheet, horizon },
            width,
        }
    }

    fn stretched_inputs(&mut self, width: usize) -> Sheet {
        let inputs = self.random.between(1, 3);
        let mut sheet = sheet(&vec![INPUT; inputs], &[], &[], &[]);
        for node in 0..byte(inputs) {
            let changes = self.stretches(node, width);
            let events = changes
                .into_iter()
                .map(|(tick, node, value)| event(tick, node, value));
            sheet.drive.extend(events);
        }
        sheet
            .drive
            .sort_unstable_by_key(|event| (event.tick, event.node));
        sheet
    }

    /// The changes of an input. One that is X at first may have no event at tick 0.
    fn stretches(&mut self, node: u8, width: usize) -> Vec<Change> {
        let mut value = self.level();
        let mut tick = 0;
        let mut changes = Vec::new();
        if value != UNKNOWN || self.random.chance(50) {
            changes.push((tick, node, value));
        }
        for _ in 0..self.random.between(1, 7) {
            tick += self.stretch(width);
            value = self.another_level(value);
            changes.push((tick, node, value));
        }
        changes
    }

    /// A length: often next to the width.
    fn stretch(&mut self, width: usize) -> u32 {
        let any = self.random.between(1, 2 * width);
        let near = [width - 1, width - 1, width, width + 1, 1, any];
        self.random.pick(&near).max(1) as u32
    }

    /// A value that ends a stretch of this one.
    fn another_level(&mut self, value: u8) -> u8 {
        let further = self.random.between(1, usize::from(NONE));
        byte((usize::from(value) + further) % (usize::from(NONE) + 1))
    }

    /// At an input's change or at that of a module that passes it on, the tick after, or later.
    fn horizon_near_an_end(&mut self, sheet: &Sheet, width: usize) -> u32 {
        let changes: Vec<u32> = sheet.drive.iter().map(|event| event.tick).collect();
        let mut delays: Vec<u32> = sheet
            .modules
            .iter()
            .map(|module| module.delay.into())
            .collect();
        delays.push(0);
        let end = self.random.pick(&changes) + self.random.pick(&delays);
        let later = self.random.between(2, 4 * width) as u32;
        let after = self.random.pick(&[0, 1, later, later]);
        (end + after).max(1)
    }
}
