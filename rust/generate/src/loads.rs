//! Document 02's W-210, a load to compare cards, seen from the sheets' bytes. A draw is worked out by its
//! number alone, and not from the one before.

use plain::{Edition, Sheet, INPUT};

use crate::assert_met;
use crate::drivers::has_several_drivers;
use crate::limits::{EVENT_BYTES, MOST_EVENTS, MOST_NODES};
use crate::sheets::Change;
use crate::{byte, starts_of, Start};

/// The state after so many draws of a seed.
pub fn state(seed: u32, draws: usize) -> u64 {
    (u64::from(seed) + draws as u64 * 2_654_435_769) % (1 << 32)
}

/// A draw of a seed, the first being number 1.
pub fn draw(seed: u32, number: usize) -> usize {
    let state = state(seed, number);
    ((state >> 16) ^ (state & 0xFFFF)) as usize
}

/// The events that `n` and these inputs get from a seed: each input takes a draw, and each further event
/// takes three.
pub fn drive(inputs: &[u8], seed: u32, n: usize) -> Vec<Change> {
    let draw = |number: usize| draw(seed, number);
    let firsts = (1..)
        .zip(inputs)
        .map(|(number, &node)| (0, node, byte(draw(number) % 2)));
    let mut tick = 0;
    let further = (0..n).map(|place| {
        let before = inputs.len() + 3 * place;
        let [grows, position, value] = [1, 2, 3].map(|number| draw(before + number));
        tick += 1 + grows as u32 % 64;
        (tick, inputs[position % inputs.len()], byte(value % 2))
    });
    firsts.chain(further).collect()
}

/// A sheet's bytes in three parts: nodes and modules, the drive after its count, and the watched nodes.
pub struct Parts<'a> {
    pub before: &'a [u8],
    pub drive: &'a [u8],
    pub after: &'a [u8],
}

/// The parts of an accepted sheet.
pub fn parts(edition: Edition, sheet: &[u8]) -> Parts<'_> {
    let count = |place: usize| usize::from(u16::from_le_bytes([sheet[place], sheet[place + 1]]));
    let modules = 2 + count(0);
    let drive = modules + 2 + edition.module_bytes() * count(modules);
    let watched = drive + 2 + EVENT_BYTES * count(drive);
    Parts {
        before: &sheet[..drive],
        drive: &sheet[drive..watched],
        after: &sheet[watched..],
    }
}

/// The inputs of an accepted sheet, by its nodes' bytes.
fn inputs(sheet: &[u8]) -> Vec<u8> {
    let nodes = u16::from_le_bytes([sheet[0], sheet[1]]);
    let numbered = (0..=u8::MAX).zip(&sheet[2..2 + usize::from(nodes)]);
    let inputs = numbered.filter(|(_, &byte)| byte == INPUT);
    inputs.map(|(node, _)| node).collect()
}

/// The bytes of a drive after its count.
fn drive_bytes(events: &[Change]) -> Vec<u8> {
    let count = u16::try_from(events.len()).expect("a count has two bytes");
    let mut bytes = count.to_le_bytes().to_vec();
    for &(tick, node, value) in events {
        bytes.extend(tick.to_le_bytes());
        bytes.extend([node, value]);
    }
    bytes
}

/// The bytes of an accepted sheet once it is loaded, if 26 does not refuse it.
pub fn loaded(edition: Edition, sheet: &[u8], seed: u32, n: u32) -> Option<Vec<u8>> {
    let inputs = inputs(sheet);
    let n = n as usize;
    if inputs.len() + n > MOST_EVENTS || inputs.is_empty() && n > 0 {
        return None;
    }
    let Parts { before, after, .. } = parts(edition, sheet);
    let drive = drive_bytes(&drive(&inputs, seed, n));
    Some([before, &drive, after].concat())
}

/// How often loads of accepted sheets met what is easily wrong.
#[derive(Debug, Default)]
pub struct LoadsMet {
    /// Sheets without an input and without an event to draw, with one input, with several, and with as many
    /// as there may be.
    no_input: u64,
    one_input: u64,
    several_inputs: u64,
    all_inputs: u64,
    /// Those in which a driven node stands before an input, so that positions are not nodes.
    driven_before: u64,
    /// Those of which some input has no event at tick 0.
    begun_late: u64,
    /// Those with several drivers a node.
    several_drivers: u64,
    /// Those whose own drive has fewer events, as many, and more.
    longer: u64,
    as_long: u64,
    shorter: u64,
    /// Loads from the first seed, from the second and from the last.
    first_seed: u64,
    second_seed: u64,
    last_seed: u64,
    /// Loads of no event but the inputs', of one more, and of as many as there may be.
    none_drawn: u64,
    one_drawn: u64,
    all_drawn: u64,
    /// Refused by 26: one event too many, a sum that has more than 32 bits and is small without them, and
    /// events for no input.
    one_too_many: u64,
    sum_passes_32_bits: u64,
    for_no_input: u64,
}

impl LoadsMet {
    /// Adds a load of an accepted sheet.
    pub fn add(&mut self, sheet: &Sheet, seed: u32, n: u32) {
        let inputs = sheet.inputs().count();
        let events = inputs + n as usize;
        if inputs == 0 && n > 0 {
            self.for_no_input += u64::from(events <= MOST_EVENTS);
        } else if events > MOST_EVENTS {
            self.one_too_many += u64::from(events == MOST_EVENTS + 1);
            let lower = events % (1 << 32);
            self.sum_passes_32_bits += u64::from(lower <= MOST_EVENTS && lower < events);
        } else {
            self.add_inputs(sheet, inputs);
            self.add_events(sheet, events, n);
            self.first_seed += u64::from(seed == 0);
            self.second_seed += u64::from(seed == 1);
            self.last_seed += u64::from(seed == u32::MAX);
        }
    }

    fn add_inputs(&mut self, sheet: &Sheet, inputs: usize) {
        match inputs {
            0 => self.no_input += 1,
            1 => self.one_input += 1,
            MOST_NODES => self.all_inputs += 1,
            _ => self.several_inputs += 1,
        }
        let last = sheet.inputs().last();
        let is_apart = last.is_some_and(|last| usize::from(last) >= inputs);
        self.driven_before += u64::from(is_apart);
        let starts = starts_of(sheet);
        self.begun_late += u64::from(starts.iter().any(|&start| start != Start::AtOnce));
        self.several_drivers += u64::from(has_several_drivers(sheet));
    }

    fn add_events(&mut self, sheet: &Sheet, events: usize, n: u32) {
        let own = sheet.drive.len();
        self.longer += u64::from(events > own);
        self.as_long += u64::from(events == own);
        self.shorter += u64::from(events < own);
        self.none_drawn += u64::from(n == 0);
        self.one_drawn += u64::from(n == 1);
        self.all_drawn += u64::from(events == MOST_EVENTS);
    }

    /// Asserts that everything was met at least so often.
    pub fn assert_often(&self, least: u64, whence: &str) {
        let met = [
            self.no_input,
            self.one_input,
            self.several_inputs,
            self.all_inputs,
            self.driven_before,
            self.begun_late,
            self.several_drivers,
            self.longer,
            self.as_long,
            self.shorter,
            self.first_seed,
            self.second_seed,
            self.last_seed,
            self.none_drawn,
            self.one_drawn,
            self.all_drawn,
            self.one_too_many,
            self.sum_passes_32_bits,
            self.for_no_input,
        ];
        assert_met(&met, least, &[], &format!("{whence}: {self:?}"));
    }
}
