//! Byte strings that are sheets only in part, or not at all.

use plain::Sheet;

use crate::Generator;

impl Generator {
    /// A sheet with one of its four counts changed, and its records left as they are.
    pub fn with_wrong_count(&mut self) -> Vec<u8> {
        let sheet = self.base();
        let counts = counts(&sheet, self.edition.module_bytes());
        let (place, records, limit) = self.random.pick(&counts);
        let near = [
            0,
            1,
            records.saturating_sub(1),
            records + 1,
            limit - 1,
            limit,
            limit + 1,
            // The count with its bytes the wrong way round.
            usize::from((records as u16).swap_bytes()),
            usize::from(u16::MAX),
        ];
        let count = self.random.pick(&near) as u16;
        let mut bytes = sheet.encode(self.edition);
        bytes[place..place + 2].copy_from_slice(&count.to_le_bytes());
        bytes
    }

    /// A sheet that ends too early.
    pub fn truncated(&mut self) -> Vec<u8> {
        let mut bytes = self.base_or_faulty().encode(self.edition);
        bytes.truncate(self.random.place(bytes.len()));
        bytes
    }

    /// A sheet with bytes left over.
    pub fn left_over(&mut self) -> Vec<u8> {
        let mut bytes = self.base_or_faulty().encode(self.edition);
        for _ in 0..self.random.between(1, 9) {
            let low = self.random.pick(&[0, 0, 1, 4]);
            let any = self.random.byte();
            bytes.push(self.random.pick(&[low, any]));
        }
        bytes
    }

    /// A sheet with one to three of its bytes changed.
    pub fn mutated(&mut self) -> Vec<u8> {
        let mut bytes = self.base().encode(self.edition);
        for _ in 0..self.random.pick(&[1, 1, 1, 2, 3]) {
            let place = self.random.place(bytes.len());
            let now = bytes[place];
            let bit = 1 << self.random.between(0, 7);
            let any = self.random.byte();
            let changed = [now.wrapping_add(1), now.wrapping_sub(1), now ^ bit, any];
            bytes[place] = self.random.pick(&changed);
        }
        bytes
    }

    /// Bytes that follow no sheet. Small ones lead further into the reading.
    pub fn noise(&mut self) -> Vec<u8> {
        let length = self.random.between(0, 60);
        let small = self.random.chance(70);
        let mut bytes = Vec::new();
        for _ in 0..length {
            let low = self.random.pick(&[0, 0, 0, 1, 2, 3, 4]);
            bytes.push(if small { low } else { self.random.byte() });
        }
        bytes
    }

    /// A sheet to spoil, or one with a fault already.
    pub(crate) fn base_or_faulty(&mut self) -> Sheet {
        if self.random.chance(70) {
            self.base()
        } else {
            self.faulty(1)
        }
    }
}

/// For each of the four counts: its place, the records there are, and its limit. A module has so many
/// bytes.
fn counts(sheet: &Sheet, module_bytes: usize) -> [(usize, usize, usize); 4] {
    let nodes = sheet.nodes.len();
    let modules = sheet.modules.len();
    let drive = sheet.drive.len();
    let watched = sheet.watched.len();
    let drive_place = 4 + nodes + module_bytes * modules;
    [
        (0, nodes, 256),
        (2 + nodes, modules, 256),
        (drive_place, drive, 1_024),
        (drive_place + 2 + 6 * drive, watched, 256),
    ]
}
