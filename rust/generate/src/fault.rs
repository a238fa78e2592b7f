//! Sheets with faults in their records.

use plain::{Edition, Event, Module, Sheet};

use crate::{byte, Generator, Size};

impl Generator {
    /// A sheet with so many faults, each anywhere. A fault may come to nothing or undo another.
    pub fn faulty(&mut self, faults: usize) -> Sheet {
        let mut sheet = self.base();
        for _ in 0..faults {
            self.add_fault(&mut sheet);
        }
        sheet
    }

    /// A sheet with one record that may be wrong in every field, so that the order of the
    /// refusals within a record matters.
    pub fn faulty_record(&mut self) -> Sheet {
        let mut sheet = self.base();
        if self.random.chance(50) {
            self.spoil_module(&mut sheet);
        } else {
            self.spoil_event(&mut sheet);
        }
        sheet
    }

    /// A sheet to spoil: mostly small.
    pub(crate) fn base(&mut self) -> Sheet {
        match self.random.between(0, 199) {
            0 => self.valid(Size::Large),
            1..=5 => self.valid(Size::Medium),
            6..=29 => self.zero_delay().sheet,
            30..=89 => self.valid(Size::Tiny),
            _ => self.valid(Size::Small),
        }
    }

    pub(crate) fn add_fault(&mut self, sheet: &mut Sheet) {
        match self.random.between(0, 19) {
            0..=1 => self.change_node(sheet),
            2..=7 => self.change_module(sheet),
            8 => self.lose(|sheet| &mut sheet.modules, sheet),
            9 => self.repeat(|sheet| &mut sheet.modules, sheet),
            10..=12 => self.change_event(sheet),
            13 => self.lose(|sheet| &mut sheet.drive, sheet),
            14 => self.repeat(|sheet| &mut sheet.drive, sheet),
            15 => self.swap(|sheet| &mut sheet.drive, sheet),
            16 => self.change_watched(sheet),
            17 => self.repeat(|sheet| &mut sheet.watched, sheet),
            18 => self.swap(|sheet| &mut sheet.watched, sheet),
            _ => self.swap(|sheet| &mut sheet.nodes, sheet),
        }
    }

    /// A number just below, at or just past `limit`, or as large as its bytes allow.
    fn near(&mut self, limit: usize, largest: usize) -> usize {
        let around = [limit.saturating_sub(1), limit, limit + 1, largest];
        self.random.pick(&around).min(largest)
    }

    fn byte_near(&mut self, limit: usize) -> u8 {
        byte(self.near(limit, 255))
    }

    fn change_node(&mut self, sheet: &mut Sheet) {
        let place = self.random.place(sheet.nodes.len());
        sheet.nodes[place] = self.byte_near(4);
    }

    fn change_module(&mut self, sheet: &mut Sheet) {
        let nodes = sheet.nodes.len();
        if sheet.modules.is_empty() {
            return;
        }
        let other = self.random.pick(&sheet.modules).output;
        let place = self.random.place(sheet.modules.len());
        let module = &mut sheet.modules[place];
        match self.random.between(0, self.by_edition(7, 8)) {
            0 => module.kind = self.kind_near_a_limit(),
            1 => module.parameter = self.wrong_parameter(module.kind),
            2 => module.output = self.byte_near(nodes - 1),
            3 => module.output = other,
            4 => module.first = self.byte_near(nodes - 1),
            5 => module.second = self.byte_near(nodes - 1),
            6 => module.delay = self.wrong_delay(),
            7 => module.delay = 0,
            _ => module.third = self.byte_near(nodes - 1),
        }
    }

    /// The last kind of an edition, this one's or the first, or one near it.
    fn kind_near_a_limit(&mut self) -> u8 {
        let limit = match self.edition {
            Edition::First => 9,
            Edition::Second => self.random.pick(&[9, 15]),
        };
        self.byte_near(limit)
    }

    fn wrong_parameter(&mut self, kind: u8) -> u8 {
        match kind {
            0 => self.byte_near(3),
            9 => self.byte_near(15),
            _ => self.byte_near(0),
        }
    }

    fn wrong_delay(&mut self) -> u16 {
        let delay = self.near(10_000, usize::from(u16::MAX));
        u16::try_from(delay).expect("the delay has two bytes")
    }

    fn change_event(&mut self, sheet: &mut Sheet) {
        let nodes = sheet.nodes.len();
        if sheet.drive.is_empty() {
            return;
        }
        let place = self.random.place(sheet.drive.len());
        let event = &mut sheet.drive[place];
        match self.random.between(0, 4) {
            0 => event.tick = self.wrong_tick(),
            1 => event.tick = self.near(1, 2) as u32,
            2 => event.node = self.byte_near(nodes - 1),
            3 => event.node = byte(self.random.place(nodes)),
            _ => event.value = self.byte_near(3),
        }
    }

    fn wrong_tick(&mut self) -> u32 {
        let tick = self.near(999_999, u32::MAX as usize);
        u32::try_from(tick).expect("the tick has four bytes")
    }

    fn change_watched(&mut self, sheet: &mut Sheet) {
        let nodes = sheet.nodes.len();
        if sheet.watched.is_empty() {
            return;
        }
        let place = self.random.place(sheet.watched.len());
        sheet.watched[place] = self.byte_near(nodes - 1);
    }

    /// Leaves one record of a section out.
    fn lose<T>(&mut self, section: fn(&mut Sheet) -> &mut Vec<T>, sheet: &mut Sheet) {
        let records = section(sheet);
        if !records.is_empty() {
            records.remove(self.random.place(records.len()));
        }
    }

    /// Writes one record of a section a second time, anywhere after it.
    fn repeat<T: Copy>(&mut self, section: fn(&mut Sheet) -> &mut Vec<T>, sheet: &mut Sheet) {
        let records = section(sheet);
        if !records.is_empty() {
            let place = self.random.place(records.len());
            let again = self.random.between(place + 1, records.len());
            records.insert(again, records[place]);
        }
    }

    /// Swaps two records of a section.
    fn swap<T>(&mut self, section: fn(&mut Sheet) -> &mut Vec<T>, sheet: &mut Sheet) {
        let records = section(sheet);
        if !records.is_empty() {
            let one = self.random.place(records.len());
            let other = self.random.place(records.len());
            records.swap(one, other);
        }
    }

    pub(crate) fn spoil_module(&mut self, sheet: &mut Sheet) {
        let nodes = sheet.nodes.len();
        if sheet.modules.is_empty() {
            return;
        }
        let taken = self.random.pick(&sheet.modules).output;
        let place = self.random.place(sheet.modules.len());
        let Module {
            kind,
            parameter,
            output,
            first,
            second,
            third,
            delay,
        } = &mut sheet.modules[place];
        let spoilt = [(); 6].map(|()| self.random.chance(35));
        if spoilt[0] {
            *kind = self.kind_near_a_limit();
        }
        if spoilt[1] {
            *parameter = self.wrong_parameter(*kind);
        }
        if spoilt[2] {
            let past = self.byte_near(nodes - 1);
            *output = self.random.pick(&[past, taken, taken]);
        }
        if spoilt[3] {
            *first = self.byte_near(nodes - 1);
        }
        if spoilt[4] {
            *second = self.byte_near(nodes - 1);
        }
        if spoilt[5] {
            *delay = self.wrong_delay();
        }
        if self.edition == Edition::Second && self.random.chance(35) {
            *third = self.byte_near(nodes - 1);
        }
    }

    fn spoil_event(&mut self, sheet: &mut Sheet) {
        let nodes = sheet.nodes.len();
        if sheet.drive.is_empty() {
            return;
        }
        let before = self.random.pick(&sheet.drive);
        let place = self.random.place(sheet.drive.len());
        let Event { tick, node, value } = &mut sheet.drive[place];
        let spoilt = [(); 3].map(|()| self.random.chance(50));
        if spoilt[0] {
            let past = self.wrong_tick();
            *tick = self.random.pick(&[past, before.tick, 0]);
        }
        if spoilt[1] {
            let past = self.byte_near(nodes - 1);
            let some = byte(self.random.place(nodes));
            *node = self.random.pick(&[past, some, before.node]);
        }
        if spoilt[2] {
            *value = self.byte_near(3);
        }
    }
}
