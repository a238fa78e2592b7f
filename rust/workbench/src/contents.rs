//! What a sheet's bytes hold, whether or not a check would accept it.

use timing::Edition;

/// The byte of a node that is an input.
pub const INPUT: u8 = 4;

/// The most nodes, modules, events and watched nodes that a sheet has.
pub const MOST_NODES: usize = 256;
pub const MOST_MODULES: usize = 256;
pub const MOST_EVENTS: usize = 1_024;
pub const MOST_WATCHED: usize = 256;

/// The bytes of a section's count, and of an event.
pub const COUNT_BYTES: usize = 2;
pub const EVENT_BYTES: usize = 6;

/// The sections in their order, and what may come after them.
#[derive(Debug, Clone, Copy, PartialEq, Eq, PartialOrd, Ord)]
pub enum Section {
    Nodes,
    Modules,
    Drive,
    Watched,
    /// After the watched nodes.
    End,
}

impl Section {
    pub const ALL: [Section; 5] = [
        Section::Nodes,
        Section::Modules,
        Section::Drive,
        Section::Watched,
        Section::End,
    ];

    pub fn name(self) -> &'static str {
        match self {
            Section::Nodes => "nodes",
            Section::Modules => "modules",
            Section::Drive => "drive",
            Section::Watched => "watched",
            Section::End => "end",
        }
    }

    /// What its records are.
    pub fn records(self) -> &'static str {
        match self {
            Section::Nodes => "nodes",
            Section::Modules => "modules",
            Section::Drive => "drive events",
            Section::Watched => "watched nodes",
            Section::End => "bytes left over",
        }
    }

    /// The bytes of one record.
    pub fn record_bytes(self, edition: Edition) -> usize {
        match self {
            Section::Modules => edition.module_bytes(),
            Section::Drive => EVENT_BYTES,
            Section::Nodes | Section::Watched | Section::End => 1,
        }
    }

    /// The counts that the section may have.
    fn counts(self) -> std::ops::RangeInclusive<usize> {
        match self {
            Section::Nodes => 1..=MOST_NODES,
            Section::Modules => 0..=MOST_MODULES,
            Section::Drive => 0..=MOST_EVENTS,
            Section::Watched => 0..=MOST_WATCHED,
            Section::End => 0..=0,
        }
    }
}

#[derive(Debug, Clone, Copy, PartialEq, Eq)]
pub struct Module {
    pub kind: u8,
    pub parameter: u8,
    pub output: u8,
    /// The first edition has no third: it is 0 there.
    pub inputs: [u8; 3],
    pub delay: u16,
}

#[derive(Debug, Clone, Copy, PartialEq, Eq)]
pub struct Event {
    pub tick: u32,
    pub node: u8,
    pub value: u8,
}

/// The bytes of a sheet from a section on that cannot be told as records, and all after them.
#[derive(Debug, Clone, PartialEq, Eq)]
pub struct Rest {
    pub from: Section,
    pub bytes: Vec<u8>,
}

/// A sheet's four sections. Of a damaged sheet some are missing, and its bytes from there on are the rest.
#[derive(Debug, Clone, PartialEq, Eq)]
pub struct Contents {
    /// For each node the initial value 0 to 3, or [`INPUT`].
    pub nodes: Vec<u8>,
    pub modules: Vec<Module>,
    pub drive: Vec<Event>,
    pub watched: Vec<u8>,
    pub rest: Rest,
}

impl Contents {
    /// What the bytes hold in an edition, up to the first section that is not there whole or whose count is
    /// out of its range.
    pub fn read(edition: Edition, bytes: &[u8]) -> Contents {
        let mut contents = Contents::default();
        let mut rest = bytes;
        for section in Section::ALL {
            contents.rest.from = section;
            let Some((records, after)) = section_records(edition, section, rest) else {
                break;
            };
            contents.take(section, records, edition.module_bytes());
            rest = after;
        }
        contents.rest.bytes = rest.to_vec();
        contents
    }

    fn take(&mut self, section: Section, records: &[u8], module_bytes: usize) {
        match section {
            Section::Nodes => self.nodes = records.to_vec(),
            Section::Modules => {
                let records = records.chunks_exact(module_bytes);
                self.modules = records.map(Module::from_bytes).collect();
            }
            Section::Drive => {
                let records = records.chunks_exact(EVENT_BYTES);
                self.drive = records.map(Event::from_bytes).collect();
            }
            Section::Watched => self.watched = records.to_vec(),
            Section::End => {}
        }
    }

    /// Whether the bytes are four sections and nothing else.
    pub fn is_whole(&self) -> bool {
        self.rest.from == Section::End && self.rest.bytes.is_empty()
    }

    /// The bytes of the sheet in an edition: reading them gives these contents again.
    pub fn bytes(&self, edition: Edition) -> Vec<u8> {
        let mut bytes = Vec::new();
        for section in Section::ALL {
            if section == self.rest.from {
                bytes.extend(&self.rest.bytes);
                break;
            }
            let records = self.records(section, edition);
            let count = records.len() / section.record_bytes(edition);
            let count = u16::try_from(count).expect("a section has at most 1,024 records");
            bytes.extend(count.to_le_bytes());
            bytes.extend(records);
        }
        bytes
    }

    /// The bytes of a section's records.
    fn records(&self, section: Section, edition: Edition) -> Vec<u8> {
        match section {
            Section::Nodes => self.nodes.clone(),
            Section::Modules => {
                let modules = self.modules.iter();
                modules.flat_map(|module| module.bytes(edition)).collect()
            }
            Section::Drive => self.drive.iter().flat_map(Event::bytes).collect(),
            Section::Watched => self.watched.clone(),
            Section::End => Vec::new(),
        }
    }
}

/// A sheet of no section.
impl Default for Contents {
    fn default() -> Contents {
        Contents {
            nodes: Vec::new(),
            modules: Vec::new(),
            drive: Vec::new(),
            watched: Vec::new(),
            rest: Rest {
                from: Section::Nodes,
                bytes: Vec::new(),
            },
        }
    }
}

/// A section's records and what comes after them, if its count is in range and all records are there. What
/// comes after the last section is none.
fn section_records(edition: Edition, section: Section, bytes: &[u8]) -> Option<(&[u8], &[u8])> {
    if section == Section::End {
        return None;
    }
    let (count, rest) = bytes.split_first_chunk::<COUNT_BYTES>()?;
    let count = usize::from(u16::from_le_bytes(*count));
    if !section.counts().contains(&count) {
        return None;
    }
    rest.split_at_checked(count * section.record_bytes(edition))
}

impl Module {
    /// The module of a record of either edition. The third input stands before the delay.
    pub fn from_bytes(bytes: &[u8]) -> Module {
        let &[kind, parameter, output, first, second, ref third @ .., low, high] = bytes else {
            panic!("{} bytes are no module", bytes.len());
        };
        Module {
            kind,
            parameter,
            output,
            inputs: [first, second, third.first().copied().unwrap_or(0)],
            delay: u16::from_le_bytes([low, high]),
        }
    }

    fn bytes(&self, edition: Edition) -> Vec<u8> {
        let [first, second, third] = self.inputs;
        let mut bytes = vec![self.kind, self.parameter, self.output, first, second];
        bytes.extend((edition == Edition::Second).then_some(third));
        bytes.extend(self.delay.to_le_bytes());
        bytes
    }
}

impl Event {
    pub fn from_bytes(bytes: &[u8]) -> Event {
        let &[b0, b1, b2, b3, node, value] = bytes else {
            panic!("{} bytes are no event", bytes.len());
        };
        Event {
            tick: u32::from_le_bytes([b0, b1, b2, b3]),
            node,
            value,
        }
    }

    fn bytes(&self) -> [u8; EVENT_BYTES] {
        let [b0, b1, b2, b3] = self.tick.to_le_bytes();
        [b0, b1, b2, b3, self.node, self.value]
    }

    /// Events stand in order by tick, then by node.
    pub fn key(&self) -> (u32, u8) {
        (self.tick, self.node)
    }
}
