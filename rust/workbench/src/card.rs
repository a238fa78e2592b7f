//! A card: a sheet with the names of its nodes and, if it was a text, the lines of its records.

use timing::Edition;

use crate::contents::{Contents, Section};
use crate::names;

#[derive(Debug, Clone, PartialEq, Eq)]
pub struct Card {
    pub edition: Edition,
    pub contents: Contents,
    /// The sheet's bytes.
    pub sheet: Vec<u8>,
    /// The name of each node, by its number.
    pub names: Vec<String>,
    /// The line of each record in the text that the card was read from.
    pub lines: Option<Lines>,
}

/// For each section the line of each of its records, counted from 1.
#[derive(Debug, Clone, Default, PartialEq, Eq)]
pub struct Lines {
    pub nodes: Vec<usize>,
    pub modules: Vec<usize>,
    pub drive: Vec<usize>,
    pub watched: Vec<usize>,
}

impl Card {
    /// The card of a sheet's bytes, with the names that it is given and n0, n1 .. otherwise.
    pub fn of_sheet(edition: Edition, sheet: Vec<u8>, given: &[String]) -> Card {
        let contents = Contents::read(edition, &sheet);
        Card {
            edition,
            names: names::completed(given, contents.nodes.len()),
            contents,
            sheet,
            lines: None,
        }
    }

    /// The sheet, as the library takes it.
    pub fn sheet(&self) -> timing::Sheet<'_> {
        timing::Sheet::new(self.edition, &self.sheet)
    }

    /// The name of a node, or `@N` of a number that is no node.
    pub fn name(&self, node: u8) -> String {
        match self.names.get(usize::from(node)) {
            Some(name) => name.clone(),
            None => format!("@{node}"),
        }
    }

    /// The line of a section's record, if the card was read from a text and the record stands in it.
    pub fn line(&self, section: Section, record: usize) -> Option<usize> {
        let lines = self.lines.as_ref()?;
        let section = match section {
            Section::Nodes => &lines.nodes,
            Section::Modules => &lines.modules,
            Section::Drive => &lines.drive,
            Section::Watched => &lines.watched,
            Section::End => return None,
        };
        section.get(record).copied()
    }
}
