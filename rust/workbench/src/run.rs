//! What is shown of a finished run.

use timing::Listing;

/// A run, with what its pictures and dumps name.
#[derive(Debug, Clone, Copy)]
pub struct Run<'a> {
    /// The card's name: its file's, without folder and ending.
    pub title: &'a str,
    /// The sheet's bytes.
    pub sheet: &'a [u8],
    /// The name of each node, by its number.
    pub names: &'a [String],
    /// The watched nodes, rising.
    pub watched: &'a [u8],
    pub horizon: u32,
    pub listing: &'a Listing,
}

impl<'a> Run<'a> {
    /// The name of a node of the sheet.
    pub fn name(&self, node: u8) -> &'a str {
        &self.names[usize::from(node)]
    }
}
