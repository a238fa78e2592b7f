//! Permutations of nodes and orders of modules, for renumbering.

use plain::{renumbered, Sheet};

use crate::{byte, Generator};

impl Generator {
    /// A permutation of the node numbers below `nodes`: the new number of each.
    pub fn permutation(&mut self, nodes: usize) -> Vec<u8> {
        let mut to: Vec<u8> = (0..nodes).map(byte).collect();
        self.random.shuffle(&mut to);
        to
    }

    /// An order of the places below `modules`; now and then the reversed one.
    pub fn order(&mut self, modules: usize) -> Vec<usize> {
        let mut order: Vec<usize> = (0..modules).rev().collect();
        if !self.random.chance(10) {
            self.random.shuffle(&mut order);
        }
        order
    }

    /// The bytes of the sheet with so many of a hundred nodes watched, all numbered anyhow, and its modules
    /// listed in some other order.
    pub(crate) fn numbered_anyhow(&mut self, mut sheet: Sheet, watched: usize) -> Vec<u8> {
        let numbers = sheet.node_numbers();
        sheet.watched = numbers.filter(|_| self.random.chance(watched)).collect();
        let to = self.permutation(sheet.nodes.len());
        let order = self.order(sheet.modules.len());
        renumbered(&sheet, &to, &order).encode(self.edition)
    }

    /// The sheet with its modules listed in some other order.
    pub(crate) fn reordered(&mut self, sheet: &Sheet) -> Sheet {
        let same: Vec<u8> = sheet.node_numbers().collect();
        let order = self.order(sheet.modules.len());
        renumbered(sheet, &same, &order)
    }
}
