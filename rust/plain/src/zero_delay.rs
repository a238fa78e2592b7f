//! Zero-delay loops, by a literal search for closed chains.

use crate::sheet::Sheet;

/// The least node from which a chain of zero-delay modules leads back to it.
pub(crate) fn least_node_on_a_loop(sheet: &Sheet) -> Option<u8> {
    let links = links(sheet);
    sheet.node_numbers().find(|&node| leads_back(&links, node))
}

/// For each node the outputs of the zero-delay modules that have it as a used input, whatever else
/// drives them. An unused input's 0 is no link from node 0.
fn links(sheet: &Sheet) -> Vec<Vec<u8>> {
    let mut links = vec![Vec::new(); sheet.nodes.len()];
    for module in sheet.modules.iter().filter(|module| module.delay == 0) {
        for node in module.used_inputs() {
            links[usize::from(node)].push(module.output);
        }
    }
    links
}

/// Follows every link from `node`, each node once, and sees whether one comes back.
fn leads_back(links: &[Vec<u8>], node: u8) -> bool {
    let mut followed = vec![false; links.len()];
    let mut to_follow = vec![node];
    while let Some(from) = to_follow.pop() {
        for &next in &links[usize::from(from)] {
            if next == node {
                return true;
            }
            if !followed[usize::from(next)] {
                followed[usize::from(next)] = true;
                to_follow.push(next);
            }
        }
    }
    false
}
