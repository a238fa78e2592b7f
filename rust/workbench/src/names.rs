//! Names for the nodes of a sheet that has none.

use std::collections::HashSet;

/// As many names as there are nodes: those given, and n0, n1 .. for the others. A name that is taken gets an
/// underscore, so that no two nodes have the same.
pub fn completed(given: &[String], nodes: usize) -> Vec<String> {
    let mut names: Vec<String> = given.iter().take(nodes).cloned().collect();
    let mut taken: HashSet<String> = names.iter().cloned().collect();
    for node in names.len()..nodes {
        let mut name = format!("n{node}");
        while !taken.insert(name.clone()) {
            name.push('_');
        }
        names.push(name);
    }
    names
}
