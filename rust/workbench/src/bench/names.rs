//! Names for nodes that a .bench file does not have.

use std::collections::HashSet;

use crate::text::LONGEST_NAME;

/// All names of a text, so that a new one meets none of them.
#[derive(Debug)]
pub struct Names {
    taken: HashSet<String>,
}

impl Names {
    /// With the names that are there already.
    pub fn new<'a>(names: impl Iterator<Item = &'a str>) -> Names {
        Names {
            taken: names.map(str::to_string).collect(),
        }
    }

    /// A new name: a given one, cut where it is too long, with the first of the endings that makes it free.
    /// The next number to try stays behind, so that a gate's numbers are tried once.
    pub fn made(
        &mut self,
        name: &str,
        number: &mut usize,
        ending: impl Fn(usize) -> String,
    ) -> String {
        loop {
            let ending = ending(*number);
            *number += 1;
            let room = LONGEST_NAME.saturating_sub(ending.chars().count());
            let made = name.chars().take(room).collect::<String>() + &ending;
            if self.taken.insert(made.clone()) {
                return made;
            }
        }
    }
}
