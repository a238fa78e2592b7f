//! Reading: a file is a text or a sheet.

use std::fs::File;
use std::io::{self, Read};
use std::path::Path;

use timing::Edition;

use super::arguments::Arguments;
use super::{Failed, Outcome};
use crate::card::Card;
use crate::{names, text};

/// The option that names a sheet's edition.
pub const EDITION: &str = "--edition";

/// The option that names a text whose names a sheet's nodes get.
pub const NAMES: &str = "--names";

/// A card that was read, and the name of its file.
pub struct Input {
    pub card: Card,
    pub file: String,
}

impl Input {
    /// The file's name without its folder and ending.
    pub fn title(&self) -> String {
        let stem = Path::new(&self.file).file_stem();
        stem.map_or_else(String::new, |stem| stem.to_string_lossy().into_owned())
    }
}

/// The bytes of a file, or of standard input for `-`.
pub fn bytes(path: &Path) -> Outcome<Vec<u8>> {
    let mut bytes = Vec::new();
    let read = match path.as_os_str() == "-" {
        true => io::stdin().lock().read_to_end(&mut bytes),
        false => File::open(path).and_then(|mut file| file.read_to_end(&mut bytes)),
    };
    match read {
        Ok(_) => Ok(bytes),
        Err(error) => Err(Failed::Work(format!("{}: {error}", path.display()))),
    }
}

/// The card in a file: a text, by its first word, or a sheet of the edition that is asked for. Another text may
/// give its nodes their names.
pub fn card(path: &Path, arguments: &Arguments) -> Outcome<Input> {
    let mut input = as_it_is(path, arguments)?;
    if let Some(path) = arguments.path(NAMES) {
        let given = assembled(path, &bytes(path)?)?.names;
        input.card.names = names::completed(&given, input.card.contents.nodes.len());
    }
    Ok(input)
}

fn as_it_is(path: &Path, arguments: &Arguments) -> Outcome<Input> {
    let asked = arguments.edition(EDITION)?;
    let source = bytes(path)?;
    let card = match text::edition_of(&source) {
        Some(edition) if asked.is_some_and(|asked| asked != edition) => {
            let word = text::first_word(edition);
            return Err(Failed::Use(format!(
                "{}: the text begins with {word}, and {EDITION} asks for another",
                path.display()
            )));
        }
        Some(_) => assembled(path, &source)?,
        None => Card::of_sheet(asked.unwrap_or(Edition::First), source, &[]),
    };
    Ok(Input {
        card,
        file: path.display().to_string(),
    })
}

/// The card of a text, or its mistake with the file's name.
pub fn assembled(path: &Path, source: &[u8]) -> Outcome<Card> {
    text::assemble(source).map_err(|mistake| Failed::Work(format!("{}:{mistake}", path.display())))
}
