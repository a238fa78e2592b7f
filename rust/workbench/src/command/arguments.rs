//! The words after a part's name: files, options and their values.

use std::ffi::{OsStr, OsString};
use std::path::{Path, PathBuf};

use timing::Edition;

use super::{Failed, Outcome};

/// What was asked for.
pub struct Arguments {
    pub files: Vec<PathBuf>,
    values: Vec<(&'static str, OsString)>,
    flags: Vec<&'static str>,
}

impl Arguments {
    /// Takes the words apart. An option's value is the next word, or comes after `=`; after `--` there are
    /// files alone.
    pub fn new(
        words: &[OsString],
        options: &'static [&'static str],
        flags: &'static [&'static str],
    ) -> Outcome<Arguments> {
        let mut arguments = Arguments {
            files: Vec::new(),
            values: Vec::new(),
            flags: Vec::new(),
        };
        let mut words = words.iter();
        while let Some(word) = words.next() {
            let text = word.to_string_lossy();
            if text == "--" {
                arguments.files.extend(words.by_ref().map(PathBuf::from));
            } else if let Some(&flag) = flags.iter().find(|&&flag| flag == text) {
                arguments.flags.push(flag);
            } else if let Some(&option) = options.iter().find(|&&option| option == text) {
                let value = words.next();
                arguments.give(option, value.cloned())?;
            } else if let Some((option, value)) = with_value(&text, options) {
                arguments.give(option, Some(value.into()))?;
            } else if text.starts_with('-') && text != "-" {
                return Err(Failed::Use(format!("there is no option {text}")));
            } else {
                arguments.files.push(PathBuf::from(word));
            }
        }
        Ok(arguments)
    }

    fn give(&mut self, option: &'static str, value: Option<OsString>) -> Outcome<()> {
        let Some(value) = value else {
            return Err(Failed::Use(format!("{option} has no value")));
        };
        if self.value(option).is_some() {
            return Err(Failed::Use(format!("{option} is given twice")));
        }
        self.values.push((option, value));
        Ok(())
    }

    fn value(&self, option: &str) -> Option<&OsStr> {
        let mut given = self.values.iter();
        given
            .find(|(name, _)| *name == option)
            .map(|(_, value)| value.as_os_str())
    }

    pub fn has(&self, flag: &str) -> bool {
        self.flags.contains(&flag)
    }

    /// The one file that a part takes.
    pub fn file(&self) -> Outcome<&Path> {
        match &self.files[..] {
            [file] => Ok(file),
            [] => Err(Failed::Use("no file is given".to_string())),
            [_, second, ..] => Err(Failed::Use(format!(
                "one file is taken, and {} is a second",
                second.display()
            ))),
        }
    }

    /// An option that is a file.
    pub fn path(&self, option: &str) -> Option<&Path> {
        self.value(option).map(Path::new)
    }

    /// The same, which must be there.
    pub fn needed_path(&self, option: &str) -> Outcome<&Path> {
        self.path(option)
            .ok_or_else(|| Failed::Use(format!("{option} is missing")))
    }

    /// An option that is a number. Whether it is in range is the library's to say.
    pub fn number(&self, option: &str) -> Outcome<Option<u32>> {
        let Some(value) = self.value(option) else {
            return Ok(None);
        };
        let text = value.to_string_lossy();
        let digits = text.bytes().all(|byte| byte.is_ascii_digit());
        match text.parse() {
            Ok(number) if digits => Ok(Some(number)),
            _ => Err(Failed::Use(format!(
                "{option} {text} is no number from 0 to {}",
                u32::MAX
            ))),
        }
    }

    /// The same, which must be there.
    pub fn needed_number(&self, option: &str) -> Outcome<u32> {
        self.number(option)?
            .ok_or_else(|| Failed::Use(format!("{option} is missing")))
    }

    /// An option that is an edition.
    pub fn edition(&self, option: &str) -> Outcome<Option<Edition>> {
        match self.number(option)? {
            None => Ok(None),
            Some(1) => Ok(Some(Edition::First)),
            Some(2) => Ok(Some(Edition::Second)),
            Some(other) => Err(Failed::Use(format!(
                "{option} {other} is no edition: there are 1 and 2"
            ))),
        }
    }
}

/// `--option=value`
fn with_value<'a>(
    text: &'a str,
    options: &'static [&'static str],
) -> Option<(&'static str, &'a str)> {
    let (name, value) = text.split_once('=')?;
    let option = options.iter().find(|&&option| option == name)?;
    Some((option, value))
}
