//! A reader of value change dumps of single wires. It refuses what is malformed, and also what a dump of a
//! run never has: values that repeat, times without changes, a change after the last time.

use std::collections::HashMap;
use std::iter::Peekable;
use std::str::SplitAsciiWhitespace;

/// Tick, name and value: 0, 1, x or z.
pub type Change = (u32, String, char);

#[derive(Debug, Default, PartialEq, Eq)]
pub struct Dump {
    /// The words of each command about the dump itself, by its keyword.
    pub said: HashMap<String, String>,
    pub scope: String,
    pub names: Vec<String>,
    /// In the order of the dump, those of tick 0 first.
    pub changes: Vec<Change>,
    pub last: u32,
}

/// The dump of a text, or what is wrong with it.
pub fn read(text: &str) -> Result<Dump, String> {
    let mut reader = Reader {
        words: text.split_ascii_whitespace().peekable(),
        dump: Dump::default(),
        wires: HashMap::new(),
    };
    reader.head()?;
    reader.first_values()?;
    reader.later_values()?;
    Ok(reader.dump)
}

/// A declared wire.
struct Wire {
    name: String,
    /// The latest value, and its tick.
    value: Option<(u32, char)>,
}

struct Reader<'a> {
    words: Peekable<SplitAsciiWhitespace<'a>>,
    dump: Dump,
    /// By their codes.
    wires: HashMap<String, Wire>,
}

impl<'a> Reader<'a> {
    fn word(&mut self) -> Result<&'a str, String> {
        self.words.next().ok_or("the text ends".to_string())
    }

    fn expect(&mut self, expected: &str) -> Result<(), String> {
        match self.word()? {
            word if word == expected => Ok(()),
            word => Err(format!("{word} where {expected} is expected")),
        }
    }

    /// The words up to `$end`, joined by spaces.
    fn up_to_end(&mut self) -> Result<String, String> {
        let mut words = Vec::new();
        loop {
            match self.word()? {
                "$end" => return Ok(words.join(" ")),
                word if word.starts_with('$') => return Err(format!("{word} inside a command")),
                word => words.push(word),
            }
        }
    }

    fn head(&mut self) -> Result<(), String> {
        loop {
            match self.word()? {
                "$scope" => return self.scope(),
                command @ ("$date" | "$version" | "$comment" | "$timescale") => {
                    let words = self.up_to_end()?;
                    if self.dump.said.insert(command.to_string(), words).is_some() {
                        return Err(format!("{command} is there twice"));
                    }
                }
                word => return Err(format!("{word} in the head")),
            }
        }
    }

    fn scope(&mut self) -> Result<(), String> {
        self.expect("module")?;
        self.dump.scope = self.word()?.to_string();
        self.expect("$end")?;
        loop {
            match self.word()? {
                "$var" => self.wire()?,
                "$upscope" => break,
                word => return Err(format!("{word} among the wires")),
            }
        }
        self.expect("$end")?;
        self.expect("$enddefinitions")?;
        self.expect("$end")
    }

    fn wire(&mut self) -> Result<(), String> {
        self.expect("wire")?;
        self.expect("1")?;
        let [code, name] = [self.word()?, self.word()?];
        self.expect("$end")?;
        if !code.chars().all(|c| ('!'..='~').contains(&c)) {
            return Err(format!("the code {code} is not printable"));
        }
        if self.dump.names.iter().any(|other| other == name) {
            return Err(format!("the name {name} is there twice"));
        }
        self.dump.names.push(name.to_string());
        let wire = Wire {
            name: name.to_string(),
            value: None,
        };
        match self.wires.insert(code.to_string(), wire) {
            Some(_) => Err(format!("the code {code} is there twice")),
            None => Ok(()),
        }
    }

    /// Every wire's value at tick 0.
    fn first_values(&mut self) -> Result<(), String> {
        self.expect("#0")?;
        self.expect("$dumpvars")?;
        loop {
            match self.word()? {
                "$end" => break,
                word => self.change(word)?,
            }
        }
        match self.wires.values().find(|wire| wire.value.is_none()) {
            Some(Wire { name, .. }) => Err(format!("{name} has no first value")),
            None => Ok(()),
        }
    }

    /// Times that rise, each with changes but the last.
    fn later_values(&mut self) -> Result<(), String> {
        loop {
            self.time()?;
            if self.words.peek().is_none() {
                return Ok(());
            }
            let before = self.dump.changes.len();
            while let Some(word) = self.words.next_if(|word| !word.starts_with('#')) {
                self.change(word)?;
            }
            if self.dump.changes.len() == before {
                return Err(format!("nothing changes at {}", self.dump.last));
            }
        }
    }

    fn time(&mut self) -> Result<(), String> {
        let word = self.word()?;
        let digits = word.strip_prefix('#').ok_or(format!("{word} is no time"))?;
        if !digits.bytes().all(|byte| byte.is_ascii_digit()) {
            return Err(format!("{word} is no time"));
        }
        let time = digits.parse().map_err(|_| format!("{word} is no time"))?;
        if time <= self.dump.last {
            return Err(format!("{time} comes after {}", self.dump.last));
        }
        self.dump.last = time;
        Ok(())
    }

    /// A change at the latest time.
    fn change(&mut self, word: &str) -> Result<(), String> {
        let now = self.dump.last;
        let value = word.chars().next().filter(|c| "01xz".contains(*c));
        let value = value.ok_or(format!("{word} is no change"))?;
        let wire = self.wires.get_mut(&word[1..]);
        let wire = wire.ok_or(format!("{word} names no wire"))?;
        match wire.value.replace((now, value)) {
            Some((_, before)) if before == value => Err(format!("{word} changes nothing")),
            Some((tick, _)) if tick == now => Err(format!("{word} is the second of {now}")),
            _ => {
                self.dump.changes.push((now, wire.name.clone(), value));
                Ok(())
            }
        }
    }
}
