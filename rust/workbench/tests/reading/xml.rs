//! A reader of XML without declarations, comments and instructions. It refuses what is not well-formed.

#[derive(Debug, Default, PartialEq, Eq)]
pub struct Element {
    pub name: String,
    /// Names and values, in order.
    pub attributes: Vec<(String, String)>,
    pub children: Vec<Element>,
    /// All text inside the element and its children.
    pub text: String,
}

impl Element {
    pub fn attribute(&self, name: &str) -> Option<&str> {
        let mut attributes = self.attributes.iter();
        let found = attributes.find(|(other, _)| other == name)?;
        Some(&found.1)
    }

    pub fn is_of(&self, class: &str) -> bool {
        self.attribute("class") == Some(class)
    }

    /// The children of a class.
    pub fn of<'a>(&'a self, class: &'a str) -> impl Iterator<Item = &'a Element> {
        self.children.iter().filter(move |child| child.is_of(class))
    }

    /// The children of a name.
    pub fn named<'a>(&'a self, name: &'a str) -> impl Iterator<Item = &'a Element> {
        self.children.iter().filter(move |child| child.name == name)
    }
}

/// The one element of a document, or what is wrong with it.
pub fn read(document: &str) -> Result<Element, String> {
    let mut reader = Reader { rest: document };
    if let Some(c) = document.chars().find(|&c| !is_allowed(c)) {
        return Err(format!("the character {c:?}"));
    }
    let root = reader.element()?;
    match reader.rest.trim_ascii().is_empty() {
        true => Ok(root),
        false => Err(format!("{:.20} after the end", reader.rest)),
    }
}

/// Whether XML takes the character.
fn is_allowed(c: char) -> bool {
    match c {
        '\t' | '\n' | '\r' => true,
        '\u{FFFE}' | '\u{FFFF}' => false,
        c => c >= ' ',
    }
}

struct Reader<'a> {
    rest: &'a str,
}

impl<'a> Reader<'a> {
    fn wrong<T>(&self, what: &str) -> Result<T, String> {
        Err(format!(
            "{what} before {:?}",
            self.rest.chars().take(20).collect::<String>()
        ))
    }

    fn take(&mut self, expected: &str) -> bool {
        match self.rest.strip_prefix(expected) {
            Some(rest) => {
                self.rest = rest;
                true
            }
            None => false,
        }
    }

    fn expect(&mut self, expected: &str) -> Result<(), String> {
        match self.take(expected) {
            true => Ok(()),
            false => self.wrong(&format!("no {expected}")),
        }
    }

    /// The longest run of characters that a name has, not empty.
    fn name(&mut self) -> Result<&'a str, String> {
        let is_other = |c: char| !c.is_ascii_alphanumeric() && c != '-' && c != ':';
        let (name, rest) = self
            .rest
            .split_at(self.rest.find(is_other).unwrap_or(self.rest.len()));
        match name.starts_with(|c: char| c.is_ascii_alphabetic()) {
            true => {
                self.rest = rest;
                Ok(name)
            }
            false => self.wrong("no name"),
        }
    }

    /// What stands before the next of these characters, its entities resolved.
    fn text(&mut self, ends: &[char]) -> Result<String, String> {
        let Some(length) = self.rest.find(ends) else {
            return self.wrong("no end of a text");
        };
        let (mut raw, rest) = self.rest.split_at(length);
        self.rest = rest;
        let mut text = String::new();
        while let Some((before, after)) = raw.split_once('&') {
            let (entity, after) = after.split_once(';').ok_or("an entity without an end")?;
            text.push_str(before);
            text.push(match entity {
                "amp" => '&',
                "lt" => '<',
                "gt" => '>',
                "quot" => '"',
                "apos" => '\'',
                _ => return Err(format!("the entity {entity}")),
            });
            raw = after;
        }
        text.push_str(raw);
        Ok(text)
    }

    fn element(&mut self) -> Result<Element, String> {
        self.expect("<")?;
        let mut element = Element {
            name: self.name()?.to_string(),
            ..Element::default()
        };
        while self.take(" ") {
            self.attribute(&mut element)?;
        }
        if !self.take("/>") {
            self.expect(">")?;
            self.content(&mut element)?;
        }
        Ok(element)
    }

    fn attribute(&mut self, element: &mut Element) -> Result<(), String> {
        let name = self.name()?;
        self.expect("=\"")?;
        let value = self.text(&['"', '<'])?;
        self.expect("\"")?;
        match element.attribute(name) {
            Some(_) => Err(format!("the attribute {name} is there twice")),
            None => {
                element.attributes.push((name.to_string(), value));
                Ok(())
            }
        }
    }

    /// Text and elements up to the tag that closes this one.
    fn content(&mut self, element: &mut Element) -> Result<(), String> {
        loop {
            let text = self.text(&['<'])?;
            element.text.push_str(&text);
            if self.take("</") {
                return self.expect(&format!("{}>", element.name));
            }
            let child = self.element()?;
            element.text.push_str(&child.text);
            element.children.push(child);
        }
    }
}
