//! The page taken apart.
//!
//! A code block is indented. It may begin with a card, or a part of one, whose file the paragraph before it names
//! last; then come commands, each after `$ `, with the lines that it prints. A block after a paragraph that names
//! no card has tables of kinds.

use std::fs;
use std::path::{Path, PathBuf};

/// What the lines of a code block begin with, and its commands after that.
const INDENT: &str = "    ";
const PROMPT: &str = "$ ";

/// A card, or a part of it.
pub struct Shown<'a> {
    pub file: &'a str,
    pub lines: String,
}

/// A command, and what it prints.
pub struct Command {
    pub words: String,
    pub printed: String,
}

/// A row of the table of refusals.
pub struct Row<'a> {
    pub number: u32,
    pub wrong: &'a str,
    pub advice: &'a str,
}

pub struct Page<'a> {
    pub cards: Vec<Shown<'a>>,
    pub commands: Vec<Command>,
    pub tables: Vec<String>,
    pub rows: Vec<Row<'a>>,
}

impl<'a> Page<'a> {
    pub fn of(text: &'a str) -> Page<'a> {
        let mut page = Page {
            cards: Vec::new(),
            commands: Vec::new(),
            tables: Vec::new(),
            rows: text.lines().filter_map(row).collect(),
        };
        for (before, code) in blocks(text) {
            let (first, commands) = code.split_at(first_command(&code));
            page.commands.extend(with_output(commands));
            match cards_named(before).last() {
                _ if first.is_empty() => {}
                Some(&file) => page.cards.push(Shown {
                    file,
                    lines: first.to_string(),
                }),
                None => page.tables.extend(first.split("\n\n").map(str::to_string)),
            }
        }
        page
    }
}

/// The repository's folder.
pub fn repository() -> PathBuf {
    Path::new(env!("CARGO_MANIFEST_DIR")).join("../..")
}

/// The page as it stands.
pub fn text() -> String {
    let file = repository().join("docs/GUIDE.md");
    fs::read_to_string(&file).unwrap_or_else(|error| panic!("{}: {error}", file.display()))
}

/// The cards that a text names, in its order.
pub fn cards_named(text: &str) -> Vec<&str> {
    let is_part = |c: char| c.is_alphanumeric() || "/.-_".contains(c);
    let words = text.split(|c| !is_part(c));
    words
        .filter(|word| word.starts_with("examples/") && word.ends_with(".net"))
        .collect()
}

/// Whether a line belongs to a code block.
pub fn is_code(line: &str) -> bool {
    line.starts_with(INDENT)
}

/// Whether a line of a code block is a command.
pub fn is_command(line: &str) -> bool {
    line.trim_start().starts_with(PROMPT)
}

/// The paragraph before each code block, and its lines.
fn blocks(text: &str) -> Vec<(&str, String)> {
    let mut blocks: Vec<(&str, String)> = Vec::new();
    let mut before = None;
    for part in text.split("\n\n") {
        if !is_code(part) {
            before = Some(part);
            continue;
        }
        let code = part.lines().map(|line| format!("{}\n", unindented(line)));
        let code: String = code.collect();
        match (before.take(), blocks.last_mut()) {
            (None, Some((_, begun))) => *begun += &format!("\n{code}"),
            (before, _) => blocks.push((before.unwrap_or_default(), code)),
        }
    }
    blocks
}

fn unindented(line: &str) -> &str {
    line.strip_prefix(INDENT).unwrap_or(line)
}

/// Where the first command of a block begins.
fn first_command(code: &str) -> usize {
    let mut place = 0;
    for line in code.split_inclusive('\n') {
        if is_command(line) {
            break;
        }
        place += line.len();
    }
    place
}

/// The commands with what they print.
fn with_output(code: &str) -> Vec<Command> {
    let mut commands: Vec<Command> = Vec::new();
    for line in code.split_inclusive('\n') {
        match (line.strip_prefix(PROMPT), commands.last_mut()) {
            (None, Some(command)) => command.printed += line,
            (words, _) => commands.push(Command {
                words: words.unwrap_or(line).trim_end().to_string(),
                printed: String::new(),
            }),
        }
    }
    commands
}

/// `| NUMBER | WRONG | ADVICE |`
fn row(line: &str) -> Option<Row<'_>> {
    let columns: Vec<&str> = line.split('|').map(str::trim).collect();
    match columns[..] {
        ["", number, wrong, advice, ""] => Some(Row {
            number: number.parse().ok()?,
            wrong,
            advice,
        }),
        _ => None,
    }
}

/// The lines of two printed pages, and the columns of a line.
const MOST_LINES: usize = 195;
const MOST_COLUMNS: usize = 130;

#[test]
fn the_page_is_short() {
    let text = text();
    let lines = text.lines().count();
    assert!(lines <= MOST_LINES, "{lines} lines");
    assert!(text.is_ascii());
    for line in text.lines() {
        assert!(line.chars().count() <= MOST_COLUMNS, "{line}");
    }
}

#[test]
fn a_page_is_taken_apart() {
    let text = "\
Words, and `examples/a.net`:

    one

    two
    $ timing check
    finished
    $ timing run

No card.

    a  buffer
    0  0

    b

| 7 | wrong | to do |
|---|---|---|
";
    let page = Page::of(text);
    let [card] = &page.cards[..] else {
        panic!("one card is shown");
    };
    assert_eq!(
        (card.file, &*card.lines),
        ("examples/a.net", "one\n\ntwo\n")
    );
    let told = |command: &Command| [command.words.clone(), command.printed.clone()];
    let commands: Vec<[String; 2]> = page.commands.iter().map(told).collect();
    assert_eq!(
        commands,
        [["timing check", "finished\n"], ["timing run", ""]]
    );
    assert_eq!(page.tables, ["a  buffer\n0  0", "b\n"]);
    let rows: Vec<_> = page
        .rows
        .iter()
        .map(|row| (row.number, row.wrong, row.advice))
        .collect();
    assert_eq!(rows, [(7, "wrong", "to do")]);
}
