//! Every file and every name that docs/PROMISES.md points at is there, and every must-fail edit stands on it.

use std::fs;
use std::path::PathBuf;

use compare::repository;

/// A code word of the page: names that a file has, or a file alone.
#[derive(Debug)]
struct Pointer {
    names: Vec<String>,
    file: String,
}

/// The page's code words: "`name`, `name` in `file`", or "`file`".
fn pointers(page: &str) -> Vec<Pointer> {
    let parts: Vec<&str> = page.split('`').collect();
    assert!(parts.len() % 2 == 1, "a code word is not closed");
    let mut found = Vec::new();
    let mut names: Vec<String> = Vec::new();
    for at in (1..parts.len()).step_by(2) {
        let word = parts[at].to_string();
        let between: Vec<&str> = parts[at + 1].split_whitespace().collect();
        match between[..] {
            [","] | ["and"] | ["in"] => names.push(word),
            _ => found.push(Pointer {
                names: std::mem::take(&mut names),
                file: word,
            }),
        }
    }
    assert!(names.is_empty(), "names without a file: {names:?}");
    found
}

/// Whether a text has a name as a whole word.
fn has(text: &str, name: &str) -> bool {
    let part = |c: char| c.is_alphanumeric() || c == '-' || c == '_';
    text.match_indices(name)
        .any(|(at, _)| !text[..at].ends_with(part) && !text[at + name.len()..].starts_with(part))
}

#[test]
fn every_file_and_name_exists() {
    let page = fs::read_to_string(repository().join("docs/PROMISES.md")).unwrap();
    let found = pointers(&page);
    assert!(found.len() >= 50, "the page points at too little");
    for pointer in found {
        let text = fs::read_to_string(repository().join(&pointer.file))
            .unwrap_or_else(|_| panic!("no file {}", pointer.file));
        for name in &pointer.names {
            assert!(has(&text, name), "no {name} in {}", pointer.file);
        }
    }
}

#[test]
fn a_missing_name_is_seen() {
    assert!(has("pub accepted : ..", "accepted"));
    assert!(!has("pub accepted-of : ..", "accepted"));
    let found = pointers("see `a`, `b` in `c/d.antt`, and `e/f.rt`.");
    assert_eq!(found.len(), 2);
    assert_eq!(found[0].names, ["a", "b"]);
    assert_eq!(found[1].file, "e/f.rt");
}

/// The crates whose definitions must be believed.
const BELIEVED: [&str; 13] = [
    "level", "sheet", "format", "network", "lent", "reason", "sentence", "convert", "pulses",
    "draw", "loaded", "text", "program",
];

/// How many lines of a crate's definitions are not empty.
fn definition_lines(name: &str) -> usize {
    let folder = repository().join("crates").join(name).join("specs");
    fs::read_dir(folder)
        .unwrap()
        .map(|entry| fs::read_to_string(entry.unwrap().path()).unwrap())
        .map(|text| text.lines().filter(|line| !line.trim().is_empty()).count())
        .sum()
}

#[test]
fn the_length_of_the_definitions() {
    let page = fs::read_to_string(repository().join("docs/PROMISES.md")).unwrap();
    let lines: usize = BELIEVED.iter().map(|name| definition_lines(name)).sum();
    let said = format!("{lines} lines that are not empty");
    assert!(page.contains(&said), "the page does not say: {said}");
}

/// What an edit changes.
#[derive(Debug, PartialEq, Clone, Copy)]
enum Changes {
    Code,
    Definitions,
}

/// Whether the text at a place stands in a function's contract: in the braces after `requires` or `ensures`, which may
/// have a name between them, or in a line that brings in names for contracts.
fn in_contract(code: &str, at: usize) -> bool {
    let line = code[..at].rfind('\n').map_or(0, |end| end + 1);
    if code[line..].starts_with("ghost use ") {
        return true;
    }
    let Some(word) = ["requires", "ensures"]
        .iter()
        .filter_map(|word| code[..at].rfind(word))
        .max()
    else {
        return false;
    };
    let Some(brace) = code[word..at].find('{') else {
        return false;
    };
    let clause = &code[word + brace..at];
    let open = clause.matches('{').count();
    let mut depth = 0;
    let closed = clause.char_indices().any(|(_, c)| {
        depth += i32::from(c == '{') - i32::from(c == '}');
        depth == 0
    });
    open > 0 && !closed
}

/// What an edit changes in a crate: a file of `specs` or `proofs`, or a contract, is a definition's.
fn changes(edit: &str, read: impl Fn(&str) -> String) -> Changes {
    let mut file = "";
    let mut found = Vec::new();
    for line in edit.lines() {
        if let Some(name) = line.strip_prefix("file: ") {
            file = name;
        } else if let Some(old) = line.strip_prefix("old: ") {
            let code = read(file);
            let at = code
                .find(old)
                .unwrap_or_else(|| panic!("no {old} in {file}"));
            found.push(match file.split('/').next() {
                Some("src") if !in_contract(&code, at) => Changes::Code,
                Some("src" | "specs" | "proofs") => Changes::Definitions,
                _ => panic!("an edit of {file}"),
            });
        }
    }
    assert!(!found.is_empty(), "an edit of nothing: {edit}");
    assert!(
        found.iter().all(|&one| one == found[0]),
        "an edit of both: {edit}"
    );
    found[0]
}

/// Every must-fail edit: its file, as the page names it, and what it changes.
fn edits() -> Vec<(String, Changes)> {
    let files = |folder: PathBuf| -> Vec<String> {
        let names = fs::read_dir(folder).into_iter().flatten();
        names
            .map(|entry| entry.unwrap().file_name().into_string().unwrap())
            .collect()
    };
    let mut found = Vec::new();
    for name in files(repository().join("crates")) {
        let folder = repository().join("crates").join(&name);
        for file in files(folder.join("must-fail")) {
            let edit = fs::read_to_string(folder.join("must-fail").join(&file)).unwrap();
            let what = changes(&edit, |file| fs::read_to_string(folder.join(file)).unwrap());
            found.push((format!("crates/{name}/must-fail/{file}"), what));
        }
    }
    found
}

/// The part of the page under a heading, up to the next heading.
fn under<'a>(page: &'a str, heading: &str) -> &'a str {
    let (_, rest) = page.split_once(&format!("\n{heading}\n")).unwrap();
    rest.split("\n#").next().unwrap()
}

#[test]
fn every_edit_is_listed_once_in_its_table() {
    let page = fs::read_to_string(repository().join("docs/PROMISES.md")).unwrap();
    let code = under(&page, "### Edits of code");
    let definitions = under(&page, "### Edits of definitions and promises");
    let found = edits();
    assert!(found.len() >= 90, "too few edits: {}", found.len());
    for (file, what) in found {
        let word = format!("`{file}`");
        assert_eq!(page.matches(&word).count(), 1, "{file} on the page");
        let table = match what {
            Changes::Code => code,
            Changes::Definitions => definitions,
        };
        assert!(table.contains(&word), "{file} is an edit of {what:?}");
    }
}

#[test]
fn an_edit_of_a_contract_is_told_from_one_of_code() {
    let code = "fn f()\n    ensures { result ≡ 1 }\n{\n    1 + 0\n}\n";
    let of = |edit: &str| changes(edit, |_| code.to_string());
    assert_eq!(
        of("Why.\nfile: src/lib.rt\nold: 1 + 0\nnew: 2\n"),
        Changes::Code
    );
    assert_eq!(
        of("file: src/lib.rt\nold: result ≡ 1\nnew: result ≡ result\n"),
        Changes::Definitions
    );
    assert_eq!(
        of("file: specs/F.antt\nold: 1 + 0\nnew: 2\n"),
        Changes::Definitions
    );
}
