//! What an import gives.

use workbench::bench::import;

/// The text of a netlist whose gates have this delay.
pub fn text_with(source: &str, delay: u16) -> String {
    import(source.as_bytes(), delay).unwrap_or_else(|mistake| panic!("{mistake}\n{source}"))
}

/// The text of a netlist whose gates have a delay of 1.
pub fn text(source: &str) -> String {
    text_with(source, 1)
}

/// The statements of a text after its first word: no comments and no blank lines.
pub fn statements(text: &str) -> Vec<&str> {
    let lines = text.lines().skip(1);
    lines
        .filter(|line| !line.is_empty() && !line.starts_with('#'))
        .collect()
}

/// Asserts that a netlist becomes these statements.
pub fn becomes(source: &str, expected: &[&str]) {
    assert_eq!(statements(&text(source)), expected, "{source}");
}

/// The mistake of a netlist, with its place.
pub fn mistake(source: &[u8]) -> String {
    match import(source, 1) {
        Ok(text) => panic!("no mistake, but {text}"),
        Err(mistake) => mistake.to_string(),
    }
}

/// So many lines, one for each number from 0.
pub fn repeated(count: usize, line: impl Fn(usize) -> String) -> String {
    (0..count).map(|number| line(number) + "\n").collect()
}
