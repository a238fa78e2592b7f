//! Each mistake in a text has its place, what was found and what was expected.

use workbench::text;

/// The mistake of a text.
fn mistake(source: &[u8]) -> String {
    match text::assemble(source) {
        Ok(_) => panic!("no mistake in {:?}", String::from_utf8_lossy(source)),
        Err(mistake) => mistake.to_string(),
    }
}

/// The mistake of the lines after the first.
fn in_lines(lines: &str, expected: &str) {
    assert_eq!(
        mistake(format!("timing-1\n{lines}").as_bytes()),
        expected,
        "{lines}"
    );
}

#[test]
fn first_lines() {
    for (source, expected) in [
        (
            "",
            "1:1: found the end of the line, expected `timing-1` or `timing-2`",
        ),
        (
            "timing 1\n",
            "1:1: found `timing`, expected `timing-1` or `timing-2`",
        ),
        (
            "timing-3\n",
            "1:1: found `timing-3`, expected `timing-1` or `timing-2`",
        ),
        (
            "timing-1 card\n",
            "1:10: found `card`, expected the end of the line",
        ),
        (
            "timing-1",
            "1:1: found the end of the text, expected a node: a sheet has at least one",
        ),
        (
            "timing-1\n\n# none\n",
            "4:1: found the end of the text, expected a node: a sheet has at least one",
        ),
    ] {
        assert_eq!(mistake(source.as_bytes()), expected, "{source:?}");
    }
}

#[test]
fn bytes_that_are_no_text() {
    assert_eq!(
        mistake(b"timing-1\ninput \xC3\xA9\xFF"),
        "2:8: found the byte FF, expected text in UTF-8"
    );
    in_lines(
        "input a\0b",
        "2:8: found `\\u{0}`, expected the end of the line",
    );
    in_lines("input \u{7}", "2:7: found `\\u{7}`, expected a name");
}

#[test]
fn statements() {
    let words = "expected `input`, `node`, `drive`, `watch`, `raw`, or a node's name and `=`";
    in_lines("inputs a", &format!("2:1: found `inputs`, {words}"));
    in_lines("  (", &format!("2:3: found `(`, {words}"));
    in_lines("input", "2:6: found the end of the line, expected a name");
    in_lines("input a b", "2:9: found `b`, expected the end of the line");
    in_lines(
        "node a",
        "2:7: found the end of the line, expected `initial`",
    );
    in_lines(
        "node a initial 2",
        "2:16: found `2`, expected a value: `0`, `1`, `X` or `Z`",
    );
    in_lines(
        "node a initial x",
        "2:16: found `x`, expected a value: `0`, `1`, `X` or `Z`",
    );
    in_lines(
        "input a\ninput a",
        "3:7: found a second declaration of `a`, expected one, and line 2 has it",
    );
    let long = "a".repeat(65);
    let cut = "a".repeat(40);
    in_lines(
        &format!("input {long}"),
        &format!("2:7: found `{cut}..`, expected a name of 1 to 64 characters"),
    );
}

#[test]
fn modules() {
    in_lines(
        "a = nandd(b, c) delay 1 initial X",
        "2:5: found `nandd`, expected a kind of module: constant, buffer, inverter, and, or, xor, nand, nor, \
         clocked_inverter, memory",
    );
    in_lines(
        "a = and(b, c, d) delay 1 initial X",
        "2:13: found `,`, expected `)`; a gate of three inputs needs `timing-2`",
    );
    in_lines(
        "a = memory(b, c, d) set {1} delay 1 initial X",
        "2:16: found `,`, expected `)`",
    );
    in_lines(
        "a = multiplexer(b, c, d) delay 1 initial X",
        "2:5: found `multiplexer`, expected a kind that `timing-1` has; `timing-2` has this one",
    );
    assert_eq!(
        mistake(b"timing-2\na = and(b, c, d, e) delay 1"),
        "2:16: found `,`, expected `)`"
    );
    in_lines(
        "a = and(b) delay 1 initial X",
        "2:10: found `)`, expected `,` and an input more",
    );
    in_lines(
        "a = buffer() delay 1",
        "2:12: found `)`, expected a node's name",
    );
    in_lines("a = buffer(a delay 1", "2:14: found `delay`, expected `)`");
    in_lines(
        "a = buffer(a)",
        "2:14: found the end of the line, expected `delay`",
    );
    in_lines(
        "a = buffer(a) initial X",
        "2:15: found `initial`, expected `delay`",
    );
    in_lines(
        "a = buffer(a) delay -1",
        "2:21: found `-1`, expected a delay in ticks, a number from 0 to 65535",
    );
    in_lines(
        "a = buffer(a) delay 65536",
        "2:21: found `65536`, expected a delay in ticks, a number from 0 to 65535",
    );
    in_lines(
        "a = constant(2) delay 1",
        "2:14: found `2`, expected a value: `0`, `1`, `X` or `Z`",
    );
    in_lines(
        "a = memory(a, b) delay 1",
        "2:18: found `delay`, expected `set`",
    );
    in_lines("a = memory(a, b) set 1", "2:22: found `1`, expected `{`");
    in_lines(
        "a = memory(a, b) set {1, 1}",
        "2:26: found `1`, expected a value that the set does not have yet",
    );
    in_lines(
        "a = and(b, c) set {1} delay 1",
        "2:15: found `set`, expected `delay`",
    );
    in_lines(
        "@0 = buffer(@0) delay 1 initial X",
        "2:25: found `initial`, expected the end of the line",
    );
    in_lines(
        "@256 = buffer(@0) delay 1",
        "2:2: found `256`, expected a node's number, a number from 0 to 255",
    );
    let undeclared =
        "which no line declares, expected a node: `input`, `node` or `initial` declares one";
    in_lines(
        "input b\na = buffer(b) delay 1",
        "3:1: found `a`, which no line declares, expected `initial` and a value at the end of its line, or another line \
         that declares it",
    );
    in_lines(
        "a = buffer(b) delay 1 initial X",
        &format!("2:12: found `b`, {undeclared}"),
    );
    in_lines(
        "a = buffer(a) delay 1 initial X\na = buffer(a) delay 1 initial 0",
        "3:1: found a second declaration of `a`, expected one, and line 2 has it",
    );
}

#[test]
fn drive_and_watched() {
    in_lines("input a\ndrive a 0 at 0", "3:9: found `0`, expected `:`");
    in_lines("input a\ndrive a: 0 0", "3:12: found `0`, expected `at`");
    in_lines(
        "input a\ndrive a: 0 at 0,",
        "3:17: found the end of the line, expected a value: `0`, `1`, `X` or `Z`",
    );
    in_lines(
        "input a\ndrive a: 0 at 4294967296",
        "3:15: found `4294967296`, expected a tick, a number from 0 to 4294967295",
    );
    in_lines(
        "input a\ndrive a: 0 at 5, 1 at 7\ndrive a: 1 at 5",
        "4:10: found a second event at tick 5, expected one event of a node at a tick, and line 3 has it",
    );
    in_lines(
        "input a\nwatch a, a",
        "3:10: found `a` a second time, expected each watched node once, and line 3 has it",
    );
    in_lines(
        "input a\nwatch b",
        "3:7: found `b`, which no line declares, expected a node: `input`, `node` or `initial` declares one",
    );
}

#[test]
fn raw_statements() {
    in_lines(
        "raw",
        "2:4: found the end of the line, expected `node`, `module`, `event`, `watch` or `bytes`",
    );
    in_lines(
        "raw node a byte 256",
        "2:17: found `256`, expected a node's byte, a number from 0 to 255",
    );
    in_lines(
        "raw bytes from here: 00",
        "2:16: found `here`, expected a section: `nodes`, `modules`, `drive`, `watched`, `end`",
    );
    in_lines(
        "raw bytes from end: 0",
        "2:21: found `0`, expected a byte of two hexadecimal digits",
    );
    in_lines(
        "raw bytes from end: +1",
        "2:21: found `+`, expected a byte of two hexadecimal digits",
    );
    in_lines(
        "raw bytes from end: 00\nraw bytes from drive: 00",
        "3:16: found `drive`, expected `end`, as in line 2",
    );
    in_lines(
        "input a\nraw bytes from drive: 00\nwatch a",
        "3:16: found bytes from `drive` on, expected no other line for `watched`",
    );
    in_lines(
        "input a\ndrive a: 0 at 0\nraw bytes from drive: 00",
        "4:16: found bytes from `drive` on, expected no other line for `drive`",
    );
}

/// The first thing that a section has no room for is the mistake.
#[test]
fn too_many() {
    let many =
        |line: fn(usize) -> String, count: usize| -> String { (0..count).map(line).collect() };
    let nodes = many(|node| format!("input n{node}\n"), 256);
    text::assemble(format!("timing-1\n{nodes}").as_bytes()).expect("256 nodes are allowed");
    in_lines(
        &format!("{nodes}input more"),
        "258:7: found more than 256 nodes, expected at most 256",
    );
    let modules = many(|_| "a = buffer(a) delay 1\n".to_string(), 256);
    in_lines(
        &format!("node a initial X\n{modules}a = buffer(a) delay 1"),
        "259:1: found more than 256 modules, expected at most 256",
    );
    let events = many(|tick| format!("drive a: 0 at {tick}\n"), 1_024);
    in_lines(
        &format!("input a\n{events}raw event tick 0 node a value 0"),
        "1027:5: found more than 1024 events, expected at most 1024",
    );
    let watched = many(|_| "raw watch a\n".to_string(), 256);
    in_lines(
        &format!("input a\n{watched}watch a"),
        "259:7: found more than 256 watched nodes, expected at most 256",
    );
}
