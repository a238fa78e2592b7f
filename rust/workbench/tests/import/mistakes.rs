//! Each mistake in a netlist has its place, what was found and what was expected.

use workbench::bench::import;

use crate::imported::mistake;

fn is(source: &str, expected: &str) {
    assert_eq!(mistake(source.as_bytes()), expected, "{source:?}");
}

/// The mistake of a line after an input a in line 1.
fn in_line(line: &str, expected: &str) {
    is(&format!("INPUT(a)\n{line}\nINPUT(z)"), expected);
}

const STATEMENT: &str = "expected `INPUT`, `OUTPUT`, or a name and `=`";

const GATE: &str = "expected a gate: AND, OR, NAND, NOR, XOR, XNOR, NOT, BUF, BUFF, DFF";

const NAME: &str = "expected a name of 1 to 64 letters, digits and _ . [ ] / -";

/// Line and column stand for themselves, too.
#[test]
fn the_parts_of_a_mistake() {
    let mistake = import(b"INPUT(a)\n  b = NUT(a)", 1).unwrap_err();
    assert_eq!((mistake.line, mistake.column), (2, 7));
    assert_eq!(mistake.found, "`NUT`");
    assert_eq!(format!("expected {}", mistake.expected), GATE);
}

#[test]
fn bytes_that_are_no_text() {
    let expected = "found the byte FF, expected text in UTF-8";
    assert_eq!(
        mistake(b"INPUT(a)\nINPUT(\xC3\xA9\xFF)"),
        format!("2:8: {expected}")
    );
    assert_eq!(
        mistake(b"INPUT(a)\n# (\xC3\xA9..\xFF\n"),
        format!("2:7: {expected}")
    );
    // Text that ends inside a character.
    assert_eq!(
        mistake(b"INPUT(a)\n# \xC3"),
        "2:3: found the byte C3, expected text in UTF-8"
    );
}

#[test]
fn control_characters() {
    let expected = "expected no control character";
    in_line("INPUT\0(b)", &format!("2:6: found `\\u{{0}}`, {expected}"));
    in_line(
        "INPUT(b\u{7})",
        &format!("2:8: found `\\u{{7}}`, {expected}"),
    );
    in_line(
        "# é\u{1b}[2J",
        &format!("2:4: found `\\u{{1b}}`, {expected}"),
    );
    in_line(
        "INPUT(b)\u{7f}",
        &format!("2:9: found `\\u{{7f}}`, {expected}"),
    );
    in_line("\u{c}", &format!("2:1: found `\\u{{c}}`, {expected}"));
    in_line(
        "é\u{85} = NOT(a)",
        &format!("2:2: found `\\u{{85}}`, {expected}"),
    );
}

#[test]
fn beginnings() {
    in_line("INPT(b)", &format!("2:1: found `INPT`, {STATEMENT}"));
    in_line("  b(a)", &format!("2:3: found `b`, {STATEMENT}"));
    in_line("(b)", &format!("2:1: found `(`, {STATEMENT}"));
    in_line("\t= NOT(a)", &format!("2:2: found `=`, {STATEMENT}"));
    in_line(", b", &format!("2:1: found `,`, {STATEMENT}"));
    in_line("b NOT(a)", "2:3: found `NOT`, expected `=`");
    in_line("b) = NOT(a)", "2:2: found `)`, expected `=`");
    in_line("b", "2:2: found the end of the line, expected `=`");
    in_line(
        "b # = NOT(a)",
        "2:3: found the end of the line, expected `=`",
    );
    in_line("b := NOT(a)", "2:3: found `:`, expected `=`");
    is(
        "INPUT(a)\nb",
        "2:2: found the end of the file, expected `=`",
    );
}

#[test]
fn inputs_and_outputs() {
    in_line("INPUT b", "2:7: found `b`, expected `(`");
    in_line("INPUT)", "2:6: found `)`, expected `(`");
    in_line("input", "2:6: found the end of the line, expected `(`");
    in_line("INPUT()", "2:7: found `)`, expected a name");
    in_line("INPUT(", "2:7: found the end of the line, expected a name");
    in_line("INPUT((b)", "2:7: found `(`, expected a name");
    in_line("INPUT(b", "2:8: found the end of the line, expected `)`");
    in_line("INPUT(b, c)", "2:8: found `,`, expected `)`");
    in_line("INPUT(b c)", "2:9: found `c`, expected `)`");
    in_line("OUTPUT a", "2:8: found `a`, expected `(`");
    in_line("Output(a, z)", "2:9: found `,`, expected `)`");
    is("OUTPUT(a", "1:9: found the end of the file, expected `)`");
}

#[test]
fn gates() {
    in_line("b = MUX(a, a)", &format!("2:5: found `MUX`, {GATE}"));
    in_line("b = vdd", &format!("2:5: found `vdd`, {GATE}"));
    in_line("b =", &format!("2:4: found the end of the line, {GATE}"));
    in_line("b = (a)", &format!("2:5: found `(`, {GATE}"));
    in_line("b == NOT(a)", &format!("2:4: found `=`, {GATE}"));
    in_line("b = INPUT(a)", &format!("2:5: found `INPUT`, {GATE}"));
    in_line("b = NOT a", "2:9: found `a`, expected `(`");
    in_line("b = NOT", "2:8: found the end of the line, expected `(`");
    in_line("b = NAND(a a)", "2:12: found `a`, expected `,` or `)`");
    in_line(
        "b = NAND(a, a",
        "2:14: found the end of the line, expected `,` or `)`",
    );
    in_line("b = NAND(a, (a)", "2:13: found `(`, expected a name");
    in_line("b = NAND(a(a))", "2:11: found `(`, expected `,` or `)`");
    in_line(
        "b = NAND(a,\n a)",
        "2:12: found the end of the line, expected a name",
    );
    in_line("b = NAND(,a)", "2:10: found `,`, expected a name");
    in_line("b = NAND(a,,a)", "2:12: found `,`, expected a name");
    in_line("b = NAND(a,)", "2:12: found `)`, expected a name");
}

#[test]
fn counts_of_inputs() {
    for word in [
        "AND", "or", "Nand", "NOR", "XOR", "XNOR", "NOT", "BUF", "BUFF", "DFF",
    ] {
        let place = "b = (".len() + word.len() + 1;
        in_line(
            &format!("b = {word}()"),
            &format!("2:{place}: found `)`, expected a name"),
        );
    }
    for word in ["NOT", "BUF", "BUFF", "DFF"] {
        let place = "b = (a".len() + word.len() + 1;
        for written in [word.to_string(), word.to_lowercase()] {
            in_line(
                &format!("b = {written}(a, a)"),
                &format!("2:{place}: found `,`, expected `)`: {word} has one input"),
            );
        }
    }
}

#[test]
fn after_a_statement() {
    in_line(
        "INPUT(b) c",
        "2:10: found `c`, expected the end of the line",
    );
    in_line("INPUT(b);", "2:9: found `;`, expected the end of the line");
    in_line(
        "OUTPUT(a))",
        "2:10: found `)`, expected the end of the line",
    );
    in_line(
        "b = NOT(a) INPUT(c)",
        "2:12: found `INPUT`, expected the end of the line",
    );
    in_line(
        "b = DFF(a)\t, c",
        "2:12: found `,`, expected the end of the line",
    );
}

#[test]
fn names_that_no_text_has() {
    let long = "n".repeat(65);
    let shown = format!("`{}..`", "n".repeat(40));
    in_line("INPUT($b)", &format!("2:7: found `$b`, {NAME}"));
    in_line("OUTPUT(b:1)", &format!("2:8: found `b:1`, {NAME}"));
    in_line("b* = NOT(a)", &format!("2:1: found `b*`, {NAME}"));
    in_line(
        "é = NAND(a, \"a\")",
        &format!("2:13: found `\"a\"`, {NAME}"),
    );
    in_line(
        "b = NAND(a, a{1})",
        &format!("2:13: found `a{{1}}`, {NAME}"),
    );
    in_line(
        "INPUT(b\u{a0}c)",
        &format!("2:7: found `b\\u{{a0}}c`, {NAME}"),
    );
    in_line(
        "INPUT(\u{202e}b)",
        &format!("2:7: found `\\u{{202e}}b`, {NAME}"),
    );
    in_line(
        &format!("INPUT({long})"),
        &format!("2:7: found {shown}, {NAME}"),
    );
    in_line(
        &format!("{long} = NOT(a)"),
        &format!("2:1: found {shown}, {NAME}"),
    );
}

/// What is cut has 40 characters, and what has 40 is not cut.
#[test]
fn quotes() {
    let forty = "é".repeat(40);
    in_line(
        &format!("b = {forty}(a)"),
        &format!("2:5: found `{forty}`, {GATE}"),
    );
    in_line(
        &format!("b = {forty}x(a)"),
        &format!("2:5: found `{forty}..`, {GATE}"),
    );
}

#[test]
fn second_definitions() {
    in_line(
        "INPUT(a)",
        "2:7: found a second definition of `a`, expected one, and line 1 has it",
    );
    in_line(
        " a = NOT(a)",
        "2:2: found a second definition of `a`, expected one, and line 1 has it",
    );
    in_line(
        "\nb = NOT(a)\nINPUT( b )",
        "4:8: found a second definition of `b`, expected one, and line 3 has it",
    );
    in_line(
        "b = NOT(a)\nb = NOT(a)",
        "3:1: found a second definition of `b`, expected one, and line 2 has it",
    );
}

/// The earliest use in the file is at fault, and an output is a use.
#[test]
fn names_that_no_statement_defines() {
    let undefined = "which no statement defines, expected an input or a gate of the netlist";
    in_line(
        "b = NAND(a, c, d)",
        &format!("2:13: found `c`, {undefined}"),
    );
    in_line(
        "OUTPUT(c)\nb = NOT(d)",
        &format!("2:8: found `c`, {undefined}"),
    );
    in_line(
        "b = NOT(d)\nOUTPUT(c)",
        &format!("2:9: found `d`, {undefined}"),
    );
    in_line(
        "b = NOT(c)\n\n  e = DFF( d )\nd = NOT(a)\nc = NOT(f)",
        &format!("6:9: found `f`, {undefined}"),
    );
    in_line("OUTPUT(A)", &format!("2:8: found `A`, {undefined}"));
    is("OUTPUT(a)", &format!("1:8: found `a`, {undefined}"));
}

/// What single statements show comes first.
#[test]
fn the_first_of_several() {
    in_line(
        "b = NOT(c)\nd = NUT(a)",
        &format!("3:5: found `NUT`, {GATE}"),
    );
    in_line("b = NUT(a)\n\u{7}", &format!("2:5: found `NUT`, {GATE}"));
    assert_eq!(
        mistake(b"b = NUT(a)\n\xFF"),
        "2:1: found the byte FF, expected text in UTF-8"
    );
}

#[test]
fn no_node() {
    let expected =
        "found the end of the file, expected an input or a gate: a sheet has at least one node";
    for (source, place) in [
        ("", "1:1"),
        ("\n", "2:1"),
        ("# é", "1:4"),
        ("\r\n  # none\r\n \t", "3:3"),
    ] {
        is(source, &format!("{place}: {expected}"));
    }
}
