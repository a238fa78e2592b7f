//! How a text is laid out, and that the layout of a netlist does not matter.

use crate::imported::{becomes, text, text_with};

const NETLIST: &str = "# a counter
# 1 input

INPUT(reset)

OUTPUT(sum)
OUTPUT(count)

count = DFF(next)
next = NOR(reset, count)
sum = AND(reset, next, count)
";

const TEXT: &str = "timing-1

# Made from an ISCAS .bench netlist. Each gate has delay 5 and is X at first.
# The netlist has no drive: an input is X until drive lines say what it is.
# Where a gate is several modules, the last has its delay, and the nodes before it, named after it, have none.
# A flip-flop is two memories: it takes what its input had just before clock rises, and shows it a tick after.

input reset
input clock

count.held = memory(next, clock) set {0} delay 0 initial X
count = memory(count.held, clock) set {1} delay 1 initial X
next = nor(reset, count) delay 5 initial X
sum.1 = and(reset, next) delay 0 initial X
sum = and(sum.1, count) delay 5 initial X

watch sum
watch count
";

#[test]
fn the_whole_text() {
    assert_eq!(text_with(NETLIST, 5), TEXT);
}

/// What is not there is not spoken of.
#[test]
fn without_trees_and_flip_flops() {
    let comments = "timing-1

# Made from an ISCAS .bench netlist. Each gate has delay 1 and is X at first.
# The netlist has no drive: an input is X until drive lines say what it is.
";
    let inputs = format!("{comments}\ninput a\n");
    assert_eq!(text("INPUT(a)"), inputs);
    assert_eq!(text("INPUT(a)\nOUTPUT(a)"), inputs + "\nwatch a\n");
    let modules = format!("{comments}\na = inverter(a) delay 1 initial X\n");
    assert_eq!(text("a = NOT(a)"), modules);
}

#[test]
fn ends_of_lines() {
    let other_system = NETLIST.replace('\n', "\r\n");
    assert_eq!(text_with(&other_system, 5), TEXT);
    assert_eq!(text_with(NETLIST.trim_end(), 5), TEXT);
    let blank_lines = NETLIST.replace('\n', "\n\n \t\r\n");
    assert_eq!(text_with(&blank_lines, 5), TEXT);
}

#[test]
fn blanks_and_comments() {
    let wide = NETLIST
        .replace('(', " \t(\r ")
        .replace([')'], "\t) # (a, b) = c é")
        .replace(',', " ,\t")
        .replace(" = ", "\t=\r");
    assert_eq!(text_with(&wide, 5), TEXT);
    let narrow = NETLIST.replace(' ', "").replace(')', ")#");
    assert_eq!(text_with(&narrow, 5), TEXT);
}

#[test]
fn words_in_any_case() {
    let lower = NETLIST
        .replace("INPUT", "input")
        .replace("OUTPUT", "oUtPuT")
        .replace("DFF", "dff")
        .replace("NOR", "Nor")
        .replace("AND", "anD");
    assert_eq!(text_with(&lower, 5), TEXT);
}

/// Inputs, gates and outputs keep the order that each sort has in the netlist.
#[test]
fn any_order() {
    let source = "OUTPUT(d)\nd = NOT(c)\nINPUT(b)\nOUTPUT(b)\nc = BUF(a)\nINPUT(a)";
    becomes(
        source,
        &[
            "input b",
            "input a",
            "d = inverter(c) delay 1 initial X",
            "c = buffer(a) delay 1 initial X",
            "watch d",
            "watch b",
        ],
    );
}

#[test]
fn an_output_that_is_named_again() {
    becomes(
        "OUTPUT(a)\nINPUT(a)\nOUTPUT(b)\nOUTPUT(a)\nINPUT(b)\nOUTPUT(b)",
        &["input a", "input b", "watch a", "watch b"],
    );
}
