//! What the program says on standard error: nothing, or one line where its input or its output
//! fails. It has no exit status of its own.

use std::fs::{self, File};
use std::io::{self, Write};
use std::path::Path;
use std::process::{Command, Stdio};

use compare::program;
use generate::limits::MOST_PRINTED;
use generate::sheets::*;
use plain::{sentence, worked_run, Answer, Edition, LOW};

const NOT_TAKEN: &str = "simulate: standard output did not take the whole text\n";
const NOTHING_READ: &str = "simulate: nothing was read from standard input\n";

/// What a process left on standard output, if that was read, and on standard error.
struct Said {
    output: Vec<u8>,
    error: String,
}

/// Starts the program by the shell's words `start`, which name it "$0", with this input and output.
fn said(start: &str, input: &[u8], output: impl Into<Stdio>) -> Said {
    let mut child = Command::new("sh")
        .args(["-c", start])
        .arg(program())
        .stdin(Stdio::piped())
        .stdout(output)
        .stderr(Stdio::piped())
        .spawn()
        .expect("there is a shell");
    let mut stdin = child.stdin.take().expect("it was piped");
    stdin.write_all(input).expect("a pipe takes short inputs");
    drop(stdin);
    let output = child.wait_with_output().expect("it was started");
    assert!(output.status.success(), "{:?}", output.status);
    Said {
        output: output.stdout,
        error: String::from_utf8(output.stderr).expect("it says text"),
    }
}

/// What is printed where the horizon is 0.
fn no_horizon() -> Vec<u8> {
    let refused = Answer::of_triple([1, 0, 0]);
    (sentence(refused) + "\n").into_bytes()
}

const AS_IT_IS: &str = r#"exec "$0""#;

/// What a pipe takes at once.
const PIPE: usize = 65_536;

/// An inverter onto its own input, to as many ticks as are printed: a text that no pipe takes at once.
fn long_run() -> Vec<u8> {
    let ring = sheet(&[LOW], &[gate(INVERTER, [0, 0], 0, 1)], &[], &[0]);
    let ring = ring.encode(Edition::First);
    [&MOST_PRINTED.to_le_bytes()[..], &ring].concat()
}

#[test]
fn an_ordinary_run_says_nothing() {
    let refused = &worked_run::INPUT[..20];
    let one_byte = &worked_run::INPUT[..1];
    assert!(plain::program(&long_run()).len() > PIPE);
    for input in [&worked_run::INPUT[..], refused, one_byte, &long_run()] {
        let said = said(AS_IT_IS, input, Stdio::piped());
        assert_eq!(said.error, "");
        assert!(said.output == plain::program(input), "{input:?}");
    }
}

#[test]
fn nothing_was_read() {
    let said = said(AS_IT_IS, &[], Stdio::piped());
    assert_eq!(said.error, NOTHING_READ);
    assert_eq!(said.output, no_horizon());
}

/// Nothing can be read from a closed standard input, either.
#[test]
fn standard_input_is_closed() {
    let said = said(r#"exec "$0" <&-"#, &[], Stdio::piped());
    assert_eq!(said.error, NOTHING_READ);
    assert_eq!(said.output, no_horizon());
}

#[test]
fn a_full_device() {
    for input in [&worked_run::INPUT[..], &long_run()] {
        let full = File::options().write(true).open("/dev/full").unwrap();
        assert_eq!(said(AS_IT_IS, input, full).error, NOT_TAKEN);
    }
}

/// A reader that has gone: where the signal for it is ignored, the write fails.
#[test]
fn a_pipe_without_a_reader() {
    let (reader, writer) = io::pipe().expect("there is a pipe");
    drop(reader);
    let said = said(r#"trap '' PIPE; exec "$0""#, &worked_run::INPUT, writer);
    assert_eq!(said.error, NOT_TAKEN);
}

/// A file that may not grow past one of the shell's blocks, 512 bytes or 1,024, has the text's first
/// ones. The signal for it is ignored.
#[test]
fn a_text_half_written() {
    let path = Path::new(env!("CARGO_TARGET_TMPDIR")).join("half_written");
    let file = File::create(&path).unwrap();
    let one_block = r#"trap '' XFSZ; ulimit -f 1; exec "$0""#;
    assert_eq!(said(one_block, &long_run(), file).error, NOT_TAKEN);
    let written = fs::read(&path).unwrap();
    assert!([512, 1_024].contains(&written.len()), "{}", written.len());
    assert!(plain::program(&long_run()).starts_with(&written));
}
