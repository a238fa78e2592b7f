//! How a process has ended.

use std::process::Output;

/// Its exit status, unless a signal ended it, and its texts at standard output and standard error.
#[derive(Debug, PartialEq, Eq)]
pub struct Ended {
    pub status: Option<i32>,
    pub output: String,
    pub error: String,
}

impl Ended {
    pub fn of(output: Output) -> Ended {
        let text = |bytes| String::from_utf8(bytes).expect("it prints text");
        Ended {
            status: output.status.code(),
            output: text(output.stdout),
            error: text(output.stderr),
        }
    }

    /// What it has printed: it has finished, and has said nothing at standard error.
    pub fn printed(self) -> String {
        assert_eq!(
            (self.status, &*self.error),
            (Some(0), ""),
            "{}",
            self.output
        );
        self.output
    }
}
