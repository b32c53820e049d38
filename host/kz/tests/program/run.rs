//! Runs the program.

use std::io::Write;
use std::process::{Command, Output, Stdio};

use crate::json::Json;

/// What a run leaves.
#[derive(Debug)]
pub struct Ran {
    pub status: i32,
    pub out: Vec<u8>,
    pub err: String,
}

impl Ran {
    pub fn of(output: Output) -> Ran {
        Ran {
            status: output.status.code().expect("no signal ends the program"),
            out: output.stdout,
            err: String::from_utf8(output.stderr).expect("messages are UTF-8"),
        }
    }

    /// What was printed, where that is text.
    pub fn text(&self) -> &str {
        std::str::from_utf8(&self.out).expect("the answer is UTF-8")
    }

    /// What was printed, which is one JSON object on a line and nothing else.
    pub fn json(&self) -> Json {
        let line = self.text().strip_suffix('\n').expect("the answer ends its line");
        Json::read(line)
    }

    /// What was printed by a run that has an answer.
    #[track_caller]
    pub fn answer(&self) -> &str {
        assert_eq!(self.status, 0, "{self:?}");
        self.text()
    }

    /// What is said by a run that ends with this status and prints nothing.
    #[track_caller]
    pub fn failure(&self, status: i32) -> &str {
        assert_eq!((self.status, self.out.as_slice()), (status, &[][..]), "{self:?}");
        assert!(self.err.starts_with("kz: ") && self.err.ends_with('\n'), "{self:?}");
        assert_eq!(self.err.lines().count(), 1, "{self:?}");
        &self.err
    }
}

/// The program with these arguments.
pub fn command(arguments: &[&str]) -> Command {
    let mut command = Command::new(env!("CARGO_BIN_EXE_kz"));
    command.args(arguments).stdin(Stdio::null()).stdout(Stdio::piped()).stderr(Stdio::piped());
    command
}

/// Runs it.
pub fn kz(arguments: &[&str]) -> Ran {
    Ran::of(command(arguments).output().expect("the program starts"))
}

/// Runs it with this on standard input.
pub fn kz_fed(arguments: &[&str], input: &[u8]) -> Ran {
    let mut child = command(arguments).stdin(Stdio::piped()).spawn().expect("the program starts");
    let mut pipe = child.stdin.take().expect("standard input is a pipe");
    // A program that is done before it reads everything closes the pipe, which is its right.
    pipe.write_all(input).ok();
    drop(pipe);
    Ran::of(child.wait_with_output().expect("the program ends"))
}
