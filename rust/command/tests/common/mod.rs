//! Running the command.

use std::io::Write;
use std::path::PathBuf;
use std::process::{Child, Command, Stdio};

/// How a run of the command ended.
#[derive(Debug, PartialEq, Eq)]
pub struct Run {
    /// The exit status.
    pub status: i32,
    /// What it wrote to standard output.
    pub out: String,
    /// What it wrote to standard error.
    pub err: String,
}

/// The command with words, and with pipes for all that it reads and writes.
pub fn command(words: &[&str]) -> Command {
    let mut command = Command::new(env!("CARGO_BIN_EXE_pedal"));
    command.args(words);
    command.stdin(Stdio::piped());
    command.stdout(Stdio::piped());
    command.stderr(Stdio::piped());
    command
}

/// Waits for a run, which must not end by a signal or in a panic.
pub fn finish(child: Child) -> Run {
    let output = child.wait_with_output().expect("the command ends");
    let err = String::from_utf8(output.stderr).expect("messages are text");
    assert!(!err.contains("panicked"), "{err}");
    Run {
        status: output.status.code().expect("no signal"),
        out: String::from_utf8(output.stdout).expect("answers are text"),
        err,
    }
}

/// Runs a command with bytes as its standard input.
pub fn feed(mut command: Command, input: &[u8]) -> Run {
    let mut child = command.spawn().expect("the command starts");
    let mut pipe = child.stdin.take().expect("a pipe");
    // The command may stop reading before the end.
    let _ = pipe.write_all(input);
    drop(pipe);
    finish(child)
}

/// Runs the command with bytes as its standard input.
pub fn run_bytes(words: &[&str], input: &[u8]) -> Run {
    feed(command(words), input)
}

/// Runs the command with a text as its standard input.
pub fn run(words: &[&str], input: &str) -> Run {
    run_bytes(words, input.as_bytes())
}

/// The path of an example.
pub fn example(name: &str) -> String {
    let path = PathBuf::from(env!("CARGO_MANIFEST_DIR")).join("../../examples");
    path.join(name).display().to_string()
}
