//! The command `pedal`: the scheduler's questions at a terminal.

#![forbid(unsafe_code)]

mod all;
mod answers;
mod format;
mod input;
mod lines;
mod table;
mod trouble;
mod usage;
mod verdict;
mod watch;

use std::io::{self, Write};
use std::process::ExitCode;

use crate::format::Job;
use crate::trouble::{Status, Trouble};
use crate::usage::{Asked, Options, Question};

/// Writes a line to standard error, whether or not anybody reads it.
fn complain(trouble: &Trouble) {
    let _ = writeln!(io::stderr(), "pedal: {trouble}");
}

/// Writes text to standard output; a reader who has left is no trouble.
fn print(text: &str) -> Result<(), Trouble> {
    let mut out = io::stdout().lock();
    let written = out.write_all(text.as_bytes()).and_then(|()| out.flush());
    trouble::unless_closed(written)
}

/// Answers a question about a job.
fn answer(options: &Options, job: &Job) -> Result<Status, Trouble> {
    let csv = options.csv;
    let (text, status) = match options.question {
        Question::Asap => answers::asap(job, csv)?,
        Question::Alap => answers::alap(job, csv)?,
        Question::Mobility => answers::mobility(job, csv)?,
        Question::List => answers::list(job, csv)?,
        Question::Watch => watch::watch(job, csv)?,
        Question::Check => verdict::check(job, csv)?,
        Question::Peak => answers::peak(job, csv)?,
        Question::All => return all::all(job, csv, options.limit),
    };
    print(&text)?;
    Ok(status)
}

/// Does what the words of the command line ask for.
fn run() -> Result<Status, Trouble> {
    match usage::read(std::env::args_os().skip(1))? {
        Asked::Help => print(usage::HELP).map(|()| Status::Answered),
        Asked::Version => print(usage::VERSION).map(|()| Status::Answered),
        Asked::Question(options) => {
            let source = input::read(options.file.as_deref())?;
            let job = format::read(&source)?;
            answer(&options, &job)
        }
    }
}

/// Ends with the status that says how it went.
fn main() -> ExitCode {
    let status = run().unwrap_or_else(|trouble| {
        complain(&trouble);
        trouble.status()
    });
    pedal::face::end();
    ExitCode::from(status as u8)
}
