//! The benchmark: the proved library against plain Rust that does the same work, in one run.
//!
//! `bench` prints a Markdown table; `bench --smoke` asks every question once, for the gate.
//! It measures the linked library: where that is not there, it says so and ends with status 4.

#![forbid(unsafe_code)]

mod clock;
mod plain;
mod proved;
mod report;
mod subject;

use std::io::{self, Write};
use std::process::ExitCode;

use pedal::face::{self, Way};
use pedal::MOST_OPERATIONS;

use crate::clock::Clock;
use crate::report::{Comparison, Report};
use crate::subject::Subject;

/// The sizes of the graphs.
const SIZES: [usize; 4] = [
    MOST_OPERATIONS / 8,
    MOST_OPERATIONS / 4,
    MOST_OPERATIONS / 2,
    MOST_OPERATIONS,
];

/// Compares both sides on a question whose answer they give as a value.
fn compare<T: PartialEq + std::fmt::Debug>(
    clock: &Clock,
    question: &'static str,
    subject: &Subject,
    mut proved: impl FnMut() -> T,
    mut plain: impl FnMut() -> T,
) -> Comparison {
    let (answer, same) = (proved(), plain());
    assert_eq!(
        answer, same,
        "{question}, {}: the answers differ",
        subject.name
    );
    let (proved, plain) = clock.race(&mut proved, &mut plain);
    Comparison {
        question,
        operations: subject.sample.operations(),
        graph: subject.name.clone(),
        proved,
        plain,
    }
}

/// The questions that take one call.
fn compare_calls(clock: &Clock, subject: &Subject, report: &mut Report) {
    let (mut one, mut other) = (subject.row(), subject.row());
    report.push(compare(
        clock,
        "asap",
        subject,
        || proved::asap(subject, &mut one),
        || plain::asap(subject, &mut other),
    ));
    report.push(compare(
        clock,
        "list",
        subject,
        || proved::list(subject, &mut one),
        || plain::list(subject, &mut other),
    ));
    report.push(compare(
        clock,
        "check",
        subject,
        || proved::check(subject),
        || plain::check(subject),
    ));
    report.push(compare(
        clock,
        "peak",
        subject,
        || proved::peak(subject),
        || plain::peak(subject),
    ));
}

/// The whole list, by the first and then the next until none is left.
fn compare_listing(clock: &Clock, subject: &Subject) -> Comparison {
    let mut comparison = compare(
        clock,
        "all",
        subject,
        || proved::all(subject),
        || plain::all(subject),
    );
    comparison.graph = format!("{}, {} schedules", subject.name, plain::all(subject).0);
    comparison
}

/// The whole list of the eleven-operation graph, also against one walk over the whole tree.
fn compare_eleven(clock: &Clock, report: &mut Report) {
    let eleven = Subject::eleven();
    report.push(compare_listing(clock, &eleven));
    let mut once = compare(
        clock,
        "all, against one walk",
        &eleven,
        || proved::all(&eleven).0,
        || plain::all_once(&eleven),
    );
    once.graph = eleven.name.clone();
    report.record(once);
}

/// Compares everything.
fn run(clock: &Clock) -> Report {
    let mut report = Report::default();
    for size in SIZES {
        for dense in [false, true] {
            compare_calls(clock, &Subject::tangle(size, dense), &mut report);
        }
    }
    for size in SIZES {
        for dense in [false, true] {
            report.push(compare_listing(clock, &Subject::ladder(size, dense)));
        }
    }
    compare_eleven(clock, &mut report);
    report
}

/// Asks every question once and says that both sides answered alike; the times mean nothing.
fn smoke() -> String {
    let count = run(&Clock::hasty()).len();
    format!("bench: {count} comparisons, the same answers on both sides\n")
}

/// Whether the library is linked and asked so; if not, says why nothing is measured.
fn is_linked() -> bool {
    match face::way() {
        Ok(Way::Linked) => true,
        Ok(Way::Engine) => {
            eprintln!(
                "bench: the benchmark measures the linked library: x86-64 only, and without \
                 PEDAL_WAY=engine"
            );
            false
        }
        Err(broken) => {
            eprintln!("bench: {broken}");
            false
        }
    }
}

/// Runs the benchmark, whole or as a smoke test.
fn main() -> ExitCode {
    if !is_linked() {
        return ExitCode::from(4);
    }
    let words: Vec<String> = std::env::args().skip(1).collect();
    let text = match words.iter().map(String::as_str).collect::<Vec<&str>>()[..] {
        [] => run(&Clock::patient()).to_string(),
        ["--smoke"] => smoke(),
        _ => {
            eprintln!("bench [--smoke]: the proved library against plain Rust, in one run");
            return ExitCode::from(2);
        }
    };
    match io::stdout().write_all(text.as_bytes()) {
        Ok(()) => ExitCode::SUCCESS,
        Err(_) => ExitCode::FAILURE,
    }
}
