//! Input and command lines that cannot be read: a message with the line, status 3, and no answer.

mod common;

use std::io::{BufRead, BufReader};
use std::path::PathBuf;
use std::process::Stdio;

use common::{command, example, finish, run, run_bytes, Run};

/// The message of a run that must have printed nothing else.
fn unreadable(run: Run) -> String {
    assert_eq!(run.out, "");
    assert_eq!(run.status, 3);
    assert_eq!(run.err.lines().count(), 1, "{}", run.err);
    assert!(run.err.starts_with("pedal: "));
    run.err
}

/// Asks for the list schedule of a text that must be unreadable on a line.
fn fault(text: &str, line: usize, reason: &str) {
    let said = unreadable(run(&["list"], text));
    assert_eq!(
        said,
        format!("pedal: standard input, line {line}: {reason}\n")
    );
}

/// A file that is not there.
#[test]
fn missing_file() {
    let said = unreadable(run(&["asap", "nowhere.pedal"], ""));
    assert!(said.starts_with("pedal: nowhere.pedal cannot be read: No such file"));
}

/// A folder instead of a file.
#[test]
fn folder() {
    let said = unreadable(run(&["asap", &example("")], ""));
    assert!(said.contains("cannot be read: Is a directory"));
}

/// An empty file, or one with nothing but comments.
#[test]
fn empty_file() {
    fault("", 1, "there is nothing in the input");
    fault(
        "# nothing\n\n# at all\n",
        3,
        "there is nothing in the input",
    );
}

/// Names that no line introduces.
#[test]
fn unknown_names() {
    let known = "type mul units 1\nop v1 mul\n";
    fault(
        "type mul units 1\nop v1 alu\n",
        2,
        "type alu is unknown: no type line has it",
    );
    for line in ["edge v1 v2", "edge v2 v1", "start v2 1"] {
        fault(
            &format!("{known}{line}\n"),
            3,
            "operation v2 is unknown: no op line has it",
        );
    }
}

/// Names and items that come twice.
#[test]
fn twice() {
    let known = "type mul units 1\nop v1 mul\nbound 4\nstart v1 1\n";
    let said = |line: &str, reason: &str| fault(&format!("{known}{line}\n"), 5, reason);
    said("type mul units 2", "type mul is named twice");
    said("op v1 mul", "operation v1 is named twice");
    said("bound 4", "the bound is given twice, first on line 3");
    said(
        "start v1 1",
        "the start of v1 is given twice, first on line 4",
    );
}

/// Of several faults the one on the first line is told.
#[test]
fn first_fault() {
    fault(
        "edge v1 v2\nop v1 mul\n",
        1,
        "operation v1 is unknown: no op line has it",
    );
    fault(
        "type a\nop v b\ntype a\n",
        2,
        "type b is unknown: no type line has it",
    );
}

/// Numbers that their place cannot hold.
#[test]
fn large_numbers() {
    let said = |line: &str, reason: &str| fault(&format!("type mul\n{line}\n"), 2, reason);
    said(
        "type alu units 256",
        "units 256 is too large, 255 is the most",
    );
    said(
        "op v mul delay 999",
        "delay 999 is too large, 255 is the most",
    );
    said(
        "start v 65536",
        "start 65536 is too large, 65535 is the most",
    );
    said(
        "bound 99999999999999999999999",
        "bound 99999999999999999999999 is too large, 18446744073709551615 is the most",
    );
}

/// Words that are no numbers.
#[test]
fn no_numbers() {
    fault("bound four\n", 1, "bound 'four' is not a number");
    fault("bound -1\n", 1, "bound '-1' is not a number");
    fault("bound +1\n", 1, "bound '+1' is not a number");
    fault("type mul units 1.5\n", 1, "units '1.5' is not a number");
}

/// Lines that are no items.
#[test]
fn misshapen_lines() {
    let shaped = |line: &str, shape: &str| {
        fault(line, 1, &format!("this line should read: {shape}"));
    };
    shaped("type", "type NAME units NUMBER");
    shaped("type mul 2", "type NAME units NUMBER");
    shaped("op v1", "op NAME TYPE delay NUMBER");
    shaped("op v1 mul 2", "op NAME TYPE delay NUMBER");
    shaped("edge v1", "edge NAME NAME");
    shaped("bound", "bound NUMBER");
    shaped("start v1", "start NAME NUMBER");
    fault(
        "\nnode v1\n",
        2,
        "'node' begins no line; type, op, edge, bound and start do",
    );
}

/// What a question needs and the input does not have.
#[test]
fn missing_items() {
    let text = "type mul\nop v1 mul\nop v2 mul\nstart v1 1\n";
    let said = |question: &str, text: &str| unreadable(run(&[question], text));
    for question in ["list", "watch", "check", "all"] {
        assert_eq!(
            said(question, text),
            "pedal: standard input, line 4: the input ends without the units of type mul, as: \
             type mul units 1\n"
        );
    }
    let text = text.replace("type mul", "type mul units 1");
    for question in ["alap", "mobility", "check", "all"] {
        assert_eq!(
            said(question, &text),
            "pedal: standard input, line 4: the input ends without a bound, as: bound 4\n"
        );
    }
    for question in ["peak", "check"] {
        assert_eq!(
            said(question, &format!("{text}bound 4")),
            "pedal: standard input, line 5: the input ends without the start of operation v2, \
             as: start v2 1\n"
        );
    }
}

/// A file of 10 MB, lawful but for its length, or one endless line.
#[test]
fn long_input() {
    let many = "# nothing to see on this line\n".repeat(350_000);
    let said = unreadable(run(&["asap"], &many));
    assert_eq!(
        said,
        "pedal: standard input, line 34953: the input is longer than 1048576 bytes\n"
    );
    let said = unreadable(run_bytes(&["asap"], &vec![b'x'; 10_000_000]));
    assert!(said.contains(", line 1: the input is longer than"));
}

/// A long file on disk.
#[test]
fn long_file() {
    let path = PathBuf::from(env!("CARGO_TARGET_TMPDIR")).join("long.pedal");
    std::fs::write(&path, vec![b'\n'; 10_000_000]).unwrap();
    let said = unreadable(run(&["asap", &path.display().to_string()], ""));
    std::fs::remove_file(&path).unwrap();
    assert!(said.contains("long.pedal, line 1048577: the input is longer than 1048576 bytes"));
}

/// More names than the library has numbers for, within the length that is read.
#[test]
fn very_many_names() {
    let mut text = "type m\n".to_string();
    text.extend((0..66_000).map(|number| format!("op {number} m\n")));
    fault(
        &text,
        65_538,
        "more than 65,536 operations cannot be numbered",
    );
}

/// Bytes that are not UTF-8.
#[test]
fn not_text() {
    let said = unreadable(run_bytes(&["asap"], b"type mul\nop \xff mul\n"));
    assert_eq!(
        said,
        "pedal: standard input, line 2: these bytes are not UTF-8 text\n"
    );
}

/// Names that would spoil a terminal, or fill it.
#[test]
fn names_that_cannot_be_shown() {
    fault("op \u{1b}[2J mul\n", 1, "a name holds a control character");
    fault("type \0\n", 1, "a name holds a control character");
    let long = "x".repeat(201);
    fault(
        &format!("type {long}\n"),
        1,
        "a name is longer than 200 characters",
    );
    let said = unreadable(run(&["list"], &format!("\u{1b}{long}\n")));
    assert!(said.contains("'\\u{1b}xxx") && said.contains("xxx...' begins no line"));
}

/// Command lines that make no sense.
#[test]
fn bad_usage() {
    let said = |words: &[&str]| unreadable(run(words, "bound 4\n"));
    assert_eq!(said(&[]), "pedal: a question is needed; see pedal --help\n");
    assert_eq!(
        said(&["asp"]),
        "pedal: 'asp' is not a question (asap, alap, mobility, list, watch, check, peak, all); \
         see pedal --help\n"
    );
    assert_eq!(
        said(&["all", "--fast"]),
        "pedal: unknown option --fast; see pedal --help\n"
    );
    assert_eq!(
        said(&["all", "one", "two"]),
        "pedal: one file is enough, not also 'two'; see pedal --help\n"
    );
    assert_eq!(
        said(&["list", "--limit", "3"]),
        "pedal: --limit goes with all alone; see pedal --help\n"
    );
    for words in [
        &["all", "--limit"][..],
        &["all", "--limit", "0"],
        &["all", "--limit", "x"],
    ] {
        assert_eq!(
            said(words),
            "pedal: --limit needs a number from 1 on; see pedal --help\n"
        );
    }
}

/// Words of the command line that are not UTF-8.
#[cfg(unix)]
#[test]
fn strange_words() {
    use std::os::unix::ffi::OsStrExt;
    let mut command = command(&["asap"]);
    command.arg(std::ffi::OsStr::from_bytes(b"no\xffwhere"));
    let said = unreadable(finish(command.spawn().unwrap()));
    assert!(said.contains("where cannot be read: "));
}

/// A reader who leaves early ends a long listing quietly.
#[test]
fn closed_pipe() {
    let text: String = (0..19)
        .map(|number| format!("op v{number} mul\n"))
        .collect();
    let path = PathBuf::from(env!("CARGO_TARGET_TMPDIR")).join("wide.pedal");
    std::fs::write(&path, text + "type mul units 19\nbound 2\n").unwrap();
    let mut child = command(&["all", &path.display().to_string()])
        .spawn()
        .unwrap();
    let mut first = String::new();
    let mut reader = BufReader::new(child.stdout.take().unwrap());
    reader.read_line(&mut first).unwrap();
    drop(reader);
    let run = finish(child);
    std::fs::remove_file(&path).unwrap();
    assert!(first.starts_with("schedule  v0"));
    assert_eq!((run.status, run.err.as_str()), (0, ""));
}

/// A fault keeps its status where nobody reads the words.
#[test]
fn closed_pipe_keeps_the_fault() {
    let mut child = command(&["check", &example("bench-fault.pedal")]);
    let mut child = child.spawn().unwrap();
    drop(child.stdout.take());
    let run = finish(child);
    assert_eq!((run.status, run.err.as_str()), (1, ""));
}

/// A full disk is told, and standard error that cannot be written is no reason to panic.
#[cfg(target_os = "linux")]
#[test]
fn full_disk() {
    let full = || {
        Stdio::from(
            std::fs::OpenOptions::new()
                .write(true)
                .open("/dev/full")
                .unwrap(),
        )
    };
    for question in ["asap", "all"] {
        let mut child = command(&[question, &example("eleven.pedal")]);
        let run = finish(child.stdout(full()).spawn().unwrap());
        assert_eq!(run.status, 3);
        assert!(run
            .err
            .starts_with("pedal: the answer cannot be written: No space left"));
    }
    let mut child = command(&["asap", "nowhere.pedal"]);
    assert_eq!(finish(child.stderr(full()).spawn().unwrap()).status, 3);
}
