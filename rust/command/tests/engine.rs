//! Engines that cannot be asked: words on standard error, status 4, and no answer.
//!
//! The engines here are shell scripts. On a machine other than x86-64 an engine is started by the
//! kit's emulator, and a kit of our own has one that starts scripts.

#![cfg(unix)]

mod common;

use std::fs::{self, Permissions};
use std::os::unix::fs::PermissionsExt;
use std::path::{Path, PathBuf};
use std::process::Command;
use std::sync::OnceLock;

use common::{command, example, feed, run, Run};

/// Two operations of delay 2 on one unit.
const PAIR: &str = "type mul units 1\nop v1 mul delay 2\nop v2 mul delay 2\nbound 5\n";

/// The command's first question about the pair where all its schedules are asked for, after its
/// size: the kinds and the bound; delays, types, no edges, units, and the row to write.
const FIRST: [u8; 49] = [
    1, 0, 0, 0, 0, 0, 0, 0, 5, 0, 0, 0, 0, 0, 0, 0, // the numbers
    2, 0, 0, 0, 2, 2, 2, 0, 0, 0, 0, 0, // delays and types
    0, 0, 0, 0, 0, 0, 0, 0, // edges
    1, 0, 0, 0, 1, // units
    2, 0, 0, 0, 0, 0, 0, 0, // the row to write
];

/// The answer to it, after its size: the numbers say that a schedule is found.
fn found() -> Vec<u8> {
    let mut answer = vec![0; 24];
    answer[16] = 1;
    answer.extend(FIRST);
    let row = answer.len() - 4;
    answer[row] = 1;
    answer[row + 2] = 3;
    answer
}

/// A script that reads the first question, writes an answer and ends: its kind, its size and
/// what follows.
fn saying(kind: u8, size: usize, rest: &[u8]) -> String {
    let question = 8 + FIRST.len();
    let head = [kind, 0, 0, 0, size as u8, 0, 0, 0];
    let bytes = head.iter().chain(rest);
    let octal: String = bytes.map(|byte| format!("\\{byte:03o}")).collect();
    format!("head -c {question} >/dev/null\nprintf '{octal}'\n")
}

/// The engines by name.
fn engines() -> Vec<(&'static str, String)> {
    let (whole, size) = (found(), found().len());
    let mut spoiled = whole.clone();
    spoiled[24 + 20] = 3;
    vec![
        ("ends", "exit 7\n".to_string()),
        ("half", saying(0, size, &whole[..size / 2])),
        ("size", saying(0, size + 1, &whole)),
        ("kind", saying(3, 0, &[])),
        ("spoils", saying(0, size, &spoiled)),
        ("once", saying(0, size, &whole)),
    ]
}

/// Writes a script that can be started.
fn script(file: &Path, text: &str) {
    fs::create_dir_all(file.parent().unwrap()).unwrap();
    fs::write(file, format!("#!/bin/sh\n{text}")).unwrap();
    fs::set_permissions(file, Permissions::from_mode(0o755)).unwrap();
}

/// The folder of the engines, and of a kit whose emulator starts the script behind the loader.
///
/// All are written before anything is started here, for a file that is open cannot be.
fn folder() -> &'static Path {
    static FOLDER: OnceLock<PathBuf> = OnceLock::new();
    FOLDER.get_or_init(|| {
        let folder = PathBuf::from(env!("CARGO_TARGET_TMPDIR")).join("engines");
        for (name, text) in engines() {
            script(&folder.join(name), &text);
        }
        let tools = format!("kit/on/{}/toolchain", std::env::consts::ARCH);
        let tools = folder.join(tools);
        script(&tools.join("bin/qemu-x86_64"), "shift 3\nexec \"$@\"\n");
        script(&tools.join("lib/ld-linux-x86-64.so.2"), "");
        folder
    })
}

/// A command that goes a way of this name.
fn on_way(way: &str, words: &[&str]) -> Command {
    let mut command = command(words);
    command.env("PEDAL_WAY", way);
    command
}

/// A command that asks an engine of the folder.
fn with_engine(engine: &str, words: &[&str]) -> Command {
    let mut command = on_way("engine", words);
    command.env("PEDAL_ENGINE", folder().join(engine));
    command.env("RATTLE_HOME", folder().join("kit"));
    command
}

/// Asks an engine for all schedules of the pair.
fn all(engine: &str) -> Run {
    feed(with_engine(engine, &["all"]), PAIR.as_bytes())
}

/// The words of a run that must have ended with status 4, on one line.
fn broken(run: &Run) -> &str {
    assert_eq!(run.status, 4);
    assert_eq!(run.err.lines().count(), 1, "{}", run.err);
    run.err.strip_prefix("pedal: ").expect("the command's name")
}

/// Every engine at fault is told by its path, with what it did and what to do.
#[test]
fn engines_at_fault() {
    let says = [
        ("ends", "ended before it had answered (exit status: 7)"),
        ("half", "ended before it had answered (exit status: 0)"),
        ("size", "answered 74 bytes where 73 are due"),
        ("kind", "did not ask the question (kind 3: numbers and rows"),
        (
            "spoils",
            "changed what it may only read, byte 20 of the question",
        ),
    ];
    for (engine, words) in says {
        let run = all(engine);
        let path = folder().join(engine);
        let start = format!("the engine {} {words}", path.display());
        assert!(broken(&run).starts_with(&start), "{}", run.err);
        assert!(run
            .err
            .contains("tools/prove engine` at the root of the repository makes it"));
        assert_eq!(run.out, "");
    }
}

/// A listing does not end quietly where its engine does.
#[test]
fn listing_cut_short() {
    let run = all("once");
    assert_eq!(run.out, "schedule  v1  v2\n       1   1   3\n");
    assert!(broken(&run).contains("ended before it had answered (exit status: 0)"));
}

/// An engine that is not there.
#[test]
fn missing_engine() {
    let run = all("nowhere");
    assert!(broken(&run).contains("nowhere is missing; `tools/prove engine` at the root"));
    assert_eq!(run.out, "");
}

/// A way that is none.
#[test]
fn unknown_way() {
    folder();
    let run = feed(on_way("by foot", &["asap"]), PAIR.as_bytes());
    assert!(broken(&run).starts_with("PEDAL_WAY is 'by foot', which is no way to the library"));
    assert_eq!(run.out, "");
}

/// The help text, the version and bad input ask nothing.
#[test]
fn nothing_asked() {
    for words in [&["--help"][..], &["-h"], &["--version"], &["-V"]] {
        let run = feed(with_engine("nowhere", words), b"");
        assert_eq!((run.status, run.err.as_str()), (0, ""));
        assert!(run.out.starts_with("pedal"));
    }
    let run = feed(with_engine("nowhere", &["list"]), b"bound four\n");
    assert_eq!(run.status, 3);
}

/// The repository's engine, asked for, answers and refuses as the library does.
#[test]
fn the_same_through_the_engine() {
    folder();
    let many: String = (0..5000)
        .map(|number| format!("op v{number} mul\n"))
        .collect();
    for text in [
        fs::read_to_string(example("bench-fault.pedal")).unwrap(),
        format!("{PAIR}start v1 1\nstart v2 3\n"),
        format!("{PAIR}start v1 1\nstart v2 2\nedge v1 v2\nedge v2 v1\n"),
        format!("type mul units 1\nbound 5\n{many}"),
    ] {
        for question in [
            "asap", "alap", "mobility", "list", "watch", "check", "peak", "all",
        ] {
            let engine = feed(on_way("engine", &[question]), text.as_bytes());
            assert_ne!(engine.status, 4, "{}", engine.err);
            assert_eq!(engine, run(&[question], &text));
        }
    }
}
