//! Engines that do not do as they should: each gives words, and none hangs.

use std::path::{Path, PathBuf};
use std::process::Command;
use std::sync::mpsc;
use std::time::Duration;
use std::{env, fs, thread};

use crate::face::{Answer, Question, Row};
use crate::process::Engine;
use crate::start::{self, REMEDY};

/// A folder of its own for a test, empty.
pub(crate) fn folder(name: &str) -> PathBuf {
    let own = format!("pedal-{name}-{}", std::process::id());
    let folder = env::temp_dir().join(own);
    let _ = fs::remove_dir_all(&folder);
    fs::create_dir_all(&folder).unwrap();
    folder.canonicalize().unwrap()
}

/// Puts a file, and the folders above it, into a folder.
pub(crate) fn put(folder: &Path, name: &str, text: &str) -> PathBuf {
    let file = folder.join(name);
    fs::create_dir_all(file.parent().unwrap()).unwrap();
    fs::write(&file, text).unwrap();
    file
}

/// The bytes of two operations, one type and an edge, with a row to write.
fn question() -> Question {
    let question = Question::new(1, &[1])
        .row(Row::of(&[2u8, 1]))
        .row(Row::of(&[0u8, 0]));
    let question = question.row(Row::of(&[0u16])).row(Row::of(&[1u16]));
    question.written(Row::of(&[0, 0]))
}

/// The bytes that follow the question's size.
fn body() -> Vec<u8> {
    question().message()[8..].to_vec()
}

/// An answer's bytes: its kind, its size, its numbers and the rest.
fn bytes(kind: u32, size: usize, numbers: [u64; 2], rest: &[u8]) -> Vec<u8> {
    let mut bytes = [kind.to_le_bytes(), (size as u32).to_le_bytes()].concat();
    bytes.extend(numbers.iter().flat_map(|number| number.to_le_bytes()));
    bytes.extend(rest);
    bytes
}

/// The body with one byte changed.
fn changed(place: usize) -> Vec<u8> {
    let mut body = body();
    body[place] ^= 1;
    body
}

/// A script that reads the question, writes some bytes and ends.
fn saying(bytes: &[u8]) -> String {
    let size = question().message().len();
    let octal: String = bytes.iter().map(|byte| format!("\\{byte:03o}")).collect();
    format!("head -c {size} >/dev/null; printf '{octal}'")
}

/// Asks an engine that is a shell script.
fn ask(script: &str) -> Result<Answer<2>, String> {
    let mut command = Command::new("sh");
    command.args(["-c", script]);
    ask_by(command)
}

/// Asks the engine that a command starts, and waits for an answer or for words within reason.
fn ask_by(command: Command) -> Result<Answer<2>, String> {
    let (sender, receiver) = mpsc::channel();
    thread::spawn(move || {
        let mut engine = Engine::start(command, Path::new("fake")).unwrap();
        let answer = engine.ask(&question(), |numbers| numbers[0] <= 13);
        drop(engine);
        sender.send(answer.map_err(|broken| broken.to_string()))
    });
    let answer = receiver.recv_timeout(Duration::from_secs(60));
    answer.expect("an answer within a minute")
}

/// Asks an engine that must give these words.
fn says(script: &str, words: &str) {
    let said = ask(script).unwrap_err();
    assert_eq!(said, format!("the engine fake {words}; {REMEDY}"));
}

/// A script that answers as it should, and that answer.
fn right() -> (String, Answer<2>) {
    let mut rest = body();
    let place = rest.len() - 4;
    rest[place..].copy_from_slice(&[1, 0, 3, 0]);
    let script = saying(&bytes(0, 16 + rest.len(), [0, 0], &rest));
    let (numbers, written) = ([0, 0], vec![1, 0, 3, 0]);
    (script, Answer { numbers, written })
}

/// An answer as it should be, with the row that was written.
#[test]
fn right_answer() {
    let (script, answer) = right();
    assert_eq!(ask(&script), Ok(answer));
}

/// The same on another kind of machine, where a kit's emulator and loader come before the
/// engine. In this kit the emulator is the shell, and the loader a script that starts another.
#[cfg(unix)]
#[test]
fn right_answer_under_an_emulator() {
    let (script, answer) = right();
    let kit = folder("emulator");
    let engine = put(&kit, "engine", &script);
    let tools = kit.join("on/aarch64/toolchain");
    let loader = "[ \"$1 $2\" = \"--library-path ${0%/*}\" ] && shift 2 && exec sh \"$@\"";
    put(&tools, "lib/ld-linux-x86-64.so.2", loader);
    fs::create_dir(tools.join("bin")).unwrap();
    std::os::unix::fs::symlink("/bin/sh", tools.join("bin/qemu-x86_64")).unwrap();
    let command = start::command_on("aarch64", &kit, &engine).unwrap();
    assert_eq!(ask_by(command), Ok(answer));
    fs::remove_dir_all(kit).unwrap();
}

/// Engines that end: at once, by a signal, within an answer's head, and within the rest.
#[test]
fn engines_that_end() {
    let whole = bytes(0, 16 + body().len(), [0, 0], &body());
    let words = |how: &str| format!("ended before it had answered ({how})");
    says("exit 7", &words("exit status: 7"));
    says("kill -9 $$", &words("signal: 9 (SIGKILL)"));
    says(&saying(&whole[..5]), &words("exit status: 0"));
    says(&saying(&whole[..whole.len() / 2]), &words("exit status: 0"));
    let short = &whole[..whole.len() - 1];
    says(&saying(short), &words("exit status: 0"));
}

/// An engine that closes its pipes and goes on.
#[test]
fn engine_that_goes_on() {
    says(
        "exec <&- >&-; exec sleep 600",
        "ended before it had answered (its pipes are closed, and it goes on)",
    );
}

/// Answers of a wrong size; what follows them is not waited for.
#[test]
fn wrong_sizes() {
    let due = 16 + body().len();
    for size in [0, due - 1, due + 1, u32::MAX as usize] {
        let script = saying(&bytes(0, size, [0, 0], &body()));
        let words = format!("answered {size} bytes where {due} are due");
        says(&format!("{script}; exec sleep 600"), &words);
    }
}

/// Questions that were not asked.
#[test]
fn faults_in_the_framing() {
    let kinds = [
        (1, "it found its end too early"),
        (2, "it knows no such question"),
        (3, "numbers and rows do not fill the size for it"),
        (4, "it is too long for it"),
        (5, "for no reason that is known here"),
    ];
    for (kind, reason) in kinds {
        let script = saying(&bytes(kind, 0, [0, 0], &[])[..8]);
        let words = format!("did not ask the question (kind {kind}: {reason})");
        says(&format!("{script}; exec sleep 600"), &words);
    }
}

/// Bytes that came back changed and must not: a number, a row's length, a row only read, and the
/// length of the row that is written.
#[test]
fn changed_bytes() {
    let length = body().len();
    for place in [0, 8, 12, length - 12, length - 8] {
        let rest = changed(place);
        let script = saying(&bytes(0, 16 + length, [0, 0], &rest));
        let words = format!("changed what it may only read, byte {place} of the question");
        says(&script, &words);
    }
    let rest = changed(length - 4);
    assert!(ask(&saying(&bytes(0, 16 + length, [0, 0], &rest))).is_ok());
}

/// Numbers that no question is answered by.
#[test]
fn impossible_numbers() {
    let script = saying(&bytes(0, 16 + body().len(), [14, 0], &body()));
    says(&script, "gave numbers that no question is answered by");
}

/// A program that is not there.
#[test]
fn no_program() {
    let command = Command::new("nowhere/engine");
    let error = Engine::start(command, Path::new("fake")).err().unwrap();
    let words = error.to_string();
    assert!(words.starts_with("the engine fake could not be started: No such file"));
}
