//! A short run with a fixed seed, and the command's exit statuses.

use std::process::{Command, Output};

use differ::{ask, compare, expect, make, Answer, Input, Question, Tally, QUESTIONS};
use samples::Xorshift;

/// Runs the command.
fn differ(words: &[&str]) -> Output {
    let mut command = Command::new(env!("CARGO_BIN_EXE_differ"));
    command.args(words).output().expect("the command runs")
}

/// What the command printed.
fn printed(output: &Output) -> String {
    String::from_utf8_lossy(&output.stdout).into_owned()
}

/// Both sides agree, and every answer and refusal of every question is met.
#[test]
fn every_answer_is_met() {
    let mut rng = Xorshift::spread(2024);
    let mut tally = Tally::default();
    for _ in 0..4000 {
        let input = make(&mut rng);
        if let Err(stop) = compare(&input, &mut tally) {
            panic!("{input}\n{stop:?}");
        }
    }
    assert_eq!(tally.not_met(), [""; 0]);
    assert_eq!(tally.total(), 4000 * QUESTIONS.len());
}

/// Both sides were written for the same limits.
#[test]
fn limits() {
    assert_eq!(pedal::MOST_OPERATIONS, second::MOST_OPERATIONS);
    assert_eq!(pedal::MOST_EDGES, second::MOST_EDGES);
    assert_eq!(pedal::MOST_KINDS, second::MOST_KINDS);
    assert_eq!(pedal::LONGEST_DELAY, second::LONGEST_DELAY);
    assert_eq!(pedal::LAST_STEP, second::LAST_STEP);
    assert_eq!(pedal::MOST_ROWS, second::MOST_ROWS);
}

/// The same seed gives the same inputs, and another seed others.
#[test]
fn seeds() {
    let inputs = |seed: u64| -> Vec<Input> {
        let mut rng = Xorshift::spread(seed);
        (0..20).map(|_| make(&mut rng)).collect()
    };
    assert_eq!(inputs(5), inputs(5));
    assert_ne!(inputs(5), inputs(6));
}

/// An answer that differs in anything is another answer.
#[test]
fn every_part_counts() {
    let input = Input {
        delays: vec![1],
        types: vec![0],
        kinds: 1,
        units: vec![1],
        out: vec![5, 6],
        ..Input::default()
    };
    let expected = expect(Question::List, &input);
    assert_eq!(expected.row, [1, 6]);
    assert_eq!(ask(Question::List, &input).as_ref(), Ok(&expected));
    let edits: [fn(&mut Answer); 5] = [
        |answer| answer.refusal += 1,
        |answer| answer.place += 1,
        |answer| answer.values[0] += 1,
        |answer| answer.row[1] += 1,
        |answer| answer.spoiled.push("types"),
    ];
    for edit in edits {
        let mut other = expected.clone();
        edit(&mut other);
        assert_ne!(other, expected);
    }
}

/// An input is shown as Rust literals, with all its parts.
#[test]
fn literals() {
    let shown = make(&mut Xorshift::spread(1)).to_string();
    assert!(shown.starts_with("let input = Input {\n    delays: vec!["));
    assert!(shown.ends_with("\n};"));
    assert_eq!(shown.lines().count(), 20);
}

/// A run prints its seed, a line for each question and a summary, and the same again.
#[test]
fn summary() {
    let words = ["--seed", "3", "--inputs", "300"];
    let output = differ(&words);
    assert_eq!(output.status.code(), Some(0));
    let text = printed(&output);
    assert!(text.starts_with("seed 3\n"));
    for question in QUESTIONS {
        assert!(text.contains(&format!("\n{}  ", question.name())));
    }
    assert!(text.contains("\n3000 questions, "));
    assert!(text.contains("\n300 of 300 inputs in "));
    let counts = |text: &str| {
        text.lines()
            .take(11)
            .map(String::from)
            .collect::<Vec<String>>()
    };
    assert_eq!(counts(&printed(&differ(&words))), counts(&text));
}

/// A run that cannot try all its inputs in time does not pass.
#[test]
fn late() {
    let output = differ(&["--inputs", "1000000000", "--seconds", "1"]);
    assert_eq!(output.status.code(), Some(3));
    assert!(printed(&output).contains("the time is up"));
}

/// A way that is none cannot be asked.
#[test]
fn no_way() {
    let mut command = Command::new(env!("CARGO_BIN_EXE_differ"));
    let output = command.env("PEDAL_WAY", "by foot").output().unwrap();
    assert_eq!(output.status.code(), Some(4));
    assert!(output.stderr.starts_with(b"differ: PEDAL_WAY is 'by foot'"));
}

/// A run says in which way it asked.
#[test]
fn way() {
    let output = differ(&["--inputs", "1"]);
    let way = pedal::face::way().unwrap();
    let line = format!(" a second, {way}\n");
    assert!(printed(&output).contains(&line));
}

/// Words that make no sense are bad usage.
#[test]
fn bad_usage() {
    for words in [&["--seed"][..], &["--seed", "x"], &["--fast", "1"], &["5"]] {
        assert_eq!(differ(words).status.code(), Some(2));
    }
}
