//! How often each question was answered or refused, and in which way.

use std::fmt;

use pedal::LAST_REFUSAL;

use crate::{Answer, Input, Question, QUESTIONS};

/// The most ways in which a question is answered.
const MOST_ANSWERS: usize = 4;

/// The counts of each question.
#[derive(Clone, Debug, Default, PartialEq, Eq)]
pub struct Tally {
    /// How many times each question was answered in each way.
    answers: [[usize; MOST_ANSWERS]; QUESTIONS.len()],
    /// How many times each question was refused by each number.
    refusals: [[usize; LAST_REFUSAL + 1]; QUESTIONS.len()],
}

/// The way in which a question was answered, by its place among the question's answers.
fn way(question: Question, input: &Input, answer: &Answer) -> usize {
    match question {
        Question::Advance => usize::from(answer.values[0] == input.step),
        Question::Check | Question::First | Question::Next => answer.values[0],
        _ => 0,
    }
}

impl Tally {
    /// Counts an answer.
    pub fn count(&mut self, question: Question, input: &Input, answer: &Answer) {
        let place = question as usize;
        match answer.refusal {
            0 => self.answers[place][way(question, input, answer)] += 1,
            number => self.refusals[place][number] += 1,
        }
    }

    /// How many questions were asked.
    pub fn total(&self) -> usize {
        let counts = self.answers.iter().flatten();
        counts.chain(self.refusals.iter().flatten()).sum()
    }

    /// The counts of a question, each with its name.
    fn counts(&self, question: Question) -> Vec<(String, usize)> {
        let place = question as usize;
        let answers = question.answers().iter().zip(self.answers[place]);
        let answers = answers.map(|(name, count)| (name.to_string(), count));
        let refusals = question.refusals().iter();
        let refusals = refusals.map(|&n| (format!("refusal {n}"), self.refusals[place][n]));
        answers.chain(refusals).collect()
    }

    /// The questions with the answers and refusals that they never gave.
    pub fn not_met(&self) -> Vec<String> {
        let mut names = Vec::new();
        for question in QUESTIONS {
            let counts = self.counts(question).into_iter();
            let never = counts.filter(|(_, count)| *count == 0);
            names.extend(never.map(|(name, _)| format!("{}: {name}", question.name())));
        }
        names
    }
}

impl fmt::Display for Tally {
    /// A line to each question.
    fn fmt(&self, f: &mut fmt::Formatter<'_>) -> fmt::Result {
        for question in QUESTIONS {
            let counts = self.counts(question).into_iter();
            let counts = counts.map(|(name, count)| format!("{name} {count}"));
            let counts = counts.collect::<Vec<String>>().join(", ");
            writeln!(f, "{:<14}  {counts}", question.name())?;
        }
        Ok(())
    }
}
