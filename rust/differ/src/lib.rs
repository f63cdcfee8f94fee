//! The proved library against the second opinion: random inputs, good and damaged, to every
//! function of the C face, and every answer and every lent row compared.

#![warn(missing_docs)]
#![forbid(unsafe_code)]

pub mod answer;
mod ask;
mod damage;
mod expect;
pub mod input;
mod make;
pub mod question;
mod row;
pub mod tally;

pub use answer::Answer;
pub use ask::ask;
pub use expect::expect;
pub use input::Input;
pub use make::make;
pub use question::{Question, QUESTIONS};
pub use tally::Tally;

use pedal::Broken;

/// A question on which the two sides differ.
#[derive(Debug)]
pub struct Difference {
    /// The question.
    pub question: Question,
    /// What the proved library did.
    pub asked: Answer,
    /// What the second opinion expects.
    pub expected: Answer,
}

/// Why a comparison stops.
#[derive(Debug)]
pub enum Stop {
    /// The two sides differ.
    Differs(Box<Difference>),
    /// The proved library could not be asked.
    Broken(Broken),
}

impl From<Broken> for Stop {
    /// The proved library could not be asked.
    fn from(broken: Broken) -> Stop {
        Stop::Broken(broken)
    }
}

/// Asks every question about an input and counts the answers, up to the first difference.
pub fn compare(input: &Input, tally: &mut Tally) -> Result<(), Stop> {
    for question in QUESTIONS {
        let asked = ask(question, input)?;
        let expected = expect(question, input);
        if asked != expected {
            return Err(Stop::Differs(Box::new(Difference {
                question,
                asked,
                expected,
            })));
        }
        tally.count(question, input, &expected);
    }
    Ok(())
}
