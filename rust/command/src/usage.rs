//! The words of the command line.

use std::ffi::{OsStr, OsString};

use crate::trouble::Trouble;

/// What `pedal --help` prints.
pub const HELP: &str = include_str!("help.txt");
/// What `pedal --version` prints.
pub const VERSION: &str = concat!("pedal ", env!("CARGO_PKG_VERSION"), "\n");

/// What is asked of a graph.
#[derive(Clone, Copy, Debug, PartialEq, Eq)]
pub enum Question {
    /// Earliest starts.
    Asap,
    /// Latest starts.
    Alap,
    /// Latest less earliest starts.
    Mobility,
    /// The list schedule.
    List,
    /// The list schedule step by step.
    Watch,
    /// Whether a schedule is lawful.
    Check,
    /// Peak use.
    Peak,
    /// All lawful schedules.
    All,
}

/// The questions by name.
const QUESTIONS: [(&str, Question); 8] = [
    ("asap", Question::Asap),
    ("alap", Question::Alap),
    ("mobility", Question::Mobility),
    ("list", Question::List),
    ("watch", Question::Watch),
    ("check", Question::Check),
    ("peak", Question::Peak),
    ("all", Question::All),
];

/// A question with all that belongs to it.
#[derive(Debug)]
pub struct Options {
    /// The question.
    pub question: Question,
    /// The file, or standard input where there is none.
    pub file: Option<OsString>,
    /// Whether the answer is for machines.
    pub csv: bool,
    /// The most schedules to list.
    pub limit: Option<usize>,
}

/// What the command line asks for.
#[derive(Debug)]
pub enum Asked {
    /// The help text.
    Help,
    /// The version.
    Version,
    /// A question.
    Question(Options),
}

/// The words so far.
#[derive(Default)]
struct Words {
    /// The words that are no options: a question and a file.
    plain: Vec<OsString>,
    /// Whether --csv was among them.
    csv: bool,
    /// The number after --limit.
    limit: Option<usize>,
}

/// Reads the command line.
pub fn read(arguments: impl Iterator<Item = OsString>) -> Result<Asked, Trouble> {
    let mut words = Words::default();
    let mut arguments = arguments;
    while let Some(word) = arguments.next() {
        match word.to_str() {
            Some("--help" | "-h") => return Ok(Asked::Help),
            Some("--version" | "-V") => return Ok(Asked::Version),
            Some("--csv") => words.csv = true,
            Some("--limit") => words.limit = Some(limit(arguments.next())?),
            Some(option) if option.len() > 1 && option.starts_with('-') => {
                return Err(Trouble::Usage(format!("unknown option {option}")))
            }
            _ => words.plain.push(word),
        }
    }
    words.asked().map(Asked::Question)
}

/// The number after --limit.
fn limit(word: Option<OsString>) -> Result<usize, Trouble> {
    let number = word.as_deref().and_then(OsStr::to_str);
    let number = number.and_then(|word| word.parse().ok());
    number
        .filter(|&number| number > 0)
        .ok_or_else(|| Trouble::Usage("--limit needs a number from 1 on".to_string()))
}

/// The question of a name.
fn question(word: &OsStr) -> Result<Question, Trouble> {
    let known = QUESTIONS.iter().find(|(name, _)| word == *name);
    known.map(|(_, question)| *question).ok_or_else(|| {
        let names = QUESTIONS.map(|(name, _)| name).join(", ");
        let word = word.to_string_lossy();
        Trouble::Usage(format!("'{word}' is not a question ({names})"))
    })
}

impl Words {
    /// The question that the words ask.
    fn asked(self) -> Result<Options, Trouble> {
        let mut plain = self.plain.into_iter();
        let first = plain.next();
        let first = first.ok_or_else(|| Trouble::Usage("a question is needed".to_string()))?;
        let options = Options {
            question: question(&first)?,
            file: plain.next().filter(|file| file != "-"),
            csv: self.csv,
            limit: self.limit,
        };
        if let Some(more) = plain.next() {
            let more = more.to_string_lossy();
            return Err(Trouble::Usage(format!(
                "one file is enough, not also '{more}'"
            )));
        }
        if options.limit.is_some() && options.question != Question::All {
            return Err(Trouble::Usage("--limit goes with all alone".to_string()));
        }
        Ok(options)
    }
}
