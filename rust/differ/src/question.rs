//! The functions of the C face, and every way in which each may answer.

/// A function of the C face.
#[derive(Clone, Copy, Debug, PartialEq, Eq)]
pub enum Question {
    /// `pedal_asap`
    Asap,
    /// `pedal_alap`
    Alap,
    /// `pedal_mobility`
    Mobility,
    /// `pedal_list`
    List,
    /// `pedal_advance`
    Advance,
    /// `pedal_check`
    Check,
    /// `pedal_peak`
    Peak,
    /// `pedal_first`
    First,
    /// `pedal_next`
    Next,
    /// `pedal_view`
    View,
}

/// All of them.
pub const QUESTIONS: [Question; 10] = [
    Question::Asap,
    Question::Alap,
    Question::Mobility,
    Question::List,
    Question::Advance,
    Question::Check,
    Question::Peak,
    Question::First,
    Question::Next,
    Question::View,
];

impl Question {
    /// The function's name.
    pub fn name(self) -> &'static str {
        match self {
            Question::Asap => "pedal_asap",
            Question::Alap => "pedal_alap",
            Question::Mobility => "pedal_mobility",
            Question::List => "pedal_list",
            Question::Advance => "pedal_advance",
            Question::Check => "pedal_check",
            Question::Peak => "pedal_peak",
            Question::First => "pedal_first",
            Question::Next => "pedal_next",
            Question::View => "pedal_view",
        }
    }

    /// The answers that are no refusals, in words.
    pub fn answers(self) -> &'static [&'static str] {
        match self {
            Question::Advance => &["moved on", "all placed"],
            Question::Check => &["lawful", "untimely", "broken", "over-use"],
            Question::First | Question::Next => &["none left", "found"],
            _ => &["answered"],
        }
    }

    /// The numbers of the refusals that it gives.
    pub fn refusals(self) -> &'static [usize] {
        match self {
            Question::Asap => &[1, 2, 3, 4, 5, 7],
            Question::Alap | Question::Mobility => &[1, 2, 3, 4, 5, 7, 8, 9],
            Question::List => &[1, 2, 3, 4, 5, 6, 7],
            Question::Advance => &[1, 2, 3, 4, 6, 7, 11],
            Question::Check => &[1, 2, 3, 4, 6, 7, 8],
            Question::Peak => &[1, 2, 3, 4, 7],
            Question::First | Question::Next => &[1, 2, 3, 4, 5, 6, 7, 8, 9, 10],
            Question::View => &[12, 13],
        }
    }
}
