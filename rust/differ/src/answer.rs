//! What a question gives, and what it leaves behind.

/// The numbers of an answer, and the written row afterwards.
#[derive(Clone, Debug, PartialEq, Eq)]
pub struct Answer {
    /// The refusal, 0 where answered.
    pub refusal: usize,
    /// The refusal's place; a view has none.
    pub place: usize,
    /// The other numbers, in the order of the C struct.
    pub values: Vec<usize>,
    /// Every entry of the row that the question may write.
    pub row: Vec<u16>,
    /// The rows and margins that the question changed and must not.
    pub spoiled: Vec<&'static str>,
}
