//! What a word gives, or why it gives nothing.

use gillacorn::Refusal;

/// An answer in its two forms. Neither is printed before the whole of it is there.
pub trait Answer {
    /// For a person: lines.
    fn text(&self) -> String;

    /// For a program: one object.
    fn json(&self) -> String;

    /// The sentence about a clash, if the answer is one.
    fn clash(&self) -> Option<String> {
        None
    }
}

/// Why there is no answer.
pub enum Stop {
    Refused(Refusal),
    /// Bad words, or a file that can't be read or written.
    Bad(String),
}

impl From<Refusal> for Stop {
    fn from(refusal: Refusal) -> Self {
        Stop::Refused(refusal)
    }
}

pub type Answered = Result<Box<dyn Answer>, Stop>;
