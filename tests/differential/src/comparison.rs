//! What the documents and the library answer to a call, set side by side.

use std::fmt::{Debug, Display};

use juniperprow::raw::Verdict;
use juniperprow::Refusal;

/// What differs, in words.
pub struct Difference {
    pub subject: String,
    pub documents: String,
    pub library: String,
}

impl Difference {
    /// The difference in what a call lends besides its round.
    pub fn of(mut self, lent: impl Display) -> Difference {
        self.subject = format!("{} of {lent}", self.subject);
        self
    }
}

/// Two answers to the same question have to be the same.
pub fn same<T: PartialEq + Debug>(
    subject: &str,
    expected: &T,
    answered: &T,
) -> Result<(), Difference> {
    if expected == answered {
        Ok(())
    } else {
        Err(Difference {
            subject: subject.to_string(),
            documents: format!("{expected:?}"),
            library: format!("{answered:?}"),
        })
    }
}

/// The position, counted from 0, at which two lists differ first.
pub fn differing_position<T: PartialEq>(expected: &[T], answered: &[T]) -> Option<usize> {
    let mut pairs = expected.iter().zip(answered);
    pairs.position(|(expected, answered)| expected != answered)
}

/// An answer list before the call: no number in it is 0, so zeros are seen to be written.
pub fn unwritten(length: usize) -> Vec<i64> {
    (1..=length as i64)
        .map(|position| i64::MIN + position)
        .collect()
}

/// What a function of the binding has to answer: the figures where the verdict is 0, else the verdict.
pub fn where_accepted<T>(verdict: Verdict, figures: impl FnOnce() -> T) -> Result<T, Verdict> {
    match verdict.number {
        0 => Ok(figures()),
        _ => Err(verdict),
    }
}

/// The verdict that the binding answers as a refusal.
pub fn verdict_of(refusal: Refusal) -> Verdict {
    Verdict {
        number: refusal.question.number(),
        accident_year: refusal.place.accident_year,
        development_year: refusal.place.development_year,
    }
}
