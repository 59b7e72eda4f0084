//! The verdict of a call as the library answers it.

/// The number of a question and the place, as the library answers them; number 0 is accepted.
#[repr(C)]
#[derive(Debug, Clone, Copy, PartialEq, Eq)]
pub struct Verdict {
    /// 0, or the number of the question that was answered with no.
    pub number: i64,
    /// The place's accident year.
    pub accident_year: i64,
    /// The place's development year.
    pub development_year: i64,
}
