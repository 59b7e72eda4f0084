//! A call's number and place, as document 01 gives them.

use juniperprow::raw::Verdict;

/// The verdict on a call that fails no question.
pub const ACCEPTED: Verdict = Verdict {
    number: 0,
    accident_year: 0,
    development_year: 0,
};

/// The verdict on a call that fails the question with this number at the cell (i, k).
pub fn refused(number: i64, i: usize, k: usize) -> Verdict {
    Verdict {
        number,
        accident_year: i as i64,
        development_year: k as i64,
    }
}
