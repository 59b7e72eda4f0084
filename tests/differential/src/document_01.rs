//! Document 01 worked cell by cell in wide whole numbers, as far as several calls share it.
//!
//! What a call asks and answers beyond this stands in its own file under `calls`.
//! Tables are indexed from 1 as in the document, so `table[i][k]` is accident year i, development year k.

// The document counts years, so loops run over them and not over the entries of one table.
#![allow(clippy::needless_range_loop)]

mod answer_lists;
mod projection;
pub mod questions;
mod ratios;
pub mod triangle;
mod verdicts;

use juniperprow::raw::Verdict;
use juniperprow::Triangle;

pub use answer_lists::{answered, future_list, reserve_list};
pub use projection::{Development, Movement};
pub use ratios::Sums;
pub use verdicts::{refused, ACCEPTED};

use questions::{
    question_1, question_2, question_3, question_4, question_5, question_6, question_7, question_8,
    question_9,
};
use triangle::Seen;

/// One unit in millionths.
pub const ONE_UNIT: i128 = 1_000_000;

/// The largest size of a projected figure, in millionths.
pub const FIGURE_LIMIT: i128 = 10_000_000_000 * ONE_UNIT;

/// The outcome of questions 1 to 9.
pub type Developed = Result<Development, Verdict>;

/// Asks questions 1 to 9 of a triangle that is lent without answer lists, and works it.
pub fn develop(triangle: &Triangle) -> Developed {
    let seen = lent(triangle)?;
    question_4(seen.n, &seen.weights)?;
    from_question_5(&seen)
}

/// Asks questions 1 to 3 of a triangle that is lent without answer lists, and reads its lists.
fn lent(triangle: &Triangle) -> Result<Seen, Verdict> {
    let n = question_1(triangle.years)?;
    let cut = question_2(n, triangle.cut)?;
    let lengths = [
        (triangle.payments.len(), n * (n + 1) / 2),
        (triangle.adjustments.len(), n * (n + 1) / 2),
        (triangle.weights.len(), n * (n - 1) / 2),
        (triangle.openings.len(), cut - 1),
    ];
    question_3(&lengths)?;
    Ok(Seen::read(n, cut, triangle))
}

/// Asks question 5 and those after it, and works the triangle.
pub fn from_question_5(seen: &Seen) -> Developed {
    question_5(seen)?;
    let outstandings = question_6(seen)?;
    question_7(seen)?;
    let sums = question_8(seen, &outstandings)?;
    question_9(seen.n, &outstandings, sums)
}
