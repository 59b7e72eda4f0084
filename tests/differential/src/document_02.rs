//! Document 02 worked on top of document 01, as far as its requests stand: cells from a workbook.
//!
//! Floats are taken apart and put together by their bits, so that no answer here rests on floating-point arithmetic.

mod cells;
mod floats;
mod pairs;
mod questions;

use juniperprow::Workbook;

pub use floats::Bits;
pub use pairs::reserve_pairs;

use crate::document_01::questions::{question_1, question_2, question_3, question_4};
use crate::document_01::triangle::{openings_of, table_of_weights, Seen};
use crate::document_01::{from_question_5, Developed};
use questions::{question_11, question_12, question_13};

/// Asks questions 1 to 4, 11 to 13 and 5 to 9 of a workbook that is lent without answer lists, and works its triangle.
pub fn develop(workbook: &Workbook) -> Developed {
    let n = question_1(workbook.years)?;
    let cut = question_2(n, workbook.cut)?;
    let amounts = n * (n + 1) / 2;
    question_3(&[
        (workbook.payment_kinds.len(), amounts),
        (workbook.payments.len(), amounts),
        (workbook.adjustment_kinds.len(), amounts),
        (workbook.adjustments.len(), amounts),
        (workbook.weights.len(), n * (n - 1) / 2),
        (workbook.openings.len(), cut - 1),
    ])?;
    let weights = table_of_weights(n, workbook.weights);
    question_4(n, &weights)?;
    let cells = cells::lent(n, workbook);
    question_11(&cells)?;
    question_12(&cells)?;
    question_13(cut, &cells)?;
    let (payments, adjustments) = cells.split_at(amounts);
    from_question_5(&Seen {
        n,
        cut,
        payments: cells::amounts(n, payments),
        adjustments: cells::amounts(n, adjustments),
        weights,
        openings: openings_of(workbook.openings),
    })
}

#[cfg(test)]
mod tests {
    use juniperprow::raw::Verdict;
    use juniperprow::Workbook;

    use super::develop;
    use crate::document_01::refused;

    /// E7 with these weights, kinds and payments.
    fn verdict(weights: [i64; 3], kinds: [u8; 6], payments: [f64; 6]) -> Option<Verdict> {
        let workbook = Workbook {
            years: 3,
            cut: 2,
            payment_kinds: &kinds,
            payments: &payments,
            adjustment_kinds: &[0, 1, 1, 1, 1, 1],
            adjustments: &[0.0, -40.0, -60.0, 380.0, 30.0, 250.0],
            weights: &weights,
            openings: &[200],
        };
        develop(&workbook).err()
    }

    /// What each question refuses is taken away in turn: 4, 11, 12, 13, 5, and 6 by 380 - 381.
    #[test]
    fn questions_come_in_their_order() {
        let mut weights = [0, 1, 101];
        let mut kinds = [0, 0, 2, 1, 1, 1];
        let mut payments = [f64::NAN, 60.0, 40.0, 381.0, 1e300, 50.5];
        assert_eq!(verdict(weights, kinds, payments), Some(refused(4, 2, 1)));
        weights[2] = 1;
        assert_eq!(verdict(weights, kinds, payments), Some(refused(11, 1, 3)));
        kinds[2] = 1;
        assert_eq!(verdict(weights, kinds, payments), Some(refused(12, 3, 1)));
        payments[5] = 50.0;
        assert_eq!(verdict(weights, kinds, payments), Some(refused(13, 1, 2)));
        kinds[1] = 1;
        assert_eq!(verdict(weights, kinds, payments), Some(refused(5, 2, 2)));
        payments[4] = 90.0;
        assert_eq!(verdict(weights, kinds, payments), Some(refused(6, 2, 1)));
        payments[3] = 80.0;
        assert_eq!(verdict(weights, kinds, payments), None);
    }
}
