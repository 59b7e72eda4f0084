//! The call for one unseen cell alone.

use crate::answers::Movement;
use crate::refusal::{self, Refusal};
use crate::triangle::Triangle;
use crate::verdict::Verdict;

/// The verdict on a single cell and its figures, as the library answers them.
#[repr(C)]
#[derive(Debug, Clone, Copy, PartialEq, Eq)]
pub struct Cell {
    /// The verdict of questions 1 to 10.
    pub verdict: Verdict,
    /// The payment in millionths.
    pub payment: i64,
    /// The adjustment in millionths.
    pub adjustment: i64,
    /// The outstanding in millionths.
    pub outstanding: i64,
}

extern "C" {
    fn juniperprow_single_cell(
        years: i64,
        cut: i64,
        payments: *const i64,
        payments_count: usize,
        adjustments: *const i64,
        adjustments_count: usize,
        weights: *const i64,
        weights_count: usize,
        openings: *const i64,
        openings_count: usize,
        accident_year: i64,
        development_year: i64,
    ) -> Cell;
}

/// Answers one unseen cell, with zeros on refusal.
pub fn raw_single_cell(triangle: &Triangle, accident_year: i64, development_year: i64) -> Cell {
    // SAFETY: every pointer and count come from one slice, so each is not null, aligned and valid for its count.
    // The call writes to no list.
    unsafe {
        juniperprow_single_cell(
            triangle.years,
            triangle.cut,
            triangle.payments.as_ptr(),
            triangle.payments.len(),
            triangle.adjustments.as_ptr(),
            triangle.adjustments.len(),
            triangle.weights.as_ptr(),
            triangle.weights.len(),
            triangle.openings.as_ptr(),
            triangle.openings.len(),
            accident_year,
            development_year,
        )
    }
}

/// The figures of one unseen cell, the same as [`reserve`](crate::reserve()) answers for it.
pub fn single_cell(
    triangle: &Triangle,
    accident_year: i64,
    development_year: i64,
) -> Result<Movement, Refusal> {
    let cell = raw_single_cell(triangle, accident_year, development_year);
    refusal::result(cell.verdict)?;
    Ok(Movement {
        payment: cell.payment,
        adjustment: cell.adjustment,
        outstanding: cell.outstanding,
    })
}
