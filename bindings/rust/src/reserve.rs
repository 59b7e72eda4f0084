//! The call that fills both answer lists.

use crate::answers::Reserve;
use crate::refusal::{self, Refusal};
use crate::triangle::{counted_years, future_length, reserves_length, Triangle};
use crate::verdict::Verdict;

extern "C" {
    fn juniperprow_reserve(
        years: i64,
        cut: i64,
        payments: *const i64,
        payments_count: usize,
        adjustments: *const i64,
        adjustments_count: usize,
        weights: *const i64,
        weights_count: usize,
        openings: *const i64,
        openings_count: usize,
        future: *mut i64,
        future_count: usize,
        reserves: *mut i64,
        reserves_count: usize,
    ) -> Verdict;
}

/// Projects the triangle and fills both answer lists, with zeros on refusal.
pub fn raw_reserve(triangle: &Triangle, future: &mut [i64], reserves: &mut [i64]) -> Verdict {
    // SAFETY: every pointer and count come from one slice, so each is not null, aligned and valid for its count.
    // The two answer lists are lent mutably, so they overlap no other list.
    unsafe {
        juniperprow_reserve(
            triangle.years,
            triangle.cut,
            triangle.payments.as_ptr(),
            triangle.payments.len(),
            triangle.adjustments.as_ptr(),
            triangle.adjustments.len(),
            triangle.weights.as_ptr(),
            triangle.weights.len(),
            triangle.openings.as_ptr(),
            triangle.openings.len(),
            future.as_mut_ptr(),
            future.len(),
            reserves.as_mut_ptr(),
            reserves.len(),
        )
    }
}

/// Projects the triangle into the two lent answer lists, of any length.
///
/// A refusal fills both lists with zeros.
pub fn reserve_into(
    triangle: &Triangle,
    future: &mut [i64],
    reserves: &mut [i64],
) -> Result<(), Refusal> {
    refusal::result(raw_reserve(triangle, future, reserves))
}

/// Projects the triangle into answer lists of the right lengths.
///
/// Nothing is allocated for a number of accident years outside 2 to 32.
pub fn reserve(triangle: &Triangle) -> Result<Reserve, Refusal> {
    let (future, reserves) = match counted_years(triangle.years) {
        Some(n) => (future_length(n), reserves_length(n)),
        None => (0, 0),
    };
    let mut answer = Reserve {
        future: vec![0; future],
        reserves: vec![0; reserves],
    };
    reserve_into(triangle, &mut answer.future, &mut answer.reserves)?;
    Ok(answer)
}
