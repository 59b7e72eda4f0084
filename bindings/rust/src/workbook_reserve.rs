//! The call that fills both answer lists from a workbook.

use crate::answers::WorkbookReserve;
use crate::refusal::{self, Refusal};
use crate::triangle::{counted_years, future_length, reserve_pairs_length};
use crate::verdict::Verdict;
use crate::workbook::Workbook;

extern "C" {
    fn juniperprow_workbook_reserve(
        years: i64,
        cut: i64,
        payment_kinds: *const u8,
        payment_kinds_count: usize,
        payments: *const f64,
        payments_count: usize,
        adjustment_kinds: *const u8,
        adjustment_kinds_count: usize,
        adjustments: *const f64,
        adjustments_count: usize,
        weights: *const i64,
        weights_count: usize,
        openings: *const i64,
        openings_count: usize,
        future: *mut i64,
        future_count: usize,
        reserve_pairs: *mut f64,
        reserve_pairs_count: usize,
    ) -> Verdict;
}

/// Projects the workbook's triangle and fills both answer lists, with zeros on refusal.
pub fn raw_workbook_reserve(
    workbook: &Workbook,
    future: &mut [i64],
    reserve_pairs: &mut [f64],
) -> Verdict {
    // SAFETY: every pointer and count come from one slice, so each is not null, aligned and valid for its count.
    // The two answer lists are lent mutably, so they overlap no other list.
    unsafe {
        juniperprow_workbook_reserve(
            workbook.years,
            workbook.cut,
            workbook.payment_kinds.as_ptr(),
            workbook.payment_kinds.len(),
            workbook.payments.as_ptr(),
            workbook.payments.len(),
            workbook.adjustment_kinds.as_ptr(),
            workbook.adjustment_kinds.len(),
            workbook.adjustments.as_ptr(),
            workbook.adjustments.len(),
            workbook.weights.as_ptr(),
            workbook.weights.len(),
            workbook.openings.as_ptr(),
            workbook.openings.len(),
            future.as_mut_ptr(),
            future.len(),
            reserve_pairs.as_mut_ptr(),
            reserve_pairs.len(),
        )
    }
}

/// Projects the workbook's triangle into the two lent answer lists, of any length.
///
/// A refusal fills both lists with zeros.
pub fn workbook_reserve_into(
    workbook: &Workbook,
    future: &mut [i64],
    reserve_pairs: &mut [f64],
) -> Result<(), Refusal> {
    refusal::result(raw_workbook_reserve(workbook, future, reserve_pairs))
}

/// Projects the workbook's triangle into answer lists of the right lengths.
///
/// Nothing is allocated for a number of accident years outside 2 to 32.
///
/// ```
/// use juniperprow::WorkbookCell::{Blank, Number};
/// use juniperprow::{split_cells, workbook_reserve, ReservePair, Workbook};
///
/// // Three accident years of which cell (1, 1) is missing.
/// let payments = [Blank, Number(60.0), Number(40.0), Number(80.0), Number(90.0), Number(50.0)];
/// let adjustments = [Blank, Number(-40.0), Number(-60.0), Number(380.0), Number(30.0), Number(250.0)];
/// let (payment_kinds, payments) = split_cells(&payments);
/// let (adjustment_kinds, adjustments) = split_cells(&adjustments);
/// let workbook = Workbook {
///     years: 3,
///     cut: 2,
///     payment_kinds: &payment_kinds,
///     payments: &payments,
///     adjustment_kinds: &adjustment_kinds,
///     adjustments: &adjustments,
///     weights: &[0, 1, 1],
///     openings: &[200],
/// };
/// let youngest = workbook_reserve(&workbook)?.of_year(3).unwrap();
/// assert_eq!(youngest.paid, ReservePair { units: 124.0, millionths: 0.0 });
/// # Ok::<(), juniperprow::Refusal>(())
/// ```
pub fn workbook_reserve(workbook: &Workbook) -> Result<WorkbookReserve, Refusal> {
    let (future, reserve_pairs) = match counted_years(workbook.years) {
        Some(n) => (future_length(n), reserve_pairs_length(n)),
        None => (0, 0),
    };
    let mut answer = WorkbookReserve {
        future: vec![0; future],
        reserve_pairs: vec![0.0; reserve_pairs],
    };
    workbook_reserve_into(workbook, &mut answer.future, &mut answer.reserve_pairs)?;
    Ok(answer)
}
