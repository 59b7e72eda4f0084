//! The call for one accident year's row of a list of amounts.

use crate::refusal::{self, Refusal};
use crate::verdict::Verdict;

/// One of the two lists of amounts.
#[derive(Debug, Clone, Copy, PartialEq, Eq, Hash)]
pub enum AmountList {
    /// The payments.
    Payments,
    /// The adjustments to the reported amounts.
    Adjustments,
}

extern "C" {
    fn juniperprow_row_verdict(
        years: i64,
        payments: *const i64,
        payments_count: usize,
        adjustments: *const i64,
        adjustments_count: usize,
        accident_year: i64,
    ) -> Verdict;
}

/// Says whether one accident year's row can be taken from the two lists.
pub fn raw_row_verdict(
    years: i64,
    payments: &[i64],
    adjustments: &[i64],
    accident_year: i64,
) -> Verdict {
    // SAFETY: every pointer and count come from one slice, so each is not null, aligned and valid for its count.
    // The call writes to no list.
    unsafe {
        juniperprow_row_verdict(
            years,
            payments.as_ptr(),
            payments.len(),
            adjustments.as_ptr(),
            adjustments.len(),
            accident_year,
        )
    }
}

/// Says whether one accident year's row can be taken from the two lists.
///
/// Only the number of years, the two lengths and the accident year are tested, not the amounts.
pub fn row_verdict(
    years: i64,
    payments: &[i64],
    adjustments: &[i64],
    accident_year: i64,
) -> Result<(), Refusal> {
    refusal::result(raw_row_verdict(years, payments, adjustments, accident_year))
}

/// One accident year's seen figures, as that part of the named list.
pub fn row<'a>(
    years: i64,
    payments: &'a [i64],
    adjustments: &'a [i64],
    named: AmountList,
    accident_year: i64,
) -> Result<&'a [i64], Refusal> {
    row_verdict(years, payments, adjustments, accident_year)?;
    let list = match named {
        AmountList::Payments => payments,
        AmountList::Adjustments => adjustments,
    };
    // Both are from 1 to 32 now, and the list has its length.
    let (n, i) = (years as usize, accident_year as usize);
    let start = (i - 1) * (2 * n + 2 - i) / 2;
    Ok(&list[start..start + n + 1 - i])
}
