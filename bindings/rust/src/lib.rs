//! Outstanding-driven reserves of a run-off triangle, by the proved engine.
//!
//! Amounts are in whole currency units, answers in millionths of a unit.
//! A call tests what it is lent and answers either figures or a [`Refusal`].
//! [`workbook_reserve()`] takes the floating numbers and blanks of a workbook, and answers its reserves in units and millionths.
//!
//! ```
//! use juniperprow::{reserve, Triangle, ONE_UNIT};
//!
//! let triangle = Triangle {
//!     years: 2,
//!     cut: 1,
//!     payments: &[100, 60, 50],
//!     adjustments: &[200, -40, 130],
//!     weights: &[1],
//!     openings: &[],
//! };
//! let reserve = reserve(&triangle)?;
//! let youngest = reserve.of_year(2).unwrap();
//! assert_eq!(youngest.paid, 48 * ONE_UNIT);
//! assert_eq!(youngest.closing, 0);
//! # Ok::<(), juniperprow::Refusal>(())
//! ```

#![deny(missing_docs)]

mod answers;
mod refusal;
mod triangle;
mod verdict;
mod workbook;

// The calls, a file each: its declaration, the library's own answer, and the function that answers a result.
mod reserve;
mod row;
mod single_cell;
mod workbook_reserve;

pub use answers::{Movement, Reserve, ReservePair, WorkbookReserve, YearReserve, YearReservePairs};
pub use refusal::{Place, Question, Refusal};
pub use triangle::{
    amounts_length, future_length, reserve_pairs_length, reserves_length, weights_length, Triangle,
    LARGEST_YEARS, ONE_UNIT, SMALLEST_YEARS,
};
pub use workbook::{split_cells, Workbook, WorkbookCell, BLANK, NUMBER};

pub use reserve::{reserve, reserve_into};
pub use row::{row, row_verdict, AmountList};
pub use single_cell::single_cell;
pub use workbook_reserve::{workbook_reserve, workbook_reserve_into};

/// The library's own answers, for tests that look at what a refusal leaves.
#[doc(hidden)]
pub mod raw {
    pub use crate::verdict::Verdict;

    pub use crate::reserve::raw_reserve as reserve;
    pub use crate::row::raw_row_verdict as row_verdict;
    pub use crate::single_cell::{raw_single_cell as single_cell, Cell};
    pub use crate::workbook_reserve::raw_workbook_reserve as workbook_reserve;
}
