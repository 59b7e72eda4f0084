//! The triangle as an office pastes it from a workbook: floating numbers and blanks.

/// The kind of a cell that is blank.
pub const BLANK: u8 = 0;

/// The kind of a cell that carries a number.
pub const NUMBER: u8 = 1;

/// A run-off triangle with n accident years, as the cells of a workbook.
///
/// Each amount comes with its kind, [`BLANK`] or [`NUMBER`], in a list of its own; [`split_cells`] makes the two lists from cells.
/// A number has to be whole, in whole currency units. What stands beside a blank is not read.
/// Nothing needs to be tested beforehand: a call refuses what it cannot take.
#[derive(Debug, Clone, Copy, PartialEq)]
pub struct Workbook<'a> {
    /// The number of accident years n, from 2 to 32.
    pub years: i64,
    /// The cut Y, from 1 to n - 1: cells with i + k at most Y are missing, and they alone are blank.
    pub cut: i64,
    /// The kinds of the payments, in their order.
    pub payment_kinds: &'a [u8],
    /// The payments of the seen cells, row after row, oldest accident year first.
    pub payments: &'a [f64],
    /// The kinds of the adjustments, in their order.
    pub adjustment_kinds: &'a [u8],
    /// The adjustments to the reported amounts of the seen cells, in the same order.
    pub adjustments: &'a [f64],
    /// The weights of the cells with i + k at most n, in the same order.
    pub weights: &'a [i64],
    /// The opening outstandings of the accident years 1 to Y - 1, oldest first.
    pub openings: &'a [i64],
}

/// One cell of a workbook.
#[derive(Debug, Clone, Copy, PartialEq)]
pub enum WorkbookCell {
    /// Nothing, which stands for a missing cell.
    Blank,
    /// A number.
    Number(f64),
}

/// The kinds and the numbers of cells, in their order; beside a blank stands 0.
pub fn split_cells(cells: &[WorkbookCell]) -> (Vec<u8>, Vec<f64>) {
    cells
        .iter()
        .map(|cell| match *cell {
            WorkbookCell::Blank => (BLANK, 0.0),
            WorkbookCell::Number(number) => (NUMBER, number),
        })
        .unzip()
}

#[cfg(test)]
mod tests {
    use super::split_cells;
    use super::WorkbookCell::{Blank, Number};

    #[test]
    fn cells_are_split_in_their_order() {
        let (kinds, numbers) = split_cells(&[Blank, Number(-40.0), Number(0.0), Blank]);
        assert_eq!(kinds, [0, 1, 1, 0]);
        assert_eq!(numbers, [0.0, -40.0, 0.0, 0.0]);
        assert_eq!(split_cells(&[]), (vec![], vec![]));
    }
}
