//! Questions 11 to 13, each over the payments and then the adjustments of a workbook.

use juniperprow::raw::Verdict;

use super::cells::{Cell, BLANK, NUMBER};
use super::floats::whole_number;
use crate::document_01::refused;

/// Is no kind byte above 1?
pub fn question_11(cells: &[Cell]) -> Result<(), Verdict> {
    none_is(11, cells, |cell| cell.kind > NUMBER)
}

/// Is every number finite and whole?
pub fn question_12(cells: &[Cell]) -> Result<(), Verdict> {
    none_is(12, cells, |cell| {
        cell.kind == NUMBER && whole_number(cell.bits).is_none()
    })
}

/// Is no cell with i + k above Y blank, and no missing one a number?
pub fn question_13(cut: usize, cells: &[Cell]) -> Result<(), Verdict> {
    none_is(13, cells, |cell| {
        let missing = cell.i + cell.k <= cut;
        match cell.kind {
            BLANK => !missing,
            _ => missing,
        }
    })
}

/// The first cell that is wrong decides.
fn none_is(number: i64, cells: &[Cell], wrong: impl Fn(&Cell) -> bool) -> Result<(), Verdict> {
    match cells.iter().find(|cell| wrong(cell)) {
        Some(cell) => Err(refused(number, cell.i, cell.k)),
        None => Ok(()),
    }
}

#[cfg(test)]
mod tests {
    use super::{question_11, question_12, question_13};
    use crate::document_01::refused;
    use crate::document_02::cells::Cell;

    const ONE: u64 = 0x3ff0_0000_0000_0000;
    const HALF: u64 = 0x3fe0_0000_0000_0000;
    const NO_NUMBER: u64 = 0x7ff8_0000_0000_0000;

    /// Cells of two years as they are lent: the payments (1, 1), (1, 2), (2, 1), then the adjustments.
    fn cells(lent: [(u8, u64); 6]) -> Vec<Cell> {
        let places = [(1, 1), (1, 2), (2, 1)].repeat(2);
        let cells = places.into_iter().zip(lent);
        cells
            .map(|((i, k), (kind, bits))| Cell { i, k, kind, bits })
            .collect()
    }

    #[test]
    fn no_kind_is_above_1() {
        let mut lent = [(1, ONE); 6];
        lent[0].0 = 0;
        assert_eq!(question_11(&cells(lent)), Ok(()));
        lent[3].0 = 255;
        assert_eq!(question_11(&cells(lent)), Err(refused(11, 1, 1)));
        lent[2].0 = 2;
        assert_eq!(question_11(&cells(lent)), Err(refused(11, 2, 1)));
    }

    #[test]
    fn only_numbers_have_to_be_whole() {
        let mut lent = [(1, ONE); 6];
        lent[0] = (0, NO_NUMBER);
        assert_eq!(question_12(&cells(lent)), Ok(()));
        lent[4] = (1, HALF);
        assert_eq!(question_12(&cells(lent)), Err(refused(12, 1, 2)));
        lent[2] = (1, NO_NUMBER);
        assert_eq!(question_12(&cells(lent)), Err(refused(12, 2, 1)));
    }

    /// With Y = 2 the cell (1, 1) alone is missing.
    #[test]
    fn missing_cells_alone_are_blank() {
        let mut lent = [(1, ONE); 6];
        assert_eq!(question_13(1, &cells(lent)), Ok(()));
        assert_eq!(question_13(2, &cells(lent)), Err(refused(13, 1, 1)));
        (lent[0].0, lent[3].0) = (0, 0);
        assert_eq!(question_13(2, &cells(lent)), Ok(()));
        assert_eq!(question_13(1, &cells(lent)), Err(refused(13, 1, 1)));
        lent[5].0 = 0;
        assert_eq!(question_13(2, &cells(lent)), Err(refused(13, 2, 1)));
        // A number at the missing cell of the adjustments, though it is 0.
        lent[3] = (1, 0);
        assert_eq!(question_13(2, &cells(lent)), Err(refused(13, 1, 1)));
        // Payments come first.
        lent[1].0 = 0;
        assert_eq!(question_13(2, &cells(lent)), Err(refused(13, 1, 2)));
    }
}
