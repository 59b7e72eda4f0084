//! The cells of a workbook, each with a kind byte and a float.

use juniperprow::Workbook;

use super::floats::whole_number;
use crate::document_01::triangle::{cells_to, table, Table};

/// The kind byte of a blank.
pub const BLANK: u8 = 0;

/// The kind byte of a number.
pub const NUMBER: u8 = 1;

/// A cell as it is lent.
pub struct Cell {
    pub i: usize,
    pub k: usize,
    pub kind: u8,
    /// The bits of the float beside the kind, which are not read of a blank.
    pub bits: u64,
}

/// The cells of the payments and then those of the adjustments, in list order; the lists have their lengths.
pub fn lent(n: usize, workbook: &Workbook) -> Vec<Cell> {
    let mut cells = vec![];
    for (kinds, numbers) in [
        (workbook.payment_kinds, workbook.payments),
        (workbook.adjustment_kinds, workbook.adjustments),
    ] {
        for (((i, k), &kind), number) in cells_to(n + 1).zip(kinds).zip(numbers) {
            let bits = number.to_bits();
            cells.push(Cell { i, k, kind, bits });
        }
    }
    cells
}

/// The amounts of one list, of which questions 11 and 12 refuse no cell. A blank is 0.
pub fn amounts(n: usize, cells: &[Cell]) -> Table {
    let amounts = cells.iter().map(|cell| match cell.kind {
        BLANK => 0,
        _ => whole_number(cell.bits).expect("a number is whole"),
    });
    table(n, n + 1, amounts)
}
