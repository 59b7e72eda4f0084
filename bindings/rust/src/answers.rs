//! The figures of an accepted triangle, in millionths of a unit, or in units and millionths where a workbook was read.

/// The payment, adjustment and outstanding of one unseen cell.
#[derive(Debug, Clone, Copy, PartialEq, Eq, Hash)]
pub struct Movement {
    /// The payment of the development year.
    pub payment: i64,
    /// The adjustment of the development year.
    pub adjustment: i64,
    /// The outstanding at the end of the development year.
    pub outstanding: i64,
}

/// The reserves of one accident year.
#[derive(Debug, Clone, Copy, PartialEq, Eq, Hash)]
pub struct YearReserve {
    /// The paid-based reserve.
    pub paid: i64,
    /// The incurred-based reserve.
    pub incurred: i64,
    /// The closing outstanding.
    pub closing: i64,
}

/// A reserve in whole units and the remaining millionths, each of them exactly a whole number.
///
/// The units are rounded down, so that the millionths are from 0 to 999,999 below 0 too: -333,333 millionths are -1 and 666,667.
#[derive(Debug, Clone, Copy, PartialEq)]
pub struct ReservePair {
    /// The whole units.
    pub units: f64,
    /// The remaining millionths.
    pub millionths: f64,
}

/// The reserves of one accident year of a workbook.
#[derive(Debug, Clone, Copy, PartialEq)]
pub struct YearReservePairs {
    /// The paid-based reserve.
    pub paid: ReservePair,
    /// The incurred-based reserve.
    pub incurred: ReservePair,
    /// The closing outstanding.
    pub closing: ReservePair,
}

/// Both answer lists of an accepted triangle.
#[derive(Debug, Clone, PartialEq, Eq)]
pub struct Reserve {
    /// A payment, an adjustment and an outstanding for each unseen cell, row after row.
    pub future: Vec<i64>,
    /// The paid-based reserve, the incurred-based reserve and the closing outstanding of each accident year.
    pub reserves: Vec<i64>,
}

impl Reserve {
    /// The figures of an unseen cell, and none for any other cell.
    pub fn movement(&self, accident_year: i64, development_year: i64) -> Option<Movement> {
        let n = self.reserves.len() / 3;
        movement(&self.future, n, accident_year, development_year)
    }

    /// The reserves of an accident year, and none if the triangle does not have it.
    pub fn of_year(&self, accident_year: i64) -> Option<YearReserve> {
        let i = year_of(accident_year, self.reserves.len() / 3)?;
        let [paid, incurred, closing] = numbers_at(&self.reserves, i - 1)?;
        Some(YearReserve {
            paid,
            incurred,
            closing,
        })
    }
}

/// Both answer lists of a workbook whose triangle is accepted.
#[derive(Debug, Clone, PartialEq)]
pub struct WorkbookReserve {
    /// A payment, an adjustment and an outstanding for each unseen cell, row after row, in millionths.
    pub future: Vec<i64>,
    /// The units and millionths of the paid-based reserve, of the incurred-based reserve and of the closing outstanding of each accident year.
    pub reserve_pairs: Vec<f64>,
}

impl WorkbookReserve {
    /// The figures of an unseen cell, and none for any other cell.
    pub fn movement(&self, accident_year: i64, development_year: i64) -> Option<Movement> {
        let n = self.reserve_pairs.len() / 6;
        movement(&self.future, n, accident_year, development_year)
    }

    /// The reserves of an accident year, and none if the triangle does not have it.
    pub fn of_year(&self, accident_year: i64) -> Option<YearReservePairs> {
        let i = year_of(accident_year, self.reserve_pairs.len() / 6)?;
        let pair = |position| {
            let [units, millionths] = numbers_at(&self.reserve_pairs, position)?;
            Some(ReservePair { units, millionths })
        };
        Some(YearReservePairs {
            paid: pair(3 * (i - 1))?,
            incurred: pair(3 * (i - 1) + 1)?,
            closing: pair(3 * (i - 1) + 2)?,
        })
    }
}

/// The figures of a cell in the future list of n accident years, and none where it is not unseen.
fn movement(
    future: &[i64],
    n: usize,
    accident_year: i64,
    development_year: i64,
) -> Option<Movement> {
    let i = year_of(accident_year, n)?;
    let k = year_of(development_year, n)?;
    let place_in_row = (i + k).checked_sub(n + 2)?;
    let cells_before = (i - 1) * (i - 2) / 2;
    let [payment, adjustment, outstanding] = numbers_at(future, cells_before + place_in_row)?;
    Some(Movement {
        payment,
        adjustment,
        outstanding,
    })
}

/// A year from 1 to n as a count.
fn year_of(year: i64, n: usize) -> Option<usize> {
    usize::try_from(year)
        .ok()
        .filter(|year| (1..=n).contains(year))
}

/// The numbers of a list that stand together at a position, for a list of so many at each.
fn numbers_at<T: Copy, const TOGETHER: usize>(
    list: &[T],
    position: usize,
) -> Option<[T; TOGETHER]> {
    let start = TOGETHER * position;
    list.get(start..start + TOGETHER)?.try_into().ok()
}

#[cfg(test)]
mod tests {
    use super::{Movement, Reserve, ReservePair, WorkbookReserve, YearReserve, YearReservePairs};

    /// Answer lists of n years whose numbers are their positions.
    fn counted(n: i64) -> Reserve {
        Reserve {
            future: (0..3 * n * (n - 1) / 2).collect(),
            reserves: (0..3 * n).collect(),
        }
    }

    fn counted_workbook(n: i64) -> WorkbookReserve {
        WorkbookReserve {
            future: counted(n).future,
            reserve_pairs: (0..6 * n).map(|position| position as f64).collect(),
        }
    }

    #[test]
    fn unseen_cells_stand_row_after_row() {
        let reserve = counted(5);
        let mut position = 0;
        for i in 1..=5 {
            for k in 1..=5 {
                let expected = (i + k > 6).then(|| {
                    position += 3;
                    Movement {
                        payment: position - 3,
                        adjustment: position - 2,
                        outstanding: position - 1,
                    }
                });
                assert_eq!(reserve.movement(i, k), expected);
                assert_eq!(counted_workbook(5).movement(i, k), expected);
            }
        }
    }

    #[test]
    fn other_cells_and_years_have_no_figures() {
        let (reserve, workbook) = (counted(5), counted_workbook(5));
        for year in [i64::MIN, -1, 0, 6, i64::MAX] {
            assert_eq!(reserve.movement(5, year), None);
            assert_eq!(reserve.movement(year, 5), None);
            assert_eq!(reserve.of_year(year), None);
            assert_eq!(workbook.movement(5, year), None);
            assert_eq!(workbook.movement(year, 5), None);
            assert_eq!(workbook.of_year(year), None);
        }
    }

    #[test]
    fn a_year_has_its_three_reserves() {
        let expected = YearReserve {
            paid: 12,
            incurred: 13,
            closing: 14,
        };
        assert_eq!(counted(5).of_year(5), Some(expected));
    }

    #[test]
    fn a_year_of_a_workbook_has_its_three_pairs() {
        let pair = |units| ReservePair {
            units,
            millionths: units + 1.0,
        };
        let expected = YearReservePairs {
            paid: pair(24.0),
            incurred: pair(26.0),
            closing: pair(28.0),
        };
        assert_eq!(counted_workbook(5).of_year(5), Some(expected));
    }
}
