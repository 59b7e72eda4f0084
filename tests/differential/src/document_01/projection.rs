//! One projected year after the other.

use juniperprow::raw::Verdict;

use super::ratios::Sums;
use super::verdicts::refused;
use super::{FIGURE_LIMIT, ONE_UNIT};

/// The figures of one unseen cell, in millionths.
#[derive(Clone, Copy)]
pub struct Movement {
    pub payment: i128,
    pub adjustment: i128,
    pub outstanding: i128,
}

/// A triangle that fails none of the questions 1 to 9, worked to its last projected year.
pub struct Development {
    /// The number of accident years n.
    pub years: usize,
    /// The last observed outstanding of accident year i, in units.
    pub last_outstandings: Vec<i128>,
    /// The sums of development year k.
    pub sums: Vec<Sums>,
    /// The projected years of accident year i, in order; the first is development year n + 2 - i.
    pub projected: Vec<Vec<Movement>>,
}

/// The projected years of accident year i, or the refusal of its first figure that is too large.
pub fn projected_row(
    n: usize,
    i: usize,
    last_outstanding: i128,
    sums: &[Sums],
) -> Result<Vec<Movement>, Verdict> {
    let mut row = vec![];
    let mut outstanding = last_outstanding * ONE_UNIT;
    for k in n + 1 - i..n {
        let payment = share(outstanding, sums[k].payments, sums[k].exposure);
        let adjustment = share(outstanding, sums[k].adjustments, sums[k].exposure);
        outstanding = outstanding - payment + adjustment;
        for figure in [payment, adjustment, outstanding] {
            if figure.abs() > FIGURE_LIMIT {
                return Err(refused(9, i, k + 1));
            }
        }
        row.push(Movement {
            payment,
            adjustment,
            outstanding,
        });
    }
    Ok(row)
}

/// R × P / D rounded half up, the greatest whole number not above R × P / D + 1 / 2, for D above 0.
fn share(outstanding: i128, sum: i128, exposure: i128) -> i128 {
    (2 * outstanding * sum + exposure).div_euclid(2 * exposure)
}

#[cfg(test)]
mod tests {
    use super::share;

    #[test]
    fn halves_are_rounded_up() {
        assert_eq!(share(1, 1, 2), 1);
        assert_eq!(share(1, -1, 2), 0);
        assert_eq!(share(1, 3, 2), 2);
        assert_eq!(share(1, -3, 2), -1);
        assert_eq!(share(1, 1, 3), 0);
        assert_eq!(share(1, -2, 3), -1);
    }
}
