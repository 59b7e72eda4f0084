//! Questions 1 to 9, each by itself, so that a call asks those that concern it in its own order.

use juniperprow::raw::Verdict;

use super::projection::{projected_row, Development};
use super::ratios::{sums_of, Sums};
use super::triangle::{cells_to, Outstandings, Seen, Table};
use super::verdicts::refused;

const SMALLEST_YEARS: i64 = 2;
const LARGEST_YEARS: i64 = 32;
const LARGEST_WEIGHT: i128 = 100;
const AMOUNT_LIMIT: i128 = 1_000_000_000;

/// Is n from 2 to 32?
pub fn question_1(years: i64) -> Result<usize, Verdict> {
    if (SMALLEST_YEARS..=LARGEST_YEARS).contains(&years) {
        Ok(years as usize)
    } else {
        Err(refused(1, 0, 0))
    }
}

/// Is Y from 1 to n - 1?
pub fn question_2(n: usize, cut: i64) -> Result<usize, Verdict> {
    if (1..n as i64).contains(&cut) {
        Ok(cut as usize)
    } else {
        Err(refused(2, 0, 0))
    }
}

/// Has every list exactly its length? Each pair is an actual and a wanted length.
pub fn question_3(lengths: &[(usize, usize)]) -> Result<(), Verdict> {
    if lengths.iter().all(|(actual, wanted)| actual == wanted) {
        Ok(())
    } else {
        Err(refused(3, 0, 0))
    }
}

/// Is every weight from 0 to 100?
pub fn question_4(n: usize, weights: &Table) -> Result<(), Verdict> {
    for (i, k) in cells_to(n) {
        if !(0..=LARGEST_WEIGHT).contains(&weights[i][k]) {
            return Err(refused(4, i, k));
        }
    }
    Ok(())
}

/// Is every payment, then every adjustment, in its range, and 0 where missing?
pub fn question_5(seen: &Seen) -> Result<(), Verdict> {
    for amounts in [&seen.payments, &seen.adjustments] {
        for (i, k) in cells_to(seen.n + 1) {
            let amount = amounts[i][k];
            let in_range = (-AMOUNT_LIMIT..=AMOUNT_LIMIT).contains(&amount);
            if !in_range || (seen.is_missing(i, k) && amount != 0) {
                return Err(refused(5, i, k));
            }
        }
    }
    Ok(())
}

/// Is every opening and every observed outstanding from 0 to 1,000,000,000?
/// Answers R(i, k) where it is known; a row that is not cut starts from R(i, 0) = 0.
pub fn question_6(seen: &Seen) -> Result<Outstandings, Verdict> {
    let in_range = |outstanding| (0..=AMOUNT_LIMIT).contains(&outstanding);
    let mut outstandings = vec![vec![None; seen.n + 1]; seen.n + 1];
    for i in 1..=seen.n {
        let (first, mut outstanding) = if i < seen.cut {
            (seen.cut - i, seen.openings[i])
        } else {
            (0, 0)
        };
        if !in_range(outstanding) {
            return Err(refused(6, i, first));
        }
        outstandings[i][first] = Some(outstanding);
        for k in first + 1..=seen.n + 1 - i {
            outstanding = outstanding - seen.payments[i][k] + seen.adjustments[i][k];
            if !in_range(outstanding) {
                return Err(refused(6, i, k));
            }
            outstandings[i][k] = Some(outstanding);
        }
    }
    Ok(outstandings)
}

/// Is the weight 0 wherever i + k is at most Y?
pub fn question_7(seen: &Seen) -> Result<(), Verdict> {
    for (i, k) in cells_to(seen.n) {
        if seen.is_missing(i, k) && seen.weights[i][k] != 0 {
            return Err(refused(7, i, k));
        }
    }
    Ok(())
}

/// Is D(k) above 0 for each k from 1 to n - 1? Answers the sums of every development year.
pub fn question_8(seen: &Seen, outstandings: &Outstandings) -> Result<Vec<Sums>, Verdict> {
    let mut all_sums = vec![Sums {
        payments: 0,
        adjustments: 0,
        exposure: 0,
    }];
    for k in 1..seen.n {
        let sums = sums_of(seen, outstandings, k);
        if sums.exposure <= 0 {
            return Err(refused(8, 0, k));
        }
        all_sums.push(sums);
    }
    Ok(all_sums)
}

/// Is each projected payment, adjustment and outstanding at most 10,000,000,000 units in size?
pub fn question_9(
    n: usize,
    outstandings: &Outstandings,
    sums: Vec<Sums>,
) -> Result<Development, Verdict> {
    let mut last_outstandings = vec![0];
    let mut projected = vec![vec![]];
    for i in 1..=n {
        let last = outstandings[i][n + 1 - i].expect("the last observed outstanding is known");
        last_outstandings.push(last);
        projected.push(projected_row(n, i, last, &sums)?);
    }
    Ok(Development {
        years: n,
        last_outstandings,
        sums,
        projected,
    })
}
