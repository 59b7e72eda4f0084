//! The same call in plain Rust: for every input the same refusal and the same lists.
//!
//! An accepted triangle is asked its questions 4 to 7 in one sign bit, without a branch, and projected year by year with all its rows side by side, so that the shares of one year need not wait for each other.
//! Only a refused one is gone through in the order of the questions, for its number and place.

use juniperprow::{Place, Question, Refusal, Triangle, ONE_UNIT};

use crate::ratios::{Ratio, GREATEST_FIGURE};

const GREATEST_WEIGHT: i64 = 100;
const GREATEST_AMOUNT: i64 = 1_000_000_000;
const GREATEST_OUTSTANDING: i64 = 1_000_000_000;
const MOST_YEARS: usize = 32;

/// With shares by ratios of this kind.
pub fn reserve_into<R: Ratio>(
    triangle: &Triangle,
    future: &mut [i64],
    reserves: &mut [i64],
) -> Result<(), Refusal> {
    let answer = fill::<R>(triangle, future, reserves);
    if answer.is_err() {
        future.fill(0);
        reserves.fill(0);
    }
    answer
}

#[inline(always)]
fn fill<R: Ratio>(
    triangle: &Triangle,
    future: &mut [i64],
    reserves: &mut [i64],
) -> Result<(), Refusal> {
    let (n, cut) = shape(triangle, future.len(), reserves.len())?;
    let (mut sums, mut outstandings) = ([Sums::default(); MOST_YEARS], [0; MOST_YEARS]);
    let (sums, outstandings) = (&mut sums[..n - 1], &mut outstandings[..n]);
    if !lists_right(triangle) | !read(cut, triangle, sums, outstandings) {
        return Err(refusal_in_lists(n, cut, triangle));
    }
    if let Some(place) = sums.iter().position(|sums| sums.exposure <= 0) {
        return Err(refusal(Question::ExposureNotPositive, 0, place + 1));
    }
    if !project::<R>(sums, outstandings, future, reserves) {
        return Err(refusal_in_projection::<R>(sums, outstandings));
    }
    Ok(())
}

/// Questions 1 to 3; n and the cut as counts.
#[inline(always)]
fn shape(triangle: &Triangle, future: usize, reserves: usize) -> Result<(usize, usize), Refusal> {
    if !(2..=MOST_YEARS as i64).contains(&triangle.years) {
        return Err(refusal(Question::NumberOfYears, 0, 0));
    }
    if !(1..triangle.years).contains(&triangle.cut) {
        return Err(refusal(Question::Cut, 0, 0));
    }
    let (n, cut) = (triangle.years as usize, triangle.cut as usize);
    let (seen, unseen) = (n * (n + 1) / 2, n * (n - 1) / 2);
    if triangle.payments.len() != seen
        || triangle.adjustments.len() != seen
        || triangle.weights.len() != unseen
        || triangle.openings.len() != cut - 1
        || future != 3 * unseen
        || reserves != 3 * n
    {
        return Err(refusal(Question::ListLength, 0, 0));
    }
    Ok((n, cut))
}

// ---- Reading

/// P, Q and D of a development year.
#[derive(Clone, Copy, Default)]
struct Sums {
    payments: i64,
    adjustments: i64,
    exposure: i64,
}

// Each of these is negative exactly where its number is wrong.

#[inline(always)]
fn wrong_weight(weight: i64) -> i64 {
    weight | GREATEST_WEIGHT.wrapping_sub(weight)
}

#[inline(always)]
fn wrong_amount(amount: i64) -> i64 {
    GREATEST_AMOUNT.wrapping_add(amount) | GREATEST_AMOUNT.wrapping_sub(amount)
}

#[inline(always)]
fn wrong_outstanding(outstanding: i64) -> i64 {
    outstanding | GREATEST_OUTSTANDING.wrapping_sub(outstanding)
}

#[inline(always)]
fn wrong_unless_zero(number: i64) -> i64 {
    -i64::from(number != 0)
}

/// Whether every weight and amount is in its range.
#[inline(always)]
fn lists_right(triangle: &Triangle) -> bool {
    let any = |list: &[i64], test: fn(i64) -> i64| {
        list.iter().fold(0, |wrong, &number| wrong | test(number))
    };
    let wrong = any(triangle.weights, wrong_weight)
        | any(triangle.payments, wrong_amount)
        | any(triangle.adjustments, wrong_amount);
    wrong >= 0
}

/// Forms the sums and the last observed outstandings.
/// Whether every outstanding is in its range and every missing cell holds zeros.
#[inline(always)]
fn read(cut: usize, triangle: &Triangle, sums: &mut [Sums], outstandings: &mut [i64]) -> bool {
    let n = outstandings.len();
    let mut wrong = 0;
    let (mut payments, mut adjustments, mut weights) =
        (triangle.payments, triangle.adjustments, triangle.weights);
    for (r, last) in outstandings.iter_mut().enumerate() {
        let (row_payments, row_adjustments, row_weights);
        (row_payments, payments) = payments.split_at(n - r);
        (row_adjustments, adjustments) = adjustments.split_at(n - r);
        (row_weights, weights) = weights.split_at(n - 1 - r);
        let (mut missing, mut outstanding) = (0, 0);
        if let Some(&opening) = triangle.openings.get(r) {
            (missing, outstanding) = (cut - 1 - r, opening);
            wrong |= wrong_outstanding(outstanding);
            for row in [row_payments, row_adjustments, row_weights] {
                for &number in &row[..missing] {
                    wrong |= wrong_unless_zero(number);
                }
            }
        }
        let mut cells = row_payments[missing..]
            .iter()
            .zip(&row_adjustments[missing..]);
        if let Some((&payment, &adjustment)) = cells.next() {
            outstanding = outstanding.wrapping_sub(payment).wrapping_add(adjustment);
            wrong |= wrong_outstanding(outstanding);
        }
        // The weight and the sums of a year meet the amounts of the next.
        let years = row_weights[missing..].iter().zip(&mut sums[missing..]);
        for ((&payment, &adjustment), (&weight, sums)) in cells.zip(years) {
            sums.payments = sums.payments.wrapping_add(weight.wrapping_mul(payment));
            sums.adjustments = sums
                .adjustments
                .wrapping_add(weight.wrapping_mul(adjustment));
            sums.exposure = sums.exposure.wrapping_add(weight.wrapping_mul(outstanding));
            outstanding = outstanding.wrapping_sub(payment).wrapping_add(adjustment);
            wrong |= wrong_outstanding(outstanding);
        }
        *last = outstanding;
    }
    wrong >= 0
}

// ---- Projecting

/// Where an accident year's projection stands.
#[derive(Clone, Copy, Default)]
struct Row {
    outstanding: i64,
    paid: i64,
    /// The place of its next figures in the future list.
    next: usize,
}

/// Fills both lists. Whether question 9 accepts; else they are filled in part.
#[inline(always)]
fn project<R: Ratio>(
    sums: &[Sums],
    outstandings: &[i64],
    future: &mut [i64],
    reserves: &mut [i64],
) -> bool {
    let mut rows = [Row::default(); MOST_YEARS];
    let rows = &mut rows[..outstandings.len()];
    let mut next = 0;
    for ((r, row), &outstanding) in rows.iter_mut().enumerate().zip(outstandings) {
        row.outstanding = outstanding * ONE_UNIT;
        row.next = next;
        next += 3 * r;
    }
    for (seen, sums) in (1..rows.len()).rev().zip(sums) {
        let year = Year::<R>::ready(sums);
        for row in &mut rows[seen..] {
            let Some((payment, adjustment, outstanding)) = year.figures(row.outstanding) else {
                return false;
            };
            future[row.next..row.next + 3].copy_from_slice(&[payment, adjustment, outstanding]);
            row.outstanding = outstanding;
            row.paid += payment;
            row.next += 3;
        }
    }
    for (row, reserve) in rows.iter().zip(reserves.chunks_exact_mut(3)) {
        // Incurred less paid is the closing outstanding.
        let incurred = row.paid + row.outstanding;
        reserve.copy_from_slice(&[row.paid, incurred, row.outstanding]);
    }
    true
}

/// A development year prepared for projecting.
struct Year<R> {
    payments: R,
    adjustments: R,
    reach: i64,
}

impl<R: Ratio> Year<R> {
    #[inline(always)]
    fn ready(sums: &Sums) -> Self {
        let [payments, adjustments] = R::ready([sums.payments, sums.adjustments], sums.exposure);
        Year {
            reach: payments.reach().min(adjustments.reach()),
            payments,
            adjustments,
        }
    }

    /// The payment, the adjustment and the outstanding that they lead to, or none where one is too large.
    #[inline(always)]
    fn figures(&self, outstanding: i64) -> Option<(i64, i64, i64)> {
        if outstanding > self.reach {
            return None;
        }
        let payment = self.payments.share(outstanding)?;
        let adjustment = self.adjustments.share(outstanding)?;
        let next = outstanding - payment + adjustment;
        // It is never below 0, so that one comparison without a sign is enough.
        if !(0..=GREATEST_FIGURE).contains(&next) {
            return None;
        }
        Some((payment, adjustment, next))
    }
}

// ---- Refusals

#[cold]
fn refusal(question: Question, i: usize, k: usize) -> Refusal {
    let place = Place {
        accident_year: i as i64,
        development_year: k as i64,
    };
    Refusal { question, place }
}

/// The first refusal of questions 4 to 7, one of which refuses.
#[cold]
#[inline(never)]
fn refusal_in_lists(n: usize, cut: usize, triangle: &Triangle) -> Refusal {
    let weight_wrong = |_, _, weight| wrong_weight(weight) < 0;
    let not_allowed = |i, k, number: i64| i + k <= cut && number != 0;
    let amount_wrong = |i, k, amount| wrong_amount(amount) < 0 || not_allowed(i, k, amount);
    if let Some((i, k)) = first_cell(n - 1, triangle.weights, weight_wrong) {
        return refusal(Question::WeightRange, i, k);
    }
    for amounts in [triangle.payments, triangle.adjustments] {
        if let Some((i, k)) = first_cell(n, amounts, amount_wrong) {
            return refusal(Question::AmountRange, i, k);
        }
    }
    if let Some((i, k)) = first_outstanding(n, cut, triangle) {
        return refusal(Question::OutstandingRange, i, k);
    }
    let (i, k) = first_cell(n - 1, triangle.weights, not_allowed).expect("question 7 refuses");
    refusal(Question::WeightWhereMissing, i, k)
}

/// The first wrong cell of a list with rows of `longest`, `longest` - 1, … numbers.
fn first_cell(
    longest: usize,
    mut list: &[i64],
    wrong: impl Fn(usize, usize, i64) -> bool,
) -> Option<(usize, usize)> {
    for i in 1..=longest {
        let row;
        (row, list) = list.split_at(longest + 1 - i);
        for (k, &number) in (1..).zip(row) {
            if wrong(i, k, number) {
                return Some((i, k));
            }
        }
    }
    None
}

/// The first cell whose opening or outstanding is out of range, once question 5 has accepted.
fn first_outstanding(n: usize, cut: usize, triangle: &Triangle) -> Option<(usize, usize)> {
    let (mut payments, mut adjustments) = (triangle.payments, triangle.adjustments);
    for i in 1..=n {
        let (row_payments, row_adjustments);
        (row_payments, payments) = payments.split_at(n + 1 - i);
        (row_adjustments, adjustments) = adjustments.split_at(n + 1 - i);
        // Missing cells hold 0, so that an opening stands unchanged at its cell.
        let mut outstanding = triangle.openings.get(i - 1).copied().unwrap_or(0);
        for ((k, payment), adjustment) in (1..).zip(row_payments).zip(row_adjustments) {
            outstanding = outstanding - payment + adjustment;
            if i + k >= cut && wrong_outstanding(outstanding) < 0 {
                return Some((i, k));
            }
        }
    }
    None
}

/// The first refusal of question 9, row by row, which refuses.
#[cold]
#[inline(never)]
fn refusal_in_projection<R: Ratio>(sums: &[Sums], outstandings: &[i64]) -> Refusal {
    for (i, &last) in (1..).zip(outstandings) {
        let last_seen = outstandings.len() + 1 - i;
        let mut outstanding = last * ONE_UNIT;
        for (k, sums) in (last_seen + 1..).zip(&sums[last_seen - 1..]) {
            let Some((_, _, next)) = Year::<R>::ready(sums).figures(outstanding) else {
                return refusal(Question::ProjectedFigureTooLarge, i, k);
            };
            outstanding = next;
        }
    }
    unreachable!("question 9 refuses")
}
