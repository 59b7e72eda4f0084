//! Triangles with a projected figure at the limit of question 9, or next to it.

use super::outline::{Outline, LIMIT};
use crate::random::Random;

/// The limit of projected figures, in units.
const FIGURE_LIMIT: i64 = 10_000_000_000;

/// A projected figure that may be put at its limit.
#[derive(Clone, Copy)]
enum Figure {
    Payment,
    Adjustment,
    Outstanding,
}

const FIGURES: [Figure; 3] = [Figure::Payment, Figure::Adjustment, Figure::Outstanding];

/// Puts a figure of some row's first projected year at the limit, one step below it or one above.
///
/// With last outstanding r and steepness q = limit / r, every weighted row has a figure of
/// q times its outstanding, so the projected figure is the limit whatever the weights are.
pub fn first_figure_at_limit(outline: &mut Outline, random: &mut Random) {
    let i = random.index(2, outline.years);
    let k = outline.last(i);
    let last = divisor_of_limit(random);
    let steepness = FIGURE_LIMIT / last;
    let figure = random.pick(&FIGURES);
    let sign = random.pick(&[-1, 1]);
    for j in outline.weighted_rows(k) {
        let most = match figure {
            Figure::Outstanding => LIMIT / steepness,
            _ => LIMIT / (steepness + 1),
        };
        let between = random.between(1, most);
        let before = random.pick(&[1, between, most]);
        let amount = sign * steepness * before;
        steepen(outline, figure, (j, k), before, amount, random);
    }
    set_last_outstanding(outline, i, last);
    outline.make_exposures_positive(random);
    match random.below(4) {
        0 => set_last_outstanding(outline, i, last - 1),
        1 if last < LIMIT => set_last_outstanding(outline, i, last + 1),
        2 => step_beyond(outline, figure, k, sign),
        _ => {}
    }
}

/// Gives row j the outstanding `before` at year k and the amount as its figure of year k + 1.
fn steepen(
    outline: &mut Outline,
    figure: Figure,
    (j, k): (usize, usize),
    before: i64,
    amount: i64,
    random: &mut Random,
) {
    let lower = random.between(1, before);
    let (after, payment) = match figure {
        Figure::Payment => (lower, amount),
        Figure::Adjustment => (lower, before - lower + amount),
        Figure::Outstanding => (amount.abs(), 0),
    };
    set_step(outline, (j, k), before, after, payment);
}

/// Gives row j its outstandings at the years k and k + 1, and the payment between them.
/// Before and after them the row stays level or falls.
fn set_step(outline: &mut Outline, (j, k): (usize, usize), before: i64, after: i64, payment: i64) {
    outline.raise_row_to(j, k - 1, before);
    outline.outstandings[j][k] = before;
    outline.outstandings[j][k + 1] = after;
    outline.lower_row_from(j, k + 2, after);
    outline.payments[j][k + 1] = Some(payment);
}

/// Gives row i its last observed outstanding, which no younger row then exceeds.
fn set_last_outstanding(outline: &mut Outline, i: usize, last: i64) {
    let k = outline.last(i);
    outline.raise_row_to(i, k - 1, last);
    outline.outstandings[i][k] = last;
    for younger in i + 1..=outline.years {
        outline.lower_row_from(younger, outline.last(younger), last);
    }
}

/// Moves the figure of one weighted row a unit further from 0.
fn step_beyond(outline: &mut Outline, figure: Figure, k: usize, sign: i64) {
    let weighted = |j: &usize| outline.weights[*j][k] > 0;
    if let Some(j) = outline.weighted_rows(k).find(weighted) {
        match figure {
            Figure::Outstanding => outline.outstandings[j][k + 1] += 1,
            _ => {
                let payment = &mut outline.payments[j][k + 1];
                *payment = payment.map(|payment| payment + sign);
            }
        }
    }
}

/// An outstanding above 10 that divides the limit of projected figures without a rest.
fn divisor_of_limit(random: &mut Random) -> i64 {
    loop {
        let divisor = 2_i64.pow(random.index(0, 10) as u32) * 5_i64.pow(random.index(0, 10) as u32);
        if (11..=LIMIT).contains(&divisor) {
            return divisor;
        }
    }
}

/// Two projected years whose second figure is the limit give or take at most one millionth.
///
/// The last outstanding, times `after` / `before`, is a whole number of millionths.
/// That number, times `amount` / `exposure`, differs from the limit by less than a millionth or by one.
struct AtLimit {
    last: i64,
    before: i64,
    after: i64,
    exposure: i64,
    amount: i64,
}

const fn at_limit(after: i64, exposure: i64, amount: i64) -> AtLimit {
    AtLimit {
        last: 1_000,
        before: LIMIT,
        after,
        exposure,
        amount,
    }
}

const AT_LIMIT: [AtLimit; 7] = [
    // The limit itself, one millionth above it and one below it.
    at_limit(100_000_000, 1, 100_000_000),
    at_limit(101_596_577, 1, 98_428_513),
    at_limit(100_000_001, 1, 99_999_999),
    // One third and two thirds of a millionth above it.
    at_limit(186_820_849, 3, 160_581_649),
    at_limit(214_604_606, 3, 139_791_967),
    // Half a millionth below it.
    at_limit(216_273_151, 2, 92_475_649),
    // Half a millionth above it: too large, but with a minus sign exactly at the limit.
    AtLimit {
        last: 5_000,
        before: 987_654_321,
        after: 578_685_535,
        exposure: 2,
        amount: 6_826_881,
    },
];

/// Puts a figure of some row's second projected year at the limit or next to it.
pub fn second_figure_at_limit(outline: &mut Outline, random: &mut Random) {
    let choice = &AT_LIMIT[random.below(AT_LIMIT.len())];
    let i = random.index(outline.years.min(4), outline.years);
    let k = outline.last(i);
    // The row before i has its last outstanding at year k + 1, so it serves neither year.
    let rows: Vec<usize> = outline
        .weighted_rows(k)
        .filter(|row| row + 2 <= i)
        .collect();
    if rows.len() < 2 {
        return;
    }
    let first = random.below(rows.len());
    let second = (first + random.index(1, rows.len() - 1)) % rows.len();
    let (first, second) = (rows[first], rows[second]);

    set_step(outline, (first, k), choice.before, choice.after, 0);
    weigh_only(outline, first, k, random);
    let figure = random.pick(&FIGURES);
    let amount = random.pick(&[-1, 1]) * choice.amount;
    let place = (second, k + 1);
    steepen(outline, figure, place, choice.exposure, amount, random);
    weigh_only(outline, second, k + 1, random);

    outline.outstandings[i - 1][k + 1] = 0;
    set_last_outstanding(outline, i, choice.last);
    outline.make_exposures_positive(random);
}

/// Leaves one row as the only one with a weight at development year k.
fn weigh_only(outline: &mut Outline, row: usize, k: usize, random: &mut Random) {
    for j in outline.weighted_rows(k) {
        outline.weights[j][k] = 0;
    }
    outline.weights[row][k] = random.between(1, 100);
}
