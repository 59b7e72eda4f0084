//! The proved examples E1 to E12 of document 01, with the numbers written there.

use juniperprow::raw::Verdict;
use juniperprow::{
    future_length, reserves_length, split_cells, Reserve, Triangle, Workbook, WorkbookCell,
};

use crate::calls;
use crate::document_01;
use crate::document_02;
use Figure::{Adjustment, Closing, Incurred, Outstanding, Paid, Payment};

const UNIT: i64 = 1_000_000;

/// One figure that an example names, in millionths.
#[derive(Debug, Clone, Copy)]
enum Figure {
    Payment(i64, i64),
    Adjustment(i64, i64),
    Outstanding(i64, i64),
    Paid(i64),
    Incurred(i64),
    Closing(i64),
}

/// What an example says of its triangle.
enum Expected {
    Figures(Vec<(Figure, i64)>),
    SameFutureAs(usize),
    Refused(i64, i64, i64),
}

/// A triangle; weights are 1 and nothing is missing unless an example changes that.
#[derive(Clone)]
struct Lent {
    years: usize,
    cut: i64,
    payments: Vec<i64>,
    adjustments: Vec<i64>,
    weights: Vec<i64>,
    openings: Vec<i64>,
}

impl Lent {
    fn new(years: usize, payments: &[i64], adjustments: &[i64]) -> Lent {
        Lent {
            years,
            cut: 1,
            payments: payments.to_vec(),
            adjustments: adjustments.to_vec(),
            weights: vec![1; years * (years - 1) / 2],
            openings: vec![],
        }
    }

    fn with(&self, change: impl FnOnce(&mut Lent)) -> Lent {
        let mut changed = self.clone();
        change(&mut changed);
        changed
    }
}

/// The examples in their order, E1 first.
fn examples() -> Vec<(Lent, Expected)> {
    let e1 = Lent::new(2, &[100, 60, 50], &[200, -40, 130]);
    let e2 = Lent::new(2, &[0, 129, 0], &[128, 1, 1]);
    let e3 = Lent::new(2, &[0, 127, 0], &[128, -1, 1]);
    let e4 = Lent::new(
        3,
        &[100, 60, 40, 80, 90, 50],
        &[300, -40, -60, 380, 30, 250],
    );
    let e5 = e4.with(|lent| lent.adjustments[2] = -50);
    let e6 = e4.with(|lent| lent.weights[0] = 0);
    let e7 = e6.with(|lent| {
        lent.cut = 2;
        lent.payments[0] = 0;
        lent.adjustments[0] = 0;
        lent.openings = vec![200];
    });
    let e8 = e4.with(|lent| {
        lent.weights[0] = 0;
        lent.weights[2] = 0;
    });
    let e9 = e1.with(|lent| lent.adjustments[0] = 99);
    let e10 = Lent::new(2, &[0, 0, 0], &[1, 999_999_999, 10]);
    let e11 = e10.with(|lent| lent.adjustments[2] = 11);
    let e12 = e7.with(|lent| lent.weights[0] = 1);
    let figures_of_e1 = vec![
        (Payment(2, 2), 48 * UNIT),
        (Adjustment(2, 2), -32 * UNIT),
        (Closing(2), 0),
        (Paid(2), 48 * UNIT),
        (Incurred(2), 48 * UNIT),
    ];
    vec![
        (e1, Expected::Figures(figures_of_e1)),
        (e2, Expected::Figures(one_year(1_007_813, 7_813))),
        (e3, Expected::Figures(one_year(992_188, -7_812))),
        (e4, Expected::Figures(figures_of_e4())),
        (
            e5,
            Expected::Figures(vec![
                (Paid(2), 96 * UNIT),
                (Incurred(2), 120 * UNIT),
                (Closing(2), 24 * UNIT),
            ]),
        ),
        (
            e6,
            Expected::Figures(vec![(Paid(3), 124 * UNIT), (Incurred(3), 124 * UNIT)]),
        ),
        (e7, Expected::SameFutureAs(6)),
        (e8, Expected::Refused(8, 0, 1)),
        (e9, Expected::Refused(6, 1, 1)),
        (
            e10,
            Expected::Figures(vec![(Closing(2), 10_000_000_000 * UNIT)]),
        ),
        (e11, Expected::Refused(9, 2, 2)),
        (e12, Expected::Refused(7, 1, 1)),
    ]
}

/// The figures of a triangle of two years that closes at 0.
fn one_year(payment: i64, adjustment: i64) -> Vec<(Figure, i64)> {
    vec![
        (Payment(2, 2), payment),
        (Adjustment(2, 2), adjustment),
        (Closing(2), 0),
    ]
}

fn figures_of_e4() -> Vec<(Figure, i64)> {
    let mut figures = vec![
        (Payment(3, 2), 60 * UNIT),
        (Payment(3, 3), 54_400_000),
        (Adjustment(3, 2), -4 * UNIT),
        (Adjustment(3, 3), -81_600_000),
        (Outstanding(3, 2), 136 * UNIT),
        (Outstanding(3, 3), 0),
    ];
    for (i, reserve) in [(1, 0), (2, 96 * UNIT), (3, 114_400_000)] {
        figures.push((Paid(i), reserve));
        figures.push((Incurred(i), reserve));
    }
    figures
}

/// Works every example with a call that fills both answer lists; says in words what is not as written.
pub fn check(reserve: impl Fn(&Triangle, &mut [i64], &mut [i64]) -> Verdict) -> Result<(), String> {
    let mut answers: Vec<Reserve> = vec![];
    for (position, (lent, expected)) in examples().into_iter().enumerate() {
        let mut answer = Reserve {
            future: vec![-1; future_length(lent.years)],
            reserves: vec![-1; reserves_length(lent.years)],
        };
        let triangle = Triangle {
            years: lent.years as i64,
            cut: lent.cut,
            payments: &lent.payments,
            adjustments: &lent.adjustments,
            weights: &lent.weights,
            openings: &lent.openings,
        };
        let verdict = reserve(&triangle, &mut answer.future, &mut answer.reserves);
        check_one(&expected, verdict, &answer, &answers)
            .map_err(|difference| format!("E{}: {difference}", position + 1))?;
        answers.push(answer);
    }
    Ok(())
}

fn check_one(
    expected: &Expected,
    verdict: Verdict,
    answer: &Reserve,
    answers: &[Reserve],
) -> Result<(), String> {
    let expected_verdict = match *expected {
        Expected::Refused(number, i, k) => (number, i, k),
        _ => (0, 0, 0),
    };
    let answered = (
        verdict.number,
        verdict.accident_year,
        verdict.development_year,
    );
    if answered != expected_verdict {
        return Err(format!("verdict {answered:?}, not {expected_verdict:?}"));
    }
    match expected {
        Expected::Figures(figures) => check_figures(figures, answer),
        Expected::SameFutureAs(number) if answer.future != answers[number - 1].future => {
            Err(format!("not the future list of E{number}"))
        }
        Expected::Refused(..) if !is_all_zeros(answer) => {
            Err("refused, but the answer lists are not all zeros".to_string())
        }
        _ => Ok(()),
    }
}

fn is_all_zeros(answer: &Reserve) -> bool {
    let mut numbers = answer.future.iter().chain(&answer.reserves);
    numbers.all(|&number| number == 0)
}

fn check_figures(figures: &[(Figure, i64)], answer: &Reserve) -> Result<(), String> {
    for &(figure, expected) in figures {
        let answered = match figure {
            Payment(i, k) => answer.movement(i, k).map(|cell| cell.payment),
            Adjustment(i, k) => answer.movement(i, k).map(|cell| cell.adjustment),
            Outstanding(i, k) => answer.movement(i, k).map(|cell| cell.outstanding),
            Paid(i) => answer.of_year(i).map(|year| year.paid),
            Incurred(i) => answer.of_year(i).map(|year| year.incurred),
            Closing(i) => answer.of_year(i).map(|year| year.closing),
        };
        if answered != Some(expected) {
            return Err(format!("{figure:?} is {answered:?}, not {expected}"));
        }
    }
    Ok(())
}

/// Document 01 as the examples call it.
pub fn by_document_01(triangle: &Triangle, future: &mut [i64], reserves: &mut [i64]) -> Verdict {
    let developed = document_01::develop(triangle);
    let answer = calls::reserve::answer(triangle, &developed, future.len(), reserves.len());
    future.copy_from_slice(&answer.future);
    reserves.copy_from_slice(&answer.reserves);
    answer.verdict
}

/// A call on a workbook as the examples call it: missing cells are blank, and the pairs are put together again.
pub fn as_workbook(
    workbook_reserve: impl Fn(&Workbook, &mut [i64], &mut [f64]) -> Verdict,
) -> impl Fn(&Triangle, &mut [i64], &mut [i64]) -> Verdict {
    move |triangle, future, reserves| {
        let (payment_kinds, payments) = split_cells(&cells(triangle, triangle.payments));
        let (adjustment_kinds, adjustments) = split_cells(&cells(triangle, triangle.adjustments));
        let workbook = Workbook {
            years: triangle.years,
            cut: triangle.cut,
            payment_kinds: &payment_kinds,
            payments: &payments,
            adjustment_kinds: &adjustment_kinds,
            adjustments: &adjustments,
            weights: triangle.weights,
            openings: triangle.openings,
        };
        let mut pairs = vec![-1.0; 2 * reserves.len()];
        let verdict = workbook_reserve(&workbook, future, &mut pairs);
        for (reserve, pair) in reserves.iter_mut().zip(pairs.chunks_exact(2)) {
            *reserve = pair[0] as i64 * UNIT + pair[1] as i64;
        }
        verdict
    }
}

/// The amounts of an example as cells.
fn cells(triangle: &Triangle, amounts: &[i64]) -> Vec<WorkbookCell> {
    let n = triangle.years;
    let places = (1..=n).flat_map(|i| (1..=n + 1 - i).map(move |k| i + k));
    places
        .zip(amounts)
        .map(|(diagonal, &amount)| {
            if diagonal <= triangle.cut {
                WorkbookCell::Blank
            } else {
                WorkbookCell::Number(amount as f64)
            }
        })
        .collect()
}

/// Document 02 as the examples call it on a workbook.
pub fn by_document_02(workbook: &Workbook, future: &mut [i64], pairs: &mut [f64]) -> Verdict {
    let developed = document_02::develop(workbook);
    let answer = calls::workbook_reserve::answer(workbook, &developed, future.len(), pairs.len());
    future.copy_from_slice(&answer.future);
    for (number, bits) in pairs.iter_mut().zip(&answer.reserve_pairs) {
        *number = f64::from_bits(bits.0);
    }
    answer.verdict
}

#[cfg(test)]
mod tests {
    use super::{as_workbook, by_document_01, by_document_02, check};

    #[test]
    fn document_01_works_its_examples() {
        assert_eq!(check(by_document_01), Ok(()));
    }

    #[test]
    fn document_02_works_them_as_workbooks() {
        assert_eq!(check(as_workbook(by_document_02)), Ok(()));
    }
}
