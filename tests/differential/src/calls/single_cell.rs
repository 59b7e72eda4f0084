//! The call for one unseen cell alone.

use juniperprow::raw::{self, Cell, Verdict};
use juniperprow::{Movement, Triangle};

use super::Call;
use crate::comparison::{same, verdict_of, where_accepted, Difference};
use crate::document_01::{self, answered, refused, Developed, Development, ACCEPTED};
use crate::inputs::Round;
use crate::tally::{Demand, Tally};

pub const CALL: Call = Call {
    name: "single cell",
    number,
    compare,
    demands,
    further: |_| String::new(),
};

/// The answer by document 01.
fn answer(developed: &Developed, accident_year: i64, development_year: i64) -> Cell {
    let figures = developed
        .as_ref()
        .map_err(|verdict| *verdict)
        .and_then(|development| question_10(development, accident_year, development_year));
    match figures {
        Ok(movement) => Cell {
            verdict: ACCEPTED,
            payment: answered(movement.payment),
            adjustment: answered(movement.adjustment),
            outstanding: answered(movement.outstanding),
        },
        Err(verdict) => Cell {
            verdict,
            payment: 0,
            adjustment: 0,
            outstanding: 0,
        },
    }
}

/// Is the cell unseen with i from 2 to n and k at most n? Answers its figures.
fn question_10(
    development: &Development,
    accident_year: i64,
    development_year: i64,
) -> Result<document_01::Movement, Verdict> {
    let n = development.years as i128;
    let (i, k) = (i128::from(accident_year), i128::from(development_year));
    if (2..=n).contains(&i) && k <= n && i + k > n + 1 {
        let first = n + 2 - i;
        Ok(development.projected[i as usize][(k - first) as usize])
    } else {
        Err(refused(10, 0, 0))
    }
}

fn compare(round: &Round, developed: &Developed, tally: &mut Tally) -> Result<(), Difference> {
    let triangle = round.triangle();
    for &(i, k) in &round.places.cells {
        let expected = answer(developed, i, k);
        let answered = raw::single_cell(&triangle, i, k);
        same(&format!("single cell ({i}, {k})"), &expected, &answered)?;
        tally.count(number(answered.verdict.number));
        if round.tries_binding() {
            compare_binding(&triangle, (i, k), &expected)?;
        }
    }
    Ok(())
}

/// The binding's function answers what the library does.
fn compare_binding(
    triangle: &Triangle,
    (i, k): (i64, i64),
    expected: &Cell,
) -> Result<(), Difference> {
    let expected = where_accepted(expected.verdict, || Movement {
        payment: expected.payment,
        adjustment: expected.adjustment,
        outstanding: expected.outstanding,
    });
    let answered = juniperprow::single_cell(triangle, i, k).map_err(verdict_of);
    same(&format!("binding's cell ({i}, {k})"), &expected, &answered)
}

fn number(number: i64) -> String {
    format!("number {number} for a single cell")
}

fn demands() -> Vec<Demand> {
    (0..=10)
        .map(|answer| Demand::new(number(answer), 250))
        .collect()
}
