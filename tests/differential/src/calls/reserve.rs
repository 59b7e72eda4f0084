//! The call that fills both answer lists.

use juniperprow::raw::{self, Verdict};
use juniperprow::{future_length, reserves_length, Triangle};

use super::Call;
use crate::comparison::{
    differing_position, same, unwritten, verdict_of, where_accepted, Difference,
};
use crate::document_01::questions::{question_1, question_2, question_3};
use crate::document_01::{
    future_list, reserve_list, Developed, Development, ACCEPTED, FIGURE_LIMIT,
};
use crate::inputs::Round;
use crate::tally::{Demand, Tally};
use crate::unrounded;

pub const CALL: Call = Call {
    name: "reserve",
    number,
    compare,
    demands,
    further,
};

// ---------------------------------------------------------------------------------------------
// The answer by document 01
// ---------------------------------------------------------------------------------------------

/// The verdict and both answer lists.
#[derive(Debug, PartialEq, Eq)]
pub struct Answer {
    pub verdict: Verdict,
    pub future: Vec<i64>,
    pub reserves: Vec<i64>,
}

/// The answer where the answer lists have these lengths.
pub fn answer(
    triangle: &Triangle,
    developed: &Developed,
    future_length: usize,
    reserves_length: usize,
) -> Answer {
    let outcome = question_1(triangle.years)
        .and_then(|n| question_2(n, triangle.cut).map(|_| n))
        .and_then(|n| {
            question_3(&[
                (future_length, 3 * (n * (n - 1) / 2)),
                (reserves_length, 3 * n),
            ])
        })
        .and_then(|()| developed.as_ref().map_err(|verdict| *verdict));
    match outcome {
        Ok(development) => Answer {
            verdict: ACCEPTED,
            future: future_list(development),
            reserves: reserve_list(development),
        },
        Err(verdict) => Answer {
            verdict,
            future: vec![0; future_length],
            reserves: vec![0; reserves_length],
        },
    }
}

// ---------------------------------------------------------------------------------------------
// The comparison
// ---------------------------------------------------------------------------------------------

fn compare(round: &Round, developed: &Developed, tally: &mut Tally) -> Result<(), Difference> {
    let triangle = round.triangle();
    let (future, reserves) = (round.future_length, round.reserves_length);
    let expected = answer(&triangle, developed, future, reserves);
    let (mut future, mut reserves) = (unwritten(future), unwritten(reserves));
    let verdict = raw::reserve(&triangle, &mut future, &mut reserves);
    let answered = Answer {
        verdict,
        future,
        reserves,
    };
    same(&differing_part(&expected, &answered), &expected, &answered)?;
    tally.count(number(verdict.number));

    if let (0, Ok(development)) = (verdict.number, developed) {
        compare_demand_3(development, &answered)?;
        count_accepted(development, &answered.future, tally);
    }
    if round.tries_binding() {
        compare_binding(&triangle, developed)?;
    }
    Ok(())
}

/// The part of an answer in which two answers differ first; positions in the lists count from 0.
fn differing_part(expected: &Answer, answered: &Answer) -> String {
    if expected.verdict != answered.verdict {
        "verdict".to_string()
    } else if let Some(position) = differing_position(&expected.future, &answered.future) {
        format!("future list at {position}")
    } else if let Some(position) = differing_position(&expected.reserves, &answered.reserves) {
        format!("reserve list at {position}")
    } else {
        "nothing".to_string()
    }
}

/// Every figure keeps its allowance, and the reserves stand to each other as they should.
fn compare_demand_3(development: &Development, answered: &Answer) -> Result<(), Difference> {
    let (future, reserves) = (&answered.future, &answered.reserves);
    let beyond = unrounded::first_beyond_allowance(development, future, reserves);
    same("figure beyond its allowance", &None, &beyond)?;
    let broken = unrounded::broken_relation(development, reserves);
    same("relation of the reserves", &None, &broken)
}

/// The binding's function answers what the library does.
fn compare_binding(triangle: &Triangle, developed: &Developed) -> Result<(), Difference> {
    let n = triangle.years.clamp(0, 32) as usize;
    let expected = answer(triangle, developed, future_length(n), reserves_length(n));
    let expected = where_accepted(expected.verdict, || (expected.future, expected.reserves));
    let answered = juniperprow::reserve(triangle)
        .map(|reserve| (reserve.future, reserve.reserves))
        .map_err(verdict_of);
    same("binding's answer lists", &expected, &answered)
}

// ---------------------------------------------------------------------------------------------
// The tally
// ---------------------------------------------------------------------------------------------

const CLOSED: &str = "accepted with R(1, n) = 0";
const OPEN: &str = "accepted with R(1, n) above 0";
const FIGURES: [&str; 3] = ["payment", "adjustment", "outstanding"];

fn number(number: i64) -> String {
    match number {
        0 => "accepted triangles".to_string(),
        _ => format!("refusal {number}"),
    }
}

fn of_years(n: usize) -> String {
    format!("accepted with n = {n}")
}

fn at_limit(figure: &str) -> String {
    format!("accepted with the {figure} of a cell at the limit")
}

/// Counts an accepted triangle with its future list.
fn count_accepted(development: &Development, future: &[i64], tally: &mut Tally) {
    tally.count(of_years(development.years));
    tally.count(match development.last_outstandings[1] {
        0 => CLOSED,
        _ => OPEN,
    });
    for (position, name) in FIGURES.iter().enumerate() {
        let mut figures = future.iter().skip(position).step_by(3);
        if figures.any(|&figure| i128::from(figure).abs() == FIGURE_LIMIT) {
            tally.count(at_limit(name));
        }
    }
}

fn demands() -> Vec<Demand> {
    let mut demands = vec![
        Demand::new(number(0), 3),
        Demand::new(CLOSED, 20),
        Demand::new(OPEN, 20),
    ];
    demands.extend((2..=32).map(|n| Demand::new(of_years(n), 100)));
    demands.extend(FIGURES.map(|figure| Demand::new(at_limit(figure), 1_000)));
    demands.extend((1..=9).map(|refusal| Demand::new(number(refusal), 250)));
    demands
}

fn further(tally: &Tally) -> String {
    let mut text = "\n     n  accepted triangles\n".to_string();
    for n in 2..=32 {
        text += &format!("{n:6} {:9}\n", tally.times(&of_years(n)));
    }
    let at_limit = FIGURES.map(|figure| tally.times(&at_limit(figure)).to_string());
    text += &format!(
        "\naccepted with a {} at the limit: {}\n",
        FIGURES.join(", "),
        at_limit.join(", ")
    );
    text + &format!("{CLOSED}: {}\n", tally.times(CLOSED))
}
