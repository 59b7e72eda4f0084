//! The call that fills both answer lists from a workbook.

use juniperprow::raw::{self, Verdict};
use juniperprow::{future_length, reserve_pairs_length, Workbook};

use super::Call;
use crate::comparison::{
    differing_position, same, unwritten, verdict_of, where_accepted, Difference,
};
use crate::document_01::questions::{question_1, question_2, question_3};
use crate::document_01::{future_list, Developed, ACCEPTED};
use crate::document_02::{self, reserve_pairs, Bits};
use crate::inputs::{LentCells, Round};
use crate::tally::{Demand, Tally};

pub const CALL: Call = Call {
    name: "workbook",
    number,
    compare,
    demands,
    further,
};

// ---------------------------------------------------------------------------------------------
// The answer by documents 01 and 02
// ---------------------------------------------------------------------------------------------

/// The verdict and both answer lists.
#[derive(Debug, PartialEq, Eq)]
pub struct Answer {
    pub verdict: Verdict,
    pub future: Vec<i64>,
    pub reserve_pairs: Vec<Bits>,
}

/// The answer where the answer lists have these lengths.
pub fn answer(
    workbook: &Workbook,
    developed: &Developed,
    future_length: usize,
    reserve_pairs_length: usize,
) -> Answer {
    let outcome = question_1(workbook.years)
        .and_then(|n| question_2(n, workbook.cut).map(|_| n))
        .and_then(|n| {
            question_3(&[
                (future_length, 3 * (n * (n - 1) / 2)),
                (reserve_pairs_length, 6 * n),
            ])
        })
        .and_then(|()| developed.as_ref().map_err(|verdict| *verdict));
    match outcome {
        Ok(development) => Answer {
            verdict: ACCEPTED,
            future: future_list(development),
            reserve_pairs: reserve_pairs(development),
        },
        Err(verdict) => Answer {
            verdict,
            future: vec![0; future_length],
            reserve_pairs: vec![Bits(0); reserve_pairs_length],
        },
    }
}

// ---------------------------------------------------------------------------------------------
// The comparison
// ---------------------------------------------------------------------------------------------

/// One round in so many, odd and even ones alike, has a workbook, whose triangle is worked anew.
const ROUNDS_FOR_WORKBOOK: u64 = 3;

fn compare(round: &Round, _: &Developed, tally: &mut Tally) -> Result<(), Difference> {
    if round.number % ROUNDS_FOR_WORKBOOK != 0 {
        return Ok(());
    }
    let lent = LentCells::drawn(round);
    let workbook = lent.workbook(round);
    compare_workbook(round, &lent, &workbook, tally).map_err(|difference| difference.of(&lent))
}

fn compare_workbook(
    round: &Round,
    lent: &LentCells,
    workbook: &Workbook,
    tally: &mut Tally,
) -> Result<(), Difference> {
    let developed = document_02::develop(workbook);
    let (future, pairs) = (round.future_length, lent.reserve_pairs_length);
    let expected = answer(workbook, &developed, future, pairs);
    let answered = answer_of_library(workbook, future, pairs);
    same(&differing_part(&expected, &answered), &expected, &answered)?;
    tally.count(number(answered.verdict.number));
    count_edges(lent, &answered, tally);
    if round.tries_binding() {
        compare_binding(workbook, &developed)?;
    }
    Ok(())
}

fn answer_of_library(workbook: &Workbook, future: usize, pairs: usize) -> Answer {
    let mut future = unwritten(future);
    let mut pairs: Vec<f64> = unwritten(pairs)
        .into_iter()
        .map(|bits| f64::from_bits(bits as u64))
        .collect();
    let verdict = raw::workbook_reserve(workbook, &mut future, &mut pairs);
    Answer {
        verdict,
        future,
        reserve_pairs: bits_of(&pairs),
    }
}

fn bits_of(numbers: &[f64]) -> Vec<Bits> {
    numbers
        .iter()
        .map(|number| Bits(number.to_bits()))
        .collect()
}

/// The part of an answer in which two answers differ first; positions in the lists count from 0.
fn differing_part(expected: &Answer, answered: &Answer) -> String {
    let future = differing_position(&expected.future, &answered.future);
    let pairs = differing_position(&expected.reserve_pairs, &answered.reserve_pairs);
    match (future, pairs) {
        _ if expected.verdict != answered.verdict => "verdict".to_string(),
        (Some(position), _) => format!("future list at {position}"),
        (None, Some(position)) => format!("reserve pairs at {position}"),
        (None, None) => "nothing".to_string(),
    }
}

/// The binding's function answers what the library does.
fn compare_binding(workbook: &Workbook, developed: &Developed) -> Result<(), Difference> {
    let n = workbook.years.clamp(0, 32) as usize;
    let (future, pairs) = (future_length(n), reserve_pairs_length(n));
    let expected = answer(workbook, developed, future, pairs);
    let expected = where_accepted(expected.verdict, || {
        (expected.future, expected.reserve_pairs)
    });
    let answered = juniperprow::workbook_reserve(workbook)
        .map(|reserve| (reserve.future, bits_of(&reserve.reserve_pairs)))
        .map_err(verdict_of);
    same("binding's answer lists", &expected, &answered)
}

// ---------------------------------------------------------------------------------------------
// The tally
// ---------------------------------------------------------------------------------------------

const BESIDE_BLANK: &str = "accepted workbooks with no whole number beside a blank";
const MINUS_ZERO: &str = "accepted workbooks with minus zero";
const BELOW_ZERO: &str = "accepted workbooks with a pair below 0";
const BEYOND_64_BITS: &str = "workbooks refused by question 5 with a number beyond 64 bits";
const EDGES: [&str; 4] = [BESIDE_BLANK, MINUS_ZERO, BELOW_ZERO, BEYOND_64_BITS];

fn number(number: i64) -> String {
    format!("number {number} for a workbook")
}

fn count_edges(lent: &LentCells, answered: &Answer, tally: &mut Tally) {
    let accepted = answered.verdict.number == 0;
    let sign = |bits: &Bits| bits.0 >> 63 == 1;
    let edges = [
        (BESIDE_BLANK, accepted && lent.has_no_number_beside_blank()),
        (MINUS_ZERO, accepted && lent.has_minus_zero()),
        (BELOW_ZERO, answered.reserve_pairs.iter().any(sign)),
        (
            BEYOND_64_BITS,
            answered.verdict.number == 5 && lent.has_number_beyond_64_bits(),
        ),
    ];
    for (edge, _) in edges.iter().filter(|(_, met)| *met) {
        tally.count(*edge);
    }
}

fn demands() -> Vec<Demand> {
    let mut demands = vec![Demand::new(number(0), 20)];
    let refusals = (1..=9).chain(11..=13);
    demands.extend(refusals.map(|refusal| Demand::new(number(refusal), 400)));
    demands.extend(EDGES.map(|edge| Demand::new(edge, 400)));
    demands
}

fn further(tally: &Tally) -> String {
    let edges = EDGES.map(|edge| format!("{edge}: {}\n", tally.times(edge)));
    format!("\n{}", edges.concat())
}
