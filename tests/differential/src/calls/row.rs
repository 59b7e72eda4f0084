//! The call for one accident year's row of a list of amounts.

use juniperprow::raw::{self, Verdict};
use juniperprow::AmountList;

use super::Call;
use crate::comparison::{same, verdict_of, where_accepted, Difference};
use crate::document_01::questions::{question_1, question_3};
use crate::document_01::{refused, Developed, ACCEPTED};
use crate::inputs::Round;
use crate::tally::{Demand, Tally};

pub const CALL: Call = Call {
    name: "row",
    number,
    compare,
    demands,
    further: |_| String::new(),
};

/// The verdict by document 01 on the row of an accident year in two lists with these lengths.
fn verdict(
    years: i64,
    payments_length: usize,
    adjustments_length: usize,
    accident_year: i64,
) -> Verdict {
    let outcome = question_1(years)
        .and_then(|n| {
            let length = n * (n + 1) / 2;
            question_3(&[(payments_length, length), (adjustments_length, length)])
        })
        .and_then(|()| question_10(years, accident_year));
    match outcome {
        Ok(()) => ACCEPTED,
        Err(verdict) => verdict,
    }
}

/// Is the accident year from 1 to n?
fn question_10(years: i64, accident_year: i64) -> Result<(), Verdict> {
    if (1..=years).contains(&accident_year) {
        Ok(())
    } else {
        Err(refused(10, 0, 0))
    }
}

/// The row of accident year i in a list of amounts, for n and i that are accepted.
fn row(n: usize, list: &[i64], i: usize) -> &[i64] {
    let before: usize = (1..i).map(|older| n + 1 - older).sum();
    &list[before..before + n + 1 - i]
}

fn compare(round: &Round, _: &Developed, tally: &mut Tally) -> Result<(), Difference> {
    let (years, payments, adjustments) = (round.years, &round.payments, &round.adjustments);
    for &i in &round.places.accident_years {
        let expected = verdict(years, payments.len(), adjustments.len(), i);
        let answered = raw::row_verdict(years, payments, adjustments, i);
        same(&format!("verdict on row {i}"), &expected, &answered)?;
        tally.count(number(answered.number));

        for (named, list) in [
            (AmountList::Payments, payments),
            (AmountList::Adjustments, adjustments),
        ] {
            let part = juniperprow::row(years, payments, adjustments, named, i);
            let expected = where_accepted(expected, || row(years as usize, list, i as usize));
            same(&format!("row {i}"), &expected, &part.map_err(verdict_of))?;
        }
    }
    Ok(())
}

fn number(number: i64) -> String {
    format!("number {number} for a row")
}

fn demands() -> Vec<Demand> {
    [0, 1, 3, 10]
        .map(|answer| Demand::new(number(answer), 250))
        .into()
}

#[cfg(test)]
mod tests {
    use super::{row, verdict};

    #[test]
    fn rows_part_a_list() {
        let list: Vec<i64> = (0..6).collect();
        assert_eq!(row(3, &list, 1), &[0, 1, 2]);
        assert_eq!(row(3, &list, 2), &[3, 4]);
        assert_eq!(row(3, &list, 3), &[5]);
    }

    #[test]
    fn any_number_of_years_is_judged() {
        for years in [i64::MIN, -1, 0, 1, 33, i64::MAX] {
            assert_eq!(verdict(years, 0, 0, i64::MAX).number, 1);
        }
        assert_eq!(verdict(2, 3, 2, i64::MIN).number, 3);
        assert_eq!(verdict(2, 3, 3, i64::MIN).number, 10);
        assert_eq!(verdict(2, 3, 3, 2).number, 0);
    }
}
