//! The calls of the library: each has a file with its answer by the documents, its comparison and its tally.
//!
//! A call that lends more than a round draws it by `Random::for_round` with a seed of its own, and names it in the subject of a difference.

pub mod reserve;
mod row;
mod single_cell;
pub mod workbook_reserve;

use crate::comparison::Difference;
use crate::document_01::{self, Developed};
use crate::inputs::Round;
use crate::tally::{Demand, Tally};

/// What the test knows of one call.
pub struct Call {
    /// The head of its column in the table of numbers.
    name: &'static str,
    /// An answer with this number, in the words by which it is counted.
    number: fn(i64) -> String,
    /// Compares its answers to one round with the documents, and counts them.
    compare: fn(&Round, &Developed, &mut Tally) -> Result<(), Difference>,
    /// What has to be met of it.
    demands: fn() -> Vec<Demand>,
    /// What is printed of it below the table of numbers.
    further: fn(&Tally) -> String,
}

/// All calls.
const CALLS: &[Call] = &[
    reserve::CALL,
    single_cell::CALL,
    row::CALL,
    workbook_reserve::CALL,
];

/// The largest number that a call answers.
const LARGEST_NUMBER: i64 = 13;

/// Compares the answers of every call to one round.
pub fn compare(round: &Round, tally: &mut Tally) -> Result<(), Difference> {
    let developed = document_01::develop(&round.triangle());
    for call in CALLS {
        (call.compare)(round, &developed, tally)?;
    }
    Ok(())
}

/// What has to be met of all calls.
pub fn demands() -> Vec<Demand> {
    CALLS.iter().flat_map(|call| (call.demands)()).collect()
}

/// A table of the numbers that were answered, a column for each call, and what else a call has to say.
pub fn printed(tally: &Tally) -> String {
    let width = |call: &Call| (call.name.len() + 1).max(9);
    let mut text = "number".to_string();
    for call in CALLS {
        text += &format!(" {:>1$}", call.name, width(call));
    }
    for number in 0..=LARGEST_NUMBER {
        text += &format!("\n{number:6}");
        for call in CALLS {
            let times = tally.times(&(call.number)(number));
            text += &format!(" {times:0$}", width(call));
        }
    }
    text.push('\n');
    for call in CALLS {
        text += &(call.further)(tally);
    }
    text
}

#[cfg(test)]
mod tests {
    use super::{demands, CALLS};
    use std::collections::BTreeSet;

    /// Otherwise one call could meet what is demanded of another.
    #[test]
    fn no_words_count_for_two_calls() {
        let words: Vec<String> = demands().into_iter().map(|demand| demand.what).collect();
        assert_eq!(words.iter().collect::<BTreeSet<_>>().len(), words.len());
        let numbers: BTreeSet<String> = CALLS.iter().map(|call| (call.number)(0)).collect();
        assert_eq!(numbers.len(), CALLS.len());
    }
}
