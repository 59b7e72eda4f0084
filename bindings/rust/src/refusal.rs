//! Why a call was refused, and where.

use std::fmt;

use crate::verdict::Verdict;

/// The place of a refusal; a year is 0 where the question names none.
#[derive(Debug, Clone, Copy, PartialEq, Eq, Hash)]
pub struct Place {
    /// The accident year i.
    pub accident_year: i64,
    /// The development year k.
    pub development_year: i64,
}

/// The question that was answered with no.
///
/// Later versions may have more of them, so a `match` wants an arm for any other.
#[derive(Debug, Clone, Copy, PartialEq, Eq, Hash)]
#[non_exhaustive]
pub enum Question {
    /// 1: is the number of accident years from 2 to 32?
    NumberOfYears,
    /// 2: is the cut from 1 to one less than the number of accident years?
    Cut,
    /// 3: has every list its length?
    ListLength,
    /// 4: is every weight from 0 to 100?
    WeightRange,
    /// 5: is every payment and adjustment in its range, and 0 where missing?
    AmountRange,
    /// 6: is every opening and every observed outstanding from 0 to 1,000,000,000?
    OutstandingRange,
    /// 7: is the weight 0 wherever i + k is at most the cut?
    WeightWhereMissing,
    /// 8: is the exposure of every development year above 0?
    ExposureNotPositive,
    /// 9: is every projected figure at most 10,000,000,000 units in size?
    ProjectedFigureTooLarge,
    /// 10: is the cell an unseen one, or the accident year one of the triangle's?
    CellOrAccidentYear,
    /// Any other number: a question of a later library, which this version has no name for.
    Unknown(i64),
}

/// The questions that have a name.
const QUESTIONS: [Question; 10] = [
    Question::NumberOfYears,
    Question::Cut,
    Question::ListLength,
    Question::WeightRange,
    Question::AmountRange,
    Question::OutstandingRange,
    Question::WeightWhereMissing,
    Question::ExposureNotPositive,
    Question::ProjectedFigureTooLarge,
    Question::CellOrAccidentYear,
];

impl Question {
    /// The question's number.
    pub const fn number(self) -> i64 {
        match self {
            Question::NumberOfYears => 1,
            Question::Cut => 2,
            Question::ListLength => 3,
            Question::WeightRange => 4,
            Question::AmountRange => 5,
            Question::OutstandingRange => 6,
            Question::WeightWhereMissing => 7,
            Question::ExposureNotPositive => 8,
            Question::ProjectedFigureTooLarge => 9,
            Question::CellOrAccidentYear => 10,
            Question::Unknown(number) => number,
        }
    }

    /// The question that has a number.
    fn of_number(number: i64) -> Question {
        QUESTIONS
            .into_iter()
            .find(|question| question.number() == number)
            .unwrap_or(Question::Unknown(number))
    }
}

/// A refused call: the first question that was answered with no, and its place.
#[derive(Debug, Clone, Copy, PartialEq, Eq, Hash)]
pub struct Refusal {
    /// The question.
    pub question: Question,
    /// The place, (0, 0) for the questions 1, 2, 3 and 10, and (0, k) for question 8.
    pub place: Place,
}

impl fmt::Display for Place {
    fn fmt(&self, formatter: &mut fmt::Formatter) -> fmt::Result {
        write!(
            formatter,
            "accident year {}, development year {}",
            self.accident_year, self.development_year
        )
    }
}

impl fmt::Display for Refusal {
    fn fmt(&self, formatter: &mut fmt::Formatter) -> fmt::Result {
        let place = self.place;
        match self.question {
            Question::NumberOfYears => {
                write!(formatter, "the number of accident years is not from 2 to 32")
            }
            Question::Cut => write!(
                formatter,
                "the cut is not from 1 to one less than the number of accident years"
            ),
            Question::ListLength => write!(
                formatter,
                "a list does not have the length that the number of accident years and the cut ask for"
            ),
            Question::WeightRange => {
                write!(formatter, "the weight at {place} is not from 0 to 100")
            }
            Question::AmountRange => write!(
                formatter,
                "the payment or the adjustment at {place} is not from -1,000,000,000 to 1,000,000,000, or not 0 where missing"
            ),
            Question::OutstandingRange => write!(
                formatter,
                "the outstanding at {place} is not from 0 to 1,000,000,000"
            ),
            Question::WeightWhereMissing => write!(
                formatter,
                "the weight at {place} is not 0, although the cell is missing"
            ),
            Question::ExposureNotPositive => write!(
                formatter,
                "the exposure of development year {} is not above 0",
                place.development_year
            ),
            Question::ProjectedFigureTooLarge => write!(
                formatter,
                "the projected payment, adjustment or outstanding at {place} is above 10,000,000,000 units in size"
            ),
            Question::CellOrAccidentYear => write!(
                formatter,
                "the cell is not an unseen cell of the triangle, or the accident year is not one of its years"
            ),
            Question::Unknown(number) => write!(
                formatter,
                "question {number}, which this version has no name for, was answered with no at {place}"
            ),
        }
    }
}

impl std::error::Error for Refusal {}

/// A verdict as a result.
pub(crate) fn result(verdict: Verdict) -> Result<(), Refusal> {
    if verdict.number == 0 {
        return Ok(());
    }
    Err(Refusal {
        question: Question::of_number(verdict.number),
        place: Place {
            accident_year: verdict.accident_year,
            development_year: verdict.development_year,
        },
    })
}

#[cfg(test)]
mod tests {
    use super::{result, Place, Question, Refusal, QUESTIONS};
    use crate::verdict::Verdict;

    fn verdict(number: i64, accident_year: i64, development_year: i64) -> Verdict {
        Verdict {
            number,
            accident_year,
            development_year,
        }
    }

    fn sentence(number: i64, accident_year: i64, development_year: i64) -> String {
        result(verdict(number, accident_year, development_year))
            .unwrap_err()
            .to_string()
    }

    #[test]
    fn questions_have_their_numbers() {
        let numbers: Vec<i64> = QUESTIONS.into_iter().map(Question::number).collect();
        assert_eq!(numbers, (1..=10).collect::<Vec<i64>>());
    }

    #[test]
    fn a_verdict_keeps_its_place() {
        assert_eq!(result(verdict(0, 0, 0)), Ok(()));
        let refusal = Refusal {
            question: Question::OutstandingRange,
            place: Place {
                accident_year: 3,
                development_year: 7,
            },
        };
        assert_eq!(result(verdict(6, 3, 7)), Err(refusal));
    }

    #[test]
    fn an_unknown_number_is_a_refusal_that_keeps_it() {
        for number in [i64::MIN, -1, 11, i64::MAX] {
            let refusal = result(verdict(number, 3, 7)).unwrap_err();
            assert_eq!(refusal.question, Question::Unknown(number));
            assert_eq!(refusal.question.number(), number);
            assert_eq!(refusal.place.accident_year, 3);
        }
        assert_eq!(
            sentence(11, 3, 7),
            "question 11, which this version has no name for, was answered with no at accident year 3, development year 7"
        );
    }

    #[test]
    fn sentences_say_what_is_wrong_and_where() {
        let expected = [
            "the number of accident years is not from 2 to 32",
            "the cut is not from 1 to one less than the number of accident years",
            "a list does not have the length that the number of accident years and the cut ask for",
            "the weight at accident year 2, development year 5 is not from 0 to 100",
            "the payment or the adjustment at accident year 2, development year 5 is not from -1,000,000,000 to 1,000,000,000, or not 0 where missing",
            "the outstanding at accident year 2, development year 5 is not from 0 to 1,000,000,000",
            "the weight at accident year 2, development year 5 is not 0, although the cell is missing",
            "the exposure of development year 5 is not above 0",
            "the projected payment, adjustment or outstanding at accident year 2, development year 5 is above 10,000,000,000 units in size",
            "the cell is not an unseen cell of the triangle, or the accident year is not one of its years",
        ];
        for (number, expected) in (1..).zip(expected) {
            assert_eq!(sentence(number, 2, 5), expected);
        }
    }
}
