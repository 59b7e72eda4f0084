//! Changes that make a round miss a question, or meet it only just.

use super::figure_limit::{first_figure_at_limit, second_figure_at_limit};
use super::outline::{Outline, LIMIT};
use super::{Round, EXTREMES, LOST_IN_32_BITS};
use crate::random::Random;

/// What a round just misses; most are named after what question they try.
#[derive(Clone, Copy, PartialEq, Eq)]
pub enum NearMiss {
    Years,
    Cut,
    /// Another cut than the lists were made for.
    OtherCut,
    Length,
    Weight,
    Amount,
    MissingCell,
    Outstanding,
    Opening,
    WeightWhereMissing,
    Exposure,
    /// A figure of the first projected year at its limit.
    FirstFigure,
    /// A figure of the second projected year at its limit, within one millionth.
    SecondFigure,
    /// Numbers at the ends of 64 or 32 bits anywhere in the lists.
    Extremes,
    /// Lists without any meaning.
    Garbage,
}

const ALL: [NearMiss; 15] = [
    NearMiss::Years,
    NearMiss::Cut,
    NearMiss::OtherCut,
    NearMiss::Length,
    NearMiss::Weight,
    NearMiss::Amount,
    NearMiss::MissingCell,
    NearMiss::Outstanding,
    NearMiss::Opening,
    NearMiss::WeightWhereMissing,
    NearMiss::Exposure,
    NearMiss::FirstFigure,
    NearMiss::SecondFigure,
    NearMiss::Extremes,
    NearMiss::Garbage,
];

impl NearMiss {
    pub fn any(random: &mut Random) -> NearMiss {
        random.pick(&ALL)
    }

    /// Does it change cells that only a cut above 1 leaves missing?
    pub fn wants_missing_cells(&self) -> bool {
        matches!(
            self,
            NearMiss::MissingCell | NearMiss::Opening | NearMiss::WeightWhereMissing
        )
    }

    /// Does it need a triangle whose other figures stay small?
    pub fn wants_calm_triangle(&self) -> bool {
        matches!(self, NearMiss::FirstFigure | NearMiss::SecondFigure)
    }

    /// Makes the change where it concerns outstandings, weights and projected figures.
    pub fn change_outline(&self, outline: &mut Outline, random: &mut Random) {
        match self {
            NearMiss::Outstanding => move_outstanding(outline, random),
            NearMiss::WeightWhereMissing => weigh_missing_cell(outline, random),
            NearMiss::Exposure => remove_exposure(outline, random),
            NearMiss::FirstFigure => first_figure_at_limit(outline, random),
            NearMiss::SecondFigure => second_figure_at_limit(outline, random),
            _ => {}
        }
    }

    /// Makes the change where it concerns the lists and numbers of a round.
    pub fn change_round(&self, round: &mut Round, random: &mut Random) {
        match self {
            NearMiss::Years => change_years(round, random),
            NearMiss::Cut => change_cut(round, random),
            NearMiss::OtherCut => choose_other_cut(round, random),
            NearMiss::Length => change_length(round, random),
            NearMiss::Weight => {
                let weight = random.pick(&[-1, 101, -100, i64::MIN, i64::MAX]);
                put_anywhere(&mut round.weights, weight, random);
            }
            NearMiss::Amount => {
                let amount = beyond_amount_range(random);
                put_anywhere(either_amount_list(round, random), amount, random);
            }
            NearMiss::MissingCell => fill_missing_cell(round, random),
            NearMiss::Opening => {
                let opening = random.pick(&[-1, LIMIT + 1, 0, LIMIT, i64::MIN, i64::MAX]);
                put_anywhere(&mut round.openings, opening, random);
            }
            NearMiss::Extremes => put_extremes(round, random),
            NearMiss::Garbage => fill_with_garbage(round, random),
            _ => {}
        }
    }
}

// ---------------------------------------------------------------------------------------------
// Changes of numbers and lists
// ---------------------------------------------------------------------------------------------

/// A number of years outside 2 to 32, with lists of its own length where that is short.
fn change_years(round: &mut Round, random: &mut Random) {
    if round.years > 32 {
        return;
    }
    let wrapped = round.years.saturating_add(LOST_IN_32_BITS);
    let far = [i64::MIN, i64::MAX, random.any(), wrapped];
    round.years = random.pick(&[[0, 1, 33, 34], [-1, 0, 1, 33], far])[random.below(4)];
    if (0..=1).contains(&round.years) && random.one_in(2) {
        let n = round.years as usize;
        round.cut = random.between(0, 1);
        round.payments.truncate(n);
        round.adjustments.truncate(n);
        round.weights.clear();
        round.openings.clear();
        round.future_length = 0;
        round.reserves_length = 3 * n;
    }
}

/// A cut outside 1 to n - 1, half of the time with as many openings as it asks for.
fn change_cut(round: &mut Round, random: &mut Random) {
    let n = round.years;
    let wrapped = round.cut.saturating_add(LOST_IN_32_BITS);
    let far = [i64::MIN, i64::MAX, random.any(), wrapped];
    round.cut = random.pick(&[[0, n, -1, n.saturating_add(1)], far])[random.below(4)];
    if (1..=40).contains(&round.cut) && random.one_in(2) {
        round.openings.resize(round.cut as usize - 1, 0);
    }
}

/// Another cut in range, half of the time with as many openings as it asks for.
fn choose_other_cut(round: &mut Round, random: &mut Random) {
    if (2..=32).contains(&round.years) {
        round.cut = random.between(1, round.years - 1);
        if random.one_in(2) {
            round.openings.resize(round.cut as usize - 1, 1);
        }
    }
}

/// One list too long, too short or empty, or one accident year more or less than the lists have.
fn change_length(round: &mut Round, random: &mut Random) {
    match random.below(7) {
        0 => change_list_length(&mut round.payments, random),
        1 => change_list_length(&mut round.adjustments, random),
        2 => change_list_length(&mut round.weights, random),
        3 => change_list_length(&mut round.openings, random),
        4 => round.future_length = changed_length(round.future_length, random),
        5 => round.reserves_length = changed_length(round.reserves_length, random),
        _ => round.years = round.years.saturating_add(random.pick(&[-1, 1])),
    }
}

fn change_list_length(list: &mut Vec<i64>, random: &mut Random) {
    list.resize(changed_length(list.len(), random), 1);
}

pub fn changed_length(length: usize, random: &mut Random) -> usize {
    match random.below(5) {
        0 | 1 => length + 1,
        2 | 3 => length.saturating_sub(1),
        _ => 0,
    }
}

fn beyond_amount_range(random: &mut Random) -> i64 {
    random.pick(&[LIMIT + 1, -LIMIT - 1, i64::MIN, i64::MAX, 2 * LIMIT])
}

fn either_amount_list<'a>(round: &'a mut Round, random: &mut Random) -> &'a mut Vec<i64> {
    if random.one_in(2) {
        &mut round.payments
    } else {
        &mut round.adjustments
    }
}

fn put_anywhere(list: &mut [i64], number: i64, random: &mut Random) {
    if !list.is_empty() {
        list[random.below(list.len())] = number;
    }
}

/// A payment or adjustment other than 0 in a missing cell.
fn fill_missing_cell(round: &mut Round, random: &mut Random) {
    let (n, cut) = (round.years, round.cut);
    if (3..=34).contains(&n) && (2..n).contains(&cut) {
        let i = random.between(1, cut - 1);
        let k = random.between(1, cut - i);
        let position = ((i - 1) * (2 * n + 2 - i) / 2 + k - 1) as usize;
        let amount = random.pick(&[1, -1, LIMIT, -LIMIT, LIMIT + 1]);
        if let Some(place) = either_amount_list(round, random).get_mut(position) {
            *place = amount;
        }
    }
}

fn put_extremes(round: &mut Round, random: &mut Random) {
    for _ in 0..random.index(1, 4) {
        let number = match random.below(3) {
            0 => random.any(),
            _ => random.pick(&EXTREMES),
        };
        let list = match random.below(4) {
            0 => &mut round.payments,
            1 => &mut round.adjustments,
            2 => &mut round.weights,
            _ => &mut round.openings,
        };
        put_anywhere(list, number, random);
    }
}

/// Fills some lists with small numbers, with extremes, or with any.
fn fill_with_garbage(round: &mut Round, random: &mut Random) {
    let lists = [
        &mut round.payments,
        &mut round.adjustments,
        &mut round.weights,
        &mut round.openings,
    ];
    for list in lists {
        let manner = random.below(4);
        for number in list.iter_mut() {
            *number = match manner {
                0 => *number,
                1 => random.between(0, 100),
                2 => random.pick(&EXTREMES),
                _ => random.any(),
            };
        }
    }
}

// ---------------------------------------------------------------------------------------------
// Changes of outstandings and weights
// ---------------------------------------------------------------------------------------------

/// One opening or observed outstanding just outside its range.
fn move_outstanding(outline: &mut Outline, random: &mut Random) {
    let i = random.index(1, outline.years);
    let k = random.index(outline.first(i), outline.last(i));
    outline.outstandings[i][k] = random.pick(&[-1, LIMIT + 1]);
}

/// A weight above 0 in a missing cell.
fn weigh_missing_cell(outline: &mut Outline, random: &mut Random) {
    if outline.cut > 1 {
        let i = random.index(1, outline.cut - 1);
        let k = random.index(1, outline.cut - i);
        outline.weights[i][k] = random.between(1, 100);
    }
}

/// A development year whose weights, or whose weighted outstandings, are all 0.
fn remove_exposure(outline: &mut Outline, random: &mut Random) {
    let k = random.index(1, outline.years - 1);
    let by_weight = random.one_in(2);
    for i in outline.weighted_rows(k) {
        if by_weight {
            outline.weights[i][k] = 0;
        } else {
            outline.outstandings[i][k] = 0;
        }
    }
}
