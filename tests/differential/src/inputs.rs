//! The inputs that the calls share: accepted triangles of every size, and rounds that just miss a question.

mod figure_limit;
mod near_miss;
mod outline;
mod places;
mod workbook;

use std::fmt;

use juniperprow::Triangle;

use crate::random::Random;
use near_miss::NearMiss;
use outline::{Course, Outline, Payments};
use places::Places;
pub use workbook::LentCells;

/// One round of calls in so many also goes through the binding's own functions.
const ROUNDS_FOR_BINDING: u64 = 9;

/// A number that is 0 to whoever keeps 32 bits of it.
const LOST_IN_32_BITS: i64 = 1 << 32;

/// Numbers at the ends of 64 bits and of 32 bits.
const EXTREMES: [i64; 7] = [
    i64::MIN,
    i64::MIN + 1,
    i64::MAX - 1,
    i64::MAX,
    LOST_IN_32_BITS,
    LOST_IN_32_BITS + 1,
    -LOST_IN_32_BITS,
];

/// Everything that one round of calls lends, and what it asks for.
pub struct Round {
    pub seed: u64,
    /// Its number among all rounds.
    pub number: u64,
    pub years: i64,
    pub cut: i64,
    pub payments: Vec<i64>,
    pub adjustments: Vec<i64>,
    pub weights: Vec<i64>,
    pub openings: Vec<i64>,
    pub future_length: usize,
    pub reserves_length: usize,
    /// The cells and accident years asked for.
    pub places: Places,
}

impl Round {
    /// The round with this number. Half of the rounds are meant to be accepted.
    pub fn numbered(seed: u64, number: u64) -> Round {
        let mut random = Random::for_round(seed, number);
        let misses = near_misses(&mut random);
        let mut outline = outline_for(&misses, &mut random);
        for miss in &misses {
            miss.change_outline(&mut outline, &mut random);
        }
        let n = outline.years;
        let (payments, adjustments) = outline.amounts(&mut random);
        let mut round = Round {
            seed,
            number,
            years: n as i64,
            cut: outline.cut as i64,
            payments,
            adjustments,
            weights: outline.weight_list(),
            openings: outline.openings(),
            future_length: 3 * (n * (n - 1) / 2),
            reserves_length: 3 * n,
            places: Places::default(),
        };
        for miss in &misses {
            miss.change_round(&mut round, &mut random);
        }
        round.places = Places::around(n, &mut random);
        round
    }

    /// Does this round also go through the binding's own functions?
    pub fn tries_binding(&self) -> bool {
        self.number % ROUNDS_FOR_BINDING == 0
    }

    /// What the round lends to be read.
    pub fn triangle(&self) -> Triangle<'_> {
        Triangle {
            years: self.years,
            cut: self.cut,
            payments: &self.payments,
            adjustments: &self.adjustments,
            weights: &self.weights,
            openings: &self.openings,
        }
    }
}

/// None, one, or several near misses of one kind or of any kind.
fn near_misses(random: &mut Random) -> Vec<NearMiss> {
    let first = NearMiss::any(random);
    match random.below(100) {
        0..=49 => vec![],
        50..=82 => vec![first],
        83..=89 => vec![first; random.index(2, 3)],
        _ => {
            let mut misses = vec![first];
            misses.extend((0..random.index(1, 3)).map(|_| NearMiss::any(random)));
            misses
        }
    }
}

/// A triangle on which these near misses can be tried.
fn outline_for(misses: &[NearMiss], random: &mut Random) -> Outline {
    let missing = misses.iter().any(NearMiss::wants_missing_cells);
    let figure = misses.iter().any(NearMiss::wants_calm_triangle);
    let years = match misses {
        [NearMiss::Years] if random.one_in(2) => random.index(33, 34),
        _ => random.index(if missing { 3 } else { 2 }, 32),
    };
    let cut = match years {
        3.. if missing => random.index(2, years - 1),
        _ if random.one_in(2) => random.index(1, years - 1),
        _ => 1,
    };
    let (course, payments) = match random.below(100) {
        _ if figure => (Course::Declining, Payments::Gentle),
        0..=29 => (Course::Declining, Payments::Gentle),
        30..=59 => (Course::Declining, Payments::Tenfold),
        60..=74 => (Course::Level, Payments::Gentle),
        75..=89 => (Course::AtLimits, Payments::AtLimits),
        _ => (Course::Wild, Payments::Any),
    };
    Outline::new(years, cut, course, payments, random)
}

impl fmt::Display for Round {
    fn fmt(&self, formatter: &mut fmt::Formatter) -> fmt::Result {
        writeln!(formatter, "  years {}, cut {}", self.years, self.cut)?;
        writeln!(formatter, "  payments {:?}", self.payments)?;
        writeln!(formatter, "  adjustments {:?}", self.adjustments)?;
        writeln!(formatter, "  weights {:?}", self.weights)?;
        writeln!(formatter, "  openings {:?}", self.openings)?;
        writeln!(
            formatter,
            "  length of the future list {}, of the reserve list {}",
            self.future_length, self.reserves_length
        )
    }
}
