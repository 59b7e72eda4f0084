//! A triangle given by its outstandings, some of its payments and its weights.
//!
//! The adjustments follow from the outstandings, so questions 5 and 6 can be met or missed at will.

use crate::random::Random;

/// The limit of amounts and of observed outstandings.
pub const LIMIT: i64 = 1_000_000_000;

const SCALES: [i64; 9] = [
    1,
    2,
    10,
    100,
    1_000,
    1_000_000,
    100_000_000,
    LIMIT - 1,
    LIMIT,
];

/// How outstandings run along a row.
#[derive(Clone, Copy)]
pub enum Course {
    /// Never rising, so that no outstanding factor is above 1.
    Declining,
    /// Between half of a scale and the scale.
    Level,
    /// At 0, 1 or the limit, mostly the limit.
    AtLimits,
    /// Of any size, so that projected figures often grow too large.
    Wild,
}

/// How payments are chosen where the outline does not give them.
#[derive(Clone, Copy)]
pub enum Payments {
    /// From 0 to the outstanding before.
    Gentle,
    /// At most ten times the outstanding before in size.
    Tenfold,
    /// At the ends of the range, or 0.
    AtLimits,
    /// Of any size in the range.
    Any,
}

/// Tables are indexed from 1, `table[i][k]`.
pub struct Outline {
    pub years: usize,
    pub cut: usize,
    pub outstandings: Vec<Vec<i64>>,
    pub payments: Vec<Vec<Option<i64>>>,
    pub weights: Vec<Vec<i64>>,
    manner: Payments,
}

impl Outline {
    /// A triangle that meets questions 1 to 8, and 9 as far as its course and payments keep it small.
    pub fn new(
        years: usize,
        cut: usize,
        course: Course,
        manner: Payments,
        random: &mut Random,
    ) -> Outline {
        let mut outline = Outline {
            years,
            cut,
            outstandings: vec![vec![0; years + 1]; years + 1],
            payments: vec![vec![None; years + 1]; years + 1],
            weights: vec![vec![0; years + 1]; years + 1],
            manner,
        };
        outline.choose_outstandings(course, random);
        outline.choose_weights(random);
        outline.make_exposures_positive(random);
        outline
    }

    /// The development year of the first outstanding of a row that the outline gives.
    pub fn first(&self, i: usize) -> usize {
        if i < self.cut {
            self.cut - i
        } else {
            1
        }
    }

    /// The last seen development year of a row.
    pub fn last(&self, i: usize) -> usize {
        self.years + 1 - i
    }

    /// The accident years whose weight at development year k may be above 0.
    pub fn weighted_rows(&self, k: usize) -> std::ops::RangeInclusive<usize> {
        (self.cut + 1).saturating_sub(k).max(1)..=self.years - k
    }

    fn choose_outstandings(&mut self, course: Course, random: &mut Random) {
        let scale = random.pick(&SCALES);
        let steepness = random.below(4);
        for i in 1..=self.years {
            let mut outstanding = match random.below(3) {
                0 => scale,
                _ => random.between(1, scale),
            };
            for k in self.first(i)..=self.last(i) {
                outstanding = match course {
                    Course::Declining if k == self.first(i) => outstanding,
                    Course::Declining => declined(outstanding, steepness, random),
                    Course::Level => random.between((scale + 1) / 2, scale),
                    Course::AtLimits if random.one_in(40) => random.between(0, 1),
                    Course::AtLimits => LIMIT - random.between(0, 1),
                    Course::Wild => of_any_size(random),
                };
                // The oldest year alone has an exposure in development year n - 1.
                if i == 1 && k < self.years {
                    outstanding = outstanding.max(1);
                }
                self.outstandings[i][k] = outstanding;
            }
        }
        if random.one_in(2) {
            self.outstandings[1][self.years] = 0;
        }
    }

    fn choose_weights(&mut self, random: &mut Random) {
        let manner = random.below(6);
        for k in 1..self.years {
            for i in self.weighted_rows(k) {
                self.weights[i][k] = match manner {
                    0 => 1,
                    1 => 100,
                    2 => random.between(0, 100),
                    3 => random.pick(&[0, 100]),
                    4 => random.pick(&[0, 1, 2]),
                    _ => random.pick(&[0, 0, 0, 0, 1, 99]),
                };
            }
        }
    }

    /// Gives every development year without an exposure a weighted row with an outstanding above 0.
    pub fn make_exposures_positive(&mut self, random: &mut Random) {
        for k in 1..self.years {
            let exposed = |i: &usize| self.weights[*i][k] > 0 && self.outstandings[*i][k] > 0;
            if self.weighted_rows(k).any(|i| exposed(&i)) {
                continue;
            }
            let open = |i: &usize| self.outstandings[*i][k] > 0;
            let chosen = self.weighted_rows(k).find(open);
            let i =
                chosen.unwrap_or_else(|| random.pick(&self.weighted_rows(k).collect::<Vec<_>>()));
            self.weights[i][k] = random.between(1, 100);
            self.raise_row_to(i, k, 1);
        }
    }

    /// Raises the outstandings of a row up to development year k to at least `least`.
    pub fn raise_row_to(&mut self, i: usize, k: usize, least: i64) {
        for year in self.first(i)..=k {
            self.outstandings[i][year] = self.outstandings[i][year].max(least);
        }
    }

    /// Lowers the outstandings of a row from development year k on to at most `most`.
    pub fn lower_row_from(&mut self, i: usize, k: usize, most: i64) {
        for year in k..=self.last(i) {
            self.outstandings[i][year] = self.outstandings[i][year].min(most);
        }
    }

    /// The lists of payments and adjustments; missing cells hold 0.
    pub fn amounts(&self, random: &mut Random) -> (Vec<i64>, Vec<i64>) {
        let (mut payments, mut adjustments) = (vec![], vec![]);
        for i in 1..=self.years {
            for k in 1..=self.last(i) {
                let (payment, adjustment) = if i + k <= self.cut {
                    (0, 0)
                } else {
                    self.movement(i, k, random)
                };
                payments.push(payment);
                adjustments.push(adjustment);
            }
        }
        (payments, adjustments)
    }

    /// The payment of a seen cell and the adjustment that leads to its outstanding.
    fn movement(&self, i: usize, k: usize, random: &mut Random) -> (i64, i64) {
        let before = self.outstandings[i][k - 1];
        let change = self.outstandings[i][k] - before;
        let payment = self.payments[i][k].unwrap_or_else(|| {
            let lowest = (-LIMIT).max(-LIMIT - change);
            let highest = LIMIT.min(LIMIT - change);
            let payment = match self.manner {
                Payments::Any => random.between(lowest, highest),
                Payments::AtLimits => random.pick(&[-LIMIT, 1 - LIMIT, 0, LIMIT - 1, LIMIT]),
                // No ratio takes the first development year.
                _ if k == 1 => random.between(-LIMIT, LIMIT),
                Payments::Gentle => random.between(0, before.max(0)),
                Payments::Tenfold => random.between(-10, 10) * random.pick(&[before, before / 2]),
            };
            payment.clamp(lowest, highest)
        });
        (payment, payment + change)
    }

    pub fn weight_list(&self) -> Vec<i64> {
        let mut list = vec![];
        for i in 1..self.years {
            list.extend(&self.weights[i][1..=self.years - i]);
        }
        list
    }

    pub fn openings(&self) -> Vec<i64> {
        (1..self.cut)
            .map(|i| self.outstandings[i][self.cut - i])
            .collect()
    }
}

/// An outstanding not above the one before it.
fn declined(outstanding: i64, steepness: usize, random: &mut Random) -> i64 {
    match steepness {
        0 => outstanding,
        1 => outstanding - random.between(0, outstanding.min(3)),
        2 => random.between(outstanding / 2, outstanding),
        _ => random.between(0, outstanding),
    }
}

/// An outstanding in range whose number of digits is chosen first.
fn of_any_size(random: &mut Random) -> i64 {
    let size = 10_i64.pow(random.index(0, 9) as u32);
    random.between(0, size)
}
