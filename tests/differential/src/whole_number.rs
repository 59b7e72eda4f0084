//! Whole numbers of any size, as far as fractions on a common denominator need them.

use std::cmp::Ordering;

/// A sign and a magnitude. The limbs stand least first, without a leading zero; zero has none.
#[derive(Debug, Clone, Default, PartialEq, Eq)]
pub struct WholeNumber {
    negative: bool,
    limbs: Vec<u64>,
}

impl From<i128> for WholeNumber {
    fn from(number: i128) -> WholeNumber {
        let magnitude = number.unsigned_abs();
        let mut whole = WholeNumber {
            negative: number < 0,
            limbs: vec![magnitude as u64, (magnitude >> 64) as u64],
        };
        whole.normalise();
        whole
    }
}

impl WholeNumber {
    /// Becomes `factor` times itself.
    pub fn multiply(&mut self, factor: i64) {
        let multiplier = factor.unsigned_abs();
        let mut carry = 0;
        for limb in &mut self.limbs {
            *limb = low_and_carry(
                wide_product(*limb, multiplier) + u128::from(carry),
                &mut carry,
            );
        }
        self.limbs.push(carry);
        self.negative ^= factor < 0;
        self.normalise();
    }

    /// Becomes `factor` times another number.
    pub fn set_product(&mut self, other: &WholeNumber, factor: i64) {
        self.negative = other.negative;
        self.limbs.clone_from(&other.limbs);
        self.multiply(factor);
    }

    /// Adds another number.
    pub fn add(&mut self, other: &WholeNumber) {
        self.add_product(other, 1);
    }

    /// Adds `factor` times another number.
    pub fn add_product(&mut self, other: &WholeNumber, factor: i64) {
        let multiplier = factor.unsigned_abs();
        let length = self.limbs.len().max(other.limbs.len() + 1) + 1;
        self.limbs.resize(length, 0);
        if self.negative == (other.negative ^ (factor < 0)) {
            self.add_magnitude(&other.limbs, multiplier);
        } else {
            self.subtract_magnitude(&other.limbs, multiplier);
        }
        self.normalise();
    }

    /// Compares the numbers without their signs.
    pub fn compare_sizes(&self, other: &WholeNumber) -> Ordering {
        let lengths = self.limbs.len().cmp(&other.limbs.len());
        lengths.then_with(|| self.limbs.iter().rev().cmp(other.limbs.iter().rev()))
    }

    /// Adds a product to the magnitude, which has room for it.
    fn add_magnitude(&mut self, limbs: &[u64], multiplier: u64) {
        let mut carry = 0;
        for (position, limb) in self.limbs.iter_mut().enumerate() {
            let product = limbs
                .get(position)
                .map_or(0, |&other| wide_product(other, multiplier));
            *limb = low_and_carry(product + u128::from(*limb) + u128::from(carry), &mut carry);
        }
        debug_assert_eq!(carry, 0);
    }

    /// Takes a product from the magnitude; where the product is the larger one, the sign turns.
    fn subtract_magnitude(&mut self, limbs: &[u64], multiplier: u64) {
        let mut carry = 0;
        let mut borrowed = false;
        for (position, limb) in self.limbs.iter_mut().enumerate() {
            let product = limbs
                .get(position)
                .map_or(0, |&other| wide_product(other, multiplier));
            let taken = low_and_carry(product + u128::from(carry), &mut carry);
            let (difference, first_borrow) = limb.overflowing_sub(taken);
            let (difference, second_borrow) = difference.overflowing_sub(u64::from(borrowed));
            *limb = difference;
            borrowed = first_borrow || second_borrow;
        }
        debug_assert_eq!(carry, 0);
        if borrowed {
            self.complement();
            self.negative = !self.negative;
        }
    }

    /// Turns a magnitude that wrapped below zero into its distance from zero.
    fn complement(&mut self) {
        let mut carry = true;
        for limb in &mut self.limbs {
            (*limb, carry) = (!*limb).overflowing_add(u64::from(carry));
        }
    }

    fn normalise(&mut self) {
        while self.limbs.last() == Some(&0) {
            self.limbs.pop();
        }
        self.negative &= !self.limbs.is_empty();
    }
}

fn wide_product(limb: u64, multiplier: u64) -> u128 {
    u128::from(limb) * u128::from(multiplier)
}

/// The low half of a sum; its high half becomes the carry.
fn low_and_carry(sum: u128, carry: &mut u64) -> u64 {
    *carry = (sum >> 64) as u64;
    sum as u64
}

#[cfg(test)]
mod tests {
    use std::cmp::Ordering;

    use super::WholeNumber;
    use crate::random::Random;

    const SAMPLES: [i64; 9] = [
        i64::MIN,
        -1_000_003,
        -2,
        -1,
        0,
        1,
        7,
        4_000_000_007,
        i64::MAX,
    ];

    #[test]
    fn products_and_sums_agree_with_wide_numbers() {
        for a in SAMPLES {
            for b in SAMPLES {
                for c in SAMPLES.map(|c| c / 2) {
                    let mut whole = WholeNumber::from(i128::from(a));
                    whole.add_product(&WholeNumber::from(i128::from(b)), c);
                    let expected = i128::from(a) + i128::from(b) * i128::from(c);
                    assert_eq!(whole, WholeNumber::from(expected));

                    whole.set_product(&WholeNumber::from(i128::from(a)), b);
                    assert_eq!(whole, WholeNumber::from(i128::from(a) * i128::from(b)));
                }
            }
        }
    }

    #[test]
    fn sizes_agree_with_wide_numbers() {
        for a in SAMPLES {
            for b in SAMPLES {
                let (first, second) = (i128::from(a), i128::from(b));
                let order = WholeNumber::from(first).compare_sizes(&WholeNumber::from(second));
                assert_eq!(order, first.abs().cmp(&second.abs()));
            }
        }
    }

    /// The product of many factors, each times `scale`.
    fn long_product(factors: &[i64], scale: i64) -> WholeNumber {
        let mut product = WholeNumber::from(1);
        for &factor in factors {
            product.multiply(factor);
            product.multiply(scale);
        }
        product
    }

    #[test]
    fn long_numbers_keep_the_laws_of_addition() {
        let mut random = Random::for_round(1, 1);
        for round in 0..2_000 {
            let factors: Vec<i64> = (0..round % 40)
                .map(|_| random.between(1, 4_000_000_000_000))
                .collect();
            let (x, y) = (random.any() / 2, random.any() / 2);
            let long = long_product(&factors, if round % 2 == 0 { 1 } else { -1 });

            // x long + y long - (x + y) long = 0, and halfway there the size is that of x + y times long.
            let mut sum = WholeNumber::default();
            sum.add_product(&long, x);
            sum.add_product(&long, y);
            let mut whole = long.clone();
            whole.multiply(x + y);
            assert_eq!(sum, whole);
            sum.add_product(&long, -(x + y));
            assert_eq!(sum, WholeNumber::default());

            let mut next = whole.clone();
            next.add(&WholeNumber::from(
                if x + y < 0 { -1 } else { 1 } * sign(&long),
            ));
            assert_eq!(next.compare_sizes(&whole), Ordering::Greater);
            next.add_product(&whole, -1);
            assert_eq!(next.compare_sizes(&WholeNumber::from(1)), Ordering::Equal);
        }
    }

    fn sign(number: &WholeNumber) -> i128 {
        if number.negative {
            -1
        } else {
            1
        }
    }
}
