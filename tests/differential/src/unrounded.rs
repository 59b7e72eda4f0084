//! Demand 3: the figures of an accepted triangle keep their allowances from the unrounded method.
//!
//! All fractions of an accident year stand on one denominator, the product of the exposures so far.
//! Allowances are kept twofold, so that their halves are whole.

use std::cmp::Ordering;

use crate::document_01::{Development, Sums, ONE_UNIT};
use crate::whole_number::WholeNumber;

/// The first figure of both answer lists that does not keep its allowance, if there is one.
pub fn first_beyond_allowance(
    development: &Development,
    future: &[i64],
    reserves: &[i64],
) -> Option<String> {
    let n = development.years;
    let mut movements = future.chunks_exact(3);
    for i in 1..=n {
        let mut row = UnroundedRow::new(development.last_outstandings[i] * ONE_UNIT);
        for k in n + 1 - i..n {
            row.project(development.sums[k]);
            let movement = movements.next().expect("the future list has its length");
            if let Some(figure) = row.movement_beyond(movement) {
                return Some(format!("{figure} of ({i}, {})", k + 1));
            }
        }
        if let Some(figure) = row.reserve_beyond(&reserves[3 * (i - 1)..3 * i]) {
            return Some(format!("{figure} of accident year {i}"));
        }
    }
    None
}

/// The relations between the reserves that hold without an allowance; the one that fails, if there is one.
pub fn broken_relation(development: &Development, reserves: &[i64]) -> Option<String> {
    for (position, year) in reserves.chunks_exact(3).enumerate() {
        if year[1] - year[0] != year[2] {
            let i = position + 1;
            return Some(format!(
                "incurred less paid is not closing in accident year {i}"
            ));
        }
    }
    let all_closed = reserves.chunks_exact(3).all(|year| year[2] == 0);
    let oldest_closed = development.last_outstandings[1] == 0;
    if all_closed != oldest_closed {
        return Some("all closings are 0, or R(1, n) is, but not both".to_string());
    }
    None
}

/// A whole numerator, and twice the allowance's numerator, over the denominator of the row.
#[derive(Default)]
struct Figure {
    unrounded: WholeNumber,
    twice_allowance: WholeNumber,
}

/// One accident year by the unrounded method, up to some development year, in millionths.
struct UnroundedRow {
    denominator: WholeNumber,
    first_outstanding: i64,
    payment: Figure,
    adjustment: Figure,
    outstanding: Figure,
    all_payments: Figure,
    all_adjustments: Figure,
    distance: WholeNumber,
}

impl UnroundedRow {
    /// The row at its last observed outstanding, which has the allowance 0.
    fn new(first_outstanding: i128) -> UnroundedRow {
        UnroundedRow {
            denominator: WholeNumber::from(1),
            first_outstanding: small(first_outstanding),
            payment: Figure::default(),
            adjustment: Figure::default(),
            outstanding: Figure {
                unrounded: WholeNumber::from(first_outstanding),
                twice_allowance: WholeNumber::default(),
            },
            all_payments: Figure::default(),
            all_adjustments: Figure::default(),
            distance: WholeNumber::default(),
        }
    }

    /// Moves the row one development year on.
    fn project(&mut self, sums: Sums) {
        let exposure = small(sums.exposure);
        self.denominator.multiply(exposure);
        self.payment
            .set_share(&self.outstanding, small(sums.payments), &self.denominator);
        self.adjustment.set_share(
            &self.outstanding,
            small(sums.adjustments),
            &self.denominator,
        );

        // U × (D - P + Q) / D, and A × (D - P + Q) / D + 1.
        let factor = small(sums.exposure - sums.payments + sums.adjustments);
        self.outstanding.unrounded.multiply(factor);
        self.outstanding.twice_allowance.multiply(factor);
        self.outstanding
            .twice_allowance
            .add_product(&self.denominator, 2);

        self.all_payments.multiply(exposure);
        self.all_payments.add(&self.payment);
        self.all_adjustments.multiply(exposure);
        self.all_adjustments.add(&self.adjustment);
    }

    /// The first of an answered payment, adjustment and outstanding that is too far off.
    fn movement_beyond(&mut self, answered: &[i64]) -> Option<&'static str> {
        let figures = [
            ("payment", &self.payment, answered[0]),
            ("adjustment", &self.adjustment, answered[1]),
            ("outstanding", &self.outstanding, answered[2]),
        ];
        first_beyond(figures, &self.denominator, &mut self.distance)
    }

    /// The first of an answered paid reserve, incurred reserve and closing outstanding that is too far off.
    /// The incurred reserve is the first outstanding plus all adjustments, so that outstanding is taken off it.
    fn reserve_beyond(&mut self, answered: &[i64]) -> Option<&'static str> {
        let adjusted = answered[1] - self.first_outstanding;
        let figures = [
            ("paid reserve", &self.all_payments, answered[0]),
            ("incurred reserve", &self.all_adjustments, adjusted),
            ("closing outstanding", &self.outstanding, answered[2]),
        ];
        first_beyond(figures, &self.denominator, &mut self.distance)
    }
}

/// The name of the first figure whose answer does not keep its allowance.
fn first_beyond(
    figures: [(&'static str, &Figure, i64); 3],
    denominator: &WholeNumber,
    distance: &mut WholeNumber,
) -> Option<&'static str> {
    for (name, figure, answered) in figures {
        if !figure.keeps(answered, denominator, distance) {
            return Some(name);
        }
    }
    None
}

impl Figure {
    /// Becomes the share of an outstanding, allowed A times the size of the ratio, plus one half.
    fn set_share(&mut self, outstanding: &Figure, sum: i64, denominator: &WholeNumber) {
        self.unrounded.set_product(&outstanding.unrounded, sum);
        self.twice_allowance
            .set_product(&outstanding.twice_allowance, sum.abs());
        self.twice_allowance.add(denominator);
    }

    fn multiply(&mut self, factor: i64) {
        self.unrounded.multiply(factor);
        self.twice_allowance.multiply(factor);
    }

    fn add(&mut self, other: &Figure) {
        self.unrounded.add(&other.unrounded);
        self.twice_allowance.add(&other.twice_allowance);
    }

    /// Is the size of the answered figure less the unrounded one at most the allowance?
    fn keeps(&self, answered: i64, denominator: &WholeNumber, distance: &mut WholeNumber) -> bool {
        distance.set_product(denominator, 2 * answered);
        distance.add_product(&self.unrounded, -2);
        distance.compare_sizes(&self.twice_allowance) != Ordering::Greater
    }
}

/// A sum or an outstanding of an accepted triangle, all of which fit 64 bits.
fn small(number: i128) -> i64 {
    i64::try_from(number).expect("a sum of an accepted triangle fits 64 bits")
}

#[cfg(test)]
mod tests {
    use super::UnroundedRow;
    use crate::document_01::Sums;

    fn sums(payments: i128, adjustments: i128, exposure: i128) -> Sums {
        Sums {
            payments,
            adjustments,
            exposure,
        }
    }

    /// The least and the greatest figure that are kept, looking around `near`.
    fn kept(near: i64, mut keeps: impl FnMut(i64) -> bool) -> (i64, i64) {
        let figures: Vec<i64> = (near - 20..=near + 20)
            .filter(|&figure| keeps(figure))
            .collect();
        (figures[0], figures[figures.len() - 1])
    }

    fn kept_movements(row: &UnroundedRow, near: [i64; 3]) -> [(i64, i64); 3] {
        let figures = [&row.payment, &row.adjustment, &row.outstanding];
        [0, 1, 2].map(|index| {
            kept(near[index], |answered| {
                figures[index].keeps(answered, &row.denominator, &mut Default::default())
            })
        })
    }

    /// One unit, then the ratios 1/3 and 0, then -5/4 and 2/4; the expected ends are worked by hand.
    #[test]
    fn allowances_grow_with_the_ratios() {
        let mut row = UnroundedRow::new(1_000_000);

        // 333,333 1/3 give or take 1/2; 0 give or take 1/2; 666,666 2/3 give or take 1.
        row.project(sums(1, 0, 3));
        let expected = [(333_333, 333_333), (0, 0), (666_666, 666_667)];
        assert_eq!(kept_movements(&row, [333_333, 0, 666_666]), expected);

        // -833,333 1/3 give or take 5/4 + 1/2; 333,333 1/3 give or take 2/4 + 1/2;
        // 1,833,333 1/3 give or take 11/4 + 1.
        row.project(sums(-5, 2, 4));
        let expected = [
            (-833_335, -833_332),
            (333_333, 333_334),
            (1_833_330, 1_833_337),
        ];
        assert_eq!(
            kept_movements(&row, [-833_333, 333_333, 1_833_333]),
            expected
        );

        // -500,000 give or take 1/2 + 7/4; 1,333,333 1/3 give or take 1/2 + 1.
        let paid = kept(-500_000, |paid| {
            row.reserve_beyond(&[paid, 1_333_333, 1_833_333]).is_none()
        });
        assert_eq!(paid, (-500_002, -499_998));
        let incurred = kept(1_333_333, |incurred| {
            row.reserve_beyond(&[-500_000, incurred, 1_833_333])
                .is_none()
        });
        assert_eq!(incurred, (1_333_332, 1_333_334));
        let closing = kept(1_833_333, |closing| {
            row.reserve_beyond(&[-500_000, 1_333_333, closing])
                .is_none()
        });
        assert_eq!(closing, (1_833_330, 1_833_337));
    }

    /// E2: the exact payment is 1,007,812 and a half, so both neighbours keep their allowance.
    #[test]
    fn an_exact_half_keeps_its_allowance() {
        let mut row = UnroundedRow::new(1_000_000);
        row.project(sums(129, 1, 128));
        let expected = [(1_007_812, 1_007_813), (7_812, 7_813), (-1, 1)];
        assert_eq!(kept_movements(&row, [1_007_813, 7_813, 0]), expected);
    }

    /// An accident year without projected years is allowed nothing.
    #[test]
    fn the_oldest_year_has_no_allowance() {
        let mut row = UnroundedRow::new(7_000_000);
        assert_eq!(row.reserve_beyond(&[0, 7_000_000, 7_000_000]), None);
        assert_eq!(
            row.reserve_beyond(&[1, 7_000_000, 7_000_000]),
            Some("paid reserve")
        );
        assert_eq!(
            row.reserve_beyond(&[0, 7_000_001, 7_000_000]),
            Some("incurred reserve")
        );
        assert_eq!(
            row.reserve_beyond(&[0, 7_000_000, 6_999_999]),
            Some("closing outstanding")
        );
    }
}
