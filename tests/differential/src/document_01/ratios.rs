//! The sums from which the ratios of a development year are formed.

use super::triangle::{Outstandings, Seen};

/// The sums of one development year, from which its ratios are formed.
#[derive(Clone, Copy)]
pub struct Sums {
    /// P, the weighted payments of the next development year.
    pub payments: i128,
    /// Q, the weighted adjustments of the next development year.
    pub adjustments: i128,
    /// D, the exposure: the weighted outstandings of this development year.
    pub exposure: i128,
}

/// P(k), Q(k) and D(k), over i from 1 to n - k. A product with weight 0 counts 0.
pub fn sums_of(seen: &Seen, outstandings: &Outstandings, k: usize) -> Sums {
    let mut sums = Sums {
        payments: 0,
        adjustments: 0,
        exposure: 0,
    };
    for i in 1..=seen.n - k {
        let weight = seen.weights[i][k];
        if weight != 0 {
            let outstanding = outstandings[i][k].expect("known where the weight is above 0");
            sums.payments += weight * seen.payments[i][k + 1];
            sums.adjustments += weight * seen.adjustments[i][k + 1];
            sums.exposure += weight * outstanding;
        }
    }
    sums
}
