//! The triangle that an office lends, and the lengths of its lists.

/// One currency unit in millionths.
pub const ONE_UNIT: i64 = 1_000_000;

/// The smallest number of accident years.
pub const SMALLEST_YEARS: i64 = 2;

/// The largest number of accident years.
pub const LARGEST_YEARS: i64 = 32;

/// A run-off triangle with n accident years, in whole currency units.
///
/// Nothing needs to be tested beforehand: a call refuses what it cannot take.
#[derive(Debug, Clone, Copy, PartialEq, Eq)]
pub struct Triangle<'a> {
    /// The number of accident years n, from 2 to 32.
    pub years: i64,
    /// The cut Y, from 1 to n - 1: cells with i + k at most Y are missing and hold 0.
    pub cut: i64,
    /// The payments of the seen cells, row after row, oldest accident year first.
    pub payments: &'a [i64],
    /// The adjustments to the reported amounts of the seen cells, in the same order.
    pub adjustments: &'a [i64],
    /// The weights of the cells with i + k at most n, in the same order.
    pub weights: &'a [i64],
    /// The opening outstandings of the accident years 1 to Y - 1, oldest first.
    pub openings: &'a [i64],
}

/// The length of the payments and of the adjustments of n accident years.
pub const fn amounts_length(n: usize) -> usize {
    n * (n + 1) / 2
}

/// The length of the weights of n accident years.
pub const fn weights_length(n: usize) -> usize {
    n * n.saturating_sub(1) / 2
}

/// The length of the future list of n accident years.
pub const fn future_length(n: usize) -> usize {
    3 * weights_length(n)
}

/// The length of the reserve list of n accident years.
pub const fn reserves_length(n: usize) -> usize {
    3 * n
}

/// The length of the reserve pairs of a workbook of n accident years.
pub const fn reserve_pairs_length(n: usize) -> usize {
    2 * reserves_length(n)
}

/// The number of accident years as a count, where it is from 2 to 32.
pub(crate) fn counted_years(years: i64) -> Option<usize> {
    if (SMALLEST_YEARS..=LARGEST_YEARS).contains(&years) {
        usize::try_from(years).ok()
    } else {
        None
    }
}

#[cfg(test)]
mod tests {
    use super::{
        amounts_length, counted_years, future_length, reserve_pairs_length, reserves_length,
        weights_length,
    };

    #[test]
    fn lengths_count_the_cells() {
        for n in 0..=40 {
            let cells = || (1..=n).flat_map(move |i| (1..=n).map(move |k| i + k));
            assert_eq!(
                amounts_length(n),
                cells().filter(|&sum| sum <= n + 1).count()
            );
            assert_eq!(weights_length(n), cells().filter(|&sum| sum <= n).count());
            assert_eq!(
                future_length(n),
                3 * cells().filter(|&sum| sum > n + 1).count()
            );
            assert_eq!(reserves_length(n), 3 * n);
            assert_eq!(reserve_pairs_length(n), 6 * n);
        }
    }

    #[test]
    fn years_are_counted_from_2_to_32() {
        assert_eq!(counted_years(1), None);
        assert_eq!(counted_years(2), Some(2));
        assert_eq!(counted_years(32), Some(32));
        assert_eq!(counted_years(33), None);
        assert_eq!(counted_years(i64::MIN), None);
        assert_eq!(counted_years(i64::MAX), None);
    }
}
