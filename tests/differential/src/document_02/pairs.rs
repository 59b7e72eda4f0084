//! Each reserve as a pair of floats.

use super::floats::Bits;
use crate::document_01::{reserve_list, Development, ONE_UNIT};

/// The whole units and the remaining millionths of every number of the reserve list.
pub fn reserve_pairs(development: &Development) -> Vec<Bits> {
    let reserves = reserve_list(development);
    reserves.into_iter().flat_map(pair).collect()
}

/// The units count downward below 0, so that the millionths are never negative.
fn pair(reserve: i64) -> [Bits; 2] {
    let reserve = i128::from(reserve);
    let units = reserve.div_euclid(ONE_UNIT);
    let millionths = reserve.rem_euclid(ONE_UNIT);
    [units, millionths].map(Bits::of_whole)
}

#[cfg(test)]
mod tests {
    use super::pair;
    use crate::document_02::Bits;

    #[test]
    fn units_count_downward_below_zero() {
        for (reserve, units, millionths) in [
            (0, 0, 0),
            (999_999, 0, 999_999),
            (114_400_000, 114, 400_000),
            (-1, -1, 999_999),
            (-333_333, -1, 666_667),
            (-1_000_000, -1, 0),
            (-1_000_001, -2, 999_999),
        ] {
            assert_eq!(pair(reserve), [units, millionths].map(Bits::of_whole));
        }
    }
}
