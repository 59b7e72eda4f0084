//! The cells and accident years that a round asks for: in the triangle, around it and far off.

use super::{EXTREMES, LOST_IN_32_BITS};
use crate::random::Random;

/// What the calls of a round ask for.
#[derive(Default)]
pub struct Places {
    /// An unseen cell, a cell in or around the square of n years, and one that may be far off.
    pub cells: [(i64, i64); 3],
    /// An accident year of the triangle, one in or around it, and one that may be far off.
    pub accident_years: [i64; 3],
}

impl Places {
    pub fn around(n: usize, random: &mut Random) -> Places {
        let i = random.index(2, n);
        let k = random.index(n + 2 - i, n);
        let unseen = (i as i64, k as i64);

        let n = n as i64;
        let beyond = n + 2;
        let (i, k) = (random.between(-1, beyond), random.between(-1, beyond));
        let wrapped = LOST_IN_32_BITS + n;
        let far = [random.pick(&EXTREMES), random.any(), i, n, wrapped];
        Places {
            cells: [unseen, (i, k), (random.pick(&far), random.pick(&far))],
            accident_years: [
                random.between(1, n),
                random.between(-1, beyond),
                random.pick(&far),
            ],
        }
    }
}
