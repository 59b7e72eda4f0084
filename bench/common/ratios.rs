//! Shares in plain Rust, by the ratio of a part to its exposure: two kinds that divide for every share, and one that divides once for all shares of an exposure.
//!
//! The exposure is from 1 to 3,100,000,000,000, as is the size of a part that is not 0, and an outstanding is from 0 to the greatest figure.

/// Of a projected figure, in millionths.
pub const GREATEST_FIGURE: i64 = 10_000_000_000_000_000;

pub trait Ratio: Sized {
    /// Ratios of parts of one exposure.
    fn ready<const PARTS: usize>(parts: [i64; PARTS], exposure: i64) -> [Self; PARTS];

    /// Every share of an outstanding above it is too large.
    #[inline(always)]
    fn reach(&self) -> i64 {
        GREATEST_FIGURE
    }

    /// outstanding × part / exposure rounded half up, or none where its size passes the greatest figure.
    /// The outstanding is at most the reach.
    fn share(&self, outstanding: i64) -> Option<i64>;
}

// ---- Dividing

/// On signed 128-bit numbers.
pub struct ByI128 {
    part: i64,
    exposure: i64,
}

impl Ratio for ByI128 {
    #[inline(always)]
    fn ready<const PARTS: usize>(parts: [i64; PARTS], exposure: i64) -> [Self; PARTS] {
        parts.map(|part| ByI128 { part, exposure })
    }

    #[inline(always)]
    fn share(&self, outstanding: i64) -> Option<i64> {
        let dividend = i128::from(outstanding) * i128::from(self.part);
        let half = i128::from(self.exposure / 2);
        let share = (dividend + half).div_euclid(i128::from(self.exposure));
        if share.unsigned_abs() > GREATEST_FIGURE as u128 {
            return None;
        }
        Some(share as i64)
    }
}

/// On unsigned 128-bit numbers, by sign and size.
pub struct ByU128 {
    part: i64,
    exposure: i64,
}

impl Ratio for ByU128 {
    #[inline(always)]
    fn ready<const PARTS: usize>(parts: [i64; PARTS], exposure: i64) -> [Self; PARTS] {
        parts.map(|part| ByU128 { part, exposure })
    }

    /// A negative share gets a half that is too little for an exact half.
    #[inline(always)]
    fn share(&self, outstanding: i64) -> Option<i64> {
        let half = (self.exposure - i64::from(self.part < 0)) as u64 / 2;
        let product = u128::from(outstanding as u64) * u128::from(self.part.unsigned_abs());
        let size = (product + u128::from(half)) / u128::from(self.exposure as u64);
        if size > GREATEST_FIGURE as u128 {
            return None;
        }
        let size = size as i64;
        Some(if self.part < 0 { -size } else { size })
    }
}

// ---- Prepared

/// part = quotient × exposure + remainder, where the remainder is from 0 on and below the exposure.
pub struct Prepared {
    pub quotient: i64,
    pub remainder: u64,
    /// remainder / exposure in units of 2^-64, less than 64 of them too little.
    pub fraction: u64,
    pub exposure: u64,
    pub reach: i64,
}

impl Ratio for Prepared {
    #[inline(always)]
    fn ready<const PARTS: usize>(parts: [i64; PARTS], exposure: i64) -> [Self; PARTS] {
        let reciprocal = (1 << 62) / exposure as u64;
        parts.map(|part| {
            let (quotient, remainder) = divided(part, exposure, reciprocal);
            Prepared {
                quotient,
                remainder,
                fraction: fraction(remainder, exposure as u64, reciprocal),
                exposure: exposure as u64,
                reach: reach(quotient),
            }
        })
    }

    #[inline(always)]
    fn reach(&self) -> i64 {
        self.reach
    }

    #[inline(always)]
    fn share(&self, outstanding: i64) -> Option<i64> {
        let size = outstanding as u64;
        let estimate = high_product(size, self.fraction);
        // From 0 on and below 1.04 × exposure, so that its lower 64 bits are all of it.
        let left = size
            .wrapping_mul(self.remainder)
            .wrapping_sub(estimate.wrapping_mul(self.exposure));
        let up = i64::from(2 * left >= self.exposure);
        let share = outstanding * self.quotient + estimate as i64 + up;
        if share.abs() > GREATEST_FIGURE {
            return None;
        }
        Some(share)
    }
}

/// Quotient and remainder. The reciprocal leads to the quotient or to a number beside it.
#[inline(always)]
fn divided(part: i64, exposure: i64, reciprocal: u64) -> (i64, u64) {
    let found = ((i128::from(part) * i128::from(reciprocal)) >> 62) as i64;
    let left = part - found * exposure;
    if left < 0 {
        (found - 1, (left + exposure) as u64)
    } else if left < exposure {
        (found, left as u64)
    } else {
        (found + 1, (left - exposure) as u64)
    }
}

/// By three digits of 20 bits. What a digit is too little is left to the next, which may then pass 20 bits.
#[inline(always)]
fn fraction(remainder: u64, exposure: u64, reciprocal: u64) -> u64 {
    let (mut digits, mut left) = (0, remainder);
    for _ in 0..3 {
        let digit = (left * reciprocal) >> 42;
        left = (left << 20) - digit * exposure;
        digits = (digits << 20) + digit;
    }
    digits << 4
}

/// Up to it an outstanding times the quotient fits in 64 bits.
#[inline(always)]
fn reach(quotient: i64) -> i64 {
    let size = quotient.abs();
    if size <= 920 {
        return GREATEST_FIGURE;
    }
    GREATEST_FIGURE.min(9_200_000_000_000_000_000 / size)
}

/// u × v / 2^64.
#[inline(always)]
fn high_product(u: u64, v: u64) -> u64 {
    ((u128::from(u) * u128::from(v)) >> 64) as u64
}
