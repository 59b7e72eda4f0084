//! Whole numbers as 64-bit floats: a bit for the sign, 11 for the exponent, 52 for the fraction.

use std::fmt;

const FRACTION_BITS: u32 = 52;
const FRACTION: u64 = (1 << FRACTION_BITS) - 1;
const LARGEST_EXPONENT: u64 = 0x7ff;

/// The exponent of 1.
const EXPONENT_OF_ONE: u32 = 1023;

/// Stands for every whole number from 2^117 on; question 5 refuses all of them.
const BEYOND_ALL: i128 = 1 << 120;

/// A float by its bits, so that 0 and minus zero differ.
#[derive(Clone, Copy, PartialEq, Eq)]
pub struct Bits(pub u64);

impl fmt::Debug for Bits {
    fn fmt(&self, formatter: &mut fmt::Formatter) -> fmt::Result {
        write!(formatter, "{:016x}", self.0)
    }
}

impl Bits {
    /// The float that is exactly this whole number of at most 53 bits.
    pub fn of_whole(number: i128) -> Bits {
        let size = number.unsigned_abs();
        if size == 0 {
            return Bits(0);
        }
        let highest = u128::BITS - 1 - size.leading_zeros();
        assert!(highest <= FRACTION_BITS, "the whole number has 53 bits");
        let fraction = (size << (FRACTION_BITS - highest)) as u64 & FRACTION;
        let exponent = u64::from(EXPONENT_OF_ONE + highest);
        let sign = u64::from(number < 0);
        Bits(sign << 63 | exponent << FRACTION_BITS | fraction)
    }
}

/// The whole number that a float is, and none where it is not finite and whole.
pub fn whole_number(bits: u64) -> Option<i128> {
    let exponent = bits >> FRACTION_BITS & LARGEST_EXPONENT;
    let fraction = bits & FRACTION;
    let size = match exponent {
        LARGEST_EXPONENT => None,
        // 0, or a subnormal number, whose size is below 1.
        0 => (fraction == 0).then_some(0),
        _ => whole_size(i128::from(1 << FRACTION_BITS | fraction), exponent),
    }?;
    Some(if bits >> 63 == 1 { -size } else { size })
}

/// A significand of 53 bits times 2^(exponent - 1075), where that is whole.
fn whole_size(significand: i128, exponent: u64) -> Option<i128> {
    let of_one = u64::from(EXPONENT_OF_ONE + FRACTION_BITS);
    if exponent >= of_one {
        let doublings = exponent - of_one;
        return Some(match doublings {
            0..=64 => significand << doublings,
            _ => BEYOND_ALL,
        });
    }
    let halvings = of_one - exponent;
    if halvings > u64::from(FRACTION_BITS) {
        return None;
    }
    let unit = 1 << halvings;
    (significand % unit == 0).then_some(significand / unit)
}

#[cfg(test)]
mod tests {
    use super::{whole_number, Bits, BEYOND_ALL};

    /// Bits by the format: 1 is 2^0, so its exponent is 1023 = 0x3ff; 3 is 2^1 × 1.5, and 0.5 is 2^-1.
    #[test]
    fn whole_numbers_are_read_from_their_bits() {
        assert_eq!(whole_number(0), Some(0));
        assert_eq!(whole_number(0x8000_0000_0000_0000), Some(0));
        assert_eq!(whole_number(0x3ff0_0000_0000_0000), Some(1));
        assert_eq!(whole_number(0xbff0_0000_0000_0000), Some(-1));
        assert_eq!(whole_number(0x4008_0000_0000_0000), Some(3));
        // 1,000,000,000 is 2^29 × 1.862645149230957031250, and its 30 bits are 0x3b9aca00.
        assert_eq!(whole_number(0x41cd_cd65_0000_0000), Some(1_000_000_000));
    }

    #[test]
    fn what_is_not_finite_and_whole_is_told_apart() {
        let halves = [0x3fe0_0000_0000_0000, 0x3ff8_0000_0000_0000];
        let beside_one = [0x3fef_ffff_ffff_ffff, 0x3ff0_0000_0000_0001];
        let smallest = [1, 0x000f_ffff_ffff_ffff, 0x0010_0000_0000_0000];
        let infinities = [0x7ff0_0000_0000_0000, 0xfff0_0000_0000_0000];
        let no_numbers = [0x7ff8_0000_0000_0000, 0x7ff0_0000_0000_0001, u64::MAX];
        for bits in [halves, beside_one, infinities].concat() {
            assert_eq!(whole_number(bits), None);
        }
        for bits in [smallest, no_numbers].concat() {
            assert_eq!(whole_number(bits), None);
        }
    }

    /// Halves end below 2^52; from there on every float is whole, and from 2^53 on every one is even.
    #[test]
    fn large_floats_are_whole() {
        assert_eq!(whole_number(0x432f_ffff_ffff_ffff), None);
        assert_eq!(whole_number(0x4330_0000_0000_0001), Some((1 << 52) + 1));
        assert_eq!(whole_number(0x4340_0000_0000_0001), Some((1 << 53) + 2));
        assert_eq!(whole_number(0x43e0_0000_0000_0000), Some(1 << 63));
        assert_eq!(whole_number(0xc3e0_0000_0000_0000), Some(-(1 << 63)));
        assert_eq!(
            whole_number(0x43f0_0000_0000_0001),
            Some((1 << 64) + (1 << 12))
        );
        // 2^116 and 2^117, and the largest and the smallest finite float.
        assert_eq!(whole_number(0x4730_0000_0000_0000), Some(1 << 116));
        assert_eq!(whole_number(0x4740_0000_0000_0000), Some(BEYOND_ALL));
        assert_eq!(whole_number(0x7fef_ffff_ffff_ffff), Some(BEYOND_ALL));
        assert_eq!(whole_number(0xffef_ffff_ffff_ffff), Some(-BEYOND_ALL));
    }

    #[test]
    fn whole_numbers_have_their_bits() {
        assert_eq!(Bits::of_whole(0), Bits(0));
        assert_eq!(Bits::of_whole(1), Bits(0x3ff0_0000_0000_0000));
        assert_eq!(Bits::of_whole(-3), Bits(0xc008_0000_0000_0000));
        assert_eq!(Bits::of_whole(1_000_000_000), Bits(0x41cd_cd65_0000_0000));
        assert_eq!(Bits::of_whole((1 << 53) - 1), Bits(0x433f_ffff_ffff_ffff));
    }
}
