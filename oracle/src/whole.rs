//! Whole numbers with a sign, wide enough for every figure of a record scaled by one power of two, so that sums, and products by a count,
//! are exact. Nothing here rounds.

use std::cmp::Ordering;
use std::fmt::{self, Display};
use std::ops::{Add, Neg, Sub};

/// Every figure is scaled by 2 to this power. The least f64 above 0 is 2^-1074, so each f64 is whole, and half of each.
const SCALE: i32 = 1075;
/// 1,152 bits in two's complement: numbers below 2^76 once scaled, where the largest sum of a record is below 2^28.
const LIMBS: usize = 18;

#[derive(Clone, Copy, Debug, PartialEq, Eq)]
pub struct Whole([u64; LIMBS]);

impl Default for Whole {
    fn default() -> Self {
        Whole::ZERO
    }
}

impl Whole {
    pub const ZERO: Whole = Whole([0; LIMBS]);

    /// 2 to this power.
    pub fn power(exponent: i32) -> Whole {
        Whole::ZERO.with(1, (SCALE + exponent) as usize)
    }

    /// An f64, exactly. Figures and sums are far below 2^70.
    pub fn of(x: f64) -> Whole {
        assert!(x.abs() < 2f64.powi(70), "{x} is no figure of a record");
        let bits = x.to_bits();
        let exponent = (bits >> 52 & 0x7ff) as usize;
        let digits = bits & ((1 << 52) - 1) | u64::from(exponent > 0) << 52;
        // digits times 2^(exponent - 1075), where 0 stands for 1
        let size = Whole::ZERO.with(digits, exponent.max(1));
        if x.is_sign_negative() {
            -size
        } else {
            size
        }
    }

    /// The digits put at this bit, over zeros.
    fn with(mut self, digits: u64, at: usize) -> Whole {
        let (limb, bit) = (at / 64, at % 64);
        self.0[limb] = digits << bit;
        if bit > 0 && limb + 1 < LIMBS {
            self.0[limb + 1] = digits >> (64 - bit);
        }
        self
    }

    /// Counts are at most 4,096.
    pub fn times(self, count: u32) -> Whole {
        let mut product = Whole::ZERO;
        let mut carry = 0;
        for (to, limb) in product.0.iter_mut().zip(self.0) {
            let wide = u128::from(limb) * u128::from(count) + carry;
            *to = wide as u64;
            carry = wide >> 64;
        }
        product
    }

    pub fn is_negative(self) -> bool {
        self.0[LIMBS - 1] >> 63 == 1
    }

    pub fn abs(self) -> Whole {
        if self.is_negative() {
            -self
        } else {
            self
        }
    }

    /// The power of two that this is, for a reader; only of numbers above 0.
    fn logarithm(self) -> f64 {
        let top = (0..LIMBS).rev().find(|&i| self.0[i] != 0).unwrap();
        let below = if top > 0 { self.0[top - 1] } else { 0 };
        let leading = self.0[top] as f64 + below as f64 / 2f64.powi(64);
        leading.log2() + 64.0 * top as f64 - f64::from(SCALE)
    }
}

impl Add for Whole {
    type Output = Whole;

    fn add(self, other: Whole) -> Whole {
        let mut sum = Whole::ZERO;
        let mut carry = false;
        for i in 0..LIMBS {
            let (limb, first) = self.0[i].overflowing_add(other.0[i]);
            let (limb, second) = limb.overflowing_add(u64::from(carry));
            sum.0[i] = limb;
            carry = first | second;
        }
        sum
    }
}

impl Neg for Whole {
    type Output = Whole;

    fn neg(self) -> Whole {
        Whole(self.0.map(|limb| !limb)) + Whole::ZERO.with(1, 0)
    }
}

impl Sub for Whole {
    type Output = Whole;

    fn sub(self, other: Whole) -> Whole {
        self + -other
    }
}

impl Ord for Whole {
    /// By the top limb with its sign, then by the limbs below it.
    fn cmp(&self, other: &Whole) -> Ordering {
        let top = |w: &Whole| w.0[LIMBS - 1] as i64;
        let below = |w: &Whole| w.0.into_iter().rev().skip(1);
        top(self)
            .cmp(&top(other))
            .then_with(|| below(self).cmp(below(other)))
    }
}

impl PartialOrd for Whole {
    fn partial_cmp(&self, other: &Whole) -> Option<Ordering> {
        Some(self.cmp(other))
    }
}

/// As a power of two with two decimals.
impl Display for Whole {
    fn fmt(&self, f: &mut fmt::Formatter) -> fmt::Result {
        let sign = if self.is_negative() { "-" } else { "" };
        match *self {
            Whole::ZERO => write!(f, "0"),
            _ => write!(f, "{sign}2^{:.2}", self.abs().logarithm()),
        }
    }
}

#[cfg(test)]
mod tests {
    use super::*;
    use crate::random::Random;

    /// The number itself, not scaled, with its sign in all limbs.
    fn plain(x: i128) -> Whole {
        let fill = if x < 0 { u64::MAX } else { 0 };
        let mut limbs = [fill; LIMBS];
        (limbs[0], limbs[1]) = (x as u64, (x >> 64) as u64);
        Whole(limbs)
    }

    /// Of 0 to 120 bits, on both sides of a limb's end.
    fn drawn(r: &mut Random) -> i128 {
        let wide = i128::from(r.next() as i64) << 64 | i128::from(r.next());
        wide >> r.between(8, 127)
    }

    #[test]
    fn arithmetic_is_that_of_i128() {
        let mut r = Random(5);
        for _ in 0..200_000 {
            let (x, y, n) = (drawn(&mut r), drawn(&mut r), r.below(100) as u32);
            assert_eq!(plain(x) + plain(y), plain(x + y));
            assert_eq!(plain(x) - plain(y), plain(x - y));
            assert_eq!(-plain(x), plain(-x));
            assert_eq!(plain(x).abs(), plain(x.abs()));
            assert_eq!(plain(x).cmp(&plain(y)), x.cmp(&y));
            assert_eq!(plain(x >> 8).times(n), plain((x >> 8) * i128::from(n)));
        }
    }

    #[test]
    fn figures_are_exact() {
        // 2^-1074 is two of 2^-1075
        assert_eq!(Whole::of(5e-324), plain(2));
        assert_eq!(Whole::of(-5e-324), plain(-2));
        assert_eq!(Whole::of(-0.0), Whole::ZERO);
        assert_eq!(Whole::of(f64::MIN_POSITIVE), Whole::power(-1022));
        assert_eq!(Whole::of(2f64.powi(69)), Whole::power(69));
        // 0.75 = 2^-1 + 2^-2, and -2.5 times 3 is -7.5
        assert_eq!(Whole::of(0.75), Whole::power(-1) + Whole::power(-2));
        assert_eq!(Whole::of(-2.5).times(3), Whole::of(-7.5));
    }

    #[test]
    fn whole_numbers_below_2_to_53_add_as_f64_does() {
        let mut r = Random(6);
        for _ in 0..100_000 {
            let shift = r.between(13, 63);
            let (x, y) = (
                (r.next() as i64 >> shift) as f64,
                (r.next() as i64 >> shift) as f64,
            );
            assert_eq!(Whole::of(x) + Whole::of(y), Whole::of(x + y));
            assert_eq!(Whole::of(x).cmp(&Whole::of(y)), x.partial_cmp(&y).unwrap());
        }
    }

    #[test]
    fn shown_as_a_power_of_two() {
        let shown = |w: Whole| w.to_string();
        assert_eq!(shown(Whole::power(-21)), "2^-21.00");
        assert_eq!(shown(-Whole::power(-21).times(3)), "-2^-19.42");
        assert_eq!(shown(Whole::of(5e-324)), "2^-1074.00");
        assert_eq!(shown(Whole::ZERO), "0");
    }
}
