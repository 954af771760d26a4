//! Exact fractions, and the gap between two of them.

use std::cmp::Ordering;

/// A fraction that is not reduced.
#[derive(Clone, Copy, Debug)]
pub struct Fraction {
    pub num: u128,
    pub den: u128,
}

/// Millionths of a whole.
const MILLION: u128 = 1_000_000;

/// The product of two numbers, its upper and its lower half.
fn product(a: u128, b: u128) -> (u128, u128) {
    let half = u64::MAX as u128;
    let (a_high, a_low, b_high, b_low) = (a >> 64, a & half, b >> 64, b & half);
    let low = a_low * b_low;
    let across = a_high * b_low + (low >> 64);
    let middle = a_low * b_high + (across & half);
    (
        a_high * b_high + (across >> 64) + (middle >> 64),
        middle << 64 | low & half,
    )
}

impl Fraction {
    /// Which of two fractions is the lesser.
    pub fn compare(&self, other: &Fraction) -> Ordering {
        product(self.num, other.den).cmp(&product(other.num, self.den))
    }

    /// Whether this lower fraction and that upper one lie within so many millionths of the lower.
    pub fn is_within(&self, upper: &Fraction, gap: u64) -> bool {
        product(upper.num, MILLION * self.den)
            <= product(self.num * (MILLION + gap as u128), upper.den)
    }

    pub fn value(&self) -> f64 {
        self.num as f64 / self.den as f64
    }
}

impl std::fmt::Display for Fraction {
    fn fmt(&self, to: &mut std::fmt::Formatter) -> std::fmt::Result {
        write!(to, "{}/{}", self.num, self.den)
    }
}
