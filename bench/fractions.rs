//! Exact fractions in plain Rust: a pair of 64 bits, and 128 bits in between.

use std::cmp::Ordering;

#[derive(Clone, Copy, PartialEq, Eq)]
pub struct Frac {
    pub num: i64,
    pub den: i64,
}

// Once the divisor is short, all that follows is.
fn gcd(a: u128, b: u128) -> u128 {
    let (mut a, mut b) = (a, b);
    while b > u64::MAX as u128 {
        (a, b) = (b, a % b);
    }
    if b == 0 {
        return a;
    }
    let (mut a, mut b) = (b as u64, (a % b) as u64);
    while b != 0 {
        (a, b) = (b, a % b);
    }
    a as u128
}

pub fn reduce(num: i128, den: i128) -> Option<Frac> {
    if den == 0 {
        return None;
    }
    let common = gcd(num.unsigned_abs(), den.unsigned_abs()) as i128;
    let common = if den < 0 { -common } else { common };
    let num = i64::try_from(num / common).ok()?;
    let den = i64::try_from(den / common).ok()?;
    Some(Frac { num, den })
}

#[allow(dead_code)] // each program uses some of them
impl Frac {
    pub fn add(self, other: Frac) -> Option<Frac> {
        let left = self.num as i128 * other.den as i128;
        let right = other.num as i128 * self.den as i128;
        reduce(left + right, self.den as i128 * other.den as i128)
    }

    pub fn sub(self, other: Frac) -> Option<Frac> {
        let left = self.num as i128 * other.den as i128;
        let right = other.num as i128 * self.den as i128;
        reduce(left - right, self.den as i128 * other.den as i128)
    }

    pub fn mul(self, other: Frac) -> Option<Frac> {
        let above = self.num as i128 * other.num as i128;
        reduce(above, self.den as i128 * other.den as i128)
    }

    pub fn div(self, other: Frac) -> Option<Frac> {
        let above = self.num as i128 * other.den as i128;
        reduce(above, self.den as i128 * other.num as i128)
    }

    pub fn cmp(self, other: Frac) -> Ordering {
        let left = self.num as i128 * other.den as i128;
        left.cmp(&(other.num as i128 * self.den as i128))
    }
}
