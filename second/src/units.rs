//! The unit K and rounding by it.

use crate::refusal::{refusal, Refusal};

/// K = P/Q in lowest terms.
#[derive(Debug, Clone, Copy, PartialEq, Eq)]
pub struct Unit {
    pub p: u128,
    pub q: u128,
}

/// The greatest common divisor, by Euclid's rule.
fn common_divisor(a: u128, b: u128) -> u128 {
    if b == 0 {
        a
    } else {
        common_divisor(b, a % b)
    }
}

/// Refuses (12) a resolution of 0 or above 10,000.
pub fn check_resolution(resolution: u32) -> Result<(), Refusal> {
    if (1..=10_000).contains(&resolution) {
        Ok(())
    } else {
        Err(refusal(12, 0))
    }
}

impl Unit {
    /// How many pixels one DVI unit measures, as a cancelled fraction. Refused (13) where P
    /// takes more than 30 bits or K is above one half. The callers have judged the numbers
    /// given: 31 + 31 + 14 bits stand above the line and 31 + 28 below, and 128 hold them.
    pub fn new(num: i32, den: i32, mag: i32, resolution: u32) -> Result<Unit, Refusal> {
        let positive = |number: i32| u128::try_from(number).expect("a positive number");
        let above = positive(num) * positive(mag) * u128::from(resolution);
        let below = positive(den) * 1000 * 254_000;
        let divisor = common_divisor(above, below);
        let unit = Unit { p: above / divisor, q: below / divisor };
        if unit.p > 1_073_741_823 || 2 * unit.p > unit.q {
            return Err(refusal(13, 0));
        }
        Ok(unit)
    }

    /// The pixel nearest to n units; a half goes away from zero.
    pub fn rounded(&self, n: i64) -> i64 {
        let size = u128::from(n.unsigned_abs());
        // |K x n| + 1/2 is (2 x P x |n| + Q) / (2 x Q).
        let whole = (2 * self.p * size + self.q) / (2 * self.q);
        let whole = i64::try_from(whole).expect("K is one half at most");
        if n < 0 {
            -whole
        } else {
            whole
        }
    }

    /// How many pixels it takes to cover n units: the least whole number not below K x n. With
    /// n below 0 that is the one towards zero.
    pub fn rounded_up(&self, n: i64) -> i64 {
        let product = self.p * u128::from(n.unsigned_abs());
        let whole = |number: u128| i64::try_from(number).expect("K is one half at most");
        if n < 0 {
            -whole(product / self.q)
        } else {
            whole(product.div_ceil(self.q))
        }
    }
}

/// Rounding for a caller without a file: its units are judged as those of *pre* would be (4),
/// then the resolution (12) and K (13). There is no byte to point at, so the place is 0.
pub fn round_distance(num: i32, den: i32, mag: i32, resolution: u32, n: i32) -> Result<i64, Refusal> {
    if num <= 0 || den <= 0 || mag <= 0 {
        return Err(refusal(4, 0));
    }
    check_resolution(resolution)?;
    let unit = Unit::new(num, den, mag, resolution)?;
    Ok(unit.rounded(i64::from(n)))
}
