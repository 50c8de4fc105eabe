//! Spreads of the irregular and the weights of extremes.

use crate::calendar::{by_year, group, year_of_the_group, Label};
use crate::rounding::{nearest_away, nearest_even};

/// The greatest whole number whose square is not above the operand.
/// Binary digits are tried from the top.
pub fn root(operand: u128) -> u128 {
    let mut answer = 0u128;
    for bit in (0..63).rev() {
        let trial = answer | (1 << bit);
        if trial * trial <= operand {
            answer = trial;
        }
    }
    assert!((answer + 1) * (answer + 1) > operand, "operand too large");
    answer
}

/// Grains to whole units, a half away from zero.
pub fn units(grains: i64) -> i64 {
    nearest_away(i128::from(grains), 1000)
}

/// The spread of some sizes: the root of the whole part of the mean square.
pub fn spread(sizes: &[u64]) -> u64 {
    assert!(!sizes.is_empty(), "a spread of no months");
    let mut squares = 0u128;
    for &size in sizes {
        squares += u128::from(size) * u128::from(size);
    }
    let mean = squares / sizes.len() as u128;
    u64::try_from(root(mean)).expect("a root of 63 bits")
}

/// First and second spread of a group.  Its smallest month is never above the
/// first spread, so some month stays for the second.
pub fn two_spreads(sizes: &[u64]) -> (u64, u64) {
    let first = spread(sizes);
    let kept: Vec<u64> = sizes
        .iter()
        .copied()
        .filter(|&size| 2 * u128::from(size) <= 5 * u128::from(first))
        .collect();
    assert!(!kept.is_empty(), "every month of a group is dropped: {sizes:?}");
    (first, spread(&kept))
}

/// The weight of a month, in thousandths, from the size of its irregular
/// and the second spread of its year, both in units.
pub fn weight(size: u64, second_spread: u64) -> u16 {
    let a = u128::from(size);
    let sigma = u128::from(second_spread);
    if sigma == 0 {
        return if a == 0 { 1000 } else { 0 };
    }
    if 2 * a > 5 * sigma {
        return 0;
    }
    if 2 * a < 3 * sigma {
        return 1000;
    }
    // 1,000a/σ to the nearest whole number, a half up.
    let quotient = (2 * 1000 * a + sigma) / (2 * sigma);
    u16::try_from(2500 - quotient).expect("a weight from 0 to 1,000")
}

/// The spreads of every year: for each calendar year, first and second.
pub fn spreads_by_year(irregular: &[i64], labels: &[Label]) -> Vec<(u64, u64)> {
    let mut list = Vec::new();
    for &year in by_year(labels).keys() {
        let centre = year_of_the_group(labels, year);
        let sizes: Vec<u64> =
            group(labels, centre).iter().map(|&t| units(irregular[t]).unsigned_abs()).collect();
        list.push(two_spreads(&sizes));
    }
    list
}

/// The weights of an irregular table in grains.
pub fn weights(irregular: &[i64], labels: &[Label]) -> Vec<u16> {
    assert_eq!(irregular.len(), labels.len());
    let spreads = spreads_by_year(irregular, labels);
    let mut list = Vec::new();
    for (t, label) in labels.iter().enumerate() {
        let (_, second) = spreads[label.year];
        list.push(weight(units(irregular[t]).unsigned_abs(), second));
    }
    list
}

/// The correction of a month in grains: its irregular times 1,000 less its
/// weight, over 1,000, rounded once, a half to the even grain.
pub fn correction(irregular: i64, weight: u16) -> i64 {
    nearest_even(i128::from(irregular) * (1000 - i128::from(weight)), 1000)
}

#[cfg(test)]
mod tests {
    use super::*;

    #[test]
    fn roots() {
        for small in 0..70_000u128 {
            let r = root(small);
            assert!(r * r <= small && (r + 1) * (r + 1) > small);
        }
        for r in [1u128, 65_535, 65_536, 999_999, 4_294_967_295, 3_000_000_000_000] {
            assert_eq!(root(r * r), r);
            assert_eq!(root(r * r - 1), r - 1);
            assert_eq!(root(r * r + 2 * r), r);
        }
    }

    #[test]
    fn units_are_rounded_a_half_away_from_zero() {
        for (grains, unit) in
            [(0, 0), (499, 0), (500, 1), (-499, 0), (-500, -1), (1499, 1), (1500, 2), (-1500, -2), (-2501, -3)]
        {
            assert_eq!(units(grains), unit);
        }
    }

    #[test]
    fn the_quotient_takes_a_half_up() {
        // 1,000 x 27 / 16 is 1,687.5: up to 1,688, so the weight is 812.
        assert_eq!(weight(27, 16), 812);
        assert_eq!(weight(3, 2), 1000);
        assert_eq!(weight(5, 2), 0);
        assert_eq!(weight(2, 1), 500);
    }

    #[test]
    #[should_panic(expected = "a spread of no months")]
    fn a_spread_needs_a_month() {
        spread(&[]);
    }
}
