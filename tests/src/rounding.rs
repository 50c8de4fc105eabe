//! The two rules of rounding a fraction, its lower number above zero.  What
//! becomes a grain takes a half to the even neighbour; whole units and the
//! millionths of the end rows take it away from zero.

use std::cmp::Ordering;

/// Whether a fraction lies exactly half way between two whole numbers.
pub fn is_half(upper: i128, lower: i128) -> bool {
    assert!(lower > 0);
    2 * upper.rem_euclid(lower) == lower
}

/// The nearest whole number, a half to the even neighbour.
pub fn nearest_even(upper: i128, lower: i128) -> i64 {
    assert!(lower > 0);
    let below = upper.div_euclid(lower);
    let rest = upper.rem_euclid(lower);
    let nearest = match (2 * rest).cmp(&lower) {
        Ordering::Less => below,
        Ordering::Greater => below + 1,
        Ordering::Equal if below % 2 == 0 => below,
        Ordering::Equal => below + 1,
    };
    i64::try_from(nearest).expect("a table value of reasonable size")
}

/// The nearest whole number, a half away from zero.
pub fn nearest_away(upper: i128, lower: i128) -> i64 {
    assert!(lower > 0);
    let size = (2 * upper.abs() + lower) / (2 * lower);
    let signed = if upper < 0 { -size } else { size };
    i64::try_from(signed).expect("a table value of reasonable size")
}

#[cfg(test)]
mod tests {
    use super::*;

    #[test]
    fn halves_go_to_the_even_neighbour() {
        for (upper, answer) in [(1, 0), (3, 2), (5, 2), (7, 4), (1_999_999, 1_000_000), (2_000_001, 1_000_000)] {
            assert_eq!(nearest_even(upper, 2), answer);
            assert_eq!(nearest_even(-upper, 2), -answer);
            assert_eq!(nearest_even(12 * upper, 24), answer);
            assert_eq!(nearest_even(-500 * upper, 1000), -answer);
        }
    }

    #[test]
    fn halves_go_away_from_zero() {
        for (upper, answer) in [(1, 1), (3, 2), (5, 3), (7, 4), (1_999_999, 1_000_000), (2_000_001, 1_000_001)] {
            assert_eq!(nearest_away(upper, 2), answer);
            assert_eq!(nearest_away(-upper, 2), -answer);
            assert_eq!(nearest_away(12 * upper, 24), answer);
            assert_eq!(nearest_away(-500 * upper, 1000), -answer);
        }
    }

    /// One part beside a half there is nothing to choose.
    #[test]
    fn beside_a_half_both_rules_are_one() {
        for half in [12i128, 30, 500, 8_398, 500_000] {
            for below in -3..3i64 {
                let tie = (2 * i128::from(below) + 1) * half;
                for rule in [nearest_even, nearest_away] {
                    assert_eq!(rule(tie - 1, 2 * half), below);
                    assert_eq!(rule(tie + 1, 2 * half), below + 1);
                }
                assert_eq!([-1, 0, 1].map(|beside| is_half(tie + beside, 2 * half)), [false, true, false]);
            }
        }
    }

    /// Both rules held against the distance from the answer, which is below a
    /// half for one whole number only: all fractions from -2 to 2 over the
    /// divisors of the filters, of corrections and of every mean.
    #[test]
    fn the_answer_is_nearest_and_at_a_half_the_right_one() {
        let means = (1..=4).flat_map(|neighbours| (0..1000).map(move |weight| weight + 1000 * neighbours));
        for lower in [1, 24, 27, 60, 1000, 16_796, 1_000_000].into_iter().chain(means) {
            for upper in -2 * lower..=2 * lower {
                let (even, away) = (i128::from(nearest_even(upper, lower)), i128::from(nearest_away(upper, lower)));
                let twice_off = |answer: i128| 2 * (upper - lower * answer).abs();
                if is_half(upper, lower) {
                    assert_eq!((twice_off(even), even % 2), (lower, 0), "{upper}/{lower}");
                    assert_eq!(twice_off(away), lower, "{upper}/{lower}");
                    assert!(lower * away.abs() > upper.abs(), "{upper}/{lower}");
                } else {
                    assert!(twice_off(even) < lower && even == away, "{upper}/{lower}");
                }
            }
        }
    }
}
