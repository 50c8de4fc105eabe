//! Exact fractions in lowest terms, the lower number always above zero.

use crate::whole::Whole;
use std::cmp::Ordering;
use std::fmt;

#[derive(Clone, Debug, PartialEq, Eq)]
pub struct Fraction {
    upper: Whole,
    lower: Whole,
}

impl Fraction {
    pub fn new(upper: i128, lower: i128) -> Fraction {
        Fraction::lowest(Whole::from(upper), Whole::from(lower))
    }

    pub fn whole(value: i128) -> Fraction {
        Fraction { upper: Whole::from(value), lower: Whole::from(1) }
    }

    pub fn lowest(upper: Whole, lower: Whole) -> Fraction {
        assert!(!lower.is_zero(), "a fraction over zero");
        let shared = upper.common_divisor(&lower);
        let mut upper = upper.shared_out(&shared);
        let mut lower = lower.shared_out(&shared);
        if lower.is_negative() {
            upper = upper.negated();
            lower = lower.negated();
        }
        Fraction { upper, lower }
    }

    pub fn upper(&self) -> &Whole {
        &self.upper
    }

    pub fn lower(&self) -> &Whole {
        &self.lower
    }

    pub fn is_zero(&self) -> bool {
        self.upper.is_zero()
    }

    pub fn plus(&self, other: &Fraction) -> Fraction {
        if self.lower == other.lower {
            return Fraction::lowest(self.upper.plus(&other.upper), self.lower.clone());
        }
        Fraction::lowest(
            self.upper.times(&other.lower).plus(&other.upper.times(&self.lower)),
            self.lower.times(&other.lower),
        )
    }

    pub fn negated(&self) -> Fraction {
        Fraction { upper: self.upper.negated(), lower: self.lower.clone() }
    }

    pub fn less(&self, other: &Fraction) -> Fraction {
        self.plus(&other.negated())
    }

    pub fn times(&self, other: &Fraction) -> Fraction {
        Fraction::lowest(self.upper.times(&other.upper), self.lower.times(&other.lower))
    }

    pub fn over(&self, other: &Fraction) -> Fraction {
        Fraction::lowest(self.upper.times(&other.lower), self.lower.times(&other.upper))
    }

    pub fn size(&self) -> Fraction {
        Fraction { upper: self.upper.size(), lower: self.lower.clone() }
    }

    pub fn compare(&self, other: &Fraction) -> Ordering {
        self.upper.times(&other.lower).compare(&other.upper.times(&self.lower))
    }

    /// The nearest whole number, a half away from zero.
    pub fn nearest_away(&self) -> Whole {
        let (quotient, rest) = self.upper.quotient_of_sizes(&self.lower);
        let size = if rest.plus(&rest).compare(&self.lower) == Ordering::Less {
            quotient
        } else {
            quotient.plus(&Whole::from(1))
        };
        if self.upper.is_negative() {
            size.negated()
        } else {
            size
        }
    }

    /// The weighted sum of some fractions, each weight a whole number over
    /// one common divisor.  The fractions are brought to one lower number
    /// first and the sum is put into lowest terms once, at the end.
    pub fn weighted_sum(terms: &[(i128, &Fraction)], divisor: i128) -> Fraction {
        let mut lower = Whole::from(1);
        for (_, fraction) in terms {
            if lower != fraction.lower {
                let shared = lower.common_divisor(&fraction.lower);
                lower = lower.times(&fraction.lower.shared_out(&shared));
            }
        }
        let mut upper = Whole::zero();
        for (weight, fraction) in terms {
            let scaled = if lower == fraction.lower {
                fraction.upper.clone()
            } else {
                fraction.upper.times(&lower.shared_out(&fraction.lower))
            };
            upper = upper.plus(&scaled.times(&Whole::from(*weight)));
        }
        Fraction::lowest(upper, lower.times(&Whole::from(divisor)))
    }

    pub fn roughly(&self) -> f64 {
        self.upper.roughly() / self.lower.roughly()
    }
}

impl fmt::Display for Fraction {
    fn fmt(&self, out: &mut fmt::Formatter<'_>) -> fmt::Result {
        write!(out, "{}/{}", self.upper, self.lower)
    }
}

#[cfg(test)]
mod tests {
    use super::*;

    #[test]
    fn lowest_terms_and_sign() {
        assert_eq!(Fraction::new(6, -8).to_string(), "-3/4");
        assert_eq!(Fraction::new(0, -8).to_string(), "0/1");
        assert_eq!(Fraction::new(1, 2).plus(&Fraction::new(1, 3)), Fraction::new(5, 6));
        assert_eq!(Fraction::new(1, 2).less(&Fraction::new(1, 2)), Fraction::whole(0));
        assert_eq!(Fraction::new(2, 3).times(&Fraction::new(9, 4)), Fraction::new(3, 2));
        assert_eq!(Fraction::new(2, 3).over(&Fraction::new(-4, 9)), Fraction::new(-3, 2));
    }

    #[test]
    fn nearest_takes_a_half_away_from_zero() {
        for (upper, lower, answer) in
            [(1, 2, 1), (-1, 2, -1), (49, 100, 0), (-49, 100, 0), (3, 2, 2), (-5, 2, -3), (7, 3, 2), (8, 3, 3)]
        {
            assert_eq!(Fraction::new(upper, lower).nearest_away(), Whole::from(answer));
        }
    }

    #[test]
    fn weighted_sum_is_the_sum_of_products() {
        let values = [Fraction::new(1, 6), Fraction::new(-7, 10), Fraction::new(22, 7), Fraction::whole(0)];
        let weights = [3, -4, 11, 5];
        let terms: Vec<(i128, &Fraction)> = weights.iter().copied().zip(values.iter()).collect();
        let mut sum = Fraction::whole(0);
        for (w, v) in &terms {
            sum = sum.plus(&v.times(&Fraction::new(*w, 27)));
        }
        assert_eq!(Fraction::weighted_sum(&terms, 27), sum);
    }
}
