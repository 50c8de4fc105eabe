//! Whole numbers of any length: a sign and a list of 32-bit digits, the
//! lowest digit first, no zero digits on top.

use std::cmp::Ordering;
use std::fmt;

#[derive(Clone, Debug, PartialEq, Eq)]
pub struct Whole {
    negative: bool,
    digits: Vec<u32>,
}

impl Whole {
    pub fn zero() -> Whole {
        Whole { negative: false, digits: Vec::new() }
    }

    pub fn from(value: i128) -> Whole {
        Whole::from_size(value < 0, value.unsigned_abs())
    }

    fn from_size(negative: bool, mut size: u128) -> Whole {
        let mut digits = Vec::new();
        while size != 0 {
            digits.push((size & 0xffff_ffff) as u32);
            size >>= 32;
        }
        Whole { negative: negative && !digits.is_empty(), digits }
    }

    fn tidy(negative: bool, mut digits: Vec<u32>) -> Whole {
        while digits.last() == Some(&0) {
            digits.pop();
        }
        Whole { negative: negative && !digits.is_empty(), digits }
    }

    pub fn is_zero(&self) -> bool {
        self.digits.is_empty()
    }

    pub fn is_negative(&self) -> bool {
        self.negative
    }

    /// The size as an ordinary number, if it is short enough.
    fn short_size(&self) -> Option<u128> {
        if self.digits.len() > 4 {
            return None;
        }
        let mut size = 0u128;
        for &digit in self.digits.iter().rev() {
            size = (size << 32) | u128::from(digit);
        }
        Some(size)
    }

    pub fn to_i128(&self) -> Option<i128> {
        let size = self.short_size()?;
        if self.negative {
            if size <= 1u128 << 127 {
                Some((size as i128).wrapping_neg())
            } else {
                None
            }
        } else {
            i128::try_from(size).ok()
        }
    }

    pub fn negated(&self) -> Whole {
        Whole { negative: !self.negative && !self.digits.is_empty(), digits: self.digits.clone() }
    }

    pub fn size(&self) -> Whole {
        Whole { negative: false, digits: self.digits.clone() }
    }

    pub fn plus(&self, other: &Whole) -> Whole {
        if self.negative == other.negative {
            return Whole::tidy(self.negative, add_sizes(&self.digits, &other.digits));
        }
        match compare_sizes(&self.digits, &other.digits) {
            Ordering::Equal => Whole::zero(),
            Ordering::Greater => Whole::tidy(self.negative, take_sizes(&self.digits, &other.digits)),
            Ordering::Less => Whole::tidy(other.negative, take_sizes(&other.digits, &self.digits)),
        }
    }

    pub fn less(&self, other: &Whole) -> Whole {
        self.plus(&other.negated())
    }

    pub fn times(&self, other: &Whole) -> Whole {
        let mut digits = vec![0u32; self.digits.len() + other.digits.len()];
        for (i, &a) in self.digits.iter().enumerate() {
            let mut carry = 0u64;
            for (j, &b) in other.digits.iter().enumerate() {
                let sum = u64::from(digits[i + j]) + u64::from(a) * u64::from(b) + carry;
                digits[i + j] = (sum & 0xffff_ffff) as u32;
                carry = sum >> 32;
            }
            digits[i + other.digits.len()] = carry as u32;
        }
        Whole::tidy(self.negative != other.negative, digits)
    }

    /// Quotient and rest of the sizes, both without sign.  The divisor must
    /// not be zero.
    fn divide_sizes(&self, divisor: &Whole) -> (Whole, Whole) {
        assert!(!divisor.is_zero(), "division by zero");
        if let (Some(a), Some(b)) = (self.short_size(), divisor.short_size()) {
            return (Whole::from_size(false, a / b), Whole::from_size(false, a % b));
        }
        // Long division, one bit at a time, from the top.
        let mut quotient = vec![0u32; self.digits.len()];
        let mut rest: Vec<u32> = Vec::new();
        for place in (0..self.digits.len()).rev() {
            for bit in (0..32).rev() {
                let mut carry = (self.digits[place] >> bit) & 1;
                for digit in rest.iter_mut() {
                    let next = *digit >> 31;
                    *digit = (*digit << 1) | carry;
                    carry = next;
                }
                if carry != 0 {
                    rest.push(carry);
                }
                if compare_sizes(&rest, &divisor.digits) != Ordering::Less {
                    rest = take_sizes(&rest, &divisor.digits);
                    while rest.last() == Some(&0) {
                        rest.pop();
                    }
                    quotient[place] |= 1 << bit;
                }
            }
        }
        (Whole::tidy(false, quotient), Whole::tidy(false, rest))
    }

    /// The quotient where the divisor divides without rest.
    pub fn shared_out(&self, divisor: &Whole) -> Whole {
        let (quotient, rest) = self.divide_sizes(divisor);
        assert!(rest.is_zero(), "the divisor leaves a rest");
        if self.negative != divisor.negative {
            quotient.negated()
        } else {
            quotient
        }
    }

    /// Whole part of the quotient of the sizes, and the rest.
    pub fn quotient_of_sizes(&self, divisor: &Whole) -> (Whole, Whole) {
        self.divide_sizes(divisor)
    }

    /// Greatest common divisor of the sizes; with one of them zero, the other.
    pub fn common_divisor(&self, other: &Whole) -> Whole {
        let mut a = self.size();
        let mut b = other.size();
        while !b.is_zero() {
            if let (Some(x), Some(y)) = (a.short_size(), b.short_size()) {
                return Whole::from_size(false, common_divisor_short(x, y));
            }
            let (_, rest) = a.divide_sizes(&b);
            a = b;
            b = rest;
        }
        a
    }

    pub fn compare(&self, other: &Whole) -> Ordering {
        match (self.negative, other.negative) {
            (false, true) => Ordering::Greater,
            (true, false) => Ordering::Less,
            (false, false) => compare_sizes(&self.digits, &other.digits),
            (true, true) => compare_sizes(&other.digits, &self.digits),
        }
    }

    /// The nearest floating number, for a first look only.
    pub fn roughly(&self) -> f64 {
        let mut value = 0.0;
        for &digit in self.digits.iter().rev() {
            value = value * 4294967296.0 + f64::from(digit);
        }
        if self.negative {
            -value
        } else {
            value
        }
    }
}

fn common_divisor_short(mut a: u128, mut b: u128) -> u128 {
    if a == 0 {
        return b;
    }
    if b == 0 {
        return a;
    }
    let shared = (a | b).trailing_zeros();
    a >>= a.trailing_zeros();
    while b != 0 {
        b >>= b.trailing_zeros();
        if a > b {
            std::mem::swap(&mut a, &mut b);
        }
        b -= a;
    }
    a << shared
}

fn compare_sizes(a: &[u32], b: &[u32]) -> Ordering {
    if a.len() != b.len() {
        return a.len().cmp(&b.len());
    }
    for (x, y) in a.iter().rev().zip(b.iter().rev()) {
        if x != y {
            return x.cmp(y);
        }
    }
    Ordering::Equal
}

fn add_sizes(a: &[u32], b: &[u32]) -> Vec<u32> {
    let mut sum = Vec::with_capacity(a.len().max(b.len()) + 1);
    let mut carry = 0u64;
    for i in 0..a.len().max(b.len()) {
        let x = a.get(i).copied().unwrap_or(0);
        let y = b.get(i).copied().unwrap_or(0);
        let digit = u64::from(x) + u64::from(y) + carry;
        sum.push((digit & 0xffff_ffff) as u32);
        carry = digit >> 32;
    }
    if carry != 0 {
        sum.push(carry as u32);
    }
    sum
}

/// a less b, where a is not the smaller.
fn take_sizes(a: &[u32], b: &[u32]) -> Vec<u32> {
    let mut difference = Vec::with_capacity(a.len());
    let mut borrow = 0i64;
    for (i, &x) in a.iter().enumerate() {
        let y = b.get(i).copied().unwrap_or(0);
        let mut digit = i64::from(x) - i64::from(y) - borrow;
        borrow = 0;
        if digit < 0 {
            digit += 1 << 32;
            borrow = 1;
        }
        difference.push(digit as u32);
    }
    assert!(borrow == 0, "the smaller was taken from");
    difference
}

impl fmt::Display for Whole {
    fn fmt(&self, out: &mut fmt::Formatter<'_>) -> fmt::Result {
        if self.is_zero() {
            return write!(out, "0");
        }
        let mut digits = self.digits.clone();
        let mut groups: Vec<u32> = Vec::new();
        while !digits.is_empty() {
            let mut rest = 0u64;
            for digit in digits.iter_mut().rev() {
                let now = (rest << 32) | u64::from(*digit);
                *digit = (now / 1_000_000_000) as u32;
                rest = now % 1_000_000_000;
            }
            while digits.last() == Some(&0) {
                digits.pop();
            }
            groups.push(rest as u32);
        }
        if self.negative {
            write!(out, "-")?;
        }
        write!(out, "{}", groups[groups.len() - 1])?;
        for group in groups.iter().rev().skip(1) {
            write!(out, "{:09}", group)?;
        }
        Ok(())
    }
}

#[cfg(test)]
mod tests {
    use super::*;

    fn samples() -> Vec<i128> {
        let mut list = vec![
            0,
            1,
            -1,
            2,
            7,
            -13,
            4_294_967_295,
            4_294_967_296,
            -4_294_967_297,
            1 << 62,
            -(1 << 63),
            (1 << 64) - 1,
            1 << 64,
        ];
        let mut x = 88_172_645_463_325_252u64;
        for shift in 0..40 {
            x ^= x << 13;
            x ^= x >> 7;
            x ^= x << 17;
            list.push(i128::from(x as i64) >> (shift % 60));
        }
        list
    }

    #[test]
    fn small_sums_products_and_order_agree_with_machine_numbers() {
        for &a in &samples() {
            for &b in &samples() {
                let (x, y) = (Whole::from(a), Whole::from(b));
                assert_eq!(x.plus(&y).to_i128(), Some(a + b));
                assert_eq!(x.less(&y).to_i128(), Some(a - b));
                if let Some(product) = a.checked_mul(b) {
                    assert_eq!(x.times(&y).to_i128(), Some(product));
                }
                assert_eq!(x.compare(&y), a.cmp(&b));
                assert_eq!(x.to_string(), a.to_string());
            }
        }
    }

    #[test]
    fn long_division_gives_back_the_number() {
        for &a in &samples() {
            for &b in &samples() {
                if b == 0 {
                    continue;
                }
                let long = Whole::from(a).times(&Whole::from(b)).times(&Whole::from(1 << 100)).plus(&Whole::from(12345));
                let divisor = Whole::from(b).times(&Whole::from((1 << 70) + 3));
                let (quotient, rest) = long.quotient_of_sizes(&divisor);
                assert_eq!(quotient.times(&divisor.size()).plus(&rest), long.size());
                assert_eq!(rest.compare(&divisor.size()), Ordering::Less);
            }
        }
    }

    #[test]
    fn common_divisors() {
        let three_to_90 = (0..90).fold(Whole::from(1), |p, _| p.times(&Whole::from(3)));
        let two_to_90 = (0..90).fold(Whole::from(1), |p, _| p.times(&Whole::from(2)));
        let a = three_to_90.times(&Whole::from(35));
        let b = two_to_90.times(&Whole::from(21));
        // 35 = 5 x 7 and 21 = 3 x 7, and the power of three has a three to share.
        assert_eq!(a.common_divisor(&b), Whole::from(21));
        assert_eq!(a.common_divisor(&three_to_90), three_to_90);
        assert_eq!(Whole::from(-12).common_divisor(&Whole::from(18)), Whole::from(6));
        assert_eq!(Whole::zero().common_divisor(&Whole::from(18)), Whole::from(18));
        assert_eq!(a.shared_out(&Whole::from(-35)), three_to_90.negated());
    }
}
