//! The weights of the filters.  The seasonal rows of 3×3 and 3×5 are written
//! down as the paper gives them, those of 3×9 are worked out from its full
//! row; the Henderson rows are worked out from the formulas.

use crate::fraction::Fraction;
use crate::whole::Whole;
use std::collections::BTreeMap;
use std::fmt;
use std::sync::OnceLock;

/// The 3×3 weights in 27ths, oldest first, where so many values of the run
/// stand before and after.
pub fn three_by_three(before: usize, after: usize) -> Vec<i128> {
    match (before.min(2), after.min(2)) {
        (2, 2) => vec![3, 6, 9, 6, 3],
        (2, 1) => vec![3, 7, 10, 7],
        (2, 0) => vec![5, 11, 11],
        (1, 2) | (0, 2) => mirrored(three_by_three(after, before)),
        _ => panic!("the run is too short for a 3×3 row"),
    }
}

/// The 3×5 weights in 60ths, oldest first.
pub fn three_by_five(before: usize, after: usize) -> Vec<i128> {
    match (before.min(3), after.min(3)) {
        (3, 3) => vec![4, 8, 12, 12, 12, 8, 4],
        (3, 2) => vec![4, 8, 13, 13, 13, 9],
        (3, 1) => vec![4, 11, 15, 15, 15],
        (3, 0) => vec![9, 17, 17, 17],
        (2, 3) | (1, 3) | (0, 3) => mirrored(three_by_five(after, before)),
        _ => panic!("the run is too short for a 3×5 row"),
    }
}

fn mirrored(mut row: Vec<i128>) -> Vec<i128> {
    row.reverse();
    row
}

/// The full 3×9 row in 27ths.
pub const FULL_THREE_BY_NINE: [i128; 11] = [1, 2, 3, 3, 3, 3, 3, 3, 3, 2, 1];

/// The exact 3×9 weights, oldest first: those of missing places, on either
/// side, are shared equally among the places present.
pub fn three_by_nine_exact(before: usize, after: usize) -> Vec<Fraction> {
    let (before, after) = (before.min(5), after.min(5));
    assert!(before + after >= 5, "the run is too short for a 3×9 row");
    let full = FULL_THREE_BY_NINE.map(|weight| Fraction::new(weight, 27));
    let present = 5 - before..=5 + after;
    let mut missing = Fraction::whole(0);
    for (place, weight) in full.iter().enumerate() {
        if !present.contains(&place) {
            missing = missing.plus(weight);
        }
    }
    let share = missing.over(&Fraction::whole((before + after + 1) as i128));
    full[present].iter().map(|weight| weight.plus(&share)).collect()
}

/// The 3×9 row over 27 times the places present, or over 27 where none is
/// missing.
fn worked_three_by_nine(before: usize, after: usize) -> SeasonalRow {
    let exact = three_by_nine_exact(before, after);
    let many = exact.len() as i128;
    let divisor = if exact.len() == FULL_THREE_BY_NINE.len() { 27 } else { 27 * many };
    SeasonalRow { weights: whole_over(&exact, divisor), divisor }
}

/// The same, each row worked out once.
pub fn three_by_nine(before: usize, after: usize) -> SeasonalRow {
    static ROWS: OnceLock<BTreeMap<(usize, usize), SeasonalRow>> = OnceLock::new();
    let worked = |(before, after)| ((before, after), worked_three_by_nine(before, after));
    let all = ROWS.get_or_init(|| ThreeByNine.counts().into_iter().map(worked).collect());
    all.get(&(before.min(5), after.min(5))).expect("a run of six values or more").clone()
}

/// A row of a seasonal filter, oldest weight first.
#[derive(Clone, Debug, PartialEq, Eq)]
pub struct SeasonalRow {
    pub weights: Vec<i128>,
    pub divisor: i128,
}

/// The seasonal filters over a month's run.
#[derive(Clone, Copy, Debug, PartialEq, Eq, PartialOrd, Ord)]
pub enum SeasonalFilter {
    ThreeByThree,
    ThreeByFive,
    ThreeByNine,
}

pub use SeasonalFilter::{ThreeByFive, ThreeByNine, ThreeByThree};

pub const SEASONAL_FILTERS: [SeasonalFilter; 3] = [ThreeByThree, ThreeByFive, ThreeByNine];

impl SeasonalFilter {
    /// How many values it takes on each side.
    pub fn reach(self) -> usize {
        match self {
            ThreeByThree => 2,
            ThreeByFive => 3,
            ThreeByNine => 5,
        }
    }

    /// The row where so many values of the run stand before and after.
    pub fn row(self, before: usize, after: usize) -> SeasonalRow {
        match self {
            ThreeByThree => SeasonalRow { weights: three_by_three(before, after), divisor: 27 },
            ThreeByFive => SeasonalRow { weights: three_by_five(before, after), divisor: 60 },
            ThreeByNine => three_by_nine(before, after),
        }
    }

    /// The pairs of counts, before and after, that its rows are for: first
    /// the full row, then those with fewer after, then those with fewer before
    /// and with fewer on both sides.
    pub fn counts(self) -> Vec<(usize, usize)> {
        let reach = self.reach();
        // 3×3 and 3×5 are never short on both sides; a run of 3×9 has 6
        // values or more.
        let fewest = if self == ThreeByNine { 5 } else { reach };
        let mut list = Vec::new();
        for before in (0..=reach).rev() {
            for after in (0..=reach).rev() {
                let one_side = before == reach || after == reach;
                if before + after >= fewest && (one_side || self == ThreeByNine) {
                    list.push((before, after));
                }
            }
        }
        list
    }
}

impl fmt::Display for SeasonalFilter {
    fn fmt(&self, out: &mut fmt::Formatter<'_>) -> fmt::Result {
        out.write_str(match self {
            ThreeByThree => "3x3",
            ThreeByFive => "3x5",
            ThreeByNine => "3x9",
        })
    }
}

/// The lengths of the Henderson filter that the final trend can have.
pub const LENGTHS: [usize; 3] = [9, 13, 23];

/// The length for the second trend T2 of every pass.
pub const T2_TERMS: usize = 13;

/// The divisor of the end rows, and of the middle row of 23 terms.
pub const MILLION: i128 = 1_000_000;

/// Musgrave's ratio D, which the paper fixes as a fraction for each length.
pub fn musgrave_ratio(terms: usize) -> Fraction {
    match terms {
        9 => Fraction::new(12_732, 10_000),
        13 => Fraction::new(1_039, 10_000),
        23 => Fraction::new(629, 10_000),
        _ => panic!("no length of the Henderson filter"),
    }
}

/// The divisor of the middle row.
fn middle_divisor(terms: usize) -> i128 {
    match terms {
        9 => 2_431,
        13 => 16_796,
        23 => MILLION,
        _ => panic!("no length of the Henderson filter"),
    }
}

/// The Henderson weights by the closed formula, with the factor n²-1 below,
/// n being two more than the terms on one side.
pub fn henderson_by_formula(terms: usize) -> Vec<Fraction> {
    let side = (terms / 2) as i128;
    let n = side + 2;
    let mut weights = Vec::new();
    for i in -side..=side {
        let above = 315
            * ((n - 1) * (n - 1) - i * i)
            * (n * n - i * i)
            * ((n + 1) * (n + 1) - i * i)
            * (3 * n * n - 16 - 11 * i * i);
        let below = 8 * n * (n * n - 1) * (4 * n * n - 1) * (4 * n * n - 9) * (4 * n * n - 25);
        weights.push(Fraction::new(above, below));
    }
    weights
}

/// Musgrave's weights for the end of the series where f values follow the
/// present month, oldest first, from a whole row and a ratio D.
pub fn musgrave(whole: &[Fraction], d: &Fraction, f: usize) -> Vec<Fraction> {
    let many = whole.len() as i128;
    let m = many / 2 + 1 + f as i128;
    assert!(m < many, "the middle row serves here");
    let middle = Fraction::new(m + 1, 2);

    // The weights that fall away, plainly and by their distance from the middle.
    let mut lost = Fraction::whole(0);
    let mut lost_moment = Fraction::whole(0);
    for i in (m + 1)..=many {
        let weight = &whole[(i - 1) as usize];
        lost = lost.plus(weight);
        lost_moment = lost_moment.plus(&Fraction::whole(i).less(&middle).times(weight));
    }

    let below = Fraction::whole(1).plus(&Fraction::new(m * (m - 1) * (m + 1), 12).times(d));
    let mut row = Vec::new();
    for j in 1..=m {
        let level = lost.over(&Fraction::whole(m));
        let slope = Fraction::whole(j).less(&middle).times(d).over(&below).times(&lost_moment);
        row.push(whole[(j - 1) as usize].plus(&level).plus(&slope));
    }
    row
}

/// The exact end weights of a length, from its exact weights.
pub fn musgrave_exact(terms: usize, f: usize) -> Vec<Fraction> {
    musgrave(&henderson_by_formula(terms), &musgrave_ratio(terms), f)
}

/// A row in millionths: every weight but that of the present month is
/// rounded, a half away from zero, and the present month's makes up the
/// million.
pub fn in_millionths(exact: &[Fraction], present: usize) -> Vec<i128> {
    let mut row = Vec::new();
    for weight in exact {
        let millionths = weight.times(&Fraction::whole(MILLION));
        row.push(millionths.nearest_away().to_i128().expect("a small number"));
    }
    row[present] = 0;
    row[present] = MILLION - row.iter().sum::<i128>();
    row
}

/// A row whose weights are whole numbers over the divisor.
fn whole_over(exact: &[Fraction], divisor: i128) -> Vec<i128> {
    let mut row = Vec::new();
    for weight in exact {
        let scaled = weight.times(&Fraction::whole(divisor));
        assert_eq!(scaled.lower(), &Whole::from(1), "the weight is no whole number over {divisor}");
        row.push(scaled.upper().to_i128().expect("a small number"));
    }
    row
}

/// All rows of one length of the Henderson filter.
pub struct HendersonRows {
    pub terms: usize,
    /// The middle row, whole numbers over its divisor.
    pub middle: Vec<i128>,
    pub divisor: i128,
    /// The end rows in millionths, by the number of values that follow.
    pub ends: Vec<Vec<i128>>,
}

impl HendersonRows {
    fn worked(terms: usize) -> HendersonRows {
        // The present month's place in the middle row and in every end row.
        let side = terms / 2;
        let exact = henderson_by_formula(terms);
        let divisor = middle_divisor(terms);
        let middle = if divisor == MILLION { in_millionths(&exact, side) } else { whole_over(&exact, divisor) };
        let ends = (0..side).map(|f| in_millionths(&musgrave_exact(terms, f), side)).collect();
        HendersonRows { terms, middle, divisor, ends }
    }
}

/// The rows of a length, worked out once.
pub fn henderson_rows(terms: usize) -> &'static HendersonRows {
    static ROWS: OnceLock<Vec<HendersonRows>> = OnceLock::new();
    let all = ROWS.get_or_init(|| LENGTHS.into_iter().map(HendersonRows::worked).collect());
    all.iter().find(|rows| rows.terms == terms).expect("a length of the Henderson filter")
}

/// The middle row of 13 terms.
pub fn henderson_centre() -> &'static [i128] {
    &henderson_rows(T2_TERMS).middle
}

/// The end row of 13 terms where f values follow.
pub fn musgrave_millionths(f: usize) -> &'static [i128] {
    &henderson_rows(T2_TERMS).ends[f]
}

/// A Henderson row ready for use at one month of a series.
pub struct HendersonRow {
    /// Place of the month that the first weight belongs to.
    pub first: usize,
    pub weights: Vec<i128>,
    pub divisor: i128,
}

/// The Henderson row of a length for month t of n months.
pub fn henderson_at(terms: usize, t: usize, n: usize) -> HendersonRow {
    assert!(t < n && n >= terms);
    let rows = henderson_rows(terms);
    let side = terms / 2;
    let before = t;
    let after = n - 1 - t;
    if before >= side && after >= side {
        HendersonRow { first: t - side, weights: rows.middle.clone(), divisor: rows.divisor }
    } else if after < side {
        HendersonRow { first: t - side, weights: rows.ends[after].clone(), divisor: MILLION }
    } else {
        HendersonRow { first: 0, weights: mirrored(rows.ends[before].clone()), divisor: MILLION }
    }
}

#[cfg(test)]
mod tests {
    use super::*;

    #[test]
    fn henderson_weights_are_those_of_the_paper() {
        assert_eq!(
            henderson_centre(),
            &[-325, -468, 0, 1100, 2475, 3600, 4032, 3600, 2475, 1100, 0, -468, -325]
        );
        assert_eq!(henderson_rows(9).middle, [-99, -24, 288, 648, 805, 648, 288, -24, -99]);
        for terms in LENGTHS {
            let rows = henderson_rows(terms);
            assert_eq!((rows.middle.len(), rows.ends.len()), (terms, terms / 2));
            assert_eq!(rows.middle.iter().sum::<i128>(), rows.divisor);
        }
    }

    #[test]
    fn with_the_factor_as_printed_in_003_the_sum_is_not_one() {
        // 003 prints (n-1)² where n²-1 belongs: the sum comes out (n+1)/(n-1),
        // 63/49 for 13 terms.
        for (terms, n) in [(9, 6), (13, 8), (23, 13)] {
            let factor = Fraction::new(n * n - 1, (n - 1) * (n - 1));
            let mut sum = Fraction::whole(0);
            for weight in henderson_by_formula(terms) {
                sum = sum.plus(&weight.times(&factor));
            }
            assert_eq!(sum, Fraction::new(n + 1, n - 1));
        }
    }

    #[test]
    fn seasonal_rows_sum_to_one() {
        for (before, after) in [(0, 2), (1, 2), (2, 2), (2, 1), (2, 0), (9, 9)] {
            assert_eq!(three_by_three(before, after).iter().sum::<i128>(), 27);
            assert_eq!(three_by_three(before, after).len(), 1 + before.min(2) + after.min(2));
        }
        for (before, after) in [(0, 3), (1, 3), (2, 3), (3, 3), (3, 2), (3, 1), (3, 0), (9, 9)] {
            assert_eq!(three_by_five(before, after).iter().sum::<i128>(), 60);
            assert_eq!(three_by_five(before, after).len(), 1 + before.min(3) + after.min(3));
        }
    }

    #[test]
    fn rows_for_every_pair_of_counts() {
        assert_eq!(ThreeByThree.counts(), [(2, 2), (2, 1), (2, 0), (1, 2), (0, 2)]);
        assert_eq!(ThreeByFive.counts(), [(3, 3), (3, 2), (3, 1), (3, 0), (2, 3), (1, 3), (0, 3)]);
        assert_eq!(ThreeByNine.counts().len(), 21);
        for filter in SEASONAL_FILTERS {
            for (before, after) in filter.counts() {
                let row = filter.row(before, after);
                assert_eq!(row.weights.len(), before + after + 1, "{filter} {before} {after}");
                assert_eq!(row.weights.iter().sum::<i128>(), row.divisor, "{filter} {before} {after}");
            }
        }
    }

    #[test]
    fn symmetric_seasonal_rows_are_means_of_means() {
        let convolve = |a: &[i128], b: &[i128]| {
            let mut out = vec![0; a.len() + b.len() - 1];
            for (i, x) in a.iter().enumerate() {
                for (j, y) in b.iter().enumerate() {
                    out[i + j] += x * y;
                }
            }
            out
        };
        let three_three: Vec<i128> = convolve(&[1; 3], &[1; 3]).iter().map(|w| w * 3).collect();
        assert_eq!(three_by_three(2, 2), three_three);
        let three_five: Vec<i128> = convolve(&[1; 3], &[1; 5]).iter().map(|w| w * 4).collect();
        assert_eq!(three_by_five(3, 3), three_five);
        assert_eq!(three_by_nine(5, 5), SeasonalRow { weights: convolve(&[1; 3], &[1; 9]), divisor: 27 });
    }

    #[test]
    fn end_rows_sum_to_one_exactly_and_in_millionths() {
        for terms in LENGTHS {
            for (f, row) in henderson_rows(terms).ends.iter().enumerate() {
                let exact = musgrave_exact(terms, f);
                assert_eq!((exact.len(), row.len()), (terms / 2 + 1 + f, terms / 2 + 1 + f));
                let mut sum = Fraction::whole(0);
                for weight in &exact {
                    sum = sum.plus(weight);
                }
                assert_eq!(sum, Fraction::whole(1));
                assert_eq!(row.iter().sum::<i128>(), MILLION);
            }
        }
    }

    /// 4/(π·r²) to four places, r being 1, 3.5 and 4.5.
    #[test]
    fn the_signal_to_noise_fractions() {
        for (terms, r) in [(9, 1.0), (13, 3.5), (23, 4.5)] {
            let d = 4.0 / (std::f64::consts::PI * r * r);
            assert_eq!(Fraction::new((d * 10_000.0f64).round() as i128, 10_000), musgrave_ratio(terms));
        }
    }

    #[test]
    fn rows_at_the_ends_cover_the_right_months() {
        let n = 72;
        for terms in LENGTHS {
            let side = terms / 2;
            for t in 0..n {
                let row = henderson_at(terms, t, n);
                assert_eq!(row.first, t.saturating_sub(side));
                assert_eq!(row.first + row.weights.len() - 1, (t + side).min(n - 1));
                let mut turned = henderson_at(terms, n - 1 - t, n).weights;
                turned.reverse();
                assert_eq!(row.weights, turned);
            }
        }
    }
}
