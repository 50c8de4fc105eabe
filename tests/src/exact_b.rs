//! The exact working of pass B with weights and neighbours held: the steps
//! on the series in grains, nothing rounded, none of the rounded steps called.
//!
//! A mean brings a lower number of its own for each weight, and lowest terms
//! would be long work.  So a table here is whole numbers over one lower
//! number, which only grows from step to step.

use crate::calendar::{labels, run};
use crate::rows::{henderson_at, henderson_rows, SeasonalFilter, ThreeByFive, ThreeByThree, MILLION, T2_TERMS};
use crate::whole::Whole;
use std::cmp::Ordering;
use std::collections::BTreeMap;

/// The weight and the neighbours of each replaced month.
pub type Held = BTreeMap<usize, (u16, Vec<usize>)>;

/// A table over one lower number, from some month of the series on.
#[derive(Clone, Debug)]
pub struct OverOne {
    pub first: usize,
    pub uppers: Vec<Whole>,
    pub lower: Whole,
}

/// A row of a filter: months and their weights.
type Row = Vec<(usize, i128)>;

impl OverOne {
    fn from_grains(grains: &[i64]) -> OverOne {
        let uppers = grains.iter().map(|&g| Whole::from(i128::from(g))).collect();
        OverOne { first: 0, uppers, lower: Whole::from(1) }
    }

    fn last(&self) -> usize {
        self.first + self.uppers.len() - 1
    }

    fn at(&self, t: usize) -> &Whole {
        assert!(t >= self.first && t <= self.last(), "the table has no such month");
        &self.uppers[t - self.first]
    }

    fn weighted(&self, row: &Row) -> Whole {
        let mut sum = Whole::zero();
        for &(t, weight) in row {
            sum = sum.plus(&self.at(t).times(&Whole::from(weight)));
        }
        sum
    }

    /// A filter at the months first to last.
    fn filtered(&self, first: usize, last: usize, divisor: i128, row: impl Fn(usize) -> Row) -> OverOne {
        let uppers = (first..=last).map(|t| self.weighted(&row(t))).collect();
        OverOne { first, uppers, lower: self.lower.times(&Whole::from(divisor)) }
    }

    fn two_by_twelve(&self) -> OverOne {
        self.filtered(self.first + 6, self.last() - 6, 24, |t| {
            (t - 6..=t + 6).map(|s| (s, if s.abs_diff(t) == 6 { 1 } else { 2 })).collect()
        })
    }

    fn over_runs(&self, filter: SeasonalFilter) -> OverOne {
        let reach = filter.reach();
        let divisor = filter.row(reach, reach).divisor;
        let labels = labels(1, self.last() + 1);
        self.filtered(self.first, self.last(), divisor, |t| {
            let places = run(&labels, labels[t].month, self.first, self.last());
            let index = places.iter().position(|&place| place == t).expect("a month of its run");
            let from = index.saturating_sub(reach);
            let to = (index + reach).min(places.len() - 1);
            let row = filter.row(index - from, to - index);
            assert_eq!((row.weights.len(), row.divisor), (to - from + 1, divisor));
            places[from..=to].iter().copied().zip(row.weights).collect()
        })
    }

    fn henderson(&self) -> OverOne {
        let n = self.uppers.len();
        // One divisor for the rows of the middle and of the ends.
        let divisor = henderson_rows(T2_TERMS).divisor * MILLION;
        self.filtered(0, n - 1, divisor, |t| {
            let row = henderson_at(T2_TERMS, t, n);
            let scale = divisor / row.divisor;
            row.weights.iter().enumerate().map(|(index, weight)| (row.first + index, weight * scale)).collect()
        })
    }

    /// The values of other months: at each month from first to last that of
    /// its source.
    fn lent(&self, first: usize, last: usize, source: impl Fn(usize) -> usize) -> OverOne {
        let uppers = (first..=last).map(|t| self.at(source(t)).clone()).collect();
        OverOne { first, uppers, lower: self.lower.clone() }
    }

    /// This table less another at the other's months; the other's lower
    /// number is a multiple of this one's.
    fn less(&self, other: &OverOne) -> OverOne {
        let scale = other.lower.shared_out(&self.lower);
        let uppers = (other.first..=other.last()).map(|t| self.at(t).times(&scale).less(other.at(t))).collect();
        OverOne { first: other.first, uppers, lower: other.lower.clone() }
    }

    /// Held months replaced by the mean of the value at its weight and the
    /// neighbours at 1,000 each.
    fn replaced(&self, held: &Held) -> OverOne {
        let weights = |weight: u16, months: &[usize]| i128::from(weight) + 1000 * months.len() as i128;
        let mut common = Whole::from(1);
        for (weight, months) in held.values() {
            let divisor = Whole::from(weights(*weight, months));
            common = common.times(&divisor.shared_out(&common.common_divisor(&divisor)));
        }
        let mut uppers: Vec<Whole> = self.uppers.iter().map(|upper| upper.times(&common)).collect();
        for (&t, (weight, months)) in held {
            let mut row: Row = months.iter().map(|&s| (s, 1000)).collect();
            row.push((t, i128::from(*weight)));
            let scale = common.shared_out(&Whole::from(weights(*weight, months)));
            uppers[t - self.first] = self.weighted(&row).times(&scale);
        }
        OverOne { first: self.first, uppers, lower: self.lower.times(&common) }
    }
}

/// The exact second trend and seasonal of pass B.
#[derive(Clone, Debug)]
pub struct ExactPassB {
    pub t2: OverOne,
    pub s2: OverOne,
}

/// Pass B over a series of grains, with the weights and neighbours of SI1
/// and of SI2.
pub fn exact_pass_b(series: &[i64], of_si1: &Held, of_si2: &Held) -> ExactPassB {
    let n = series.len();
    assert!(n >= 72);
    let x = OverOne::from_grains(series);

    let si1 = x.less(&x.two_by_twelve());
    let r1 = si1.replaced(of_si1).over_runs(ThreeByThree);
    let m1 = r1.two_by_twelve().lent(6, n - 7, |t| t.clamp(12, n - 13));
    let s1 = r1.less(&m1).lent(0, n - 1, |t| {
        if t < 6 {
            t + 12
        } else if t > n - 7 {
            t - 12
        } else {
            t
        }
    });

    let t2 = x.less(&s1).henderson();
    let si2 = x.less(&t2);
    let r2 = si2.replaced(of_si2).over_runs(ThreeByFive);
    let m2 = r2.two_by_twelve().lent(0, n - 1, |t| t.clamp(6, n - 7));
    ExactPassB { t2, s2: r2.less(&m2) }
}

/// The greatest distance of a rounded table from an exact one, as a fraction
/// that need not be in lowest terms, and the first month that has it.
#[derive(Clone, Debug)]
pub struct DistanceB {
    upper: Whole,
    lower: Whole,
    pub place: usize,
}

impl DistanceB {
    pub fn measure(rounded: &[i64], exact: &OverOne) -> DistanceB {
        assert_eq!((exact.first, exact.uppers.len()), (0, rounded.len()));
        let mut found = DistanceB { upper: Whole::zero(), lower: exact.lower.clone(), place: 0 };
        for (t, &grains) in rounded.iter().enumerate() {
            let size = exact.lower.times(&Whole::from(i128::from(grains))).less(exact.at(t)).size();
            if size.compare(&found.upper) == Ordering::Greater {
                found.upper = size;
                found.place = t;
            }
        }
        found
    }

    pub fn is_within(&self, grains: i128) -> bool {
        self.upper.compare(&self.lower.times(&Whole::from(grains))) != Ordering::Greater
    }

    /// In grains, to a millionth below.
    pub fn roughly(&self) -> f64 {
        let (millionths, _) = self.upper.times(&Whole::from(MILLION)).quotient_of_sizes(&self.lower);
        millionths.roughly() / MILLION as f64
    }
}
