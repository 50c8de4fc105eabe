//! The exact working: the same steps with every value kept as a fraction.
//! It is given the original series and the corrected series in grains and
//! calls none of the rounded steps.

use crate::calendar::{labels, run};
use crate::fraction::Fraction;
use crate::rows::{henderson_at, SeasonalFilter, ThreeByFive, ThreeByThree, T2_TERMS};
use std::cmp::Ordering;
use std::collections::BTreeMap;

/// A table of fractions by month.
type ByMonth = BTreeMap<usize, Fraction>;

fn from_grains(grains: &[i64]) -> ByMonth {
    grains.iter().enumerate().map(|(t, &g)| (t, Fraction::whole(i128::from(g)))).collect()
}

fn difference(a: &ByMonth, b: &ByMonth) -> ByMonth {
    let mut out = ByMonth::new();
    for (t, left) in a {
        if let Some(right) = b.get(t) {
            out.insert(*t, left.less(right));
        }
    }
    out
}

/// 2×12 wherever the table has the six months before and the six after.
fn two_by_twelve(table: &ByMonth) -> ByMonth {
    let mut out = ByMonth::new();
    for &t in table.keys() {
        if t < 6 {
            continue;
        }
        let mut terms = Vec::new();
        for s in t - 6..=t + 6 {
            if let Some(value) = table.get(&s) {
                let weight = if s + 6 == t || s == t + 6 { 1 } else { 2 };
                terms.push((weight, value));
            }
        }
        if terms.len() == 13 {
            out.insert(t, Fraction::weighted_sum(&terms, 24));
        }
    }
    out
}

fn over_runs(table: &ByMonth, filter: SeasonalFilter) -> ByMonth {
    let mut out = ByMonth::new();
    let (Some(&first), Some(&last)) = (table.keys().next(), table.keys().next_back()) else {
        return out;
    };
    let labels = labels(1, last + 1);
    for month in 1..=12 {
        let places = run(&labels, month, first, last);
        for (index, &t) in places.iter().enumerate() {
            let from = index.saturating_sub(filter.reach());
            let to = (index + filter.reach()).min(places.len() - 1);
            let row = filter.row(index - from, to - index);
            let terms: Vec<(i128, &Fraction)> =
                row.weights.iter().copied().zip(places[from..=to].iter().map(|s| &table[s])).collect();
            assert_eq!(terms.len(), row.weights.len());
            out.insert(t, Fraction::weighted_sum(&terms, row.divisor));
        }
    }
    out
}

fn henderson(table: &ByMonth, terms: usize) -> ByMonth {
    let n = table.len();
    let mut out = ByMonth::new();
    for t in 0..n {
        let row = henderson_at(terms, t, n);
        let terms: Vec<(i128, &Fraction)> =
            row.weights.iter().enumerate().map(|(index, &weight)| (weight, &table[&(row.first + index)])).collect();
        out.insert(t, Fraction::weighted_sum(&terms, row.divisor));
    }
    out
}

/// The exact second trend and seasonal of one pass.
#[derive(Clone, Debug)]
pub struct ExactPass {
    pub t2: Vec<Fraction>,
    pub s2: Vec<Fraction>,
}

/// The values of other months: at each month from first to last that of its
/// source.
fn lent(table: &ByMonth, first: usize, last: usize, source: impl Fn(usize) -> usize) -> ByMonth {
    (first..=last).map(|t| (t, table[&source(t)].clone())).collect()
}

fn listed(table: ByMonth) -> Vec<Fraction> {
    table.into_values().collect()
}

/// The exact pass with 3×5 in step 6.
pub fn exact_pass(series: &[i64]) -> ExactPass {
    exact_pass_with(series, ThreeByFive)
}

/// The same with another filter in step 6.
pub fn exact_pass_with(series: &[i64], filter: SeasonalFilter) -> ExactPass {
    let n = series.len();
    assert!(n >= 72);
    let x = from_grains(series);

    let t1 = two_by_twelve(&x);
    let si1 = difference(&x, &t1);
    let r1 = over_runs(&si1, ThreeByThree);

    let m1 = lent(&two_by_twelve(&r1), 6, n - 7, |t| t.clamp(12, n - 13));
    let s1 = lent(&difference(&r1, &m1), 0, n - 1, |t| {
        if t < 6 {
            t + 12
        } else if t > n - 7 {
            t - 12
        } else {
            t
        }
    });

    let a1 = difference(&x, &s1);
    let t2 = henderson(&a1, T2_TERMS);
    let si2 = difference(&x, &t2);
    let r2 = over_runs(&si2, filter);

    let m2 = lent(&two_by_twelve(&r2), 0, n - 1, |t| t.clamp(6, n - 7));
    let s2 = difference(&r2, &m2);
    assert_eq!((t2.len(), s2.len()), (n, n));
    ExactPass { t2: listed(t2), s2: listed(s2) }
}

/// E10 to E13, in grains.
#[derive(Clone, Debug)]
pub struct ExactTables {
    pub e10: Vec<Fraction>,
    pub e11: Vec<Fraction>,
    pub e12: Vec<Fraction>,
    pub e13: Vec<Fraction>,
}

/// The exact working of the original series B1 and the corrected series D1,
/// with the filter of step 6 and the terms of the final trend.
pub fn exact_working(b1: &[i64], d1: &[i64], filter: SeasonalFilter, terms: usize) -> ExactTables {
    assert_eq!(b1.len(), d1.len());
    let e10: ByMonth = exact_pass_with(d1, filter).s2.into_iter().enumerate().collect();
    let e11 = difference(&from_grains(b1), &e10);
    let e12 = henderson(&difference(&from_grains(d1), &e10), terms);
    let e13 = difference(&e11, &e12);
    ExactTables { e10: listed(e10), e11: listed(e11), e12: listed(e12), e13: listed(e13) }
}

/// The greatest distance between a rounded and an exact table, and the first
/// month where it is reached.
#[derive(Clone, Debug)]
pub struct Distance {
    pub greatest: Fraction,
    pub place: usize,
}

impl Distance {
    pub fn is_within(&self, grains: i128) -> bool {
        self.greatest.compare(&Fraction::whole(grains)) != Ordering::Greater
    }
}

pub fn distance(rounded: &[i64], exact: &[Fraction]) -> Distance {
    assert_eq!(rounded.len(), exact.len());
    let mut found = Distance { greatest: Fraction::whole(0), place: 0 };
    for (t, (&grains, fraction)) in rounded.iter().zip(exact).enumerate() {
        let size = Fraction::whole(i128::from(grains)).less(fraction).size();
        if size.compare(&found.greatest) == Ordering::Greater {
            found = Distance { greatest: size, place: t };
        }
    }
    found
}

/// How far a table may lie from its exact working, in grains: in a pass that
/// replaces nothing, in pass B, and of the results.
pub const PASS_LIMITS: [(&str, i128); 2] = [("T2", 4), ("S2", 10)];
pub const PASS_B_LIMITS: [(&str, i128); 2] = [("T2", 6), ("S2", 13)];
pub const RESULT_LIMITS: [(&str, i128); 4] = [("D10", 10), ("D11", 10), ("D12", 15), ("D13", 25)];

/// The four distances of D10 to D13 from E10 to E13.
#[derive(Clone, Debug)]
pub struct FourDistances {
    pub d10: Distance,
    pub d11: Distance,
    pub d12: Distance,
    pub d13: Distance,
}

impl FourDistances {
    pub fn measure(d10: &[i64], d11: &[i64], d12: &[i64], d13: &[i64], exact: &ExactTables) -> FourDistances {
        FourDistances {
            d10: distance(d10, &exact.e10),
            d11: distance(d11, &exact.e11),
            d12: distance(d12, &exact.e12),
            d13: distance(d13, &exact.e13),
        }
    }

    /// The four distances with their limits.
    pub fn with_limits(&self) -> [(&'static str, &Distance, i128); 4] {
        let mut found = [&self.d10, &self.d11, &self.d12, &self.d13].into_iter();
        RESULT_LIMITS.map(|(name, limit)| (name, found.next().expect("four distances"), limit))
    }

    pub fn are_within_limits(&self) -> bool {
        self.with_limits().into_iter().all(|(_, distance, limit)| distance.is_within(limit))
    }
}
