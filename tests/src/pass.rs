//! One pass with its steps.  Each filter gives a table of exact fractions,
//! which is then rounded once to whole grains, a half to the even one.

use crate::calendar::{labels, run, Label};
use crate::extremes::Extremes;
use crate::rounding::{is_half, nearest_even};
use crate::rows::{henderson_at, SeasonalFilter, ThreeByFive, ThreeByThree, T2_TERMS};

/// A table of grains that begins at some month of the series.
#[derive(Clone, Debug, PartialEq, Eq)]
pub struct Placed {
    pub first: usize,
    pub values: Vec<i64>,
}

impl Placed {
    pub fn whole_series(values: Vec<i64>) -> Placed {
        Placed { first: 0, values }
    }

    pub fn last(&self) -> usize {
        self.first + self.values.len() - 1
    }

    pub fn at(&self, t: usize) -> i64 {
        assert!(t >= self.first && t <= self.last(), "the table has no such month");
        self.values[t - self.first]
    }

    pub fn less(&self, other: &Placed) -> Placed {
        assert_eq!((self.first, self.values.len()), (other.first, other.values.len()));
        let values = self.values.iter().zip(&other.values).map(|(a, b)| a - b).collect();
        Placed { first: self.first, values }
    }

    /// The months first to last of a longer table.
    pub fn part(&self, first: usize, last: usize) -> Placed {
        Placed { first, values: (first..=last).map(|t| self.at(t)).collect() }
    }
}

/// A table of fractions, each an upper and a lower number.
#[derive(Clone, Debug)]
pub struct Fractions {
    pub first: usize,
    pub values: Vec<(i128, i128)>,
}

impl Fractions {
    /// Each fraction rounded to a grain.
    pub fn rounded(&self) -> Placed {
        let values = self.values.iter().map(|&(upper, lower)| nearest_even(upper, lower)).collect();
        Placed { first: self.first, values }
    }

    /// How many fractions lie exactly half way between two grains.
    pub fn halves(&self) -> usize {
        self.values.iter().filter(|&&(upper, lower)| is_half(upper, lower)).count()
    }
}

/// 2×12: the mean of two neighbouring twelve-month sums, over 24.  Six
/// months are lost at each end.
pub fn two_by_twelve(table: &Placed) -> Fractions {
    let first = table.first + 6;
    let last = table.last() - 6;
    let mut values = Vec::new();
    for t in first..=last {
        let earlier: i128 = (t - 6..=t + 5).map(|s| i128::from(table.at(s))).sum();
        let later: i128 = (t - 5..=t + 6).map(|s| i128::from(table.at(s))).sum();
        values.push((earlier + later, 24));
    }
    Fractions { first, values }
}

/// The end values repeated so that the table covers the months first to last.
pub fn ends_repeated(table: &Placed, first: usize, last: usize) -> Placed {
    let mut values = Vec::new();
    for t in first..=last {
        let nearest_place = t.max(table.first).min(table.last());
        values.push(table.at(nearest_place));
    }
    Placed { first, values }
}

/// A seasonal filter over every month's run of a table.
pub fn over_runs(table: &Placed, filter: SeasonalFilter) -> Fractions {
    // The runs do not depend on which month the series begins with, so any
    // labelling will do.
    let labels = labels(1, table.last() + 1);
    let mut values = vec![(0, 1); table.values.len()];
    for month in 1..=12 {
        let places = run(&labels, month, table.first, table.last());
        for (index, &t) in places.iter().enumerate() {
            let before = index.min(filter.reach());
            let after = (places.len() - 1 - index).min(filter.reach());
            let row = filter.row(before, after);
            let mut sum = 0i128;
            for (weight, &place) in row.weights.iter().zip(&places[index - before..=index + after]) {
                sum += weight * i128::from(table.at(place));
            }
            values[t - table.first] = (sum, row.divisor);
        }
    }
    Fractions { first: table.first, values }
}

/// Henderson of so many terms with its end rows, over all months of a series.
pub fn henderson(series: &[i64], terms: usize) -> Fractions {
    let n = series.len();
    let mut values = Vec::new();
    for t in 0..n {
        let row = henderson_at(terms, t, n);
        let mut sum = 0i128;
        for (index, weight) in row.weights.iter().enumerate() {
            sum += weight * i128::from(series[row.first + index]);
        }
        values.push((sum, row.divisor));
    }
    Fractions { first: 0, values }
}

/// All tables of one pass.
#[derive(Clone, Debug, PartialEq, Eq)]
pub struct Steps {
    pub x: Placed,
    pub t1: Placed,
    pub si1: Placed,
    pub r1: Placed,
    pub m1: Placed,
    pub s1: Placed,
    pub a1: Placed,
    pub t2: Placed,
    pub si2: Placed,
    pub r2: Placed,
    pub m2: Placed,
    pub s2: Placed,
    /// How many sums of T1, R1, M1, T2, R2 and M2 fell exactly on a half.
    pub halves: [usize; 6],
}

impl Steps {
    /// The tables by name, in the order of the steps.
    pub fn by_name(&self) -> Vec<(&'static str, &Placed)> {
        vec![
            ("X", &self.x),
            ("T1", &self.t1),
            ("SI1", &self.si1),
            ("R1", &self.r1),
            ("M1", &self.m1),
            ("S1", &self.s1),
            ("A1", &self.a1),
            ("T2", &self.t2),
            ("SI2", &self.si2),
            ("R2", &self.r2),
            ("M2", &self.m2),
            ("S2", &self.s2),
        ]
    }
}

/// The first trend and what it leaves of the series (steps 1 and 2).
struct FirstTrend {
    t1: Placed,
    si1: Placed,
    halves: usize,
}

fn first_trend(x: &Placed) -> FirstTrend {
    let exact = two_by_twelve(x);
    let t1 = exact.rounded();
    let si1 = x.part(t1.first, t1.last()).less(&t1);
    FirstTrend { t1, si1, halves: exact.halves() }
}

/// A seasonal over the months of the table that it is worked from: the
/// filter of the runs, its 2×12 with the ends repeated, and the difference
/// (steps 3 and 4 without the copying, steps 6 and 7).
#[derive(Clone, Debug, PartialEq, Eq)]
pub struct Seasonal {
    pub r: Placed,
    pub m: Placed,
    pub s: Placed,
    /// How many sums of R and M fell exactly on a half.
    pub halves: [usize; 2],
}

pub fn seasonal(si: &Placed, filter: SeasonalFilter) -> Seasonal {
    let r_exact = over_runs(si, filter);
    let r = r_exact.rounded();
    let m_exact = two_by_twelve(&r);
    let m = ends_repeated(&m_exact.rounded(), si.first, si.last());
    let s = r.less(&m);
    Seasonal { r, m, s, halves: [r_exact.halves(), m_exact.halves()] }
}

/// The first seasonal over all months, the adjusted series, the second
/// trend and what it leaves (the rest of step 4, step 5, the first of 6).
struct SecondTrend {
    s1: Placed,
    a1: Placed,
    t2: Placed,
    si2: Placed,
    halves: usize,
}

fn second_trend(x: &Placed, known: &Placed) -> SecondTrend {
    let n = x.values.len();
    let mut values = Vec::new();
    for t in 0..n {
        // Six months at each end take the value of the year next to them.
        let source = if t < 6 {
            t + 12
        } else if t + 6 >= n {
            t - 12
        } else {
            t
        };
        values.push(known.at(source));
    }
    let s1 = Placed::whole_series(values);
    let a1 = x.less(&s1);
    let exact = henderson(&a1.values, T2_TERMS);
    let t2 = exact.rounded();
    let si2 = x.less(&t2);
    SecondTrend { s1, a1, t2, si2, halves: exact.halves() }
}

fn gathered(x: Placed, one: FirstTrend, early: Seasonal, two: SecondTrend, late: Seasonal) -> Steps {
    let n = x.values.len();
    assert_eq!((one.si1.first, one.si1.last()), (6, n - 7));
    assert_eq!((late.s.first, late.s.last()), (0, n - 1));
    let halves = [one.halves, early.halves[0], early.halves[1], two.halves, late.halves[0], late.halves[1]];
    Steps {
        x,
        t1: one.t1,
        si1: one.si1,
        r1: early.r,
        m1: early.m,
        s1: two.s1,
        a1: two.a1,
        t2: two.t2,
        si2: two.si2,
        r2: late.r,
        m2: late.m,
        s2: late.s,
        halves,
    }
}

fn series_of_a_pass(series: &[i64]) -> Placed {
    assert!(series.len() >= 72, "a pass needs six values of every month");
    Placed::whole_series(series.to_vec())
}

/// One pass over a series of at least 72 grains, as pass C is: no value of
/// SI1 or SI2 is replaced, and step 6 has 3×5.
pub fn pass(series: &[i64]) -> Steps {
    pass_with(series, ThreeByFive)
}

/// The same with another filter in step 6, as pass D is.
pub fn pass_with(series: &[i64], filter: SeasonalFilter) -> Steps {
    let x = series_of_a_pass(series);
    let one = first_trend(&x);
    let early = seasonal(&one.si1, ThreeByThree);
    let two = second_trend(&x, &early.s);
    let late = seasonal(&two.si2, filter);
    gathered(x, one, early, two, late)
}

/// Pass B: its steps, SI1 and SI2 among them as they were, and the working
/// of the extreme values in each (tables B4 and B9).
#[derive(Clone, Debug, PartialEq, Eq)]
pub struct PassB {
    pub steps: Steps,
    pub b4: Extremes,
    pub b9: Extremes,
}

/// Pass B over a series of at least 72 grains, with the labels of its
/// months.  R1 and R2 come from the tables with extreme values replaced.
pub fn pass_b(series: &[i64], labels: &[Label]) -> PassB {
    let x = series_of_a_pass(series);
    let one = first_trend(&x);
    let b4 = Extremes::of(&one.si1, ThreeByThree, labels);
    let early = seasonal(&b4.replaced, ThreeByThree);
    let two = second_trend(&x, &early.s);
    let b9 = Extremes::of(&two.si2, ThreeByFive, labels);
    let late = seasonal(&b9.replaced, ThreeByFive);
    PassB { steps: gathered(x, one, early, two, late), b4, b9 }
}

#[cfg(test)]
mod tests {
    use super::*;

    #[test]
    fn halves_are_counted_and_go_to_the_even_grain() {
        let table = Fractions { first: 0, values: vec![(12, 24), (-12, 24), (36, 24), (24, 24), (13, 24), (-36, 24)] };
        assert_eq!(table.halves(), 4);
        assert_eq!(table.rounded().values, vec![0, 0, 2, 1, 1, -2]);
    }

    #[test]
    fn a_constant_passes_unchanged() {
        let steps = pass(&[100_000; 75]);
        assert_eq!(steps.t2.values, vec![100_000; 75]);
        assert_eq!(steps.s2.values, vec![0; 75]);
    }

    #[test]
    fn a_fixed_seasonal_with_mean_zero_is_found() {
        // Twelve values with sum zero, repeated: 2×12 of it is zero, and all
        // later steps give it back.
        let year = [5000i64, -3000, 800, 0, 12, -12, 700, 1, -1, 2000, -1500, -4000];
        assert_eq!(year.iter().sum::<i64>(), 0);
        for n in 72..=97 {
            let series: Vec<i64> = (0..n).map(|t| 70_000 + year[t % 12]).collect();
            let steps = pass(&series);
            for t in 0..n {
                assert_eq!(steps.t2.at(t), 70_000);
                assert_eq!(steps.s2.at(t), year[t % 12]);
            }
        }
    }
}
