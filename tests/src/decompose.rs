//! Decomposing a series: the checks, the three passes and the tables.

use crate::calendar::labels;
use crate::extremes::Extremes;
use crate::noise::Noise;
use crate::pass::{henderson, pass, pass_b, pass_with, PassB, Steps};
use crate::rows::SeasonalFilter;
use crate::seasonality::{chosen, questions, Question};
use crate::spread::{correction, weights};
use std::fmt;

pub const FEWEST_MONTHS: usize = 72;
pub const MOST_MONTHS: usize = 600;
pub const FIGURE_LIMIT: i32 = 200_000;

/// A refusal of the sheet: its number and place (0 where it has none).
#[derive(Clone, Copy, Debug, PartialEq, Eq)]
pub struct Refusal {
    pub number: u8,
    pub place: usize,
}

impl fmt::Display for Refusal {
    fn fmt(&self, out: &mut fmt::Formatter<'_>) -> fmt::Result {
        write!(out, "refused {} {}", self.number, self.place)
    }
}

/// The numbers of the refusal sheet.  6 is retired and not used again.
pub const ROWS: [u8; 13] = [1, 2, 3, 4, 5, 7, 8, 9, 10, 11, 12, 13, 14];

pub fn refuse<T>(number: u8, place: usize) -> Result<T, Refusal> {
    assert!(ROWS.contains(&number), "{number} is no row of the refusal sheet");
    Err(Refusal { number, place })
}

/// Rows 1, 2 and 3 of the sheet.
pub fn check_size_and_start(n: usize, start: u8) -> Result<(), Refusal> {
    if n < FEWEST_MONTHS {
        return refuse(1, 0);
    }
    if n > MOST_MONTHS {
        return refuse(2, 0);
    }
    if !(1..=12).contains(&start) {
        return refuse(3, 0);
    }
    Ok(())
}

/// Row 5 of the sheet.
pub fn check_figures(figures: &[i32]) -> Result<(), Refusal> {
    for (t, &figure) in figures.iter().enumerate() {
        if !(-FIGURE_LIMIT..=FIGURE_LIMIT).contains(&figure) {
            return refuse(5, t);
        }
    }
    Ok(())
}

/// Row 10 of the sheet.
pub fn check_weights(weights: &[u16]) -> Result<(), Refusal> {
    for (t, &weight) in weights.iter().enumerate() {
        if weight > 1000 {
            return refuse(10, t);
        }
    }
    Ok(())
}

/// The entries of scratch that n months ask for.  Success leaves them zero,
/// and the rest of the scratch as it was.
pub fn scratch_for(n: usize) -> usize {
    5 * n
}

/// The lengths of the slices lent to a decomposing program.
#[derive(Clone, Copy, Debug, PartialEq, Eq)]
pub struct Lent {
    pub d10: usize,
    pub d11: usize,
    pub d12: usize,
    pub d13: usize,
    pub b17: usize,
    pub c17: usize,
    pub scratch: usize,
}

impl Lent {
    /// What is just right for n months.
    pub fn right_for(n: usize) -> Lent {
        Lent { d10: n, d11: n, d12: n, d13: n, b17: n, c17: n, scratch: scratch_for(n) }
    }

    fn is_right_for(&self, n: usize) -> bool {
        let exact = [self.d10, self.d11, self.d12, self.d13, self.b17, self.c17];
        exact.iter().all(|&length| length == n) && self.scratch >= scratch_for(n)
    }
}

/// Everything worked out on the way, in grains; weights in thousandths.
#[derive(Clone, Debug, PartialEq, Eq)]
pub struct Tables {
    pub b1: Vec<i64>,
    pub b: Steps,
    /// The extreme values of SI1 and of SI2 in pass B.
    pub b4: Extremes,
    pub b9: Extremes,
    pub b7: Vec<i64>,
    pub b10: Vec<i64>,
    pub b13: Vec<i64>,
    pub b17: Vec<u16>,
    pub b20: Vec<i64>,
    pub c1: Vec<i64>,
    pub c: Steps,
    pub c7: Vec<i64>,
    pub c10: Vec<i64>,
    pub c13: Vec<i64>,
    pub c17: Vec<u16>,
    pub c20: Vec<i64>,
    pub d1: Vec<i64>,
    /// The questions asked of pass C about the seasonal filter of pass D, and
    /// the filter chosen.
    pub questions: Vec<Question>,
    pub seasonal_filter: SeasonalFilter,
    pub d: Steps,
    pub d10: Vec<i64>,
    /// The sums of pass C that choose the length of the final trend, and the
    /// terms they choose.
    pub noise: Noise,
    pub trend_terms: usize,
    pub d11: Vec<i64>,
    pub d12: Vec<i64>,
    pub d13: Vec<i64>,
    /// How many sums of D12 fell exactly on a half.
    pub d12_halves: usize,
}

fn less(a: &[i64], b: &[i64]) -> Vec<i64> {
    assert_eq!(a.len(), b.len());
    a.iter().zip(b).map(|(x, y)| x - y).collect()
}

fn corrections(irregular: &[i64], weights: &[u16]) -> Vec<i64> {
    irregular.iter().zip(weights).map(|(&i, &w)| correction(i, w)).collect()
}

/// Decomposes a series, after the checks 1, 2, 3, 4 and 5 in that order.
pub fn decompose(figures: &[i32], start: u8, lent: &Lent) -> Result<Tables, Refusal> {
    let n = figures.len();
    check_size_and_start(n, start)?;
    if !lent.is_right_for(n) {
        return refuse(4, 0);
    }
    check_figures(figures)?;
    Ok(work(figures, start))
}

fn work(figures: &[i32], start: u8) -> Tables {
    let labels = labels(start, figures.len());
    let b1: Vec<i64> = figures.iter().map(|&figure| i64::from(figure) * 1000).collect();

    let PassB { steps: b, b4, b9 } = pass_b(&b1, &labels);
    let b7 = b.t2.values.clone();
    let b10 = b.s2.values.clone();
    let b13 = less(&less(&b1, &b10), &b7);
    let b17 = weights(&b13, &labels);
    let b20 = corrections(&b13, &b17);
    let c1 = less(&b1, &b20);

    let c = pass(&c1);
    let c7 = c.t2.values.clone();
    let c10 = c.s2.values.clone();
    let c13 = less(&less(&b1, &c10), &c7);
    let c17 = weights(&c13, &labels);
    let c20 = corrections(&c13, &c17);
    let d1 = less(&b1, &c20);

    let questions = questions(&c13, &c10);
    let seasonal_filter = chosen(&questions);
    let d = pass_with(&d1, seasonal_filter);
    let d10 = d.s2.values.clone();
    let d11 = less(&b1, &d10);
    let noise = Noise::of(&c13, &c7);
    let trend_terms = noise.terms();
    let d12_exact = henderson(&less(&d1, &d10), trend_terms);
    let d12_halves = d12_exact.halves();
    let d12 = d12_exact.rounded().values;
    let d13 = less(&d11, &d12);

    Tables {
        b1,
        b,
        b4,
        b9,
        b7,
        b10,
        b13,
        b17,
        b20,
        c1,
        c,
        c7,
        c10,
        c13,
        c17,
        c20,
        d1,
        questions,
        seasonal_filter,
        d,
        d10,
        noise,
        trend_terms,
        d11,
        d12,
        d13,
        d12_halves,
    }
}

/// Decomposing with slices of just the right lengths.
pub fn decompose_fitting(figures: &[i32], start: u8) -> Result<Tables, Refusal> {
    decompose(figures, start, &Lent::right_for(figures.len()))
}
