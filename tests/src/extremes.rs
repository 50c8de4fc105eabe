//! The extreme values of a seasonal-irregular table in pass B: their weights,
//! their neighbours and what replaces them.  SI1 gives the tables B4 of the
//! book, SI2 its tables B9.

use crate::calendar::{labels_of_part, run, Label};
use crate::exact_b::Held;
use crate::pass::{seasonal, Fractions, Placed, Seasonal};
use crate::rows::SeasonalFilter;
use crate::spread::weights;

pub const FULL_WEIGHT: u16 = 1000;

/// One value of a month's run, with its calendar year and its weight.
#[derive(Clone, Copy, Debug, PartialEq, Eq)]
pub struct RunValue {
    pub year: usize,
    pub value: i64,
    pub weight: u16,
}

/// The neighbours of a value, by their places in the run, oldest first: the
/// two nearest of full weight on each side, or, where a side has fewer, the
/// three nearest of full weight on either side.
pub fn neighbours(run: &[RunValue], own: usize) -> Vec<usize> {
    let full = |places: std::ops::Range<usize>| -> Vec<usize> {
        places.filter(|&place| run[place].weight == FULL_WEIGHT).collect()
    };
    let earlier = full(0..own);
    let later = full(own + 1..run.len());
    if earlier.len() >= 2 && later.len() >= 2 {
        return [&earlier[earlier.len() - 2..], &later[..2]].concat();
    }
    let mut nearest = [earlier, later].concat();
    // The sort keeps the order of equals, so that the earlier comes first.
    nearest.sort_by_key(|&place| run[place].year.abs_diff(run[own].year));
    nearest.truncate(3);
    nearest.sort();
    nearest
}

/// What stands for a value of a run: the mean of the value at its weight and
/// of its neighbours at full weight, as a fraction.  A value of full weight
/// and one without neighbours stay.
#[derive(Clone, Debug, PartialEq, Eq)]
pub struct Replacement {
    pub neighbours: Vec<usize>,
    pub mean: (i128, i128),
}

pub fn replacement(run: &[RunValue], own: usize) -> Replacement {
    let RunValue { value, weight, .. } = run[own];
    let neighbours = if weight == FULL_WEIGHT { Vec::new() } else { neighbours(run, own) };
    if neighbours.is_empty() {
        return Replacement { neighbours, mean: (i128::from(value), 1) };
    }
    let mut sum = i128::from(weight) * i128::from(value);
    let mut weights = i128::from(weight);
    for &place in &neighbours {
        sum += i128::from(FULL_WEIGHT) * i128::from(run[place].value);
        weights += i128::from(FULL_WEIGHT);
    }
    Replacement { neighbours, mean: (sum, weights) }
}

/// Every value of a run, from the values as they were.
pub fn replaced_run(run: &[RunValue]) -> Vec<Replacement> {
    (0..run.len()).map(|own| replacement(run, own)).collect()
}

/// The working of one table's extreme values, with the letters that the
/// book gives its tables.
#[derive(Clone, Debug, PartialEq, Eq)]
pub struct Extremes {
    /// A first seasonal (a, b, c).
    pub seasonal: Seasonal,
    /// The table less that seasonal (d).
    pub irregular: Placed,
    /// The weights of the irregular in thousandths (f).
    pub weights: Vec<u16>,
    /// The months that are each replaced month's neighbours, oldest first;
    /// nothing for a value that stays.
    pub neighbours: Vec<Vec<usize>>,
    /// The table with its extreme values replaced (g).
    pub replaced: Placed,
    /// How many means fell exactly on a half.
    pub halves: usize,
}

impl Extremes {
    /// Works a table's extreme values, with the labels of the whole series.
    /// The years of the weights are those of the months that the table has.
    pub fn of(si: &Placed, filter: SeasonalFilter, labels: &[Label]) -> Extremes {
        let seasonal = seasonal(si, filter);
        let irregular = si.less(&seasonal.s);
        let labels = labels_of_part(labels, si.first, si.last());
        let weights = weights(&irregular.values, &labels);

        let mut means = Fractions { first: si.first, values: vec![(0, 1); labels.len()] };
        let mut months = vec![Vec::new(); labels.len()];
        for month in 1..=12 {
            let places = run(&labels, month, 0, labels.len() - 1);
            let values: Vec<RunValue> = places
                .iter()
                .map(|&p| RunValue { year: labels[p].year, value: si.values[p], weight: weights[p] })
                .collect();
            for (&place, found) in places.iter().zip(replaced_run(&values)) {
                means.values[place] = found.mean;
                months[place] = found.neighbours.iter().map(|&index| si.first + places[index]).collect();
            }
        }
        let replaced = means.rounded();
        Extremes { seasonal, irregular, weights, neighbours: months, replaced, halves: means.halves() }
    }

    /// The weight of month t of the series.
    pub fn weight_at(&self, t: usize) -> u16 {
        self.weights[t - self.irregular.first]
    }

    /// The weights and neighbours alone, for the exact working.
    pub fn held(&self) -> Held {
        let mut held = Held::new();
        for (index, months) in self.neighbours.iter().enumerate() {
            if !months.is_empty() {
                held.insert(self.irregular.first + index, (self.weights[index], months.clone()));
            }
        }
        held
    }
}
