//! Every month of a series gets a label: its calendar year and its month.
//! Runs and groups are collected by looking at the labels.

use std::collections::BTreeMap;

#[derive(Clone, Copy, Debug, PartialEq, Eq)]
pub struct Label {
    /// The first calendar year that the series touches is year 0.
    pub year: usize,
    /// 1 for January to 12 for December.
    pub month: u8,
}

/// Labels the months one after the other, as on a wall calendar: after
/// December comes January of the next year.
pub fn labels(start: u8, n: usize) -> Vec<Label> {
    assert!((1..=12).contains(&start), "no such month");
    let mut list = Vec::with_capacity(n);
    let mut now = Label { year: 0, month: start };
    for _ in 0..n {
        list.push(now);
        now = if now.month == 12 {
            Label { year: now.year + 1, month: 1 }
        } else {
            Label { year: now.year, month: now.month + 1 }
        };
    }
    list
}

/// The labels of the months first to last as a series of their own: the
/// first calendar year that they touch is year 0.
pub fn labels_of_part(labels: &[Label], first: usize, last: usize) -> Vec<Label> {
    let part = &labels[first..=last];
    part.iter().map(|label| Label { year: label.year - part[0].year, month: label.month }).collect()
}

/// The places of one month, oldest first, among the places first to last.
pub fn run(labels: &[Label], month: u8, first: usize, last: usize) -> Vec<usize> {
    let mut places = Vec::new();
    for (t, label) in labels.iter().enumerate() {
        if label.month == month && t >= first && t <= last {
            places.push(t);
        }
    }
    places
}

/// The places of the series in each calendar year, by year.
pub fn by_year(labels: &[Label]) -> BTreeMap<usize, Vec<usize>> {
    let mut years: BTreeMap<usize, Vec<usize>> = BTreeMap::new();
    for (t, label) in labels.iter().enumerate() {
        years.entry(label.year).or_default().push(t);
    }
    years
}

/// The year whose group a year uses: its own, but the first two years use
/// that of the third and the last two that of the third from the end.
pub fn year_of_the_group(labels: &[Label], year: usize) -> usize {
    let years: Vec<usize> = by_year(labels).keys().copied().collect();
    assert!(years.len() >= 5, "fewer than five calendar years");
    let third = years[2];
    let third_from_the_end = years[years.len() - 3];
    if year < third {
        third
    } else if year > third_from_the_end {
        third_from_the_end
    } else {
        year
    }
}

/// The months the series has in a year, the two before and the two after.
pub fn group(labels: &[Label], centre: usize) -> Vec<usize> {
    let mut places = Vec::new();
    for (t, label) in labels.iter().enumerate() {
        if label.year + 2 >= centre && label.year <= centre + 2 {
            places.push(t);
        }
    }
    places
}

#[cfg(test)]
mod tests {
    use super::*;

    #[test]
    fn start_month_10_with_114_months() {
        let labels = labels(10, 114);
        let years = by_year(&labels);
        assert_eq!(years.len(), 11);
        assert_eq!(years[&0], vec![0, 1, 2]);
        assert_eq!(years[&1].len(), 12);
        assert_eq!(years[&10], vec![111, 112, 113]);
        for year in 0..=2 {
            let places = group(&labels, year_of_the_group(&labels, year));
            assert_eq!(places, (0..51).collect::<Vec<usize>>());
        }
        for year in 3..=7 {
            let places = group(&labels, year_of_the_group(&labels, year));
            assert_eq!(places.len(), 60);
            assert_eq!(places[0], 3 + 12 * (year - 3));
        }
        for year in 8..=10 {
            let places = group(&labels, year_of_the_group(&labels, year));
            assert_eq!(places, (63..114).collect::<Vec<usize>>());
        }
    }

    #[test]
    fn six_full_years() {
        let labels = labels(1, 72);
        assert_eq!(by_year(&labels).len(), 6);
        for year in 0..=2 {
            assert_eq!(group(&labels, year_of_the_group(&labels, year)), (0..60).collect::<Vec<usize>>());
        }
        for year in 3..=5 {
            assert_eq!(group(&labels, year_of_the_group(&labels, year)), (12..72).collect::<Vec<usize>>());
        }
    }

    #[test]
    fn seventy_two_months_from_december_touch_seven_years() {
        let labels = labels(12, 72);
        let years = by_year(&labels);
        assert_eq!(years.len(), 7);
        assert_eq!(years[&0].len(), 1);
        assert_eq!(years[&6].len(), 11);
        assert_eq!(group(&labels, 2).len(), 49);
        assert_eq!(group(&labels, 3).len(), 60);
        assert_eq!(group(&labels, 4).len(), 59);
    }

    #[test]
    fn a_part_counts_its_own_years() {
        // From July the seventh month is a January: the series touches
        // seven calendar years, its part without the outer months five full ones.
        let july = labels(7, 72);
        assert_eq!(by_year(&july).len(), 7);
        let part = labels_of_part(&july, 6, 65);
        assert_eq!(part, labels(1, 60));
        for year in 0..5 {
            assert_eq!(year_of_the_group(&part, year), 2);
            assert_eq!(group(&part, 2), (0..60).collect::<Vec<usize>>());
        }
        for start in 1..=12 {
            for n in 72..=84 {
                let whole = labels(start, n);
                let part = labels_of_part(&whole, 6, n - 7);
                assert_eq!(part, labels(whole[6].month, n - 12));
                assert!(by_year(&part).len() >= 5);
                // From July on the series' own year 0 is left behind.
                assert_eq!(whole[6].year, usize::from(start >= 7));
            }
        }
    }

    #[test]
    fn a_run_is_every_twelfth_month() {
        let labels = labels(5, 72);
        for month in 1..=12 {
            let places = run(&labels, month, 6, 65);
            assert_eq!(places.len(), 5);
            for pair in places.windows(2) {
                assert_eq!(pair[1] - pair[0], 12);
            }
        }
        assert_eq!(run(&labels, 5, 0, 71), vec![0, 12, 24, 36, 48, 60]);
        assert_eq!(run(&labels, 4, 0, 71), vec![11, 23, 35, 47, 59, 71]);
    }
}
