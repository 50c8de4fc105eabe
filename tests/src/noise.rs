//! The length of the final trend, chosen by the noise that pass C shows.

/// The sums of the sizes of month-to-month changes: i of the irregular C13,
/// c of the trend C7.
#[derive(Clone, Copy, Debug, PartialEq, Eq)]
pub struct Noise {
    pub i: u64,
    pub c: u64,
}

/// The sum of the sizes of the changes from month to month within a table.
pub fn sum_of_changes(table: &[i64]) -> u64 {
    table.windows(2).map(|pair| pair[1].abs_diff(pair[0])).sum()
}

impl Noise {
    /// Both months of each change lie in t 6 to n-7.
    pub fn of(c13: &[i64], c7: &[i64]) -> Noise {
        Noise::between(c13, c7, 6, c13.len() - 7)
    }

    /// The same for the months first to last, whichever they are.
    pub fn between(c13: &[i64], c7: &[i64], first: usize, last: usize) -> Noise {
        assert_eq!(c13.len(), c7.len());
        Noise { i: sum_of_changes(&c13[first..=last]), c: sum_of_changes(&c7[first..=last]) }
    }

    /// The terms of the final trend.  The bands of i over c are those of 002:
    /// from 0 to below 1, from 1 to below 3.5, and from 3.5 on.
    pub fn terms(&self) -> usize {
        if self.i == 0 && self.c == 0 {
            13
        } else if self.i < self.c {
            9
        } else if 2 * self.i < 7 * self.c {
            13
        } else {
            23
        }
    }
}

#[cfg(test)]
mod tests {
    use super::*;

    #[test]
    fn bands_by_hand() {
        for (i, c, terms) in [
            (0, 0, 13),
            (0, 1, 9),
            (1, 0, 23),
            (1, 1, 13),
            (1, 2, 9),
            (2, 1, 13),
            (3, 1, 13),
            (4, 1, 23),
            (6, 2, 13),
            (7, 2, 23),
            (8, 2, 23),
            (999, 1_000, 9),
            (1_000, 1_000, 13),
            (3_499, 1_000, 13),
            (3_500, 1_000, 23),
        ] {
            assert_eq!(Noise { i, c }.terms(), terms, "{i} and {c}");
        }
    }

    #[test]
    fn changes_outside_do_not_count() {
        // One step, the change from t-1 to t.
        let n = 72;
        for (t, counts) in [(5, false), (6, false), (7, true), (n - 7, true), (n - 6, false), (n - 5, false)] {
            let step: Vec<i64> = (0..n).map(|s| if s < t { 40 } else { -2 }).collect();
            let noise = Noise::of(&step, &vec![0; n]);
            assert_eq!(noise, Noise { i: if counts { 42 } else { 0 }, c: 0 }, "a step at {t}");
            assert_eq!(Noise::of(&vec![9; n], &step).c, if counts { 42 } else { 0 });
        }
    }
}
