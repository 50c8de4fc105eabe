//! The seasonal filter of pass D, chosen by how the irregular and the
//! seasonal of pass C move from year to year; where they leave it open, years
//! at the end are set aside and the question is asked again.

use crate::rows::{SeasonalFilter, ThreeByFive, ThreeByNine, ThreeByThree};

/// How often the question is asked at most.
pub const MOST_QUESTIONS: usize = 6;

/// One question: the months kept, and over them the sums of the sizes of
/// twelve-month changes, i of the irregular C13 and s of the seasonal C10.
#[derive(Clone, Copy, Debug, PartialEq, Eq)]
pub struct Question {
    pub months: usize,
    pub i: u64,
    pub s: u64,
}

/// The sum of the sizes of the changes from each month to that a year later.
pub fn sum_of_yearly_changes(table: &[i64]) -> u64 {
    table.windows(13).map(|year| year[12].abs_diff(year[0])).sum()
}

impl Question {
    /// The question over the first months of the tables of all months.
    pub fn of(c13: &[i64], c10: &[i64], months: usize) -> Question {
        assert_eq!(c13.len(), c10.len());
        let i = sum_of_yearly_changes(&c13[..months]);
        let s = sum_of_yearly_changes(&c10[..months]);
        Question { months, i, s }
    }

    /// The filter by the bands of 002, or nothing where they leave it open:
    /// from 2.5 to 3.5 and from 5.5 to below 6.5.
    pub fn answer(&self) -> Option<SeasonalFilter> {
        let (twice, s) = (2 * self.i, self.s);
        if self.i == 0 && s == 0 {
            Some(ThreeByFive)
        } else if twice < 5 * s {
            Some(ThreeByThree)
        } else if twice >= 13 * s {
            Some(ThreeByNine)
        } else if twice > 7 * s && twice < 11 * s {
            Some(ThreeByFive)
        } else {
            None
        }
    }
}

/// The questions asked: of all months, then each time of twelve fewer, until
/// one has an answer or all are asked.
pub fn questions(c13: &[i64], c10: &[i64]) -> Vec<Question> {
    let mut list: Vec<Question> = Vec::new();
    for set_aside in 0..MOST_QUESTIONS {
        let question = Question::of(c13, c10, c13.len() - 12 * set_aside);
        list.push(question);
        if question.answer().is_some() {
            break;
        }
    }
    list
}

/// The filter: the answer to the last question, 3×5 where it has none.
pub fn chosen(questions: &[Question]) -> SeasonalFilter {
    questions.last().and_then(Question::answer).unwrap_or(ThreeByFive)
}

#[cfg(test)]
mod tests {
    use super::*;

    #[test]
    fn bands_by_hand() {
        let (three, five, nine) = (Some(ThreeByThree), Some(ThreeByFive), Some(ThreeByNine));
        for (i, s, answer) in [
            (0, 0, five),
            (0, 1, three),
            (1, 0, nine),
            (4, 2, three),
            (5, 2, None),
            (6, 2, None),
            (7, 2, None),
            (8, 2, five),
            (10, 2, five),
            (11, 2, None),
            (12, 2, None),
            (13, 2, nine),
            (14, 2, nine),
            (2_499, 1_000, three),
            (2_500, 1_000, None),
            (3_500, 1_000, None),
            (3_501, 1_000, five),
            (5_499, 1_000, five),
            (5_500, 1_000, None),
            (6_499, 1_000, None),
            (6_500, 1_000, nine),
        ] {
            assert_eq!(Question { months: 72, i, s }.answer(), answer, "{i} and {s}");
        }
    }

    #[test]
    fn changes_begin_at_month_12_and_end_with_the_last_kept() {
        // One value that is not zero: it changes from the year before, and to
        // the year after, where these months are kept.
        let n = 84;
        for (t, counts) in [(0, 1), (11, 1), (12, 2), (59, 2), (60, 1), (71, 1), (72, 0), (83, 0)] {
            let mut table = vec![0; n];
            table[t] = -9;
            assert_eq!(Question::of(&table, &vec![5; n], 72), Question { months: 72, i: 9 * counts, s: 0 }, "{t}");
            assert_eq!(Question::of(&vec![5; n], &table, 72).s, 9 * counts, "{t}");
        }
        assert_eq!(sum_of_yearly_changes(&[7; 12]), 0);
    }
}
