//! Inputs put together from parts, each of which can make a row of the refusal sheet true; and the answer that the order of the checks asks.

// Each test file takes some of them.
#![allow(dead_code)]

/// What one part of an input can be: each time the row that it makes true, 0 for none, and a value.
pub type Part = &'static [(u8, isize)];

// The orders of the checks. Moving, in both directions, has that of reading by calendar month; of a members' sheet the last three rows are those
// of each cell.
pub const DECOMPOSING: [u8; 5] = [1, 2, 3, 4, 5];
pub const READING: [u8; 9] = [7, 1, 2, 3, 8, 9, 4, 5, 10];
pub const WRITING: [u8; 6] = [1, 2, 3, 4, 5, 10];
pub const READING_COLUMNS: [u8; 10] = [7, 1, 2, 3, 8, 11, 9, 4, 5, 10];
pub const WRITING_COLUMNS: [u8; 7] = [1, 2, 3, 11, 4, 5, 10];
pub const READING_SHEET: [u8; 9] = [7, 1, 2, 3, 9, 4, 12, 13, 14];

pub const COUNT: Part = &[(0, 72), (0, 600), (1, 71), (2, 601)];
pub const PERIOD: Part = &[(0, 12), (8, 4)];
/// How much longer a file is than its count asks.
pub const LENGTH: Part = &[(0, 0), (9, -1), (9, 1)];
/// A slice by how much longer it is than n asks, where it must fit and where it may have a tail.
pub const FITTING: Part = &[(0, 0), (4, -1), (4, 1)];
pub const AT_LEAST: Part = &[(0, 0), (0, 5), (4, -1)];
/// The first value outside the limits, 0 for none.
pub const FIGURES: Part = &[(0, 0), (5, -200_001), (5, 200_001)];
pub const WEIGHTS: Part = &[(0, 0), (10, 1_001), (10, 65_535)];

/// The places of the first bad figure and of the first bad weight, which comes earlier; others follow at LATER.
pub const BAD_FIGURE: usize = 7;
pub const BAD_WEIGHT: usize = 3;
pub const LATER: usize = 61;

pub fn figures(n: usize, bad: isize) -> Vec<i32> {
    let mut list: Vec<i32> = (0..n as i32).map(|t| [-200_000, 200_000, 40 * t, -700 * (t % 12)][t as usize % 4]).collect();
    if bad != 0 {
        list[BAD_FIGURE] = bad as i32;
        list[LATER] = -bad as i32;
    }
    list
}

pub fn weights(n: usize, bad: isize) -> Vec<u16> {
    let mut list: Vec<u16> = (0..n as u16).map(|t| [1_000, 0, t][usize::from(t) % 3]).collect();
    if bad != 0 {
        list[BAD_WEIGHT] = bad as u16;
        list[LATER] = 2_000;
    }
    list
}

pub fn longer(length: usize, by: isize) -> usize {
    length.checked_add_signed(by).expect("a length")
}

/// Tries every choice for the parts; `work` puts an input together and gives number and place that both programs answer.
pub fn every_set<const N: usize>(order: &[u8], parts: [Part; N], work: impl Fn(&str, [isize; N]) -> (u8, usize)) {
    for set in 0..parts.iter().map(|part| part.len()).product() {
        let mut rest: usize = set;
        let chosen = parts.map(|part| {
            let choice = part[rest % part.len()];
            rest /= part.len();
            choice
        });
        let number = order.iter().copied().find(|row| chosen.iter().any(|(true_row, _)| true_row == row)).unwrap_or(0);
        let place = match number {
            5 => BAD_FIGURE,
            10 => BAD_WEIGHT,
            _ => 0,
        };
        let name = format!("rows and values {chosen:?}");
        assert_eq!(work(&name, chosen.map(|(_, value)| value)), (number, place), "{name}");
    }
}
