//! Rows 1 to 5 of the refusal sheet, for the plain program.

use crate::Answer;

pub const FIGURE_LIMIT: i32 = 200_000;

/// Entries of scratch that n months ask for.
pub fn scratch_for(n: usize) -> usize {
    5 * n
}

/// The first of rows 1 to 3 that applies, 0 if none does.
pub fn span(n: usize, start: u8) -> u8 {
    if n < 72 {
        1
    } else if n > 600 {
        2
    } else if !(1..=12).contains(&start) {
        3
    } else {
        0
    }
}

/// The first of rows 1 to 5 that applies, (0, 0) if none does. `tables` are the lengths of the four tables and the two weights.
pub fn check(figures: &[i32], start: u8, tables: [usize; 6], scratch: usize) -> Answer {
    let n = figures.len();
    let row = span(n, start);
    if row != 0 {
        return (row, 0);
    }
    if tables != [n; 6] || scratch < scratch_for(n) {
        return (4, 0);
    }
    // All figures are looked at together; the place is searched only if one is outside.
    if figures.iter().fold(false, |any, &figure| any | outside(figure)) {
        let place = figures.iter().position(|&figure| outside(figure)).unwrap_or(0);
        return (5, place);
    }
    (0, 0)
}

fn outside(figure: i32) -> bool {
    !(-FIGURE_LIMIT..=FIGURE_LIMIT).contains(&figure)
}
