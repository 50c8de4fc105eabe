//! The desk file by calendar month: count (2 bytes, low byte first), start
//! month, period 12, first year (2 bytes, low byte first), then the figures
//! of 4 bytes and the weights of 2 bytes.  In the file each of the two lists
//! is sorted by the labels of its months, calendar month before year; here
//! they are always in the order of t.

use crate::calendar::{labels, Label};
use crate::decompose::{check_figures, check_size_and_start, check_weights, refuse, Refusal};
use crate::desk;
use std::collections::{BTreeMap, BTreeSet};

pub const EARLIEST_YEAR: usize = 1;
pub const LATEST_YEAR: usize = 9999;

/// A series with its weights and the calendar year of its first month.
#[derive(Clone, Debug, PartialEq, Eq)]
pub struct ColumnsSeries {
    pub start: u8,
    pub first_year: u16,
    pub figures: Vec<i32>,
    pub weights: Vec<u16>,
}

impl ColumnsSeries {
    pub fn n(&self) -> usize {
        self.figures.len()
    }
}

/// What the file is sorted by.
fn month_and_year(label: &Label) -> (u8, usize) {
    (label.month, label.year)
}

/// A list in the order of t, put into the order of the file.
pub fn by_month<T: Copy>(list: &[T], start: u8) -> Vec<T> {
    let mut columns = BTreeMap::new();
    for (label, &value) in labels(start, list.len()).iter().zip(list) {
        columns.insert(month_and_year(label), value);
    }
    columns.into_values().collect()
}

/// A list in the order of the file, put into the order of t: every value
/// gets the next of the sorted labels, then the calendar is walked through.
pub fn by_time<T: Copy>(list: &[T], start: u8) -> Vec<T> {
    let labels = labels(start, list.len());
    let sorted: BTreeSet<(u8, usize)> = labels.iter().map(month_and_year).collect();
    let columns: BTreeMap<(u8, usize), T> = sorted.into_iter().zip(list.iter().copied()).collect();
    labels.iter().map(|label| columns[&month_and_year(label)]).collect()
}

/// The calendar year of the last month, by its label.
pub fn last_year(start: u8, first_year: u16, n: usize) -> usize {
    let last = labels(start, n).pop().expect("a month");
    usize::from(first_year) + last.year
}

/// Row 11 of the sheet, for a count and a start month that are allowed.
fn check_years(start: u8, first_year: u16, n: usize) -> Result<(), Refusal> {
    for year in [usize::from(first_year), last_year(start, first_year, n)] {
        if !(EARLIEST_YEAR..=LATEST_YEAR).contains(&year) {
            return refuse(11, 0);
        }
    }
    Ok(())
}

/// How long the file of n months is.
pub fn length_of(n: usize) -> usize {
    6 + 6 * n
}

/// Count, start month and first year of a file.  Checks 7, 1, 2, 3, 8, 11.
fn header(bytes: &[u8]) -> Result<(usize, u8, u16), Refusal> {
    let &[low, high, start, period, year_low, year_high, ..] = bytes else {
        return refuse(7, 0);
    };
    let n = usize::from(low) + 256 * usize::from(high);
    let first_year = u16::from(year_low) + 256 * u16::from(year_high);
    check_size_and_start(n, start)?;
    if period != 12 {
        return refuse(8, 0);
    }
    check_years(start, first_year, n)?;
    Ok((n, start, first_year))
}

/// A file whose slices are long enough for so many months, or not.  Checks
/// as `header` does, then 9, 4, 5, 10.
fn series_in(bytes: &[u8], has_room: impl Fn(usize) -> bool) -> Result<ColumnsSeries, Refusal> {
    let (n, start, first_year) = header(bytes)?;
    if bytes.len() != length_of(n) {
        return refuse(9, 0);
    }
    if !has_room(n) {
        return refuse(4, 0);
    }
    let (figures, weights) = desk::two_arrays(&bytes[6..], n);
    let figures = by_time(&figures, start);
    let weights = by_time(&weights, start);
    check_figures(&figures)?;
    check_weights(&weights)?;
    Ok(ColumnsSeries { start, first_year, figures, weights })
}

/// Reads a file into lent slices with room for so many figures and so many
/// weights.  Checks 7, 1, 2, 3, 8, 11, 9, 4, 5, 10.
pub fn read_columns(bytes: &[u8], room_for_figures: usize, room_for_weights: usize) -> Result<ColumnsSeries, Refusal> {
    series_in(bytes, |n| room_for_figures >= n && room_for_weights >= n)
}

/// The bytes of a file, without any check; the start month must be one, as
/// nothing can be sorted without it.
pub fn bytes_of(figures: &[i32], start: u8, first_year: u16, weights: &[u16]) -> Vec<u8> {
    let mut bytes = desk::bytes_of(&by_month(figures, start), start, 12, &by_month(weights, start));
    let year = [(first_year % 256) as u8, (first_year / 256) as u8];
    bytes.splice(4..4, year);
    bytes
}

/// Writes a file into an output with so much room.  Checks 1, 2, 3, 11, 4,
/// 5, 10; the bytes given back are those that fill the front of the output.
pub fn write_columns(
    figures: &[i32],
    start: u8,
    first_year: u16,
    weights: &[u16],
    room: usize,
) -> Result<Vec<u8>, Refusal> {
    let n = figures.len();
    check_size_and_start(n, start)?;
    check_years(start, first_year, n)?;
    if weights.len() != n || room < length_of(n) {
        return refuse(4, 0);
    }
    check_figures(figures)?;
    check_weights(weights)?;
    Ok(bytes_of(figures, start, first_year, weights))
}

/// Moves a file in the order of t forward, into an output with so much room.
/// Checks 7, 1, 2, 3, 8, 11, 9, 4, 5, 10, where 7 and 9 are about the file
/// given and 4 about the one made.
pub fn to_columns(old: &[u8], first_year: u16, room: usize) -> Result<Vec<u8>, Refusal> {
    let (n, start) = desk::header(old)?;
    check_years(start, first_year, n)?;
    let series = desk::series_in(old, |n| room >= length_of(n))?;
    Ok(bytes_of(&series.figures, start, first_year, &series.weights))
}

/// Moves a file by calendar month back, into an output with so much room:
/// the file in the order of t, and the first year.  Checks as reading does,
/// where 4 is about the file made.
pub fn from_columns(new: &[u8], room: usize) -> Result<(Vec<u8>, u16), Refusal> {
    let series = series_in(new, |n| room >= desk::length_of(n))?;
    let old = desk::bytes_of(&series.figures, series.start, 12, &series.weights);
    Ok((old, series.first_year))
}

#[cfg(test)]
mod tests {
    use super::*;

    /// The same year by dividing, for every start month and count.
    #[test]
    fn the_last_year_by_dividing() {
        for start in 1..=12u8 {
            for n in 72..=600 {
                let spanned = (usize::from(start) - 1 + n - 1) / 12;
                for first_year in [0, 1, 1999, 9949, 9999, 65_535] {
                    assert_eq!(last_year(start, first_year, n), usize::from(first_year) + spanned, "{n} from {start}");
                }
            }
        }
    }

    /// Both orders undo each other, for every start month and count, and the
    /// places of t go up within a month.
    #[test]
    fn rearranging_and_its_inverse() {
        for start in 1..=12 {
            for n in 72..=600 {
                let months: Vec<usize> = (0..n).collect();
                let columns = by_month(&months, start);
                assert_eq!(by_time(&columns, start), months, "{n} from {start}");
                assert_eq!(by_month(&by_time(&months, start), start), months, "{n} from {start}");
                let other_months = columns.windows(2).filter(|pair| pair[1] != pair[0] + 12).count();
                assert_eq!(other_months, 11, "{n} from {start}");
            }
        }
    }
}
