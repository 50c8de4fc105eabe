//! The members' sheet: count (2 bytes, low byte first), start month, n kind
//! bytes, then n cells of two doubles, 8 bytes each, low byte first.  Nothing
//! is worked in doubles here: each is taken apart into its sign, its exponent
//! field and its fraction, what counts goes on as a whole number, and the
//! total is put together as eight bytes again.

use crate::decompose::{check_size_and_start, refuse, Refusal, FIGURE_LIMIT};

pub const GAP: u8 = 0;
pub const FIGURE: u8 = 1;
pub const REVISION: u8 = 2;

/// The bytes of a double, low byte first.
pub type Eight = [u8; 8];

/// A double that its kind has no use for.
pub const UNUSED: Eight = [0; 8];

/// Whole numbers from 1 on are a size from 2^52 to below 2^53, halved or
/// doubled; a field of 1075 says that it is neither.
const LEAST_SIZE: i64 = 1 << 52;
const FIELD_AS_IT_STANDS: i64 = 1075;

/// Sign, exponent field and fraction of a double: 1, 11 and 52 bits.
fn taken_apart(double: Eight) -> (bool, i64, i64) {
    let field = 16 * i64::from(double[7] % 128) + i64::from(double[6] / 16);
    let mut fraction = i64::from(double[6] % 16);
    for &byte in double[..6].iter().rev() {
        fraction = 256 * fraction + i64::from(byte);
    }
    (double[7] >= 128, field, fraction)
}

/// The whole number of units that a double is, where it counts.
pub fn whole_in(double: Eight) -> Option<i64> {
    let (negative, field, fraction) = taken_apart(double);
    if field == 0 {
        // Zero of either sign; the others with this field lie between.
        return (fraction == 0).then_some(0);
    }
    let mut size = LEAST_SIZE + fraction;
    for _ in field..FIELD_AS_IT_STANDS {
        if size % 2 != 0 {
            return None;
        }
        size /= 2;
    }
    // A field above 1075 doubles the size or, with 2047, is no number or
    // infinite; none of it has been halved, and so all are refused here.
    let counts = size <= i64::from(FIGURE_LIMIT);
    counts.then_some(if negative { -size } else { size })
}

/// The double of a whole number below 2^53 in size; zero is positive.
pub fn double_of(number: i64) -> Eight {
    let mut double = UNUSED;
    let mut size = number.abs();
    assert!(size < 2 * LEAST_SIZE, "below 2^53");
    if size == 0 {
        return double;
    }
    let mut field = FIELD_AS_IT_STANDS;
    while size < LEAST_SIZE {
        size *= 2;
        field -= 1;
    }
    let mut fraction = size - LEAST_SIZE;
    for byte in &mut double[..6] {
        *byte = (fraction % 256) as u8;
        fraction /= 256;
    }
    let sign = if number < 0 { 128 } else { 0 };
    double[6] = (16 * (field % 16) + fraction) as u8;
    double[7] = (sign + field / 16) as u8;
    double
}

/// A month of a sheet as it stands there.
#[derive(Clone, Copy, Debug, PartialEq, Eq)]
pub struct Cell {
    pub kind: u8,
    pub first: Eight,
    pub second: Eight,
}

impl Cell {
    pub fn gap() -> Cell {
        Cell { kind: GAP, first: UNUSED, second: UNUSED }
    }

    pub fn figure(figure: i64) -> Cell {
        Cell { kind: FIGURE, first: double_of(figure), second: UNUSED }
    }

    pub fn revision(old: i64, new: i64) -> Cell {
        Cell { kind: REVISION, first: double_of(old), second: double_of(new) }
    }

    /// The doubles that the kind uses and those that it does not; nothing
    /// where the kind is unknown.
    fn by_use(&self) -> Option<(Vec<Eight>, Vec<Eight>)> {
        match self.kind {
            GAP => Some((vec![], vec![self.first, self.second])),
            FIGURE => Some((vec![self.first], vec![self.second])),
            REVISION => Some((vec![self.first, self.second], vec![])),
            _ => None,
        }
    }

    /// The figures of a good cell, the oldest first, or the row that refuses
    /// it: 12, else 13, else 14.
    fn figures(&self) -> Result<Vec<i64>, u8> {
        let (used, unused) = self.by_use().ok_or(12)?;
        if unused.concat().iter().any(|&byte| byte != 0) {
            return Err(12);
        }
        if used.is_empty() {
            return Err(13);
        }
        used.into_iter().map(whole_in).collect::<Option<Vec<i64>>>().ok_or(14)
    }
}

/// A good month: what was said of it first and last, the same where nothing
/// was revised.
struct Month {
    t: usize,
    oldest: i64,
    newest: i64,
}

/// The series of a sheet, and the total revision, new less old.
#[derive(Clone, Debug, PartialEq, Eq)]
pub struct SheetSeries {
    pub start: u8,
    pub figures: Vec<i32>,
    pub total: i64,
}

impl SheetSeries {
    pub fn n(&self) -> usize {
        self.figures.len()
    }

    /// The total revision as a double.
    pub fn total_double(&self) -> Eight {
        double_of(self.total)
    }

    fn of(start: u8, months: &[Month]) -> SheetSeries {
        let mut figures = vec![0; months.len()];
        let mut total = 0;
        for month in months {
            figures[month.t] = i32::try_from(month.newest).expect("within the limits");
            total += month.newest - month.oldest;
        }
        SheetSeries { start, figures, total }
    }
}

/// How long the sheet of n months is.
pub fn length_of(n: usize) -> usize {
    3 + 17 * n
}

/// The cells of the bytes after the sizes.
fn cells_in(body: &[u8], n: usize) -> Vec<Cell> {
    let (kinds, doubles) = body.split_at(n);
    let eight = |bytes: &[u8]| Eight::try_from(bytes).expect("eight bytes");
    let cell = |(&kind, pair): (&u8, &[u8])| Cell { kind, first: eight(&pair[..8]), second: eight(&pair[8..]) };
    kinds.iter().zip(doubles.chunks(16)).map(cell).collect()
}

/// Reads a sheet into a lent slice with room for so many figures.  Checks 7,
/// 1, 2, 3, 9, 4, then the cells in the order of t.
pub fn read_sheet(bytes: &[u8], room: usize) -> Result<SheetSeries, Refusal> {
    let &[low, high, start, ref body @ ..] = bytes else {
        return refuse(7, 0);
    };
    let n = usize::from(low) + 256 * usize::from(high);
    check_size_and_start(n, start)?;
    if bytes.len() != length_of(n) {
        return refuse(9, 0);
    }
    if room < n {
        return refuse(4, 0);
    }
    let mut months = Vec::new();
    for (t, cell) in cells_in(body, n).iter().enumerate() {
        match cell.figures() {
            Ok(figures) => months.push(Month { t, oldest: figures[0], newest: figures[figures.len() - 1] }),
            Err(number) => return refuse(number, t),
        }
    }
    Ok(SheetSeries::of(start, &months))
}

/// The bytes of a sheet with these cells, whatever they are, without any
/// check.
pub fn bytes_of(start: u8, cells: &[Cell]) -> Vec<u8> {
    let n = cells.len();
    let mut bytes = vec![(n % 256) as u8, (n / 256 % 256) as u8, start];
    bytes.extend(cells.iter().map(|cell| cell.kind));
    for cell in cells {
        bytes.extend(cell.first);
        bytes.extend(cell.second);
    }
    bytes
}

#[cfg(test)]
mod tests {
    use super::*;

    #[test]
    fn doubles_by_hand() {
        // 5 is 1.01 in twos, moved by two places: its field is 1023 and 2, or
        // 0x401, its fraction 0100 and zeros.
        let five = [0, 0, 0, 0, 0, 0, 0x14, 0x40];
        assert_eq!(taken_apart(five), (false, 1025, 1 << 50));
        assert_eq!((whole_in(five), double_of(5)), (Some(5), five));
        // A half more sets the bit of 2^-1, the third after the point.
        assert_eq!(whole_in([0, 0, 0, 0, 0, 0, 0x16, 0x40]), None);
        // -1 is the sign and the field of 2^0 alone.
        let minus_one = [0, 0, 0, 0, 0, 0, 0xf0, 0xbf];
        assert_eq!(taken_apart(minus_one), (true, 1023, 0));
        assert_eq!((whole_in(minus_one), double_of(-1)), (Some(-1), minus_one));
        // The greatest that has a double here: all of the fraction set.
        let greatest = [0xff, 0xff, 0xff, 0xff, 0xff, 0xff, 0x3f, 0x43];
        assert_eq!((whole_in(greatest), double_of((1 << 53) - 1)), (None, greatest));
        assert_eq!(taken_apart([0xff; 8]), (true, 2047, (1 << 52) - 1));
    }

    /// There and back for every figure; one unit beyond is refused.
    #[test]
    fn every_figure() {
        for figure in -200_000..=200_000 {
            assert_eq!(whole_in(double_of(figure)), Some(figure));
        }
        assert_eq!((whole_in(double_of(200_001)), whole_in(double_of(-200_001))), (None, None));
    }
}
