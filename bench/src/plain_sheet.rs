//! A plain reader of the members' sheet, written for speed in the usual ways: kinds and cells as slices of their own, a double from its eight
//! bytes at once, whether it counts by its way to a whole number and back, and no index inside. One pass looks at every cell and another one
//! stores, so that nothing is stored before all is accepted.

use crate::checks::{span, FIGURE_LIMIT};
use crate::{Answer, SheetLent};

const GAP: u8 = 0;
const FIGURE: u8 = 1;
const REVISION: u8 = 2;

/// Bytes of a cell.
const CELL: usize = 16;

/// A sheet taken apart.
struct Parts<'a> {
    count: usize,
    start: u8,
    kinds: &'a [u8],
    cells: &'a [u8],
}

/// The parts of a sheet that is read into so much room, or the first of rows 7, 1, 2, 3, 9 and 4 that applies.
fn parts(sheet: &[u8], room: usize) -> Result<Parts<'_>, u8> {
    let [low, high, start, ref months @ ..] = *sheet else { return Err(7) };
    let count = u16::from_le_bytes([low, high]) as usize;
    let row = span(count, start);
    if row != 0 {
        return Err(row);
    }
    if months.len() != (1 + CELL) * count {
        return Err(9);
    }
    if room < count {
        return Err(4);
    }
    let (kinds, cells) = months.split_at(count);
    Ok(Parts { count, start, kinds, cells })
}

/// The two doubles of a cell.
fn doubles(cell: &[u8]) -> [f64; 2] {
    [&cell[..8], &cell[8..]].map(|bytes| f64::from_le_bytes(bytes.try_into().unwrap_or_default()))
}

/// A whole number within the limits; negative zero is 0.
fn counts(x: f64) -> bool {
    let whole = x as i32;
    whole as f64 == x && (-FIGURE_LIMIT..=FIGURE_LIMIT).contains(&whole)
}

/// The first of rows 12 to 14 that applies to a cell, 0 if none does.
fn row_of_cell(kind: u8, cell: &[u8]) -> u8 {
    let [first, second] = doubles(cell);
    let all_count = match kind {
        REVISION => counts(first) & counts(second),
        FIGURE if second.to_bits() == 0 => counts(first),
        GAP if first.to_bits() | second.to_bits() == 0 => return 13,
        _ => return 12,
    };
    if all_count { 0 } else { 14 }
}

/// The parts of a sheet with every cell accepted, or number and place of the refusal.
fn accepted(sheet: &[u8], room: usize) -> Result<Parts<'_>, Answer> {
    let parts = parts(sheet, room).map_err(|row| (row, 0))?;
    for (t, (&kind, cell)) in parts.kinds.iter().zip(parts.cells.chunks_exact(CELL)).enumerate() {
        let row = row_of_cell(kind, cell);
        if row != 0 {
            return Err((row, t));
        }
    }
    Ok(parts)
}

/// Stores the figures; the total revision.
fn store(kinds: &[u8], cells: &[u8], figures: &mut [i32]) -> f64 {
    let mut total = 0.0;
    for ((figure, &kind), cell) in figures.iter_mut().zip(kinds).zip(cells.chunks_exact(CELL)) {
        let [first, second] = doubles(cell);
        if kind == REVISION {
            *figure = second as i32;
            total += second - first;
        } else {
            *figure = first as i32;
        }
    }
    total
}

pub fn read_sheet(sheet: &[u8], lent: &mut SheetLent) -> Answer {
    match accepted(sheet, lent.figures.len()) {
        Ok(Parts { count, start, kinds, cells }) => {
            let revision = store(kinds, cells, &mut lent.figures);
            lent.tell(count, start, revision);
            (0, 0)
        }
        Err(answer) => {
            lent.tell(0, 0, 0.0);
            answer
        }
    }
}
