//! Made-up members' sheets, the same at every run.

use crate::checks::FIGURE_LIMIT;
use crate::series::{Dice, Series};

/// A month of a sheet: its kind, and the bits of its two doubles.
pub type Cell = (u8, u64, u64);

fn bits(figure: i32) -> u64 {
    f64::from(figure).to_bits()
}

pub fn figure(figure: i32) -> Cell {
    (1, bits(figure), 0)
}

pub fn revision(old: i32, new: i32) -> Cell {
    (2, bits(old), bits(new))
}

/// The bytes of a sheet.
pub fn sheet(start: u8, cells: &[Cell]) -> Vec<u8> {
    let mut bytes = (cells.len() as u16).to_le_bytes().to_vec();
    bytes.push(start);
    bytes.extend(cells.iter().map(|cell| cell.0));
    bytes.extend(cells.iter().flat_map(|cell| [cell.1, cell.2]).flat_map(u64::to_le_bytes));
    bytes
}

/// The months of a series, some of them revised: as said of each place, and from a figure near by.
pub fn revised(seed: u64, series: &Series, mut where_so: impl FnMut(usize) -> bool) -> Vec<Cell> {
    let mut dice = Dice::new(seed);
    let mut near = |figure: i32| (figure + dice.noise(100) as i32).clamp(-FIGURE_LIMIT, FIGURE_LIMIT);
    let cell = |(t, &new): (usize, &i32)| if where_so(t) { revision(near(new), new) } else { figure(new) };
    series.figures.iter().enumerate().map(cell).collect()
}
