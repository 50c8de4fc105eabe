//! Every set of faults that can stand together in a members' sheet: the answer is the row of the refusal sheet that comes first in the order
//! of the checks, and of bad cells that of the lowest t, by the proved library and by the separately written program; and a refusal changes
//! no lent slice.

mod doubles;
mod ladder;
#[path = "proved/sheet/mod.rs"]
mod sheet;

use doubles::{raw, HALF, MINUS_ZERO, NOT_A_NUMBER, ONE};
use ladder::{every_set, longer, Part, AT_LEAST, COUNT, LENGTH, READING_SHEET};
use separate::sheet::{bytes_of, Cell};
use sheet::beside;
use std::collections::BTreeMap;

/// The places of two cells that may be bad. In the order of the checks a row of the later one is written with 100 added.
const EARLY: usize = 3;
const LATE: usize = 61;

const START: Part = &[(0, 1), (0, 12), (3, 0), (3, 13)];
/// How many bytes are left at most. With the sizes left, rows before 9 can still be true; otherwise 7 comes before them all.
const LEFT: Part = &[(0, isize::MAX), (9, 3), (7, 2), (7, 1), (7, 0)];

/// Kinds and doubles of cells: two good ones, one that is bad in each way, and some in which a later row is true too.
const CELLS: [(u8, u64, u64); 11] = [
    (1, ONE, 0),
    (2, MINUS_ZERO, ONE),
    (3, ONE, 0),
    (1, ONE, MINUS_ZERO),
    (0, ONE, 0),
    (3, HALF, HALF),
    (1, HALF, ONE),
    (0, 0, 0),
    (1, HALF, 0),
    (2, NOT_A_NUMBER, ONE),
    (2, ONE, HALF),
];
const EARLY_CELL: Part = &[(0, 0), (0, 1), (12, 2), (12, 3), (12, 4), (12, 5), (12, 6), (13, 7), (14, 8), (14, 9), (14, 10)];
const LATE_CELL: Part = &[(0, 1), (112, 5), (113, 7), (114, 8)];

fn cell((kind, first, second): (u8, u64, u64)) -> Cell {
    raw(kind, first, second)
}

/// A sheet with these two cells among good ones.
fn sheet_of(n: usize, early: Cell, late: Cell) -> Vec<u8> {
    let mut cells: Vec<Cell> = (0..n as i64).map(|t| [Cell::figure(40 * t), Cell::revision(200_000, -t)][t as usize % 2]).collect();
    (cells[EARLY], cells[LATE]) = (early, late);
    bytes_of(5, &cells)
}

/// The answer with a row of the later cell written as in the order.
fn in_the_order((number, place): (u8, usize)) -> (u8, usize) {
    match (number, place) {
        (12..=14, EARLY) => (number, 0),
        (12..=14, LATE) => (100 + number, 0),
        other => other,
    }
}

#[test]
fn reading() {
    let mut sheets = BTreeMap::new();
    for (_, count) in COUNT {
        for early in 0..11 {
            for late in [1, 5, 7, 8] {
                sheets.insert([*count, early, late], sheet_of(*count as usize, cell(CELLS[early as usize]), cell(CELLS[late as usize])));
            }
        }
    }
    let [.., a, b, c] = READING_SHEET;
    let order = [&READING_SHEET[..], &[100 + a, 100 + b, 100 + c]].concat();
    let parts = [COUNT, START, LENGTH, AT_LEAST, EARLY_CELL, LATE_CELL, LEFT];
    every_set(&order, parts, |name, [count, start, length, room, early, late, left]| {
        let mut sheet = sheets[&[count, early, late]].clone();
        sheet[2] = start as u8;
        sheet.resize(longer(sheet.len(), length), 0);
        sheet.truncate(left as usize);
        in_the_order(beside::answer(name, &sheet, longer(count as usize, room)))
    });
}

/// What a double can be, as far as the rows ask: eight zero bytes, another that counts, or one that does not.
#[derive(Clone, Copy, PartialEq, Eq)]
enum Sort {
    Zeros,
    Counts,
    Not,
}

const DOUBLES: [(Sort, u64); 6] =
    [(Sort::Zeros, 0), (Sort::Counts, ONE), (Sort::Counts, MINUS_ZERO), (Sort::Not, HALF), (Sort::Not, NOT_A_NUMBER), (Sort::Not, 1)];

/// Every row that a cell makes true.
fn true_rows(kind: u8, first: Sort, second: Sort) -> Vec<u8> {
    let rows = [
        (12, kind > 2),
        (12, kind == 0 && first != Sort::Zeros),
        (12, kind <= 1 && second != Sort::Zeros),
        (13, kind == 0),
        (14, (kind == 1 || kind == 2) && first == Sort::Not),
        (14, kind == 2 && second == Sort::Not),
    ];
    rows.into_iter().filter(|row| row.1).map(|row| row.0).collect()
}

/// Cells with all kinds of doubles in both places, two at a time: the first that is bad is answered with the lowest of its rows.
#[test]
fn every_two_cells() {
    let mut cells = Vec::new();
    for kind in [0, 1, 2, 3, 255] {
        for (first_sort, first) in DOUBLES {
            for (second_sort, second) in DOUBLES {
                cells.push((true_rows(kind, first_sort, second_sort), (kind, first, second)));
            }
        }
    }
    let mut answers = BTreeMap::new();
    for (early_rows, early) in &cells {
        for (late_rows, late) in &cells {
            let name = format!("{early:x?} and {late:x?}");
            let sheet = sheet_of(72, cell(*early), cell(*late));
            let due = match (early_rows.iter().min(), late_rows.iter().min()) {
                (Some(&row), _) => (row, EARLY),
                (None, Some(&row)) => (row, LATE),
                (None, None) => (0, 0),
            };
            assert_eq!(beside::answer(&name, &sheet, 72), due, "{name}");
            *answers.entry(due).or_insert(0) += 1;
        }
    }
    // Of the 180 cells kind 1 has 3 good ones and kind 2 has 9; kind 0 has 1 that is a gap, kinds 1 and 2 have 3 and 27 that do not count.
    let due = [((0, 0), 12 * 12), ((12, EARLY), 137 * 180), ((12, LATE), 12 * 137), ((13, EARLY), 180), ((13, LATE), 12)];
    let not_counting = [((14, EARLY), 30 * 180), ((14, LATE), 12 * 30)];
    assert_eq!(answers, due.into_iter().chain(not_counting).collect());
}
