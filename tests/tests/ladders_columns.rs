//! Every set of faults that can stand together, for the four entry points of the desk file by calendar month: the answer is the row of the
//! refusal sheet that comes first in the order of the checks, by the proved library and by the separately written program; and a refusal
//! changes no lent slice.

mod ladder;
#[path = "proved/columns/mod.rs"]
mod columns;

use columns::beside;
use ladder::{every_set, figures, longer, weights, Part};
use ladder::{AT_LEAST, BAD_FIGURE, BAD_WEIGHT, COUNT, FIGURES, FITTING, LATER, LENGTH, PERIOD, READING_COLUMNS, WEIGHTS, WRITING_COLUMNS};
use separate::columns::{by_month, bytes_of};
use separate::desk;
use std::collections::BTreeMap;

const START: Part = &[(0, 12), (0, 5), (3, 0), (3, 13)];
/// First years that are in and out for every count and start month here: 600 months from December 9949 end in November 9999, 72 months
/// from May 9994 in April 10000.
const YEAR: Part = &[(0, 1), (0, 9_949), (11, 0), (11, 9_994), (11, 65_535)];

/// How many bytes of a new file are left at most. With its header left, rows before 9 can still be true; otherwise 7 comes before them all.
const LEFT: Part = &[(0, isize::MAX), (9, 6), (7, 5), (7, 4), (7, 3), (7, 2), (7, 1), (7, 0)];

/// Files by count, start month, bad figure and bad weight, made once.
struct Files(BTreeMap<[isize; 4], Vec<u8>>);

impl Files {
    fn new() -> Files {
        let mut files = BTreeMap::new();
        for (_, count) in COUNT {
            for start in [5, 12] {
                for (_, bad) in FIGURES {
                    for (_, above) in WEIGHTS {
                        let n = *count as usize;
                        files.insert([*count, start, *bad, *above], bytes_of(&figures(n, *bad), start as u8, 1, &weights(n, *above)));
                    }
                }
            }
        }
        Files(files)
    }

    /// One of them with anything in its header and a length of its own. A start month that is none gets the columns of December: its file is
    /// refused before them.
    fn changed(&self, [count, start, period, year, length, bad, above, left]: [isize; 8]) -> Vec<u8> {
        let sorted_from = if (1..=12).contains(&start) { start } else { 12 };
        let mut file = self.0[&[count, sorted_from, bad, above]].clone();
        file[2] = start as u8;
        file[3] = period as u8;
        file[4..6].copy_from_slice(&(year as u16).to_le_bytes());
        file.resize(longer(file.len(), length), 0);
        file.truncate(left as usize);
        file
    }
}

/// The bad values at LATER stand in the file before those of lower t.
#[test]
fn the_lowest_bad_month_is_not_the_first_in_the_file() {
    for start in [12, 5] {
        let months = by_month(&(0..72).collect::<Vec<usize>>(), start);
        let place = |t: usize| months.iter().position(|&month| month == t);
        assert!(LATER > BAD_FIGURE && place(LATER) < place(BAD_FIGURE), "from {start}");
        assert!(LATER > BAD_WEIGHT && place(LATER) < place(BAD_WEIGHT), "from {start}");
    }
}

#[test]
fn reading() {
    let files = Files::new();
    let parts = [COUNT, START, PERIOD, YEAR, LENGTH, FIGURES, WEIGHTS, AT_LEAST, AT_LEAST, LEFT];
    every_set(&READING_COLUMNS, parts, |name, [count, start, period, year, length, bad, above, figures_room, weights_room, left]| {
        let file = files.changed([count, start, period, year, length, bad, above, left]);
        beside::read(name, &file, longer(count as usize, figures_room), longer(count as usize, weights_room))
    });
}

#[test]
fn writing() {
    let parts = [COUNT, START, YEAR, FIGURES, WEIGHTS, FITTING, AT_LEAST];
    every_set(&WRITING_COLUMNS, parts, |name, [count, start, year, bad, above, weights_length, room]| {
        let n = count as usize;
        let mut weights = weights(n, above);
        weights.resize(longer(n, weights_length), 0);
        beside::write(name, &figures(n, bad), start as u8, year as u16, &weights, longer(6 + 6 * n, room)).0
    });
}

/// The output is measured by the new file, the length and the cut by the old one.
#[test]
fn moving_forward() {
    let left: Part = &[(0, isize::MAX), (9, 5), (9, 4), (7, 3), (7, 2), (7, 1), (7, 0)];
    let room: Part = &[(0, 0), (0, 5), (4, -1), (4, -2)];
    let parts = [COUNT, START, PERIOD, YEAR, LENGTH, FIGURES, WEIGHTS, room, left];
    every_set(&READING_COLUMNS, parts, |name, [count, start, period, year, length, bad, above, room, left]| {
        let n = count as usize;
        let mut old = desk::bytes_of(&figures(n, bad), start as u8, period as u8, &weights(n, above));
        old.resize(longer(old.len(), length), 0);
        old.truncate(left as usize);
        beside::forward(name, &old, year as u16, longer(6 + 6 * n, room)).0
    });
}

/// The output is measured by the old file, the length and the cut by the new one.
#[test]
fn moving_back() {
    let files = Files::new();
    let room: Part = &[(0, 0), (0, 2), (0, 5), (4, -1)];
    let parts = [COUNT, START, PERIOD, YEAR, LENGTH, FIGURES, WEIGHTS, room, LEFT];
    every_set(&READING_COLUMNS, parts, |name, [count, start, period, year, length, bad, above, room, left]| {
        let new = files.changed([count, start, period, year, length, bad, above, left]);
        beside::back(name, &new, longer(4 + 6 * count as usize, room)).0
    });
}
