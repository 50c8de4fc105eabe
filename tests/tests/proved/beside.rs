//! One input worked both ways, by the proved library and by the separately written program: answers, places, what is filled and what
//! stays. Each function gives the answer that the two agree on.

// Each test file takes some of them.
#![allow(dead_code)]

use super::{Answer, Slices, GUARD};
use separate::decompose::{scratch_for, Lent, Refusal, Tables};

/// Slices of the wanted lengths. Each entry has a mark of its own, so that one that is touched or moved is seen.
pub fn lent_for(lent: &Lent) -> Slices {
    let marks = |first: i64, length: usize| -> Vec<i64> { (first..).take(length).collect() };
    let weights = |first: u16, length: usize| -> Vec<u16> { (first..).take(length).collect() };
    Slices {
        d10: marks(71_000_000_000, lent.d10),
        d11: marks(72_000_000_000, lent.d11),
        d12: marks(73_000_000_000, lent.d12),
        d13: marks(74_000_000_000, lent.d13),
        b17: weights(20_000, lent.b17),
        c17: weights(40_000, lent.c17),
        guarded: marks(77_000_000_000, GUARD + lent.scratch + GUARD),
    }
}

/// Decomposes one series, with slices of the wanted lengths; the separately written tables too, where there are any.
pub fn decompose(name: &str, figures: &[i32], start: u8, lengths: &Lent) -> (Answer, Option<Tables>) {
    let due = separate::decompose::decompose(figures, start, lengths);
    let answer = decompose_on(name, figures, start, &lent_for(lengths), &due);
    (answer, due.ok())
}

/// Decomposes one series on slices that hold what `before` does, and compares with what is due.
pub fn decompose_on(name: &str, figures: &[i32], start: u8, before: &Slices, due: &Result<Tables, Refusal>) -> Answer {
    let mut slices = before.clone();
    let answer = super::decompose(figures, start, &mut slices);
    match due {
        Err(Refusal { number, place }) => {
            assert_eq!(answer, (*number, *place), "{name}");
            assert!(slices == *before, "{name}: a refusal changes no slice");
        }
        Ok(tables) => {
            assert_eq!(answer, (0, 0), "{name}");
            assert_eq!(slices.d10, tables.d10, "{name} D10");
            assert_eq!(slices.d11, tables.d11, "{name} D11");
            assert_eq!(slices.d12, tables.d12, "{name} D12");
            assert_eq!(slices.d13, tables.d13, "{name} D13");
            assert_eq!(slices.b17, tables.b17, "{name} B17");
            assert_eq!(slices.c17, tables.c17, "{name} C17");
            let mut guarded = before.guarded.clone();
            guarded[GUARD..GUARD + scratch_for(figures.len())].fill(0);
            let wrong = (0..guarded.len()).find(|&place| slices.guarded[place] != guarded[place]);
            assert_eq!(wrong, None, "{name}: the scratch is zeroed; its tail and {GUARD} entries before and behind it stay");
        }
    }
    answer
}

/// Reads one byte string, into slices of the wanted lengths.
pub fn read(name: &str, file: &[u8], figures_room: usize, weights_room: usize) -> Answer {
    let (before_figures, before_weights) = (vec![7_777; figures_room], vec![777; weights_room]);
    let (mut figures, mut weights) = (before_figures.clone(), before_weights.clone());
    let (answer, count, start) = super::read(file, &mut figures, &mut weights);
    match separate::desk::read(file, figures_room, weights_room) {
        Err(Refusal { number, place }) => {
            assert_eq!((answer, count, start), ((number, place), 0, 0), "{name}");
            assert_eq!((figures, weights), (before_figures, before_weights), "{name}: nothing is filled");
        }
        Ok(series) => {
            let n = series.n();
            assert_eq!((answer, count, start), ((0, 0), n, series.start), "{name}");
            assert_eq!(figures[..n], series.figures, "{name}");
            assert_eq!(weights[..n], series.weights, "{name}");
            assert_eq!(figures[n..], before_figures[n..], "{name}: the rest stays");
            assert_eq!(weights[n..], before_weights[n..], "{name}: the rest stays");
        }
    }
    answer
}

/// Writes one series, into an output of the wanted length, and reads what was written.
pub fn write(name: &str, figures: &[i32], start: u8, weights: &[u16], room: usize) -> Answer {
    let before = vec![0xa5; room];
    let mut out = before.clone();
    let (answer, size) = super::write(figures, start, weights, &mut out);
    match separate::desk::write(figures, start, weights, room) {
        Err(Refusal { number, place }) => {
            assert_eq!((answer, size), ((number, place), 0), "{name}");
            assert_eq!(out, before, "{name}: nothing is written");
        }
        Ok(file) => {
            assert_eq!((answer, size), ((0, 0), file.len()), "{name}");
            assert_eq!(out[..size], file, "{name}");
            assert_eq!(out[size..], before[size..], "{name}: the rest stays");
            assert_eq!(read(name, &out[..size], figures.len() + 1, figures.len()), (0, 0), "{name}: it can be read");
        }
    }
    answer
}
