//! One input worked both ways, by the proved library and by the separately written program: answers, places, what is filled and what
//! stays. Each function gives the answer that the two agree on, and the bytes where it makes some.

// Each test file takes some of them.
#![allow(dead_code)]

use super::Answer;
use separate::columns::{from_columns, read_columns, to_columns, write_columns};
use separate::decompose::Refusal;

/// Fills an output, so that an untouched byte is seen.
const UNTOUCHED: u8 = 0xa5;

/// Reads one byte string, into slices of the wanted lengths.
pub fn read(name: &str, file: &[u8], figures_room: usize, weights_room: usize) -> Answer {
    let (before_figures, before_weights) = (vec![7_777; figures_room], vec![777; weights_room]);
    let (mut figures, mut weights) = (before_figures.clone(), before_weights.clone());
    let (answer, count, start, first_year) = super::read(file, &mut figures, &mut weights);
    match read_columns(file, figures_room, weights_room) {
        Err(Refusal { number, place }) => {
            assert_eq!((answer, count, start, first_year), ((number, place), 0, 0, 0), "{name}");
            assert_eq!((figures, weights), (before_figures, before_weights), "{name}: nothing is filled");
        }
        Ok(series) => {
            let n = series.n();
            assert_eq!((answer, count, start, first_year), ((0, 0), n, series.start, series.first_year), "{name}");
            assert_eq!(figures[..n], series.figures, "{name}");
            assert_eq!(weights[..n], series.weights, "{name}");
            assert_eq!(figures[n..], before_figures[n..], "{name}: the rest stays");
            assert_eq!(weights[n..], before_weights[n..], "{name}: the rest stays");
        }
    }
    answer
}

/// Compares what stands in an output with the bytes or the refusal that are due, and gives the bytes that fill its front.
fn filled(name: &str, answer: Answer, size: usize, out: &[u8], due: Result<Vec<u8>, Refusal>) -> Vec<u8> {
    match due {
        Err(Refusal { number, place }) => {
            assert_eq!((answer, size), ((number, place), 0), "{name}");
            assert!(out.iter().all(|&byte| byte == UNTOUCHED), "{name}: nothing is written");
            Vec::new()
        }
        Ok(file) => {
            assert_eq!((answer, size), ((0, 0), file.len()), "{name}");
            assert_eq!(out[..size], file, "{name}");
            assert!(out[size..].iter().all(|&byte| byte == UNTOUCHED), "{name}: the rest stays");
            file
        }
    }
}

/// Writes one series, into an output of the wanted length, and reads what was written.
pub fn write(name: &str, figures: &[i32], start: u8, first_year: u16, weights: &[u16], room: usize) -> (Answer, Vec<u8>) {
    let mut out = vec![UNTOUCHED; room];
    let (answer, size) = super::write(figures, start, first_year, weights, &mut out);
    let file = filled(name, answer, size, &out, write_columns(figures, start, first_year, weights, room));
    if answer == (0, 0) {
        let n = figures.len();
        let (mut again, mut again_weights) = (vec![7_777; n], vec![777; n]);
        assert_eq!(super::read(&file, &mut again, &mut again_weights), ((0, 0), n, start, first_year), "{name}: it can be read");
        assert_eq!((&again[..], &again_weights[..]), (figures, weights), "{name}: it is what was written");
    }
    (answer, file)
}

/// Moves an old file forward, into an output of the wanted length, and what it gives back again.
pub fn forward(name: &str, old: &[u8], first_year: u16, room: usize) -> (Answer, Vec<u8>) {
    let mut out = vec![UNTOUCHED; room];
    let (answer, size) = super::forward(old, first_year, &mut out);
    let new = filled(name, answer, size, &out, to_columns(old, first_year, room));
    if answer == (0, 0) {
        let mut again = vec![UNTOUCHED; old.len()];
        assert_eq!(super::back(&new, &mut again), ((0, 0), old.len(), first_year), "{name}: forward, then back");
        assert_eq!(again, old, "{name}: forward, then back");
    }
    (answer, new)
}

/// Moves a new file back, into an output of the wanted length, and what it gives forward again; the first year too.
pub fn back(name: &str, new: &[u8], room: usize) -> (Answer, Vec<u8>, u16) {
    let mut out = vec![UNTOUCHED; room];
    let (answer, size, first_year) = super::back(new, &mut out);
    let due = from_columns(new, room);
    assert_eq!(first_year, due.as_ref().map_or(0, |(_, year)| *year), "{name}");
    let old = filled(name, answer, size, &out, due.map(|(file, _)| file));
    if answer == (0, 0) {
        let mut again = vec![UNTOUCHED; new.len()];
        assert_eq!(super::forward(&old, first_year, &mut again), ((0, 0), new.len()), "{name}: back, then forward");
        assert_eq!(again, new, "{name}: back, then forward");
    }
    (answer, old, first_year)
}
