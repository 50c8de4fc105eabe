//! The proved functions for the desk file by calendar month, called through the C interface. Slices pass as pointer and length. Only the
//! tests of that file take this module: the others link without these functions.

#[path = "../answer.rs"]
mod answer;
pub mod beside;

pub use answer::Answer;

use answer::answer;

extern "C" {
    fn vepsjalm_read_columns(
        file: *const u8, n: usize, figures: *mut i32, nf: usize, weights: *mut u16, nw: usize,
        count: *mut usize, start: *mut u8, first_year: *mut u16, place: *mut usize,
    ) -> u8;
    fn vepsjalm_write_columns(
        figures: *const i32, n: usize, start: u8, first_year: u16, weights: *const u16, nw: usize, out: *mut u8, no: usize,
        size: *mut usize, place: *mut usize,
    ) -> u8;
    fn vepsjalm_to_columns(
        file: *const u8, n: usize, first_year: u16, out: *mut u8, no: usize, size: *mut usize, place: *mut usize,
    ) -> u8;
    fn vepsjalm_from_columns(
        file: *const u8, n: usize, out: *mut u8, no: usize, size: *mut usize, first_year: *mut u16, place: *mut usize,
    ) -> u8;
}

/// Answer, count, start month and first year.
pub fn read(file: &[u8], figures: &mut [i32], weights: &mut [u16]) -> (Answer, usize, u8, u16) {
    let (mut count, mut start, mut first_year, mut place) = (usize::MAX, u8::MAX, u16::MAX, usize::MAX);
    // Here and below each pointer goes with the length of the slice that it comes from, and no two overlap.
    let number = unsafe {
        vepsjalm_read_columns(
            file.as_ptr(), file.len(), figures.as_mut_ptr(), figures.len(), weights.as_mut_ptr(), weights.len(),
            &mut count, &mut start, &mut first_year, &mut place,
        )
    };
    (answer(number, place), count, start, first_year)
}

/// Answer and length.
pub fn write(figures: &[i32], start: u8, first_year: u16, weights: &[u16], out: &mut [u8]) -> (Answer, usize) {
    let (mut size, mut place) = (usize::MAX, usize::MAX);
    let number = unsafe {
        vepsjalm_write_columns(
            figures.as_ptr(), figures.len(), start, first_year, weights.as_ptr(), weights.len(), out.as_mut_ptr(), out.len(),
            &mut size, &mut place,
        )
    };
    (answer(number, place), size)
}

/// Answer and length.
pub fn forward(old: &[u8], first_year: u16, out: &mut [u8]) -> (Answer, usize) {
    let (mut size, mut place) = (usize::MAX, usize::MAX);
    let number = unsafe {
        vepsjalm_to_columns(old.as_ptr(), old.len(), first_year, out.as_mut_ptr(), out.len(), &mut size, &mut place)
    };
    (answer(number, place), size)
}

/// Answer, length and first year.
pub fn back(new: &[u8], out: &mut [u8]) -> (Answer, usize, u16) {
    let (mut size, mut first_year, mut place) = (usize::MAX, u16::MAX, usize::MAX);
    let number = unsafe {
        vepsjalm_from_columns(new.as_ptr(), new.len(), out.as_mut_ptr(), out.len(), &mut size, &mut first_year, &mut place)
    };
    (answer(number, place), size, first_year)
}
