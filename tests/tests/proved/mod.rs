//! The proved functions, called through the C interface. Slices pass as pointer and length.

mod answer;
pub mod beside;

pub use answer::Answer;

use answer::answer;
use separate::decompose::MOST_MONTHS;

extern "C" {
    fn vepsjalm_decompose(
        figures: *const i32, n: usize, start: u8,
        d10: *mut i64, n10: usize, d11: *mut i64, n11: usize, d12: *mut i64, n12: usize, d13: *mut i64, n13: usize,
        b17: *mut u16, nb: usize, c17: *mut u16, nc: usize, scratch: *mut i64, ns: usize, place: *mut usize,
    ) -> u8;
    fn vepsjalm_read(
        file: *const u8, n: usize, figures: *mut i32, nf: usize, weights: *mut u16, nw: usize,
        count: *mut usize, start: *mut u8, place: *mut usize,
    ) -> u8;
    fn vepsjalm_write(
        figures: *const i32, n: usize, start: u8, weights: *const u16, nw: usize, out: *mut u8, no: usize,
        size: *mut usize, place: *mut usize,
    ) -> u8;
}

/// Entries on each side of the scratch that are not lent: three for each month, as many as 8n has more than 5n.
pub const GUARD: usize = 3 * MOST_MONTHS;

/// The slices that are lent to decomposing.
#[derive(Clone, Debug, PartialEq, Eq)]
pub struct Slices {
    pub d10: Vec<i64>,
    pub d11: Vec<i64>,
    pub d12: Vec<i64>,
    pub d13: Vec<i64>,
    pub b17: Vec<u16>,
    pub c17: Vec<u16>,
    /// The scratch with its guards.
    pub guarded: Vec<i64>,
}

pub fn decompose(figures: &[i32], start: u8, lent: &mut Slices) -> Answer {
    let mut place = usize::MAX;
    let end = lent.guarded.len() - GUARD;
    let scratch = &mut lent.guarded[GUARD..end];
    // Each pointer goes with the length of the vector or slice that it comes from, and no two overlap.
    let number = unsafe {
        vepsjalm_decompose(
            figures.as_ptr(), figures.len(), start,
            lent.d10.as_mut_ptr(), lent.d10.len(), lent.d11.as_mut_ptr(), lent.d11.len(),
            lent.d12.as_mut_ptr(), lent.d12.len(), lent.d13.as_mut_ptr(), lent.d13.len(),
            lent.b17.as_mut_ptr(), lent.b17.len(), lent.c17.as_mut_ptr(), lent.c17.len(),
            scratch.as_mut_ptr(), scratch.len(), &mut place,
        )
    };
    answer(number, place)
}

/// Answer, count and start month.
pub fn read(file: &[u8], figures: &mut [i32], weights: &mut [u16]) -> (Answer, usize, u8) {
    let (mut count, mut start, mut place) = (usize::MAX, u8::MAX, usize::MAX);
    let number = unsafe {
        vepsjalm_read(
            file.as_ptr(), file.len(), figures.as_mut_ptr(), figures.len(), weights.as_mut_ptr(), weights.len(),
            &mut count, &mut start, &mut place,
        )
    };
    (answer(number, place), count, start)
}

/// Answer and length.
pub fn write(figures: &[i32], start: u8, weights: &[u16], out: &mut [u8]) -> (Answer, usize) {
    let (mut size, mut place) = (usize::MAX, usize::MAX);
    let number = unsafe {
        vepsjalm_write(
            figures.as_ptr(), figures.len(), start, weights.as_ptr(), weights.len(), out.as_mut_ptr(), out.len(),
            &mut size, &mut place,
        )
    };
    (answer(number, place), size)
}
