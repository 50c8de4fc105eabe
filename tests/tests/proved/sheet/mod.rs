//! The proved function for the members' sheet, called through the C interface. Slices pass as pointer and length. Only the tests of that
//! sheet take this module: the others link without this function.

#[path = "../answer.rs"]
mod answer;
pub mod beside;

pub use answer::Answer;

use answer::answer;

extern "C" {
    fn vepsjalm_read_sheet(
        sheet: *const u8, n: usize, figures: *mut i32, nf: usize, count: *mut usize, start: *mut u8, revision: *mut f64, place: *mut usize,
    ) -> u8;
}

/// Answer, count, start month and the bits of the total revision.
pub fn read(sheet: &[u8], figures: &mut [i32]) -> (Answer, usize, u8, u64) {
    let (mut count, mut start, mut revision, mut place) = (usize::MAX, u8::MAX, f64::from_bits(0x7ff8_0000_dead_beef), usize::MAX);
    // Each pointer goes with the length of the slice that it comes from, and no two overlap.
    let number = unsafe {
        vepsjalm_read_sheet(
            sheet.as_ptr(), sheet.len(), figures.as_mut_ptr(), figures.len(), &mut count, &mut start, &mut revision, &mut place,
        )
    };
    (answer(number, place), count, start, revision.to_bits())
}
