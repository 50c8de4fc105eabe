//! The proved program, called through the C interface. A slice passes as pointer and length.

use crate::{Answer, Lent, SheetLent};

extern "C" {
    fn vepsjalm_decompose(
        figures: *const i32, n: usize, start: u8,
        d10: *mut i64, n10: usize, d11: *mut i64, n11: usize, d12: *mut i64, n12: usize, d13: *mut i64, n13: usize,
        b17: *mut u16, nb: usize, c17: *mut u16, nc: usize, scratch: *mut i64, ns: usize, place: *mut usize,
    ) -> u8;

    fn vepsjalm_read_sheet(
        sheet: *const u8, length: usize, figures: *mut i32, n: usize,
        count: *mut usize, start: *mut u8, revision: *mut f64, place: *mut usize,
    ) -> u8;
}

pub fn decompose(figures: &[i32], start: u8, lent: &mut Lent) -> Answer {
    let mut place = usize::MAX;
    // Each pointer goes with the length of the vector that it comes from, and no two overlap.
    let number = unsafe {
        vepsjalm_decompose(
            figures.as_ptr(), figures.len(), start,
            lent.d10.as_mut_ptr(), lent.d10.len(), lent.d11.as_mut_ptr(), lent.d11.len(),
            lent.d12.as_mut_ptr(), lent.d12.len(), lent.d13.as_mut_ptr(), lent.d13.len(),
            lent.b17.as_mut_ptr(), lent.b17.len(), lent.c17.as_mut_ptr(), lent.c17.len(),
            lent.scratch.as_mut_ptr(), lent.scratch.len(), &mut place,
        )
    };
    (number, place)
}

pub fn read_sheet(sheet: &[u8], lent: &mut SheetLent) -> Answer {
    let mut place = usize::MAX;
    // As above; each of the others points to a number of its own.
    let number = unsafe {
        vepsjalm_read_sheet(
            sheet.as_ptr(), sheet.len(), lent.figures.as_mut_ptr(), lent.figures.len(),
            &mut lent.count, &mut lent.start, &mut lent.revision, &mut place,
        )
    };
    (number, place)
}
