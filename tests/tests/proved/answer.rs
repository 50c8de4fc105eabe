//! What every proved function answers.

use separate::decompose::ROWS;

/// Number (0 for success) and place.
pub type Answer = (u8, usize);

/// An answer as it came from the library. Its number is 0 or a row of the refusal sheet, which 6 is not.
pub fn answer(number: u8, place: usize) -> Answer {
    assert!(number == 0 || ROWS.contains(&number), "answered {number} {place}: no row of the refusal sheet");
    (number, place)
}
