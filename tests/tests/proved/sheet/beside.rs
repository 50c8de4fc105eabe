//! One sheet read both ways, by the proved library and by the separately written program: answer, place, count, start month, the bits of the
//! total revision, what is filled and what stays.

use super::Answer;
use separate::decompose::Refusal;
use separate::sheet::{read_sheet, SheetSeries};

/// Reads one byte string, into a slice of the wanted length; what the two agree on.
pub fn read(name: &str, sheet: &[u8], room: usize) -> Result<SheetSeries, Answer> {
    // No figure is like these, nor is any of them like its neighbour.
    let before: Vec<i32> = (0..room as i32).map(|k| 1_000_000_007 - 3 * k).collect();
    let mut figures = before.clone();
    let (answer, count, start, revision) = super::read(sheet, &mut figures);
    match read_sheet(sheet, room) {
        Err(Refusal { number, place }) => {
            assert_eq!((answer, count, start, revision), ((number, place), 0, 0, 0), "{name}");
            assert_eq!(figures, before, "{name}: nothing is filled");
            Err(answer)
        }
        Ok(series) => {
            let n = series.n();
            let total = u64::from_le_bytes(series.total_double());
            assert_eq!((answer, count, start), ((0, 0), n, series.start), "{name}");
            assert_eq!(revision, total, "{name}: the bits of the total revision, {}", series.total);
            assert_eq!(figures[..n], series.figures, "{name}");
            assert_eq!(figures[n..], before[n..], "{name}: the rest stays");
            Ok(series)
        }
    }
}

/// The answer alone.
pub fn answer(name: &str, sheet: &[u8], room: usize) -> Answer {
    read(name, sheet, room).map_or_else(|answer| answer, |_| (0, 0))
}
